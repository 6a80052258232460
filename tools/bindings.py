#!/usr/bin/env python3
"""bindings.py --check: compares the functions of the library for C as they are said three times: in crates/recipe_c/src, which
defines it, in include/recipe.h, and in the extern block of bindings/rust/src/lib.rs. Name, result, and order, names and kinds of
the parameters have to be the same; a slice of Rattle is a pointer, and a length whose name has `_length` after it."""
import os
import re
import sys

HERE = os.path.dirname(os.path.dirname(os.path.abspath(__file__)))
RATTLE, C, RUST = "crates/recipe_c/src", "include/recipe.h", "bindings/rust/src/lib.rs"
OF_C = {"uint8_t": "u8", "uint16_t": "u16", "uint32_t": "u32", "uint64_t": "u64", "int32_t": "i32", "int64_t": "i64", "size_t": "usize", "bool": "bool"}


def text_of(path):
    """The text of a file, or of all files of a folder, without comments."""
    at = os.path.join(HERE, path)
    files = [os.path.join(at, it) for it in sorted(os.listdir(at)) if it.endswith(".rt")] if os.path.isdir(at) else [at]
    text = ""
    for file in files:
        with open(file, encoding="utf-8") as f:
            text += f.read()
    return re.sub(r"(?m)//.*$", "", re.sub(r"/\*.*?\*/", "", text, flags=re.S))


def parts(words):
    return [it for it in (" ".join(it.split()) for it in words.split(",")) if it]


def of_rattle(parameter):
    name, kind = (it.strip() for it in parameter.split(":", 1))
    slice = re.fullmatch(r"&(?:'\w+ )?(mut )?\[(\w+)\]", kind)
    if not slice:
        return [(name, kind)]
    return [(name, "*%s %s" % ("mut" if slice[1] else "const", slice[2])), (name + "_length", "usize")]


def of_rust(parameter):
    return [tuple(it.strip() for it in parameter.split(":", 1))]


def of_c(parameter):
    if parameter == "void":
        return []
    found = re.fullmatch(r"(const )?(\w+) ?(\*?) ?(\w+)", parameter)
    if not found:
        return [(parameter, "not read")]
    kind = OF_C.get(found[2], found[2])
    if found[3]:
        kind = "*%s %s" % ("const" if found[1] else "mut", kind)
    return [(found[4], kind)]


def functions(path):
    """The functions of the library as they are said there, by name: their parameters and their result."""
    text, found = text_of(path), {}
    if path == C:
        text = re.sub(r"static inline[^{]*\{[^}]*\}", "", text)
        for result, star, name, given in re.findall(r"(?m)^((?:const )?\w+) ?(\*?) ?(\w+)\(([^)]*)\);", text):
            found[name] = [it for parameter in parts(given) for it in of_c(parameter)], (star + OF_C.get(result, result)).replace("void", "()")
        return found
    if path == RUST:
        text = "\n".join(re.findall(r'extern "C" \{(.*?)\n\s*\}', text, re.S))
        pattern = r"\bfn (\w+)\(([^)]*)\)(?: -> ([^;]+))?;"
    else:
        pattern = r'\bextern "C" fn (\w+)\(([^)]*)\)(?: -> (\w+))?'
    for name, given, result in re.findall(pattern, text):
        read = of_rust if path == RUST else of_rattle
        found[name] = [it for parameter in parts(given) for it in read(parameter)], result.strip() or "()"
    return found


def different(name, one, other):
    """What differs between a function as RATTLE has it and as another file does."""
    (given, result), (there, answer) = one, other
    told = []
    for at in range(max(len(given), len(there))):
        mine, others = (it[at] if at < len(it) else ("nothing", "no kind") for it in (given, there))
        if mine != others:
            told.append("%s: parameter %d is %s: %s, and there %s: %s" % (name, at + 1, *mine, *others))
    if result != answer:
        told.append("%s: the result is %s, and there %s" % (name, result, answer))
    return told


def faults():
    here, wrong = functions(RATTLE), []
    if not here:
        wrong.append("%s: no function is read there" % RATTLE)
    exported = len(re.findall(r"\bno_mangle\b", text_of(RATTLE)))
    if exported != len(here):
        wrong.append("%s: %d functions are exported, and %d read" % (RATTLE, exported, len(here)))
    for path in (C, RUST):
        there = functions(path)
        wrong += ["%s: lacks %s" % (path, it) for it in here if it not in there]
        wrong += ["%s: has %s, which %s does not" % (path, it, RATTLE) for it in there if it not in here]
        if not wrong and list(here) != list(there):
            wrong.append("%s: the functions stand in another order" % path)
        wrong += ["%s: %s" % (path, it) for name in here if name in there for it in different(name, here[name], there[name])]
    return wrong, len(here)


def main():
    if sys.argv[1:] != ["--check"]:
        sys.exit(__doc__)
    wrong, count = faults()
    for it in wrong:
        print(it)
    if wrong:
        print("bindings: differences: %d" % len(wrong))
        sys.exit(1)
    print("bindings: %d functions, the same in all three" % count)


if __name__ == "__main__":
    main()
