#!/usr/bin/env python3
"""crates.py --check: compares crates.txt with the folders of crates/, with what their texts name, and with docs/CRATES.md.

A crate lists the crates that it needs directly: those that its text in src/, specs/ or proofs/ names, and those that declare a
type which one of its values has though the text does not name it, since a function that it calls gives or takes such a type
(worked out from the signatures of the `pub` functions and from the fields of the `pub` types). A crate of the second kind may
be listed; whether it must be, the checker says. `std` is never listed; a crate of the kit is listed where it is named."""
import os
import re
import sys

HERE = os.path.dirname(os.path.dirname(os.path.abspath(__file__)))
MOST = 500
NEVER_LISTED = {"std", "core", "crate", "self", "super"}
TYPE = r"(?:(\w+)::(?:\w+::)*)?\b([A-Z]\w*)"


def listed():
    """The crates and what each lists, in the order of crates.txt; what is wrong with its lines."""
    rows, wrong = {}, []
    for line in open(os.path.join(HERE, "crates.txt"), encoding="utf-8"):
        line = line.split("#")[0].strip()
        if not line:
            continue
        head, _, rest = line.partition(":")
        name, deps = head.split()[0], rest.split()
        if name in rows:
            wrong.append("%s: listed twice" % name)
        wrong += ["%s: lists %s twice" % (name, it) for it in sorted(set(deps)) if deps.count(it) > 1]
        rows[name] = deps
    return rows, wrong


def texts(crate, parts, ending):
    """The texts of a crate's files without comments and strings, with the name of each file."""
    for part in parts:
        for at, _, files in os.walk(os.path.join(HERE, "crates", crate, part)):
            for name in sorted(files):
                if name.endswith(ending):
                    with open(os.path.join(at, name), encoding="utf-8") as f:
                        text = f.read()
                    if name.endswith(".rt"):
                        text = re.sub(r'b?"(?:\\.|[^"\\])*"', '""', re.sub(r"(?m)//.*$", "", text))
                    else:
                        text = re.sub(r"(?m)--.*$", "", text)
                    yield name[: -len(ending)], text


class Source:
    """What the src/ of a crate names, calls, and declares to others."""

    def __init__(self, crate):
        self.crate, self.paths, self.calls, self.named = crate, set(), set(), set()
        self.words, self.functions, self.types = set(), {}, {}
        files = list(texts(crate, ["src"], ".rt"))
        self.modules = {name for name, _ in files} | {it for _, text in files for it in re.findall(r"\bmod (\w+)", text)}
        for _, text in files:
            self.read(text)

    def read(self, text):
        uses = "\n".join(re.findall(r"(?m)^\s*(?:pub )?use [^;]*;", text))
        body = re.sub(r"(?m)^\s*(?:pub )?(?:ghost )?use [^;]*;", "", text)
        heads = set(re.findall(r"\buse (?:::)?(\w+)", uses)) - self.modules
        self.paths |= heads | (set(re.findall(r"(?<![\w:])(\w+)::", body)) - self.modules)
        self.calls |= set(re.findall(r"\b([a-z_]\w*)\(", body)) | set(re.findall(r"::([a-z_]\w*)", body))
        self.calls |= set(re.findall(r"\b([a-z_]\w*)\b", uses))
        self.words |= set(re.findall(r"\w+", body))
        brought = {}
        for head, rest in re.findall(r"\buse (?:::)?(\w+)::([^;]*);", uses):
            for name, other in re.findall(r"\b(\w+)(?: as (\w+))?", rest):
                brought[other or name] = (head, name)

        def named(signature):
            """The types of a signature, each with its crate."""
            found = set()
            for head, name in re.findall(TYPE, signature):
                head, name = (head, name) if head else brought.get(name, ("self", name))
                is_here = head in NEVER_LISTED - {"std", "core"} or head in self.modules or not head
                found.add((self.crate if is_here else head, name))
            return found

        self.named |= named(body)
        for name, signature in re.findall(r"\bpub (?:const )?(?:unsafe )?fn (\w+)(.*?)(?=\brequires\b|\bensures\b|\bwhere\b|\{|;)", body, re.S):
            self.functions.setdefault(name, set()).update(named(signature))
        # a field's types, and a variant's, belong to whoever names the field or the variant
        for kind, name, fields in re.findall(r"\bpub (struct|enum) (\w+)[^{;(]*((?:\{.*?\n\}|\([^;]*\))?)", body, re.S):
            own = self.types.setdefault(name, [])
            own += [(field, named(what)) for field, what in re.findall(r"(?m)^\s*(?:pub )?(\w+): (.*),$", fields)]
            own += [(variant, named(what)) for variant, what in re.findall(r"(?m)^\s*(\w+)[({](.*)[)}],$", fields)]
        for name, what in re.findall(r"\bpub type (\w+)[^=;]*=([^;]*);", body):
            self.types.setdefault(name, []).append((None, named(what)))


def named_by(crate, source, rows):
    """The crates that the crate's text names: in src/ by paths, in src/, specs/ and proofs/ by `Rattle.NAME.`."""
    found = set()
    for ending in (".rt", ".antt"):
        for _, text in texts(crate, ["src", "specs", "proofs"], ending):
            found |= set(re.findall(r"\bRattle\.(\w+)\.", text))
            for head in re.findall(r"(?m)^\s*(?:pub )?use (?:::)?([a-z]\w*)\s*(?:::|;)", text) if ending == ".rt" else []:
                if head not in source.modules:
                    found.add(head)
    found |= {it for it in source.paths if it in rows or it in rows[crate]}
    return found - NEVER_LISTED - {crate}


def held_by(crate, named, sources):
    """The crates that declare a type which a value of the crate may have, by what the functions that it calls give and take."""
    todo, seen = list(sources[crate].named), set()
    for other in named & set(sources):
        for name, types in sources[other].functions.items():
            if name in sources[crate].calls:
                todo += types
    while todo:
        it = todo.pop()
        if it not in seen:
            seen.add(it)
            for part, types in sources[it[0]].types.get(it[1], ()) if it[0] in sources else ():
                if part is None or part in sources[crate].words:
                    todo += types
    return {it for it, _ in seen} & set(sources)


def table():
    """The crates that the tables of docs/CRATES.md name, in the first column: words in backticks without a slash or a point."""
    found, path = [], os.path.join(HERE, "docs", "CRATES.md")
    for line in open(path, encoding="utf-8") if os.path.exists(path) else ():
        if line.startswith("|"):
            found += re.findall(r"`([a-z0-9_]+)`", line.split("|")[1])
    return found


def faults():
    rows, wrong = listed()
    folders = {it for it in os.listdir(os.path.join(HERE, "crates")) if os.path.isdir(os.path.join(HERE, "crates", it, "src"))}
    wrong += ["%s: there is a folder, and no line" % it for it in sorted(folders - set(rows))]
    wrong += ["%s: there is a line, and no folder with a src/" % it for it in rows if it not in folders]
    sources = {it: Source(it) for it in rows if it in folders}
    for crate in sources:
        named, deps = named_by(crate, sources[crate], rows), set(rows[crate])
        wrong += ["%s: names %s, and does not list it" % (crate, it) for it in sorted(named - deps)]
        wrong += ["%s: lists %s, which is never listed" % (crate, it) for it in sorted(deps & NEVER_LISTED)]
        held = held_by(crate, named, sources)
        for it in sorted(deps - named - NEVER_LISTED):
            if it not in sources:
                wrong.append("%s: lists %s, which its text does not name" % (crate, it))
            elif it not in held:
                wrong.append("%s: lists %s, which its text does not name; nor has what it calls a type of it" % (crate, it))
    count = sum(len(it) for it in rows.values())
    if count > MOST:
        wrong.append("crates.txt lists %d dependencies: at most %d" % (count, MOST))
    told = table()
    wrong += ["docs/CRATES.md: %s stands there %d times" % (it, told.count(it)) for it in sorted(set(told)) if told.count(it) > 1]
    wrong += ["docs/CRATES.md: names %s, which crates.txt does not list" % it for it in sorted(set(told) - set(rows))]
    wrong += ["docs/CRATES.md: does not name %s" % it for it in rows if it not in told]
    return wrong, len(rows), count


def main():
    if sys.argv[1:] != ["--check"]:
        sys.exit(__doc__)
    wrong, crates, count = faults()
    for it in wrong:
        print(it)
    if wrong:
        print("crates.txt: faults: %d" % len(wrong))
        sys.exit(1)
    print("crates.txt: %d crates, %d dependencies" % (crates, count))


if __name__ == "__main__":
    main()
