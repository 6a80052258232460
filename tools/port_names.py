#!/usr/bin/env python3
"""port_names.py: brings this repository's own names in specs/ and proofs/ to the spelling of today's Rattle, once, right
after the kit's port.py: definitions, lemmas, fields and constructors in snake case; types and modules as they are. A lemma
that would fall together with a definition gets `_lem`. Functions of src/, exported names, strings, inputs and outputs keep
their names, and so do the names that Rattle makes (the files below proofs/F/). With --list it only prints them, old and new."""
import os
import re
import sys

HERE = os.path.dirname(os.path.dirname(os.path.abspath(__file__)))
CRATES = os.path.join(HERE, "crates")
# a name as antt has it: points part a projection or a path
LETTER = r"[^\s(){}\[\].,;:`\"|&!@#<>=+*/\\?~←→↔×∷≡≤≢∧∨¬‵⊛⊢∵λ◌-]"
TOKEN = re.compile(f"{LETTER}+(?:-{LETTER}+)*")
DECLARED = re.compile(r"^( *)(?:unfoldable |pub |abbrev |ghost )*([^\s(){}:.,;]+)(?: [^:]*)? :(?: |$)")
HEAD = re.compile(r"^( *)(?:pub )?(record|data) ")
IMPORT = re.compile(r"^ *(?:pub )?use ([^\s{]+)\.\{([^}]*)\}", re.M)
STRING = re.compile(r'"(?:[^"\\\n]|\\.)*"')
SEVERAL = re.compile(r"^ +(?:pub )?((?:[^\s(){}:;,]+ )+[^\s(){}:;,]+) :(?: |$)")
OF_A_FILE = re.compile(r"use (Rattle\.\w+\.(?:specs|proofs)\.[A-Z]\w*) as ([^\s]+)")
# lemmas in snake case already, beside a definition whose name becomes the same
BESIDE = ["duplicate_reference", "text_word", "blank_step", "first_short", "is_one", "last_row", "number_word", "only_zero", "second_short", "step_block"]
BY_HAND = {"plain_form": "plain_form_holds"}


def files(ending):
    for folder, dirs, names in os.walk(CRATES):
        dirs[:] = sorted(d for d in dirs if d != "out")
        for name in sorted(names):
            if name.endswith(ending):
                yield os.path.join(folder, name)


def read(path):
    return open(path, encoding="utf-8").read()


def of_a_function(path):
    """Whether a file of proofs/ is a part of one function's proof, where names are Rattle's."""
    return re.search(r"/proofs/.*/", path[len(CRATES):]) is not None


def snake(name):
    name = name.replace("getD", "get_or")
    name = re.sub(r"([a-z0-9])([A-Z])", lambda m: m.group(1) + "_" + m.group(2).lower(), name)
    return (name[0].lower() + name[1:]).replace("-", "_")


def declared(text):
    """The names that a file declares, and which of them are fields of records or constructors."""
    found, fields, head = set(), set(), None
    for line in text.splitlines():
        m, h, deep = DECLARED.match(line), HEAD.match(line), len(line) - len(line.lstrip())
        if h:
            head = deep
        elif line.strip() and head is not None and deep <= head:
            head = None
        several = SEVERAL.match(line) if head is not None and not h else None
        if several:
            found |= set(several.group(1).split())
            fields |= set(several.group(1).split())
        elif m:
            found.add(m.group(2))
            if head is not None and not h:
                fields.add(m.group(2))
    return found, fields


def foreign(text, crates):
    """The names that a file has from modules of the library: they stay."""
    found = set()
    for m in IMPORT.finditer(text):
        own = re.match(r"Rattle\.(\w+)\.", m.group(1))
        if not own or own.group(1) not in crates:
            found |= {n.strip().split(" as ")[-1] for n in m.group(2).split(",")}
    return found


def source_names():
    found = set()
    for path in files(".rt"):
        found |= set(re.findall(r"\bfn (\w+)", read(path)))
    return found


def renamed():
    """Every declared name that is not in today's spelling, with the new one; and those that are fields."""
    every, in_specs, fields = set(), set(), set()
    for path in files(".antt"):
        if not of_a_function(path):
            names, inner = declared(read(path))
            every |= names
            fields |= inner
            if "/specs/" in path:
                in_specs |= names
    old = {n for n in every if re.fullmatch(r"[A-Za-z][A-Za-z0-9_'₀-₉-]*", n) and ("-" in n or n[0].islower()) and snake(n) != n}
    words = {n for n in old if "-" not in n}
    taken = {snake(n) for n in words} | (every - old)
    found = {n: snake(n) for n in words}
    for n in sorted(old - words):
        new = snake(n)
        found[n] = new + "_lem" if new in taken else new
    return found, fields


def in_prose(text, at, mark):
    """Whether a place stands in a comment, outside of backticks."""
    line = text[text.rfind("\n", 0, at) + 1:at]
    return mark in line and line.count("`") % 2 == 0


def turned(path, text, names, fields, sources):
    inner = of_a_function(path)
    own, _ = declared(text)
    keep = ({n for n in own if "-" in n} if inner else set()) | foreign(text, set(os.listdir(CRATES)))
    aliases = {m.group(2) for m in OF_A_FILE.finditer(text)}
    beside = {}
    for n in [*BESIDE, *BY_HAND]:
        cited = re.search(r"^use Rattle\.\w+\.proofs\.[A-Z]\w*\.\{[^}]*(?<![\w-])%s(?![\w-])" % re.escape(n), text, re.M)
        if (n in own and not inner and "/proofs/" in path) or cited:
            beside[n] = BY_HAND.get(n, n + "_lem")

    def new(m):
        word, at = m.group(0), m.start()
        if "-" in word and in_prose(text, at, "--"):
            return word
        if at and text[at - 1] == ".":
            before = re.search(r"([^\s(){}.]+)\.$", text[max(0, at - 80):at])
            if before and before.group(1) in aliases:
                return names.get(word, word)
            if word in fields and word in names:
                return names[word]
            flat = word.replace("-", "_")
            return flat if "-" in word and flat in sources else word
        if word in keep:
            return word
        if word in beside and text[m.end():m.end() + 1] != ".":
            line = text[text.rfind("\n", 0, at) + 1:at]
            return word if "--" in line else beside[word]
        return names.get(word, word)

    inside = set()
    for m in STRING.finditer(text):
        inside |= set(range(m.start(), m.end()))
    return TOKEN.sub(lambda m: m.group(0) if m.start() in inside else new(m), text)


def turned_code(text, names):
    """Of Rust only ghost lines, clauses and comments: names in camel case or with a dash stand nowhere else. Strings stay."""
    def new(m):
        word = m.group(0)
        return word if "-" in word and in_prose(m.string, m.start(), "//") else names.get(word, word)

    parts = re.split(r'(b?"(?:[^"\\]|\\.)*")', text)
    return "".join(p if i % 2 else TOKEN.sub(new, p) for i, p in enumerate(parts))


def bound(crates):
    """Names in camel case that are bound where they stand, and those of operators."""
    found = set()
    for path in files(".antt"):
        text = read(path)
        if not of_a_function(path):
            found |= {n for n in TOKEN.findall(STRING.sub("", text)) if re.fullmatch(r"[a-z][a-z0-9]*[A-Z][A-Za-z0-9]*", n)} - foreign(text, crates)
    return {n: snake(n) for n in found}


def main():
    names, fields = renamed()
    for old, new in bound(set(os.listdir(CRATES))).items():
        names.setdefault(old, new)
    if "--list" in sys.argv:
        for old in sorted(names):
            print(old, names[old])
        return
    sources = source_names()
    for ending in (".antt", ".rt"):
        for path in files(ending):
            text = read(path)
            new = turned(path, text, names, fields, sources) if ending == ".antt" else turned_code(text, names)
            if new != text:
                open(path, "w", encoding="utf-8").write(new)


main()
