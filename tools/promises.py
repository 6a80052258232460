#!/usr/bin/env python3
"""promises.py --check: holds what is promised, and what tries it, to the rules of CONTRIBUTING.md. It tells

- a cite of proofs/ in src/ or specs/: a law of a crate's that a contract or a definition names. Of the kit's any may be named, and
  a hint to the prover (`#[tactic(..)]`) is no part of a contract;
- a `pub fn` without a row in its crate's section of docs/CONTRACTS.md, and a `pub enum` that docs/FORMS.md ("Answers that are enums")
  does not name;
- an edit of must-fail/ outside `rules` of a file that is not under src/, or of a line of a `requires` or an `ensures`;
- an edit that its crate's section of docs/CONTRACTS.md does not name;
- a theorem of crates/rules/proofs beside the nine cases (Cases.antt) that computes bytes: it says `unfolding evaluate`, and it or an
  abbreviation of its file that it names has `codes "`."""
import os
import re
import sys

import crates

HERE = crates.HERE
CONTRACTS, FORMS, ENUMS = "docs/CONTRACTS.md", "docs/FORMS.md", "Answers that are enums"
PROOFS, NINE = "crates/rules/proofs", "crates/rules/proofs/Cases.antt"


def read(path):
    with open(os.path.join(HERE, path), encoding="utf-8") as f:
        return f.read()


def code(path):
    """The text of a file with blanks in its comments, so that each place is where it was."""
    pattern = r"""b?'(?:\\.|[^'\\\n])'|"(?:\\.|[^"\\])*"|(%s[^\n]*)""" % ("//" if path.endswith(".rt") else "--")
    return re.sub(pattern, lambda it: it[1][:2].ljust(len(it[1])) if it[1] else it[0], read(path))


def line_of(text, at):
    return text.count("\n", 0, at) + 1


def files(folder, ending):
    """The files of a folder and of those in it, by their paths."""
    found = []
    for at, _, names in os.walk(os.path.join(HERE, folder)):
        found += [os.path.relpath(os.path.join(at, name), HERE) for name in names if name.endswith(ending)]
    return sorted(found)


def sections(path):
    """What stands below each heading of the second level; a heading may name several."""
    found = {}
    for part in re.split(r"(?m)^## ", read(path))[1:]:
        head, _, body = part.partition("\n")
        found.update((name.strip(), body) for name in head.split(","))
    return found


def cites(rows):
    """Cites of proofs/ in src/ and specs/."""
    told = []
    for crate in rows:
        for path in files("crates/%s/src" % crate, ".rt") + files("crates/%s/specs" % crate, ".antt"):
            text = re.sub(r"#!?\[tactic\(.*?\)\]", lambda it: re.sub(r"[^\n]", " ", it[0]), code(path), flags=re.S)
            for it in re.finditer(r"\bRattle\.(\w+)\.proofs(?:\.\w+)*|\b(\w+)::proofs(?:::\w+)*", text):
                if (it[1] or it[2]) in {*rows, "crate"}:
                    told.append("%s:%d: cites a law, %s" % (path, line_of(text, it.start()), it[0]))
    return told


def declared(crate, word):
    """The `pub fn` or `pub enum` of a crate: path, line, and the names by which a page may call it, the module's before a type's or not."""
    for path in files("crates/%s/src" % crate, ".rt"):
        module = os.path.relpath(path, "crates/%s/src" % crate)[:-3].replace(os.sep, "::")
        kind = ""
        for number, line in enumerate(code(path).split("\n"), 1):
            head = re.match(r"impl\b(?:<[^>]*>)? (?:.* for )?(\w+)", line)
            if head or line.startswith("}"):
                kind = head[1] + "::" if head else ""
            found = re.match(r'\s*pub (?:const |unsafe |extern (?:"C" )?)*%s (\w+)' % word, line)
            if found:
                yield path, number, kind + found[1], {kind + found[1], module + "::" + kind + found[1]}


def untold_functions(rows, told_of):
    """Public functions without a row."""
    told = []
    for crate in rows:
        first = [line.split("|")[1] for line in told_of.get(crate, "").split("\n") if line.startswith("|")]
        names = {name for cell in first for name in re.findall(r"`([^`]+)`", cell)}
        told += ["%s:%d: `%s` has no row in %s" % (path, line, name, CONTRACTS)
                 for path, line, name, calls in declared(crate, "fn") if not calls & names]
    return told


def untold_enums(rows):
    """Public enums that the page of the forms does not name: as `crate::Name`, or after such a name in one cell or sentence."""
    names = set()
    for line in sections(FORMS).get(ENUMS, "").split("\n"):
        crate = None
        for piece in re.findall(r"`([^`]+)`", line.split("|")[1] if line.startswith("|") else line):
            for head, name in re.findall(r"(?:\b(\w+)::)?\b([A-Z]\w*)", piece):
                crate = head or crate
                names.add((crate, name))
    return ["%s:%d: %s does not name `%s::%s`" % (path, line, FORMS, crate, name)
            for crate in rows for path, line, name, _ in declared(crate, "enum") if (crate, name) not in names]


def contracts(text):
    """Where the contracts of a text stand: from `requires` or `ensures` to the brace that ends the clause."""
    for it in re.finditer(r"\b(?:requires|ensures)\b[ \w]*\{", text):
        depth, at = 1, it.end()
        while depth and at < len(text):
            depth += {"{": 1, "}": -1}.get(text[at], 0)
            at += 1
        yield it.start(), at


def misplaced(crate, path):
    """What an edit changes that is no code."""
    lines = read(path).split("\n")
    of = next((line[len("file: "):] for line in lines if line.startswith("file: ")), "no file")
    file = "crates/%s/%s" % (crate, of)
    if not of.startswith("src/") or not os.path.isfile(os.path.join(HERE, file)):
        return ["%s:1: is of %s, which is no file under src/" % (path, of)]
    told, text, clauses = [], read(file), list(contracts(code(file)))
    for number, line in enumerate(lines, 1):
        old = line[len("old: "):] if line.startswith("old: ") else None
        at = text.find(old) if old is not None else 0
        if at < 0:
            told.append("%s:%d: its old text does not stand in %s" % (path, number, file))
        elif old and any(start < at + len(old) and at < end for start, end in clauses):
            told.append("%s:%d: its old text stands in a contract, %s:%d" % (path, number, file, line_of(text, at)))
    return told


def edits_of(crate):
    return files("crates/%s/must-fail" % crate, ".edit")


def edits(rows, told_of):
    """Edits that are not of the code, and edits that no row names."""
    told = []
    for crate in rows:
        for path in edits_of(crate):
            if crate != "rules":
                told += misplaced(crate, path)
            if not re.search(r"(?<!\w)" + re.escape(os.path.basename(path)) + r"\b", told_of.get(crate, "")):
                told.append("%s:1: %s does not name it" % (path, CONTRACTS))
    return told


def name_of(part):
    """The name of a declaration, or nothing."""
    found = re.search(r"(?m)^\s*(?:pub |unfoldable |abbrev )*([^\s-]\S*) :", part)
    return found[1] if found else ""


def has_bytes(part, known):
    return 'codes "' in part or not known.isdisjoint(re.findall(r"[^\s(){};]+", part))


def computed():
    """Theorems of the rules that compute bytes."""
    told = []
    for path in files(PROOFS, ".antt"):
        text = code(path) if path != NINE else ""
        # a declaration ends at a blank line
        parts = [(it.start(), it[0]) for it in re.finditer(r"(?:.*\S.*\n?)+", text)]
        known, more = {""}, {""}
        while more:
            more = {name_of(part) for _, part in parts if has_bytes(part, known)} - known
            known |= more
        told += ["%s:%d: `%s` computes bytes, which the nine cases alone do" % (path, line_of(text, start), name_of(part))
                 for start, part in parts if re.search(r"\bunfold(?:ing)?\b.*\bevaluate\b", part) and has_bytes(part, known)]
    return told


def main():
    if sys.argv[1:] != ["--check"]:
        sys.exit(__doc__)
    rows, told_of = list(crates.listed()[0]), sections(CONTRACTS)
    wrong = cites(rows) + untold_functions(rows, told_of) + untold_enums(rows) + edits(rows, told_of) + computed()
    for it in wrong:
        print(it)
    if wrong:
        print("promises: faults: %d" % len(wrong))
        sys.exit(1)
    functions, enums = (sum(1 for crate in rows for _ in declared(crate, word)) for word in ("fn", "enum"))
    print("promises: %d public functions, %d enums, %d edits" % (functions, enums, sum(len(edits_of(crate)) for crate in rows)))


if __name__ == "__main__":
    main()
