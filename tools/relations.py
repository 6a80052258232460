#!/usr/bin/env python3
"""relations.py [--check]: writes the cases that the program `relations` reads (crates/relations/data/cases.txt), taken from the
fixed list, and what it must print (crates/relations/stdout), read off the pages stored there; with --check it writes nothing and
fails where a file is not what would be written."""
import os
import sys

import replay

CRATE = os.path.join(replay.HERE, "crates", "relations")
LIMITS = (b"ingredients-512", b"ingredients-513", b"cookware-256", b"cookware-257", b"sections-closed-128", b"sections-end-128",
          b"timers-257", b"inline-512", b"findings-end-1024", b"findings-end-1025", b"B20")


def is_chosen(file, name, answer):
    """all of document 01's cases; the decisions with a reference and those that the pass refuses; some at the limits"""
    if file == "paper":
        return True
    if file == "decisions":
        return b"\tref\t" in answer or 11 <= replay.refusal(answer) <= 19
    return file == "limits" and name in LIMITS


def counts(lines):
    words = {b"ingredients": (b"ingredient",), b"cookware": (b"cookware",), b"timers": (b"timer",), b"inline": (b"inline",),
             b"sections": (b"section",), b"blocks": (b"step", b"text"), b"items": (b"item",), b"findings": (b"diag", b"parse")}
    return b", ".join(b"%s %d" % (what, sum(line[0] in of for line in lines)) for what, of in words.items())


def shown(name, answer):
    """what the program prints of a case"""
    if replay.refusal(answer):
        return [name, answer[:-1]]
    lines = [line.split(b"\t") for line in answer[:-1].split(b"\n")]
    if lines[0] == [b"recipe", b"no"]:
        return [name, b"no recipe"]
    components = [line for line in lines if line[0] in (b"ingredient", b"cookware")]
    return [name, counts(lines)] + [b"\t".join(line[:2] + line[-3:]) for line in components]


def main():
    chosen = [case for file, *case in replay.cases() if is_chosen(file, case[0], case[2]["collect"])]
    cases = b"".join(replay.written(*case) for case in chosen)
    stdout = b"".join(line + b"\n" for name, _, parts in chosen for line in shown(name, parts["collect"]))
    for path, new in ((os.path.join(CRATE, "data", "cases.txt"), cases), (os.path.join(CRATE, "stdout"), stdout)):
        if sys.argv[1:] != ["--check"]:
            with open(path, "wb") as f:
                f.write(new)
        elif not os.path.exists(path) or open(path, "rb").read() != new:
            sys.exit("not what tools/relations.py writes: " + os.path.relpath(path, replay.HERE))
    if sys.argv[1:] == ["--check"]:
        print("relations: all current")


if __name__ == "__main__":
    main()
