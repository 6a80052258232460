#!/usr/bin/env python3
"""replay.py [--check]: writes what the program `replay` must print (crates/replay/stdout), counted off the fixed list in
crates/replay/data; with --check it writes nothing and fails where the file is not what would be written."""
import os
import sys

HERE = os.path.dirname(os.path.dirname(os.path.abspath(__file__)))
CRATE = os.path.join(HERE, "crates", "replay")
FILES = ("paper", "decisions", "generated", "limits")


def read(data):
    """for each case its name, its lent room and its parts by their names; the format is that of crates/replay/data/README.md"""
    at = 0

    def line(word):
        nonlocal at
        start, at = at, data.index(b"\n", at) + 1
        first, *rest = data[start:at - 1].split(b" ", 2)
        assert first == word and len(rest) == 2, data[start:at]
        return rest

    while at < len(data):
        room, name = line(b"case")
        parts = {}
        while data.startswith(b"part ", at):
            part, length = line(b"part")
            end = at + int(length)
            assert data[end:end + 1] == b"\n", data[at - 50:at]
            parts.setdefault(part.decode(), data[at:end])
            at = end + 1
        yield name, int(room), parts


def written(name, room, parts):
    """a case in this format"""
    out = b"case %d %s\n" % (room, name)
    return out + b"".join(b"part %s %d\n%s\n" % (part.encode(), len(data), data) for part, data in parts.items())


def cases():
    """for each case of the fixed list its file, and what `read` says of it"""
    for file in FILES:
        for case in read(open(os.path.join(CRATE, "data", file + ".txt"), "rb").read()):
            yield file, *case


def refusal(answer):
    return int(answer.split(b"\t")[1]) if answer.startswith(b"refused\t") else 0


def counted(answers, words, last):
    """how many answers there are that hand something out, and how many were refused by each number"""
    refused = [refusal(answer) for answer in answers]
    return refused.count(0), ["%s %d: %d" % (words, n, refused.count(n)) for n in range(1, last + 1)]


def expected():
    """as the program counts: a case is left out of the pages, or of the forms, where none is stored of it"""
    parts = [parts for *_, parts in cases()]
    pages, forms = [[p[part] for p in parts if part in p] for part in ("collect", "plain")]
    given, refused = counted(pages, "refused", 20)
    lines = ["cases %d" % len(pages), "pages %d" % given]
    lines += ["without recipe %d" % sum(p.startswith(b"recipe\tno\n") for p in pages)] + refused + ["different 0"]
    given, refused = counted(forms, "form refused", 24)
    changed = sum("plain" in p and not refusal(p["plain"]) and p["plain"] != p.get("sheet", b"") for p in parts)
    lines += ["plain forms of cases %d" % len(forms), "forms %d" % given, "other than the sheet %d" % changed] + refused
    return "\n".join(lines + ["forms different 0"]) + "\n"


def main():
    path, text = os.path.join(CRATE, "stdout"), expected()
    old = open(path, encoding="ascii").read() if os.path.exists(path) else None
    if sys.argv[1:] == ["--check"]:
        if old != text:
            sys.exit("not what tools/replay.py writes: crates/replay/stdout")
        print("replay: all current")
    else:
        with open(path, "w", encoding="ascii") as f:
            f.write(text)


if __name__ == "__main__":
    main()
