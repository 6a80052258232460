#!/usr/bin/env python3
"""fields.py [--check]: writes the input of the program `fields` and what it must print, by a reading of its own of
the paper's section on the event sheet; with --check it writes nothing and fails where a file is not what would be
written."""
import os
import sys

HERE = os.path.dirname(os.path.dirname(os.path.abspath(__file__)))
WHERE = os.path.join(HERE, "crates", "fields")

EVENTS = b"meta section start end text ingredient cookware timer error warning".split()
BLOCKS = b"step text".split()
VALUES = b"n r t".split()
KEYS = {b"[mode]": 1, b"[define]": 1, b"[duplicate]": 2}
DEFINES = {b"all": 1, b"default": 1, b"components": 2, b"ingredients": 2, b"steps": 3, b"text": 4}
DUPLICATES = {b"new": 1, b"default": 1, b"reference": 2, b"ref": 2}
LETTERS = {ord("\\"): b"\\", ord("t"): b"\t", ord("n"): b"\n", ord("r"): b"\r"}

GOOD = [
    [b"meta", b"3", b"14", b"[duplicate]", b"15", b"19", b" ref"],
    [b"start", b"step"],
    [b"ingredient", b"20", b"27", b"21", b"25", b"salt", b"-", b"-", b"-", b".", b"21", b"21", b"-"],
    [b"text", b"27", b"28", b" "],
    [b"cookware", b"timer", b"error", b"warning", b"section", b"end"],
    [b"n", b"r", b"t", b"l", b"@&-?+"],
    [b"[mode]", b"[define]", b"[duplicate]", b"[mode", b"mode", b"[MODE]", b" [mode]"],
    [b"all", b"default", b"components", b"ingredients", b"steps", b"text", b"new", b"reference", b"ref"],
    [b"all ", b"All", b"step", b"refe", b"referenc", b"references", b"ne", b"newt"],
]
NUMBERS = [
    b"0", b"1", b"9", b"10", b"99", b"100", b"999", b"12345", b"65534", b"65535", b"65536", b"65537", b"99999",
    b"100000", b"655350", b"4294967295", b"4294967296", b"4294967297", b"18446744073709551616", b"9" * 40,
    b"00", b"01", b"007", b"+1", b"1+", b" 1", b"1 ", b"1.5", b"1e3", b"0x10", b"a", b"1a", b"/", b":", b"1/", b"1:",
    b"-", b"--1", b"-0", b"-00", b"-01", b"-1", b"-9", b"-10", b"-32767", b"-32768", b"-32769", b"-65535", b"-65536",
    b"32766", b"32767", b"32768", b"32769", b"\xe2\x88\x921", b"\xd9\xa1", b"1\xd9\xa1",
    b"1\r", b"\r1", b"1\\r", b"\\r1", b"-1\r", b"-\r1",
]
ESCAPES = [
    b"", b"\\\\", b"\\t", b"\\n", b"\\", b"a\\", b"\\a", b"\\r", b"\\0", b"\\T", b"\\N", b"\\ ", b"a\\\\", b"a\\\\\\",
    b"\\\\\\\\", b"\\\\t", b"\\\\\\t", b"\\t\\n\\\\", b"x\\ty\\nz", b"12345678", b"123456789", b"1234567\\t", b"12345678\\t",
    b"\\t\\t\\t\\t\\t\\t\\t\\t", b"\\t\\t\\t\\t\\t\\t\\t\\t\\t", b"12345678\\", b"123456789\\x", b"\\nab\\", b"\r", b"a\rb", b"\x00", b"a\x00b",
    b"\\R", b"\\\\r", b"\\\\\\r", b"\\r\\n", b"\\r\\", b"\\\r", b"\\\\\r", b"\\r\r", b"\r\\r", b"\r\r",
    b"\\r\\r", b"\\r\\r\\r\\r\\r\\r\\r\\r", b"\\r\\r\\r\\r\\r\\r\\r\\r\\r", b"a\\rb\\tc\\nd\\\\e", b"caf\xc3\xa9\\r\xc3\xa9", b"caf\xc3\xa9\r\xc3\xa9",
]
# a CR, spelled and bare, at these places of a field, and more after it or nothing
ESCAPES += [b"a" * n + cr + after for n in (0, 6, 7, 8, 15, 16, 17, 31, 32) for cr in (b"\\r", b"\r") for after in (b"", b"bcdefghi")]

DAMAGED = [
    b"caf\xc3\xa9", b"\xc3", b"\xa9", b"\xff", b"\xfe\xff", b"\xc0\xaf", b"\xed\xa0\x80", b"\xf4\x90\x80\x80", b"a\xc3\\t", b"\\\xc3\xa9", b"meta\xff",
    b"\xef\xbb\xbfmeta", b"Meta", b"META", b"metas", b"met", b"meta ", b"text\r", b"\rtext", b"text\\r", b"n\r", b"[mode]\r", b"ref\\r", b"\xe2\x82\xac\xe2\x82\xac\xe2\x82\xac", b"[define]\x00",
]


def sheet():
    lines = [b"\t".join(fs) for fs in GOOD]
    lines += [b"\t".join(NUMBERS[i:i + 6]) for i in range(0, len(NUMBERS), 6)]
    lines += [b"\t".join(ESCAPES[i:i + 5]) for i in range(0, len(ESCAPES), 5)]
    lines += DAMAGED
    lines += [b"", b"\t", b"\t\t", b"a\t", b"\ta", b"a\t\tb"]
    return b"".join(l + b"\n" for l in lines) + b"end\tstep\t\\"


def escape(text):
    return text.replace(b"\\", b"\\\\").replace(b"\t", b"\\t").replace(b"\n", b"\\n").replace(b"\r", b"\\r")


def unescape(field):
    if b"\r" in field:
        return None
    text, i = b"", 0
    while i < len(field):
        if field[i] != ord("\\"):
            text += field[i:i + 1]
            i += 1
        elif i + 1 < len(field) and field[i + 1] in LETTERS:
            text += LETTERS[field[i + 1]]
            i += 2
        else:
            return None
    return text


def number(field, most):
    if not field or any(c not in b"0123456789" for c in field):
        return None
    n = int(field)
    return n if str(n).encode() == field and n <= most else None


def signed(field):
    if field.startswith(b"-"):
        n = number(field[1:], 32768)
        return None if n is None or n == 0 else b"-%d" % n
    n = number(field, 32767)
    return None if n is None else b"%d" % n


def report(field):
    said = [b"field", escape(field)]
    for table in (EVENTS, BLOCKS, VALUES):
        said.append(b"%d" % (table.index(field) + 1 if field in table else 0))
    for table in (KEYS, DEFINES, DUPLICATES):
        said.append(b"%d" % table.get(field, 0))
    n, s, t = number(field, 65535), signed(field), unescape(field)
    said += [b"bad" if n is None else b"%d" % n, b"bad" if s is None else s]
    said += [b"ill", b"ill"] if t is None else [b"%d" % len(t), b"well"]
    space = b"." * 8
    if t is None:
        said += [b"ill", space]
    elif len(t) > len(space):
        said += [b"no room", space]
    else:
        said += [b"%d" % len(t), escape(t + space[len(t):])]
    return b"\t".join(said) + b"\n"


def page(text):
    out = b""
    lines = text.split(b"\n")
    for k, line in enumerate(lines):
        out += b"unended " if k + 1 == len(lines) else b""
        out += b"line\n" + b"".join(report(f) for f in line.split(b"\t"))
    out += b"refused\t10\t4096\nrefused\t7\t0\n"
    return out + escape(b".refused\t20\t0\n"[:12]) + b"\nno room\n"


def main():
    text = sheet()
    files = {"stdin": text, "stdout": page(text)}
    assert all(len(f) <= 65536 for f in files.values())
    for name, held in files.items():
        path = os.path.join(WHERE, name)
        if "--check" in sys.argv[1:]:
            if not os.path.exists(path) or open(path, "rb").read() != held:
                sys.exit("%s is not what tools/fields.py writes" % os.path.relpath(path, HERE))
        else:
            with open(path, "wb") as f:
                f.write(held)


if __name__ == "__main__":
    main()
