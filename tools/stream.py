#!/usr/bin/env python3
"""stream.py [--check]: writes what the program `stream` reads and what it must print, from the tables of data/unicode
alone; with --check it writes nothing and fails where a file is not what would be written."""
import os
import sys

from generate import HERE, WHITE, ALPHA, NUMERIC, FOLDING


def members(rows):
    return {c for a, b in rows for c in range(a, b + 1)}


IS_WHITE, IS_ALPHA = members(WHITE), members(ALPHA)
IS_ALNUM = IS_ALPHA | members(NUMERIC)
FOLD = dict(FOLDING)

BLANKS = "".join(map(chr, sorted(IS_WHITE - {0x0A})))
LINES = [line.encode("utf-8") for line in [
    "", "a", "A", "  Two  eggs,   beaten \t", "two eggs, beaten", "Crème brûlée", "CRÈME BRÛLÉE", "CRE\u0300ME BRU\u0302LE\u0301E",
    "Straße", "STRASSE", "STRA\u1e9eE", "strasse", "strass", "Maße in Fußballfeldern", "MASSE IN FUSSBALLFELDERN",
    "\u0130stanbul \u0131s\u0131", "i\u0307stanbul \u0131S\u0131", "ISTANBUL ISI", "\ufb01let mit \ufb04aumen", "FILET MIT FFLAUMEN",
    "\ufb03x \ufb00 \ufb02 \ufb05 \ufb06 \ufb13 \ufb17", "FFIX FF FL ST ST \u0544\u0546 \u0544\u053d",
    "Σίσυφος", "ΣΊΣΥΦΟΣ", "ΣΊΣΥΦΟΣ και ο λίθος", "\u1fb3\u1f80\u1fe4\u1fb7 \u0390 \u03b0", "\u03b1\u03b9\u1f00\u03b9\u03c1\u0313\u03b1\u0342\u03b9 \u03b9\u0308\u0301 \u03c5\u0308\u0301",
    "Щи да каша — пища наша", "ЩИ ДА КАША — ПИЩА НАША", "щи да каша - пища наша", "Ёлка, ёж; Ґудзик", "ёЛКА, ЁЖ; ґУДЗИК",
    "麻婆豆腐 三百五十克", "麻婆豆腐　三百五十克", "ラーメン 二杯", "らーめん 2杯", "비빔밥 한 그릇", "ビビンバ", "ﾋﾞﾋﾞﾝﾊﾞ",
    "ＡＢＣ ａｂｃ ①②③ Ⅳ ⅳ ½ ¾ ٣٤ ४५", "ａｂｃ ａｂｃ ①②③ ⅳ ⅳ ½ ¾ ٣٤ ४५", "e\u0301\u0327\u0323 \u0345 \u0f7b\u20dd n\u0303",
    "\U00010400\U00010401 \U0001e900 \U00016e40", "\U00010428\U00010429 \U0001e922 \U00016e60", "\U0001f35c\U0001f944 \u200d \ufe0f \U0010ffff",
    "\u1e9b\u0323 \u212a \u212b \u017f \u00b5 \u1c80 \uab70", "k å s µ", "\u0149 \u01f0 \u1e96 \u1e97 \u1e98 \u1e99 \u1e9a", "\u02bcn j\u030c h\u0331 t\u0308 w\u030a y\u030a a\u02be",
    BLANKS, BLANKS + "x" + BLANKS, BLANKS + "x" + BLANKS + "ß" + BLANKS, "x" + BLANKS + "SS",
    "\u3000\u2003 1 c\u00e0\u0300ndied\u00a0 \u00a0peel\u2028\u2029\u0085", "\u200b\u2060\ufeff not blank \ufeff", " " * 40, "a" + " " * 40 + "b", "a b",
    "\x00\x01\x7f\x1c\x1f", "\x0b\x0c\r mixed \r\x0c\x0b", "\u0080 \u07ff \u0800 \ud7ff \ue000 \uffff \U00010000",
]] + [
    # escapes, and backslashes that escape nothing
    b"\\n\\t two\\\\eggs \\t\\n", b"\\t Two\\\\Eggs", b"two\\\\eggs", b"two\\eggs", b"\\", b"\\\\", b"\\\\\\", b"a\\", b"\\ \\x \\\xc3\xa9", b"\xc3\\n", b"\xe2\x80\\t",
    b"a\\t  \\t  b", b"A\\t \\t b", b"  a   b  ", b" A B ", b"\\N\\T", b"\\n\\T",
    # CR, spelled and bare: no sheet has a bare one, and it reads as what it is
    b"\\r", b"\r", b"\\r\\r", b"\r\r", b"\\r\r", b"\\R", b"\\\\r", b"\\\\\\r", b"\\\r", b"\\r\\", b"\\r\\n", b"\r\\n", b"\\r A\\r \\rB \\r", b"\r a\r \rb \r", b"\\r  a  \\r", b" \\r a", b"A\\rB", b"a\rb",
    b"cr\xc3\xa8me\\r\xc3\xa9", b"CR\xc3\x88ME\r\xc3\x89", b"5\\rkg", b"5\rKG",
    # an escape's letter beside a letter
    b"a\\rb", b"arb", b"a\\rb", b"ARB", b"a\\\\rb", b"a\\rb", b"a\\nb", b"r\\rr", b"R\\rR", b"R\\RR", b"abcdefg\\r", b"abcdefgr", b"abcdefg\\r", b"ABCDEFG\\r", b"ABCDEFGR", b"abcdefgh\\r", b"ABCDEFGH\r",
    b"12345678\\r\xc3\x9f", b"12345678\\rSS", b"1234567\\r\xc3\x9f", b"1234567\\rss", b"123456\\rK", b"123456\\r\xe2\x84\xaa", b"\\r\\r\\r\\rab", b"\\r\\r\\r\\rAB", b"\\r\\r\\r\\nAB",
    b"./a\\r/b", b"./a\r/b", b".\\rb", b".\\\\rb", b"./\\rb", b"./\\r", b"..\\r/b", b"..\\\\\\rb", b"\\r./b",
    # paths
    b"./", b"./bread", b"../bread", b"./my/bread", b"./my\\\\bread", b".\\\\my\\\\bread", b"..\\\\bread", b".\\bread", b"./bread/", b"./ bread  and   butter", b".../x", b".bread/x", b". /x", b"./\\t/a\\n", b"..", b".", b"../..",
    b"\xff", b"\x80\xbf", b"bad \xc3", b"bad \xc3 bad", b"\xe2\x80", b"\xe2\x80\x20\x20\x83\xe2\x80\x83", b"\xf0\x9f\x8d", b" \xf0\x9f\x8d\x20 \x20",
    b"\xc0\xaf \xe0\x80\xaf \xf0\x80\x80\xaf", b"\xed\xa0\x80 \xed\xbf\xbf", b"\xf4\x90\x80\x80 \xf5\x80\x80\x80", b"\xc1\x81A\xc2",
    b"\xe3\x80\x80\xe3\x80 \xe3\x80\x80", b"Stra\xc3\x9fe \xc3\x9f\xc3", b"STRASSE ss\xff", b"strasse SS\xfe", b"caf\xe9", b"caf\xef\xbf\xbd",
]


def text():
    lines = list(LINES)
    # a CR, spelled and bare, at these places of a line, and more after it or nothing
    for n in (7, 8, 15, 16, 17, 31, 32):
        lines += [b"a" * n + cr + after for after in (b"", b"bcdefghi") for cr in (b"\\r", b"\r")]
    # each blank at both ends of a line and within it
    for c in sorted(IS_WHITE - {0x0A}):
        b = chr(c).encode("utf-8")
        lines += [b"a" + b + b"b", b + b + b"A" + b + b"B" + b]
    # samples of all foldings: a line of keys, and the line that they fold to
    for i in range(0, len(FOLDING), 97):
        keys = FOLDING[i:i + 12]
        lines.append("".join(chr(k) for k, _ in keys).encode("utf-8"))
        lines.append("".join(chr(x) for _, to in keys for x in to).encode("utf-8"))
    return b"\n".join(lines) + b"\n"


ESCAPES = {b"\\\\": 0x5C, b"\\t": 0x09, b"\\n": 0x0A, b"\\r": 0x0D}


def chars(s):
    """the code points of an escaped field, or of any bytes: a byte at which no character starts reads as U+FFFD"""
    out, i = [], 0
    while i < len(s):
        if s[i:i + 2] in ESCAPES:
            out.append((ESCAPES[s[i:i + 2]], s[i:i + 2]))
            i += 2
            continue
        for n in (1, 2, 3, 4):
            try:
                c = s[i:i + n].decode("utf-8")
            except UnicodeDecodeError:
                continue
            if len(c) == 1:
                out.append((ord(c), s[i:i + n]))
                i += n
                break
        else:
            out.append((0xFFFD, s[i:i + 1]))
            i += 1
    return out


def outer_trimmed(cs):
    kept = [i for i, (c, _) in enumerate(cs) if c not in IS_WHITE]
    return cs[kept[0]:kept[-1] + 1] if kept else []


def single_blanks(cs):
    return [x for i, x in enumerate(cs) if not (x[0] == 32 and i > 0 and cs[i - 1][0] == 32)]


def size(cs):
    return sum(len(b) for _, b in cs)


def name_place(cs):
    """where the path before a name ends, and where the name starts; without a path both are 0"""
    name = "".join(chr(c) for c, _ in cs)
    if not name.startswith(("./", "../", ".\\", "..\\")) or name[-1] in "/\\":
        return 0, 0
    last = max(i for i, c in enumerate(name) if c in "/\\")
    return size(cs[:last]), size(cs[:last + 1])


def printed(s):
    lines, before, whole, out = s.split(b"\n"), [], [], ""
    if lines[-1] == b"":
        lines.pop()
    for line in lines:
        cs = chars(line)
        points = [c for c, _ in cs]
        kept = [c for c, _ in single_blanks(cs)]
        folded = [x for c in kept for x in FOLD.get(c, [c])]
        total = 0
        for x in folded:
            total = (total * 31 + x) % 2 ** 32
        row = [len(points)] + [sum(c in k for c in points) for k in (IS_WHITE, IS_ALPHA, IS_ALNUM)]
        row += [int(any(c in IS_ALNUM for c in points)), len(folded), total, size(outer_trimmed(cs)), size(single_blanks(outer_trimmed(cs)))]
        row += [*name_place(cs), int(folded == before), int(kept == whole)]
        before, whole = folded, kept
        out += "\t".join(map(str, row)) + "\n"
    return out.encode("ascii")


def main():
    check, stale = sys.argv[1:] == ["--check"], []
    for name, data in [("stdin", text()), ("stdout", printed(text()))]:
        path = os.path.join(HERE, "crates", "stream", name)
        old = open(path, "rb").read() if os.path.exists(path) else None
        if old != data:
            stale.append("crates/stream/" + name)
            if not check:
                with open(path, "wb") as f:
                    f.write(data)
    if check and stale:
        sys.exit("not what tools/stream.py writes: " + ", ".join(stale))
    print("stream: %s" % ("all current" if not stale else "written: " + ", ".join(stale)))


if __name__ == "__main__":
    main()
