#!/usr/bin/env python3
"""collect.py: instructions of one collection, of the Rust and of the library, counted by callgrind.

Both sides are called by the same program, harness/ built without debug assertions and overflow checks (profile `speed`), on the inputs
of bench/inputs.py: the four files are read once and the call is made once or TIMES times; the difference, divided, is one call, so
starting and reading files fall out. Both are lent the same output: the page's length rounded up to 64 KB. The library clears all of it,
and its work memory, on each call, which is counted; the Rust's page is written to memory of its own and copied to the front of it.

The Rust: the sheet and unit list read by harness/src/sheet.rs, `parse_events` of cooklang-rs, the page written by harness/src/page.rs.
"the pass" is what `parse_events` takes of it. Neither the reader nor the writer of the harness was made to be fast.

Run by hand, with valgrind, after `tools/build.py recipe` (or with RECIPE_LIB_DIR): bench/collect.py [--times TIMES] [--rust-only] [--further] [WORD ...]
(a word chooses the inputs whose names hold it; --further: inputs made to be slow)."""
import argparse
import os
import re
import subprocess
import tempfile

import inputs

HERE = os.path.dirname(os.path.dirname(os.path.abspath(__file__)))
HARNESS = os.path.join(HERE, "harness")
PROGRAM = os.path.join(HARNESS, "target", "speed", "harness")
LONG = 50_000_000
PASS = "--toggle-collect=*pass::parse_events*"


def build(library):
    features = ["--features", "library"] if library else []
    subprocess.run(["cargo", "build", "-q", "--offline", "--profile", "speed"] + features, cwd=HARNESS, check=True)


def command(side, times, room):
    return [PROGRAM, "repeat", side, str(times), str(room)]


def count(directory, side, times, room, options):
    """Instructions of a run."""
    valgrind = ["valgrind", "--tool=callgrind", "--callgrind-out-file=/dev/null"] + options
    r = subprocess.run(valgrind + command(side, times, room), cwd=directory, capture_output=True, text=True)
    assert r.returncode == 0, r.stderr
    return int(re.search(r"Collected : (\d+)", r.stderr).group(1))


def a_call(directory, side, times, room, options=()):
    """Instructions of one call; one that takes long is made twice only."""
    once = count(directory, side, 1, room, list(options))
    times = 2 if once > LONG else times
    return (count(directory, side, times, room, list(options)) - once) / (times - 1)


def page_length(directory, side, room):
    r = subprocess.run(command(side, 1, room), cwd=directory, capture_output=True, text=True)
    assert r.returncode == 0, r.stderr
    return int(r.stdout)


def shown(n):
    return "{:,.0f}".format(n)


def row(name, directory, sheet, times, library):
    page = page_length(directory, "rust", 1 << 24)
    room = max(1, -(-page // 65536)) * 65536
    rust = a_call(directory, "rust", times, room)
    part = a_call(directory, "rust", times, room, [PASS])
    cells = [name, shown(sheet), shown(page), shown(room >> 10), shown(rust), shown(part)]
    if library:
        assert page_length(directory, "library", room) == page, name
        ours = a_call(directory, "library", times, room)
        cells += [shown(ours), "%.2f" % (ours / rust), "%.0f" % (ours / (sheet + page))]
    print("| " + " | ".join(cells) + " |", flush=True)


def main():
    p = argparse.ArgumentParser()
    p.add_argument("--times", type=int, default=11)
    p.add_argument("--rust-only", action="store_true")
    p.add_argument("--further", action="store_true")
    p.add_argument("words", nargs="*")
    a = p.parse_args()
    build(not a.rust_only)
    heads = ["input", "bytes of sheet", "bytes of page", "KB lent", "the Rust", "of it the pass"]
    if not a.rust_only:
        heads += ["the library", "library / Rust", "library a byte of sheet and page"]
    print("| " + " | ".join(heads) + " |\n|" + "---|" * len(heads))
    with tempfile.TemporaryDirectory() as work:
        for name, directory, sheet in inputs.write(work, inputs.further() if a.further else inputs.inputs()):
            if all(w in name for w in a.words):
                row(name, directory, sheet, a.times, not a.rust_only)


if __name__ == "__main__":
    main()
