#!/usr/bin/env python3
"""evaluate_rules.py [--below BYTES] [--file NAME].. [--path FILE] [--range A:B] [--per-module N] [--per-crate N]

Has the checker evaluate the definitions of crates/rules on cases of crates/replay/data: for each case two theorems by `refl`,
what `collect` prints and what `plain_form` prints, each against the bytes that stand in the list. The theorems are
written to a throw-away repository under target/evaluate, which holds a copy of crates/rules. Each case is reported as
equal, different, or too large for the checker's limits on steps, memory and stack; the exit status is 1 if one differs."""
import argparse
import os
import re
import shutil
import subprocess
import sys
import time

import replay

HERE = os.path.dirname(os.path.dirname(os.path.abspath(__file__)))
ANSWERS = os.path.join(HERE, "crates", "replay", "data")
FILES = [name + ".txt" for name in replay.FILES]
PARTS = ("sheet", "text", "units", "flags", "collect", "plain")
WORK = os.path.join(HERE, "target", "evaluate")
# what the checker says where a theorem is too large for it
BOUNDS = ("step limit", "memory limit", "deep recursion")


class Case:
    def __init__(self, file, name, room, parts):
        self.file, self.room = file, room
        self.name = name.decode()
        data = [parts[part] for part in PARTS]
        self.sheet, self.text, self.units, self.flags, self.collect, self.plain = data
        self.size = sum(len(p) for p in data)


def read_cases(file):
    data = open(os.path.join(ANSWERS, file), "rb").read()
    return [Case(file, *case) for case in replay.read(data)]


def literal(data):
    """bytes as antt: ASCII as `codes "..."`, the rest as numbers"""
    pieces = []
    for run in re.findall(rb"[\t\n\x20-\x7e]+|[^\t\n\x20-\x7e]+", data):
        if run[0] in b"\t\n" or 32 <= run[0] < 127:
            # one piece a line keeps the lines of the file short
            for line in re.findall(rb"[^\n]*\n|[^\n]+", run):
                s = line.decode().replace("\\", "\\\\").replace('"', '\\"').replace("\t", "\\t").replace("\n", "\\n")
                pieces.append('codes "%s"' % s)
        else:
            pieces.append("(%s)" % " ∷ ".join([str(b) for b in run] + ["[]"]))
    if not pieces:
        return "[]"
    if len(pieces) == 1:
        return "(%s)" % pieces[0] if pieces[0].startswith("codes") else pieces[0]
    return "(concat (%s ∷ []))" % " ∷ ".join(pieces)


def uses():
    return ("use Prim.Native.Nat.{ℕ}\n"
            "use mathlib.Core.Path.{◌≡◌, refl}\n"
            "use mathlib.Core.List.{List, [], ◌∷◌}\n"
            "use Rattle.rules.specs.Basic.{codes, concat}\n"
            "use Rattle.rules.specs.Input.{input_of}\n"
            "use Rattle.rules.specs.Answer.{Lent, collect_answer, plain_answer, printed, flags_of, words_needed, bytes_needed}\n"
            "use Rattle.rules.specs.Evaluate.{evaluate}\n\n"
            "abbrev lent : ℕ → Lent\n"
            "lent room = record { words = words_needed; bytes = bytes_needed; room = room }\n")


def theorem(name, answer, case, prints):
    return ("\npub %s : printed (%s (input_of %s %s %s (flags_of %s)) (lent %d)) ≡ %s\nunfolding evaluate\n%s = refl\n"
            % (name, answer, literal(case.sheet), literal(case.text), literal(case.units), literal(case.flags), case.room, literal(prints), name))


def theorems(number, case):
    return [("collect_%d" % number, theorem("collect_%d" % number, "collect_answer", case, case.collect)),
            ("plain_%d" % number, theorem("plain_%d" % number, "plain_answer", case, case.plain))]


def write(path, text):
    os.makedirs(os.path.dirname(path), exist_ok=True)
    with open(path, "w", encoding="utf-8") as f:
        f.write(text)


def write_crate(name, modules):
    """modules: lists of (theorem's name, text); returns for each file the first line of each theorem"""
    root = os.path.join(WORK, "crates", name)
    shutil.rmtree(root, ignore_errors=True)
    write(os.path.join(root, "src", "lib.rt"), "#![tactic(auto)]\n\npub fn one() -> usize {\n    1\n}\n")
    write(os.path.join(root, "proofs", "Lib.antt"), "".join("pub mod Part%d\n" % i for i in range(len(modules))))
    places = {}
    for i, module in enumerate(modules):
        text = uses()
        starts = []
        for n, t in module:
            starts.append((text.count("\n") + 2, n))
            text += t
        write(os.path.join(root, "proofs", "Part%d.antt" % i), text)
        places["Part%d" % i] = starts
    return places


def check(name):
    env = dict(os.environ, RT_JOBS="1", RT_CUT="600")
    r = subprocess.run(["rt", "check"], cwd=os.path.join(WORK, "crates", name), env=env, stdout=subprocess.PIPE, stderr=subprocess.STDOUT, text=True)
    return r.returncode == 0, r.stdout


def main():
    p = argparse.ArgumentParser()
    p.add_argument("--below", type=int, default=1 << 30, help="only cases whose inputs and answers are together below so many bytes")
    p.add_argument("--file", action="append", choices=FILES)
    p.add_argument("--path", help="a file of cases instead of the list")
    p.add_argument("--range", default=":", help="of the cases chosen, those from A up to B")
    p.add_argument("--per-module", type=int, default=24)
    p.add_argument("--per-crate", type=int, default=8, help="modules in a crate")
    o = p.parse_args()
    files = [os.path.abspath(o.path)] if o.path else [f for f in FILES if not o.file or f in o.file]
    cases = [c for f in files for c in read_cases(f)]
    listed = len(cases)
    cases = [c for c in cases if c.size < o.below]
    a, _, b = o.range.partition(":")
    cases = list(enumerate(cases))[int(a or 0):int(b) if b else None]
    shutil.rmtree(WORK, ignore_errors=True)
    shutil.copytree(os.path.join(HERE, "crates", "rules"), os.path.join(WORK, "crates", "rules"), ignore=shutil.ignore_patterns("must-fail", "out"))
    by_name = {}
    todo = []
    for n, c in cases:
        for name, text in theorems(n, c):
            by_name[name] = c
            todo.append((name, text))
    modules = [todo[i:i + o.per_module] for i in range(0, len(todo), o.per_module)]
    crates = [modules[i:i + o.per_crate] for i in range(0, len(modules), o.per_crate)]
    different, large = [], []
    started = time.time()
    equal = 0
    for i, crate in enumerate(crates):
        name = "cases%d" % i
        # the crates of which nothing is written yet are not there
        write(os.path.join(WORK, "crates.txt"), "rules:\n%s: rules\n" % name)
        while True:
            places = write_crate(name, crate)
            good, log = check(name)
            if good:
                break
            found = {}
            for part, line, message in re.findall(r"(Part\d+)\.antt:(\d+):\d+: error: (.*)", log):
                at = [n for start, n in places[part] if start <= int(line)]
                if at:
                    found[at[-1]] = "too large" if any(of in message for of in BOUNDS) else "different"
            if not found:
                print(log)
                sys.exit("the checker stopped without naming a theorem")
            for n in sorted(found):
                c = by_name[n]
                if found[n] == "different":
                    print("different: %s (%s: %s)\n%s" % (n, c.file, c.name, log[:3000]))
                    different.append(n)
                else:
                    print("too large for the checker's limits: %s (%s: %s)" % (n, c.file, c.name))
                    large.append(n)
            crate = [[t for t in m if t[0] not in found] for m in crate]
        equal += sum(len(m) for m in crate)
        print("%s: %d theorems equal so far, %d different, %d too large, %.0f s" % (name, equal, len(different), len(large), time.time() - started), flush=True)
        shutil.rmtree(os.path.join(WORK, "crates", name))
        open(os.path.join(WORK, "crates.txt"), "w").write("rules:\n" + "".join("cases%d: rules\n" % k for k in range(i + 1, len(crates))))
    print("%d cases of %d: %d theorems equal, %d different, %d too large for the checker's limits" % (len(cases), listed, equal, len(different), len(large)))
    for n in different:
        print("different: %s (%s: %s)" % (n, by_name[n].file, by_name[n].name))
    sys.exit(1 if different else 0)


if __name__ == "__main__":
    main()
