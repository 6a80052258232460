#!/usr/bin/env python3
"""check_times.py -- COMMAND..: runs a command that proves, as .ci/run, and writes the table of docs/CHECK-TIMES.md: what each crate took.

The prover is a process for each crate and for each must-fail edit, and the gate runs several at a time and prints no times. So the
processes that the command starts are looked at five times a second, and the processor time of each, user's and system's, is what it
was when it was seen last, with that of the processes that it had waited for. A try of an edit runs on a copy, in a folder of its own
among the temporary files; so do the two checks that the edits of a crate share. All else is the crate's: its proof, its tests,
and, of a program, what compiles it. Where the command fails nothing is written."""
import os
import re
import subprocess
import sys
import threading
import time

HERE = os.path.dirname(os.path.dirname(os.path.abspath(__file__)))
PAGE = os.path.join(HERE, "docs", "CHECK-TIMES.md")
HEAD = "| crate | seconds | must-fail edits | their seconds |"
TICKS = os.sysconf("SC_CLK_TCK")
PAUSE = 0.2


def processes():
    """Every process: its parent, and its processor time in ticks."""
    found = {}
    for name in os.listdir("/proc"):
        if name.isdigit():
            try:
                with open("/proc/%s/stat" % name, encoding="utf-8", errors="replace") as f:
                    words = f.read().rpartition(")")[2].split()
            except OSError:
                continue
            found[int(name)] = int(words[1]), sum(int(it) for it in words[11:15]), int(words[19])
    return found


def begun_by(top, found):
    """The processes that one has begun, itself among them."""
    below = {}
    for it, (parent, _, _) in found.items():
        below.setdefault(parent, []).append(it)
    todo, seen = [top], set()
    while todo:
        it = todo.pop()
        if it not in seen:
            seen.add(it)
            todo += below.get(it, [])
    return seen


def work_of(process):
    """The crate that a process of the prover is about, and whether it tries an edit; nothing of another process."""
    try:
        with open("/proc/%d/cmdline" % process, "rb") as f:
            words = f.read().decode(errors="replace").split("\0")
        folder = os.readlink("/proc/%d/cwd" % process)
    except OSError:
        return None
    if os.path.basename(words[0]) != "rattle" or "--crate-name" not in words:
        return None
    return words[words.index("--crate-name") + 1], "/rt-edit-" in folder


class Watch:
    """The processor time of what a command begins, by crate: of its own, and of its edits."""

    def __init__(self, top):
        self.top, self.work, self.ticks, self.over = top, {}, {}, threading.Event()

    def look(self):
        found = processes()
        for it in begun_by(self.top, found) & set(found):
            _, ticks, start = found[it]
            key = it, start
            if key not in self.work:
                work = work_of(it)
                if not work:
                    continue
                self.work[key] = work
            self.ticks[key] = ticks

    def run(self):
        while not self.over.wait(PAUSE):
            self.look()

    def seconds(self):
        sums = {}
        for key, work in self.work.items():
            sums[work] = sums.get(work, 0) + self.ticks[key] / TICKS
        return sums


def run(command):
    """Runs the command; what it printed, its status, the seconds by the clock, and the processor seconds of each crate."""
    begun, said = time.time(), []
    started = subprocess.Popen(command, cwd=HERE, stdout=subprocess.PIPE, stderr=subprocess.STDOUT)
    watch = Watch(started.pid)
    looking = threading.Thread(target=watch.run)
    looking.start()
    for line in started.stdout:
        sys.stdout.buffer.write(line)
        sys.stdout.flush()
        said.append(line.decode(errors="replace"))
    status = started.wait()
    watch.over.set()
    looking.join()
    return said, status, time.time() - begun, watch.seconds()


def crates():
    lines = open(os.path.join(HERE, "crates.txt"), encoding="utf-8").read().splitlines()
    return [it.split("#")[0].split()[0].rstrip(":") for it in lines if it.split("#")[0].strip()]


def edits_of(crate):
    folder = os.path.join(HERE, "crates", crate, "must-fail")
    return len([it for it in os.listdir(folder) if it.endswith(".edit")]) if os.path.isdir(folder) else 0


def clock(seconds):
    return "%d minutes %d seconds" % divmod(round(seconds), 60)


def table(said, took, seconds):
    """The table and the line below it."""
    tried = dict(re.findall(r"(?m)^rt: (\w+): (\d+) of its \d+ must-fail edits were tried by an earlier run", "".join(said)))
    proved = set(re.findall(r"(?m)^rt: (\w+) is kept:", "".join(said)))
    rows, sums, count, partly = [HEAD, "|---|---|---|---|"], [0.0, 0.0], 0, []
    for crate in crates():
        edits, own, theirs = edits_of(crate), seconds.get((crate, False), 0.0), seconds.get((crate, True), 0.0)
        is_whole = crate not in proved and (crate, False) in seconds
        are_whole = crate not in tried and (not edits or (crate, True) in seconds)
        partly += [crate] * (not (is_whole and are_whole))
        sums, count = [sums[0] + own, sums[1] + theirs], count + edits
        first = "%d" % round(own) if is_whole else "kept"
        second = "-" if not edits else "%d" % round(theirs) if are_whole else "kept" if round(theirs) == 0 else "%d and kept" % round(theirs)
        rows.append("| %s | %s | %d | %s |" % (crate, first, edits, second))
    line = "Together %d processor seconds for %d crates and %d for %d edits; the whole took %s on %d processors." % (
        round(sums[0]), len(crates()), round(sums[1]), count, clock(took), len(os.sched_getaffinity(0)))
    if partly:
        line += " Of %d crates something was kept from an earlier run of the same files and has no seconds here." % len(partly)
    last = [it.strip() for it in said if re.match(r"\d+ passed, \d+ failed", it)]
    return "\n".join(rows) + "\n\n" + line + (" It ended with `%s`." % last[-1] if last else "") + "\n"


def write(text):
    with open(PAGE, encoding="utf-8") as f:
        page = f.read()
    with open(PAGE, "w", encoding="utf-8") as f:
        f.write(page[: page.index(HEAD)] + text if HEAD in page else page.rstrip("\n") + "\n\n" + text)


def main():
    command = sys.argv[2:]
    if sys.argv[1:2] != ["--"] or not command:
        sys.exit(__doc__)
    said, status, took, seconds = run(command)
    if status:
        print("docs/CHECK-TIMES.md is as it was: the command failed")
        sys.exit(status if status > 0 else 1)
    write(table(said, took, seconds))
    print("docs/CHECK-TIMES.md is written")


if __name__ == "__main__":
    main()
