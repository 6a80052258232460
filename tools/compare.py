#!/usr/bin/env python3
"""compare.py COUNT SEED: runs the program `replay` on COUNT sheets by chance beside the harness's answers (`harness sample`), a
file of 1,800 cases at a time, and prints how many cases there were, how many damaged ones, and the program's counts.
Run by hand; it builds the harness and proves `replay` first. HARNESS and REPLAY name programs that are built already."""
import os
import subprocess
import sys
import tempfile

import replay

HERE = os.path.dirname(os.path.dirname(os.path.abspath(__file__)))
EACH = 1800


def programs():
    harness, program = os.environ.get("HARNESS"), os.environ.get("REPLAY")
    if not harness:
        folder = os.path.join(HERE, "harness")
        subprocess.run(["cargo", "build", "-q", "--release", "--offline"], cwd=folder, check=True)
        harness = os.path.join(folder, "target", "release", "harness")
    if not program:
        subprocess.run([sys.executable, os.path.join(HERE, "tools", "build.py"), "replay"], check=True)
        program = os.path.join(HERE, "target", "bin", "replay")
    return harness, program


def main():
    count, seed = int(sys.argv[1]), int(sys.argv[2])
    harness, program = programs()
    totals, damaged = {}, 0
    with tempfile.TemporaryDirectory() as work:
        for name in replay.FILES:
            open(os.path.join(work, name + ".txt"), "wb").close()
        while count > 0:
            n = min(count, EACH)
            cases = subprocess.run([harness, "sample", str(n), str(seed)], check=True, capture_output=True).stdout
            damaged += sum(name.startswith(b"damaged ") for name, *_ in replay.read(cases))
            with open(os.path.join(work, "generated.txt"), "wb") as f:
                f.write(cases)
            out = subprocess.run([program], cwd=work, check=True, capture_output=True, text=True).stdout
            for line in out.splitlines():
                key, value = line.rsplit(" ", 1)
                totals[key] = totals.get(key, 0) + int(value)
            count, seed = count - n, seed + 1
    for key, value in totals.items():
        print(key, value)
    print("damaged", damaged)


if __name__ == "__main__":
    main()
