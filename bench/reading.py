#!/usr/bin/env python3
"""reading.py: instructions per byte of the sheet that reading takes (all refusals 1 to 10: UTF-8, lines, fields, numbers, spans),
counted by callgrind on realistic sheets of about 16, 32 and 64 KB by the difference to the next smaller one. Their last line is no
event, so that nothing but reading is done, twice: `replay` asks for the page and for the plain form. Run by hand; it proves `replay` first. REPLAY names a program that is built already."""
import os
import re
import subprocess
import sys
import tempfile

HERE = os.path.dirname(os.path.dirname(os.path.abspath(__file__)))
sys.path.insert(0, os.path.join(HERE, "tools"))
import replay

TEXT = "Mix @wheat flour{250%g}(sieved) with @&water{150%ml} in a #large bowl{}, knead for ~rest{10%minutes}. ".encode() * 600
STEP = [
    "start\tstep", "text\t0\t4\tMix ",
    "ingredient\t4\t31\t5\t16\twheat flour\t-\t17\t22\tn\t17\t20\t250\t-\t21\t22\tg\t24\t30\tsieved\t.\t5\t5\t-",
    "text\t31\t37\t with ",
    "ingredient\t37\t53\t39\t44\twater\t-\t45\t51\tn\t45\t48\t150\t-\t49\t51\tml\t-\t&\t38\t39\t-",
    "text\t53\t58\t in a ", "cookware\t58\t71\t59\t69\tlarge bowl\t-\t-\t-\t.\t59\t59",
    "text\t71\t84\t, knead for ", "timer\t84\t102\t85\t89\trest\t90\t100\tn\t90\t92\t10\t-\t93\t100\tminutes",
    "text\t102\t104\t. ", "end\tstep",
]


def sheet(size):
    step = ("\n".join(STEP) + "\n").encode()
    return step * (size // len(step)) + b"x\n"


def count(program, work, bytes_):
    units = b"g\tmass\nml\tvolume\nminutes\ttime\n"
    parts = {"sheet": bytes_, "text": TEXT[:60000], "units": units, "flags": b"7", "collect": b"x", "plain": b"x"}
    with open(os.path.join(work, "generated.txt"), "wb") as f:
        f.write(replay.written(b"x", 0, parts))
    run = subprocess.run(["valgrind", "--tool=callgrind", "--callgrind-out-file=/dev/null", program], cwd=work, capture_output=True, text=True)
    assert "refused 8: 1\n" in run.stdout, run.stdout
    return int(re.search(r"Collected : (\d+)", run.stderr).group(1))


def main():
    program = os.environ.get("REPLAY")
    if not program:
        subprocess.run([sys.executable, os.path.join(HERE, "tools", "build.py"), "replay"], check=True)
        program = os.path.join(HERE, "target", "bin", "replay")
    with tempfile.TemporaryDirectory() as work:
        for name in ("paper.txt", "decisions.txt", "limits.txt"):
            open(os.path.join(work, name), "wb").close()
        before = None
        print("| bytes of the sheet | instructions a byte beyond the row before |\n|---|---|")
        for size in (8192, 16384, 32768, 65536):
            bytes_ = sheet(size)
            n = count(program, work, bytes_)
            if before:
                print("| %d | %.1f |" % (len(bytes_), (n - before[1]) / (len(bytes_) - before[0]) / 2))
            before = (len(bytes_), n)


if __name__ == "__main__":
    main()
