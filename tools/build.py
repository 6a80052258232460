#!/usr/bin/env python3
"""build.py [--since FILE] NAME..: proves and builds programs into target/bin/NAME; `recipe` stands for the library for C, which goes to
target/staticlib/librecipe.a. With --since, the library is built over what `rt ci` has proved since FILE was written, if all of that
still stands in crates/*/out: then only its own functions are proved, each a call."""
import os
import shutil
import subprocess
import sys

HERE = os.path.dirname(os.path.dirname(os.path.abspath(__file__)))


def listed():
    """The crates of crates.txt, and what each lists."""
    rows = {}
    for line in open(os.path.join(HERE, "crates.txt"), encoding="utf-8"):
        head, _, deps = line.split("#")[0].partition(":")
        if head.strip():
            rows[head.split()[0]] = deps.split()
    return rows


def below(name, rows, seen):
    """The crates of the repository that one is built over, each once."""
    for it in rows[name]:
        if it in rows and it not in seen:
            below(it, rows, seen)
            seen.append(it)
    return seen


def proved(name):
    return os.path.join(HERE, "crates", name, "out", "rlib", name + ".rlib")


def build_over(since, crate, made):
    """Builds a static library over what `rt ci` left; whether it could."""
    rows, rt = listed(), shutil.which("rt")
    under = below(crate, rows, [])
    if not rt or not all(os.path.isdir(proved(it)) and os.path.getmtime(proved(it)) >= os.path.getmtime(since) for it in under):
        return False
    kit = os.path.dirname(os.path.dirname(os.path.realpath(rt)))
    words = [os.path.join(kit, "bin", "rattle"), "build", "--crate-name", crate, "src/lib.rt", "--crate-type", "staticlib"]
    for it in ["std", *rows[crate]]:
        words += ["--extern", "%s=%s" % (it, proved(it) if it in rows else "%s/rlibs/%s.rlib" % (kit, it))]
    for it in under:
        words += ["-L", "dependency=" + os.path.dirname(proved(it))]
    words += ["-L", "dependency=%s/rlibs" % kit, "--antt-project", kit + "/rattle/logic/antt-project.json", "--logic-built", kit + "/logic_built"]
    words += ["--toolchain", kit + "/toolchain", "--backend", "llvm", "-o", made]
    os.makedirs(os.path.dirname(made), exist_ok=True)
    folder = os.path.join(HERE, "crates", crate)
    try:
        said = subprocess.run(words, cwd=folder, stdin=subprocess.DEVNULL, stdout=subprocess.PIPE, stderr=subprocess.STDOUT)
    except OSError:
        return False
    return said.returncode == 0 and os.path.exists(made)


def build(name, since):
    crate = name + "_c" if name == "recipe" else name
    folder = os.path.join(HERE, "crates", crate)
    made = os.path.join(folder, "out", "lib%s.a" % crate if name == "recipe" else crate)
    to = os.path.join(HERE, "target", "staticlib", "librecipe.a") if name == "recipe" else os.path.join(HERE, "target", "bin", name)
    if os.path.exists(made):
        os.remove(made)
    if not (since and name == "recipe" and build_over(since, crate, made)):
        # `rt run` leaves the program; what it prints in the crate's own folder is of no interest
        said = subprocess.run(["rt", "lib" if name == "recipe" else "run"], cwd=folder, stdin=subprocess.DEVNULL, stdout=subprocess.PIPE, stderr=subprocess.STDOUT)
        if not os.path.exists(made):
            sys.stdout.buffer.write(said.stdout)
            sys.exit("%s was not built" % name)
    os.makedirs(os.path.dirname(to), exist_ok=True)
    shutil.copy(made, to)


def main():
    names, since = sys.argv[1:], None
    if names[:1] == ["--since"] and len(names) > 1:
        since, names = names[1], names[2:]
    if not names:
        sys.exit(__doc__)
    for name in names:
        build(name, since)


if __name__ == "__main__":
    main()
