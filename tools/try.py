#!/usr/bin/env python3
"""try.py [--form] [FOLDER]: runs the program `collect`, with --form `plain_form`, on the recipe.cook, units.tsv, flags and events.tsv
of a folder, examples/rye if none is named. It is compiled without any proof, which takes seconds: for a first look, and while changing."""
import os
import subprocess
import sys

HERE = os.path.dirname(os.path.dirname(os.path.abspath(__file__)))
FILES = ("recipe.cook", "units.tsv", "flags", "events.tsv")


def main():
    words = sys.argv[1:]
    program = "plain_form" if "--form" in words else "collect"
    folders = [it for it in words if it != "--form"]
    if len(folders) > 1 or any(it.startswith("-") for it in folders):
        sys.exit(__doc__)
    folder = os.path.abspath(folders[0]) if folders else os.path.join(HERE, "examples", "rye")
    given = []
    for name in FILES:
        if os.path.isfile(os.path.join(folder, name)):
            given += ["--data", "%s=%s" % (name, os.path.join(folder, name))]
    ran = subprocess.run(["rt", "try", *given], cwd=os.path.join(HERE, "crates", program), stdin=subprocess.DEVNULL)
    sys.exit(ran.returncode)


if __name__ == "__main__":
    main()
