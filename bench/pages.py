#!/usr/bin/env python3
"""Types the sessions of the pages, and ends with 1 where something else comes than stands there.

    bench/pages.py [PAGE..]     README.md, docs/USE.md, docs/OPERATING.md and the pages of a ledger and a replica, if none is named

Each page has a new folder, with the built programs on the path. A session is an indented block: a line that begins
with `$ ` is given to bash, and the lines behind it, up to the next such line, are what it must print. Where none
stand behind it, only its status must be 0.
"""
import os
import subprocess
import sys
import tempfile
from pathlib import Path

TOP = Path(__file__).resolve().parent.parent
PAGES = ["README.md", "docs/USE.md", "docs/OPERATING.md", "crates/romulus_ledger/README.md", "crates/romulus_replica/README.md"]
PROGRAMS = ["romulus", "romulus_dump", "romulus_ledger", "romulus_replica", "romulus_talk"]


def sessions(lines):
    """Each command, with the lines that are awaited."""
    found = []
    for line in lines:
        if line.startswith("    $ "):
            found.append((line[6:], []))
        elif line.startswith("    ") and found and found[-1] is not None:
            found[-1][1].append(line[4:])
        elif found and found[-1] is not None:
            found.append(None)
    return [one for one in found if one]


def type_page(page, path):
    """Types the commands of a page, tells of each that printed or ended otherwise, and counts both."""
    typed = wrong = 0
    with tempfile.TemporaryDirectory() as folder:
        for command, awaited in sessions(page.read_text().splitlines()):
            typed += 1
            run = subprocess.run(["bash", "-c", command], cwd=folder, env=dict(os.environ, PATH=path),
                                 stdin=subprocess.DEVNULL, capture_output=True, text=True, timeout=120)
            if run.stdout.splitlines() != awaited if awaited else run.returncode:
                wrong += 1
                print(f"{page}: $ {command}\nstatus {run.returncode}\n{run.stdout}{run.stderr}")
    return typed, wrong


def main(pages):
    built = [TOP / "crates" / name / "out" / name for name in PROGRAMS]
    missing = [program.name for program in built if not os.access(program, os.X_OK)]
    if missing:
        print("build the programs first:", " ".join(f"./{name}" for name in missing), file=sys.stderr)
        return 1
    path = os.pathsep.join([*(str(program.parent) for program in built), os.environ["PATH"]])
    counts = [type_page(Path(page), path) for page in pages or [TOP / name for name in PAGES]]
    typed, wrong = map(sum, zip(*counts))
    print(f"{typed} commands typed, {wrong} wrong")
    return int(typed == 0 or wrong > 0)


sys.exit(main(sys.argv[1:]))
