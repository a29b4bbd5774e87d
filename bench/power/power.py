"""Cuts the power below file systems, and lets their disk fail, while the program works on a heap there.

Each row is one trial or a few on one file system. It is told with how many disks were looked at, as cuts may
leave them, and how many of these had lost something. The last line counts the rows. With --controls each row is
of a program that lacks one call, and passes where that is caught.
"""
import argparse
import os
import random
import sys
import time
import traceback
from concurrent.futures import ProcessPoolExecutor
from multiprocessing import get_context
from typing import NamedTuple

from cases import CASES, Result
from mounts import KINDS, be_private
from program import OPTIONS

MEMORY = "in memory"


class Row(NamedTuple):
    """What is tried, on which file system, with how many callers, and which call the program lacks."""

    case: str
    kind: str
    callers: int = 1
    left_out: str = ""

    def __str__(self):
        callers = f", {self.callers} callers" if self.callers > 1 else ""
        return f"{self.case}{callers}, {self.kind}" + (f", without {self.left_out}" if self.left_out else "")


def rows_of(kinds):
    """The rows, those that take longest first."""
    cases = ("upgrade again", "doubt", "fault", "format again", "run", "upgrade", "format")
    rows = [Row(case, kind) for case in cases for kind in kinds]
    return rows + [Row("run", kind, 4) for kind in kinds] + [Row("synced", MEMORY)]


def controls_of(kinds):
    """Rows with a call left out.

    btrfs, which writes nothing in place, loses nothing without the renewal. ext4 alone forgets the second writing
    of blocks whose first one failed.
    """
    in_place = [kind for kind in kinds if kind != "btrfs"]
    rows = [Row(case, kind, 1, "renewal") for case in ("upgrade again", "doubt") for kind in in_place]
    rows += [Row("format again", kind, 1, "cut") for kind in kinds if kind.startswith("ext4")]
    rows += [Row("run", kind, 1, "main") for kind in kinds] + [Row("run", kind, 4, "syncs") for kind in kinds]
    rows += [Row(case, kind, 1, "syncs") for case in ("format", "upgrade") for kind in kinds]
    return rows + [Row("synced", MEMORY, 1, "folder")]


def look(row):
    """Looks at a row. Returns whether it passed, and what is told of it."""
    result, begun = Result(), time.monotonic()
    try:
        CASES[row.case](row, random.Random(f"{OPTIONS.seed} {row}"), result)
    except Exception:
        return False, f"{row}: NOT LOOKED AT: {traceback.format_exc()}"
    has_passed = bool(result.lost) if row.left_out else result.disks > 0 and not result.lost
    text = f"{row}: {result.disks} disks, {len(result.lost)} lost, {time.monotonic() - begun:.0f} s"
    return has_passed, "\n  ".join([text, *result.lost[: 1 if has_passed else 4]])


def main():
    parser = argparse.ArgumentParser(description=__doc__, formatter_class=argparse.RawDescriptionHelpFormatter)
    parser.add_argument("--program", required=True)
    parser.add_argument("--calls", required=True, help="calls.c as a library that is loaded before others")
    parser.add_argument("--controls", action="store_true")
    parser.add_argument("--kinds", default="xfs,ext4", help=f"of {', '.join(KINDS)}")
    parser.add_argument("--only", default="", help="the rows whose name has these words, as in `doubt, xfs`")
    parser.add_argument("--moments", type=int, default=60, help="at how many moments each command is cut")
    parser.add_argument("--trials", type=int, default=6, help="how often each fault is tried")
    parser.add_argument("--seed", type=int, default=int(time.time()))
    parser.parse_args(namespace=OPTIONS)
    rows = (controls_of if OPTIONS.controls else rows_of)(OPTIONS.kinds.split(","))
    rows = [row for row in rows if OPTIONS.only in str(row)]
    print(f"seed {OPTIONS.seed}", flush=True)
    passed = 0
    with ProcessPoolExecutor(len(os.sched_getaffinity(0)), get_context("fork"), be_private) as pool:
        for has_passed, text in pool.map(look, rows):
            passed += has_passed
            print(("" if has_passed else "FAILED: ") + text, flush=True)
    print(f"power: {passed} passed, {len(rows) - passed} failed")
    return not 0 < passed == len(rows)


if __name__ == "__main__":
    sys.exit(main())
