#!/usr/bin/env python3
"""The rows of dump.sh on heaps of each kind, made by their own programs: new, with some elements, and full; and torn and
damaged by words that are written over. What a script makes again and what grows is compared with what it came from.

Usage, from any folder, once the programs are built: bench/kinds.py [--short] [ROW..], the rows by their names; in short
without heaps of order 16
"""
import itertools
import os
import random
import subprocess
import sys
import tempfile
import time
from functools import partial
from subprocess import PIPE

sys.dont_write_bytecode = True  # the gate runs this

import replica
from talk import GIVEN, expect, told

MUTATING, COPYING = 1, 2


class Kind:
    """A kind of heaps: its number, its name, its program, and how a heap of it is made and filled."""

    def __init__(self, number, name, program, plain):
        self.number, self.name, self.program, self.plain = number, name, program, plain

    def format(self, heap, order):
        words = [str(order)] if self.plain else ["--order", str(order)]
        expect(self.told("format", heap, *words), (0, f"formatted order {order}\n"), "format")

    def told(self, *words, **options):
        return told(getattr(GIVEN, self.program), *words, **options)

    def run(self, heap, script):
        """Runs the lines of a script, and gives what they were told, without places."""
        status, text = self.told("run", heap, "/dev/stdin", input=script.encode())
        expect(status, 0, f"a run, which tells {text[-200:]}")
        return [line.rsplit(" ", 1)[0] for line in text.splitlines()[1:-1]]


TRIO = Kind(1, "a queue, a set and a map", "program", False)
LEDGER = Kind(1, "a queue, a set and a map", "ledger", True)
BLOBS = Kind(2, "keys with bytes", "blob", True)
ORDERED = Kind(3, "an ordered index", "order", True)


def words(kind, many, seed):
    """Lines that put so many elements into a heap, in no order, and take some out again."""
    draw = random.Random(seed)
    if kind.number == 1:
        each = [("enq {}", "deq"), ("add {}", "rem {}"), ("put {} 7", "del {}")]
        for number in draw.sample(range((1 << 63) - 1), many):
            put, out = draw.choice(each)
            yield put.format(number), out.format(number)
    elif kind is BLOBS:
        for number in draw.sample(range((1 << 63) - 1), many):
            size = draw.choice([0, 1, 32, 33, 64, 65, 128, 129, 256])
            yield f"set {number} {draw.randbytes(size).hex() or '-'}", f"cut {number}"
    else:
        for number in draw.sample(range((1 << 63) - 1), many):
            yield f"put {number} {draw.randrange(1 << 64)}", f"del {number}"


def filled(kind, heap, order, many, seed=1):
    """A heap of which each fifth element was taken out again, and others put in then."""
    kind.format(heap, order)
    lines = []
    for at, (put, out) in enumerate(words(kind, many, seed)):
        lines.append(put)
        if at % 5 == 4:
            lines.append(out)
    replies = []
    # The longest line has 538 bytes, so each of these scripts may be as long.
    for at in range(0, len(lines), 1900):
        replies += kind.run(heap, "".join(f"{line}\n" for line in lines[at : at + 1900]))
    return replies


def dumped(*words):
    return told(GIVEN.dump, *words)


def check(heap, *words):
    """What check tells, line by line, by the first word of each."""
    status, text = dumped("check", heap, *words)
    expect(status, 0, f"check tells {text}")
    lines = dict(line.split(" ", 1) for line in text.splitlines())
    expect(len(lines), len(text.splitlines()), f"how many lines begin alike in {text}")
    return lines


def sizes(heap, *words):
    """The same, without what a script does not keep, and without the room."""
    return {name: told for name, told in check(heap, *words).items() if name not in ("count", "order", "free")}


def scripts(heap):
    """The script of a heap, in as many parts as there are."""
    status, text = dumped("script", heap)
    if status == 0:
        return [text]
    expect((status, text.startswith("script too long, ")), (8, True), f"a script, which tells {text[:80]}")
    parts = [dumped("script", heap, "--part", str(part + 1)) for part in range(int(text.split()[3]))]
    expect({status for status, _ in parts}, {0}, "the parts")
    expect(dumped("script", heap, "--part", str(len(parts) + 1)), (0, ""), "a part behind the last")
    return [text for _, text in parts]


def again(kind, parts, order):
    """A new heap made from scripts, of which no line is refused."""
    heap = os.path.join(tempfile.mkdtemp(), "again")
    kind.format(heap, order)
    for part in parts:
        replies = kind.run(heap, part)
        expect([reply for reply in replies if "full" in reply or reply == "unread"], [], "lines that were refused")
    return heap


def grown(heap, order):
    new = os.path.join(tempfile.mkdtemp(), "grown")
    status, text = dumped("grow", heap, new, "--order", str(order))
    count = check(heap)["count"]
    expect((status, text), (0, f"grown order {order} count {count}\n"), "grow")
    return new


def round_trip(kind, order, many):
    """Its script makes a heap again, of the same order and of a greater one, and so does what has grown."""
    heap = os.path.join(tempfile.mkdtemp(), "heap")
    replies = filled(kind, heap, order, many)
    was, bytes_of = sizes(heap), open(heap, "rb").read()
    expect((was["kind"], was["region"]), (kind.name, "both: idle"), "the kind")
    parts = scripts(heap)
    expect(len(parts) > 1, order == 16, "whether one script is not enough")
    for greater in {order, min(order + 3, 16)}:
        new = again(kind, parts, greater)
        expect(sizes(new), was, f"a heap of order {greater} from the script")
        expect(scripts(new), parts, "its script")
    if order < 16:
        new = grown(heap, order + 1)
        expect({**check(new), "order": 0, "free": 0}, {**check(heap), "order": 0, "free": 0}, "a heap that has grown")
        expect(scripts(new), parts, "the script of what has grown")
        expect(open(heap, "rb").read() == bytes_of, True, "the heap, which is only looked at")
        if kind.number == 1:
            places = [0, 1, len(replies) // 2, len(replies)]
            lines = "".join(f"fresh {place}\n" for place in places)
            expect(kind.run(new, lines), kind.run(heap, lines), "the stamps of what has grown")
    full = sum("full" in reply for reply in replies)
    expect(full > 0, many > 0, "whether it was found full")
    return f"{sum(len(part.splitlines()) for part in parts)} lines in {len(parts)} scripts; {full} updates had found it full"


def word_of(heap, at, put=None):
    """A word of a file, which is written over where one is given."""
    with open(heap, "r+b") as file:
        file.seek(8 * at)
        word = int.from_bytes(file.read(8), "little")
        if put is not None:
            file.seek(8 * at)
            file.write(put.to_bytes(8, "little"))
    return word


def torn(kind):
    """Regions that differ, under each state, and a word that is damaged."""
    heap = os.path.join(tempfile.mkdtemp(), "heap")
    filled(kind, heap, 6, 12)
    region, was, script = 16 + 6 * 64, sizes(heap), scripts(heap)
    kept = open(heap, "rb").read()
    main, back = 8, 8 + region
    for state, broken, line in (MUTATING, main, "back: a batch is under way"), (COPYING, back, "main: a copy is under way"):
        word_of(heap, 3, state)
        for at in range(region):
            word_of(heap, broken + at, 77)
        expect(sizes(heap), {**was, "region": line}, f"check under state {state}")
        expect(scripts(heap), script, f"the script under state {state}")
        new = os.path.join(tempfile.mkdtemp(), "new")
        if state == MUTATING:
            expect(sizes(grown(heap, 7)), was, "what grows from back")
            expect(dumped("copy", heap, new)[0], 0, "a copy from back")
            expect(sizes(new), was, "that copy")
        else:
            for command in ["copy", heap, new], ["grow", heap, new, "--order", "7"]:
                expect(dumped(*command), (3, "refused: a batch is not finished\n"), f"{command[0]} under COPYING")
            expect(os.path.exists(new), False, "a copy of an unfinished batch")
        gauges = measures(heap)
        expect((gauges["romulus_state"], gauges["romulus_kind"]), (str(state), str(kind.number)), "the state and the kind")
        open(heap, "wb").write(kept)
    # One bit of the count in main, under IDLE.
    word_of(heap, main + 2, word_of(heap, main + 2) ^ 1)
    status, text = dumped("check", heap)
    expect((status, text.startswith("refused: twins differ at 2, ")), (3, True), f"check of a damaged word, which tells {text}")
    for command in ["metrics", heap], ["copy", heap, new], ["grow", heap, new, "--order", "7"]:
        status, text = dumped(*command)
        expect((status, text.startswith("refused: twins differ at 2, ")), (3, True), f"{command[0]} of a damaged word")
    expect(os.path.exists(new), False, "a new file of a damaged heap")
    expect(sizes(heap, "--from", "back"), {**was, "region": "back by itself"}, "back by itself")
    expect(dumped("script", heap, "--from", "back"), (0, script[0]), "the script of back")
    word_of(heap, back, 77)
    status, text = dumped("check", heap, "--from", "back")
    expect((status, text), (3, "refused: malformed at 0, rule root\n"), "a kind that there is not")
    open(heap, "wb").write(kept[: len(kept) // 2])
    status, text = dumped("script", heap)
    expect((status, text.startswith("refused: too small, need ")), (3, True), f"half of a file, which tells {text}")
    return "read from the region that counts; a damaged word is refused, and back by itself is read"


def measures(heap):
    """The gauges of a heap, each of which has its type."""
    status, text = dumped("metrics", heap)
    expect(status, 0, f"metrics tells {text}")
    lines = text.splitlines()
    types = [line.split() for line in lines[::2]]
    gauges = dict(line.rsplit(" ", 1) for line in lines[1::2])
    expect([[f"{name.split('{')[0]}"] for name in gauges], [line[2:3] for line in types], "the types")
    expect({(line[0], line[1], line[3]) for line in types}, {("#", "TYPE", "gauge")}, "the lines of types")
    return gauges


def watched(kind):
    """The gauges of a heap that is new, and of one that is full."""
    heap = os.path.join(tempfile.mkdtemp(), "heap")
    kind.format(heap, 4)
    gauges = measures(heap)
    expect((gauges["romulus_updates"], gauges["romulus_free_percent"]), ("0", "100"), "a new heap")
    for line in (line for line, _ in words(kind, 40, 2)):
        kind.run(heap, line + "\n") if kind is not BLOBS else kind.run(heap, line.split()[0] + " " + line.split()[1] + " -\n")
    gauges = measures(heap)
    expect((gauges["romulus_updates"], gauges["romulus_free_percent"]), ("40", "0"), "a full heap")
    return f"{len(gauges)} gauges"


def in_use(kind):
    """A heap that another program has locked is read."""
    heap = os.path.join(tempfile.mkdtemp(), "heap")
    filled(kind, heap, 6, 12)
    was, script = check(heap), scripts(heap)
    with subprocess.Popen(["flock", "-x", heap, "sh", "-c", "echo; cat"], stdin=PIPE, stdout=PIPE) as holder:
        expect(holder.stdout.readline(), b"\n", "the lock")
        expect(check(heap), was, "check of a heap in use")
        expect(scripts(heap), script, "script of a heap in use")
        expect(measures(heap)["romulus_kind"], str(kind.number), "metrics of a heap in use")
        expect(sizes(grown(heap, 7)), sizes(heap), "grow of a heap in use")
        copy = heap + ".copy"
        expect(dumped("copy", heap, copy)[0], 0, "a copy of a heap in use")
        expect(sizes(copy), sizes(heap), "that copy")
        holder.stdin.close()
    return "check, script, metrics, copy and grow beside another program"


def at_work(kind):
    """A heap that a talk changes: each look has what was told."""
    heap = os.path.join(tempfile.mkdtemp(), "heap")
    kind.format(heap, 8)
    given = [GIVEN.talk, heap] if kind is TRIO else [getattr(GIVEN, kind.program), "talk", heap]
    with subprocess.Popen(given, stdin=PIPE, stdout=PIPE, bufsize=0) as talk:
        for at, (line, _) in enumerate(words(kind, 200, 3), 1):
            talk.stdin.write(f"{line}\n".encode())
            talk.stdout.readline()
            if at % 50 == 0:
                new = grown(heap, 9)
                for file in heap, new:
                    expect((check(file)["count"], measures(file)["romulus_updates"]), (str(at), str(at)), "the count")
                expect(scripts(new), scripts(heap), "the script")
        talk.stdin.close()
        expect(talk.wait(), 0, "the end of the talk")
    return "200 updates, four looks"


def named():
    """A heap that has a name keeps it, and tells it to a monitor."""
    heap = os.path.join(tempfile.mkdtemp(), "heap")
    TRIO.format(heap, 6)
    expect(told(GIVEN.talk, "--ship", heap + ".frames", heap, input=b"enq 1\nput 2 3\n")[0], 0, "a talk that ships")
    new, line = grown(heap, 7), check(heap)["name"]
    expect(check(new)["name"], line, "the name of what has grown")
    expect(measures(new)[f'romulus_epoch{{name="{line.split()[0]}"}}'], line.split()[2], "its epoch")
    expect(told(GIVEN.talk, "--ship", new + ".frames", new, input=b"deq\n")[1], "head 1 @2\n", "the talk that goes on")
    return f"name {line}"


def strangers():
    """Each program on the heaps of the others."""
    heaps = {}
    for kind in TRIO, BLOBS, ORDERED:
        heaps[kind] = os.path.join(tempfile.mkdtemp(), "heap")
        filled(kind, heaps[kind], 5, 5)
    for kind, other in itertools.permutations(heaps, 2):
        line = "refused: malformed at 0, rule root\n" if kind is TRIO else f"refused: another kind, {other.name}\n"
        for program in [kind.program, "ledger", "talk"] if kind is TRIO else [kind.program]:
            given = ["talk", heaps[other]] if program != "talk" else [heaps[other]]
            if program == "program":
                given = ["run", heaps[other], "/dev/null"]
            ran = subprocess.run([getattr(GIVEN, program), *given], input=b"", stdout=PIPE, stderr=PIPE, timeout=60)
            expect((ran.returncode, ran.stdout.decode()), (3, line), f"{program} on {other.name}")
            if kind is TRIO:
                expect(f"a heap of {other.name}, for romulus_" in ran.stderr.decode(), True, f"standard error of {program} on {other.name}")
    return "each tells the kind that it met"


def fast():
    """A full heap of order 12 as one of order 16, where a sync costs nothing."""
    heap = os.path.join(tempfile.mkdtemp(dir=GIVEN.memory), "heap")
    TRIO.format(heap, 12)
    TRIO.run(heap, "".join("tx " + " ; ".join(f"put {8 * at + k} {k}" for k in range(8)) + "\n" for at in range(480)))
    expect(check(heap)["free"], "0", "the room")
    new, begun = f"{heap}.grown", time.monotonic()
    expect(dumped("grow", heap, new, "--order", "16"), (0, "grown order 16 count 480\n"), "grow")
    return f"{(time.monotonic() - begun) * 1000:.0f} ms for a full order 12 to 16"


def alone(row):
    """A row, whose heaps are gone behind it; a line that is not there is a failure."""
    with tempfile.TemporaryDirectory(dir=GIVEN.memory) as tempfile.tempdir:
        try:
            return row()
        except KeyError as missing:
            raise ValueError(f"no line begins with {missing}") from missing


SIZES = [(4, 0), (4, 40), (9, 700), (13, 12000)] + ([] if "--short" in sys.argv else [(16, 80000)])

ROWS = {
    **{f"{kind.program}, order {order}, {many}": partial(round_trip, kind, order, many)
       for kind in (TRIO, BLOBS, ORDERED) for order, many in SIZES},
    **{f"{kind.program}, torn": partial(torn, kind) for kind in (TRIO, BLOBS, ORDERED)},
    **{f"{kind.program}, watched": partial(watched, kind) for kind in (TRIO, BLOBS, ORDERED)},
    **{f"{kind.program}, in use": partial(in_use, kind) for kind in (TRIO, BLOBS, ORDERED)},
    **{f"{kind.program}, at work": partial(at_work, kind) for kind in (TRIO, BLOBS, ORDERED)},
    "ledger, order 9, 700": partial(round_trip, LEDGER, 9, 700),
    "named": named,
    "strangers": strangers,
    "fast": fast,
}


if __name__ == "__main__":
    replica.find(program="romulus", blob="romulus_blob", order="romulus_order", ledger="romulus_ledger", talk="romulus_talk", dump="romulus_dump")
    memory = "/dev/shm" if os.path.isdir("/dev/shm") else None
    sys.exit(replica.main("kinds", {name: partial(alone, row) for name, row in ROWS.items()}, 120, memory))
