"""The program at work on a heap in a file, and what a heap is to hold."""
import argparse
import os
import random
import subprocess

from heap import IDLE, Contents, Heap, as_version_1
from mounts import unmount

ORDER = 12
FORMATTED = (0, f"formatted order {ORDER}\n")
UPGRADED = (0, f"upgraded order {ORDER}\n")
IS_VERSION_2 = (3, "refused: region version 2\n")
FAILED = (7, "device failed\n")
OPTIONS = argparse.Namespace()  # of the command line
# Keys of set and map. They have nothing in common, so that some buckets have several.
KEYS = random.Random(0).sample(range(2**62), 2000)


def told(*words, left_out="", notes=""):
    """Runs the program. Returns its status and its text."""
    environment = dict(os.environ)
    if left_out or notes:
        environment |= {"LD_PRELOAD": OPTIONS.calls, "POWER_LEAVE_OUT": left_out}
    if notes:
        environment["POWER_NOTES"] = notes
    ran = subprocess.run([OPTIONS.program, *words], stdout=subprocess.PIPE, env=environment, timeout=60)
    return ran.returncode, ran.stdout.decode()


def formatted(heap, left_out=""):
    return told("format", heap, "--order", str(ORDER), left_out=left_out)


def expect(answer, wanted):
    if answer != wanted:
        raise AssertionError(f"{answer} in place of {wanted}")


def script_in(folder, name, lines):
    path = os.path.join(folder, name)
    with open(path, "w") as file:
        file.writelines(line + "\n" for line in lines)
    return path


def single(drawn):
    """An update of one member."""
    what = drawn.choice(["enq", "enq", "deq", "add", "rem", "put", "put", "del"])
    key, value = drawn.choice(KEYS), drawn.randrange(1000)
    return {"deq": "deq", "put": f"put {key} {value}"}.get(what, f"{what} {key}")


def group(drawn, members):
    return "tx " + " ; ".join(single(drawn) for _ in range(members))


def update(drawn):
    return group(drawn, drawn.randint(2, 8)) if drawn.random() < 0.3 else single(drawn)


def filling(drawn):
    """Groups of updates behind which a heap has elements in many pages."""
    lines = [f"enq {i}" for i in range(300)]
    lines += [f"add {key}" for key in KEYS[500:800]]
    lines += [f"put {key} {key % 1000}" for key in KEYS[:600]]
    drawn.shuffle(lines)
    return ["tx " + " ; ".join(lines[i : i + 8]) for i in range(0, len(lines), 8)]


def states_of(before, lines):
    """The states that these updates lead through, by their counts."""
    states = {before.count: before}
    for line in lines:
        after = states[max(states)].copy()
        after.update(line)
        states[after.count] = after
    return states


def prepare(rig, drawn, version=2):
    """Makes a heap with elements on a file system below which no disk stands yet. Returns what it holds."""
    heap, lines = os.path.join(rig.mount_base(), "heap"), filling(drawn)
    expect(formatted(heap), FORMATTED)
    expect(told("run", heap, script_in(rig.folder, "filling", lines))[0], 0)
    if version == 1:
        with open(heap, "r+b") as file:
            old = as_version_1(file.read())
            file.seek(0)
            file.write(old)
    unmount(rig.mounted)
    states = states_of(Contents(), lines)
    return states[max(states)]


def heap_at(path):
    with open(path, "rb") as file:
        return Heap(file.read())


def unsettled(path, wanted):
    """What is wrong where `stat` is to open this heap, recover it, and tell what it holds."""
    answer = told("stat", path)
    if answer != (0, wanted.shown(ORDER)):
        return f"stat tells {answer}"
    heap = heap_at(path)
    return None if heap.state == IDLE and heap.contents() == wanted else "another heap behind stat"


def not_whole(path, states, counts):
    """What is wrong where this heap is to have one of these counts, and the state that belongs to it."""
    found = heap_at(path).contents()
    if found.count not in counts:
        return f"count {found.count}, and it is to be one of {sorted(counts)}"
    return "another state" if found != states[found.count] else unsettled(path, found)


def no_new_heap(path, is_told):
    """What is wrong where a new heap is to be there. Where `format` had not ended, there may be none yet."""
    empty = (0, Contents().shown(ORDER))
    found = told("stat", path) if os.path.exists(path) else (7, "no file")
    if found == empty:
        return None
    if is_told or not found[1].startswith(("no file", "refused: not a heap", "refused: too small")):
        return f"stat tells {found}"
    again = formatted(path), told("stat", path)
    return None if again == (FORMATTED, empty) else f"another format, and stat: {again}"


def not_upgraded(path, wanted, is_told):
    """What is wrong where a heap of version 2 is to be there, or of version 1 where `upgrade` had not ended."""
    heap = heap_at(path)
    if heap.contents() != wanted:
        return "another state"
    if heap.version() == 1 and is_told:
        return "version 1 behind upgrade"
    again = told("upgrade", path) if heap.version() == 1 else UPGRADED
    return f"another upgrade: {again}" if again != UPGRADED else unsettled(path, wanted)
