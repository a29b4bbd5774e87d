"""What is cut, and which disks are looked at behind it. Each case gets a row, a source of numbers and a result."""
import os
import shutil
import tempfile
import time
from dataclasses import dataclass, field

from disk import ANY, events
from heap import COPYING, IDLE, Broken, Contents
from lazy import Lazy
from mounts import Noise, Rig, cuts, unmount
from program import (
    FAILED, FORMATTED, IS_VERSION_2, OPTIONS, UPGRADED, expect, formatted, group, no_new_heap, not_upgraded, not_whole,
    prepare, script_in, states_of, told, update,
)

PIECE = 1024  # the least block of a file system here


@dataclass
class Result:
    """How many disks were looked at, and what each had lost that had."""

    disks: int = 0
    lost: list = field(default_factory=list)

    def judge(self, why, *words):
        """Looks at one: `why` says what is lost there, or nothing."""
        self.disks += 1
        try:
            reason = why(*words)
        except (Broken, OSError) as error:
            reason = str(error)
        if reason:
            self.lost.append(reason)

    def judge_cut(self, rig, blocks, why, *words):
        try:
            folder = rig.mount_cut(blocks)
        except OSError as error:
            self.judge(lambda: str(error))
            return
        try:
            self.judge(why, os.path.join(folder, "heap"), *words)
        finally:
            rig.unmount_cut()


def history(before, scripts, text):
    """The states that the updates of a run's text led through, by their counts."""
    replies, at_place = iter(text.splitlines()), {}
    for script in scripts:
        next(replies)  # the line of the caller
        at_place |= {int(next(replies).rpartition("@")[2]): line for line in script}
    return states_of(before, [at_place[before.count + i] for i in range(len(at_place))])


def batches(notes, count):
    """The count behind each batch that a run committed, when that began, and when it was certain."""
    found = [(count, 0.0, 0.0)]
    with open(notes) as file:
        for what, begun, answered, answer, state, new_count in map(str.split, file):
            if what == "write" and new_count != "-1":
                count = int(new_count)
            if what == "write" and int(state) == COPYING:
                found.append((count, float(begun), float("inf")))
            elif what == "sync" and answer == "0" and found[-1][2] == float("inf"):
                found[-1] = (*found[-1][:2], float(answered))
    return found


def cut_run(row, drawn, result):
    """Cuts under a run. Each heap has whole batches: all that were certain then, and none that was not begun."""
    rig = Rig(row.kind)
    before = prepare(rig, drawn)
    scripts = [[update(drawn) for _ in range(48 // row.callers + 12)] for _ in range(row.callers)]
    files = [script_in(rig.folder, f"script{i}", lines) for i, lines in enumerate(scripts)]
    rig.start()
    heap, notes, begun = os.path.join(rig.mounted, "heap"), os.path.join(rig.folder, "notes"), time.monotonic()
    with Noise(heap, drawn.random()):
        status, text = told("run", heap, *files, left_out=row.left_out, notes=notes)
        ended = time.monotonic()
    rig.stop()
    expect(status, 0)
    states, committed = history(before, scripts, text), batches(notes, before.count)
    expect(committed[-1][0], max(states))
    for until, blocks in cuts(rig, drawn, OPTIONS.moments, begun, ended):
        least = max(count for count, _, certain in committed if certain < until)
        counts = {count for count, commit_begun, _ in committed if commit_begun < until and count >= least}
        result.judge_cut(rig, blocks, not_whole, states, counts)
    rig.close()


def cut_format(row, drawn, result):
    rig = Rig(row.kind)
    rig.start()
    heap, begun = os.path.join(rig.mounted, "heap"), time.monotonic()
    with Noise(heap, drawn.random()):
        expect(formatted(heap, row.left_out), FORMATTED)
        ended = time.monotonic()
    rig.stop()
    for until, blocks in cuts(rig, drawn, OPTIONS.moments, begun, ended):
        result.judge_cut(rig, blocks, no_new_heap, ended < until)
    rig.close()


def cut_upgrade(row, drawn, result):
    rig = Rig(row.kind)
    before = prepare(rig, drawn, version=1)
    rig.start()
    heap, begun = os.path.join(rig.mounted, "heap"), time.monotonic()
    with Noise(heap, drawn.random()):
        expect(told("upgrade", heap, left_out=row.left_out), UPGRADED)
        ended = time.monotonic()
    rig.stop()
    for until, blocks in cuts(rig, drawn, OPTIONS.moments, begun, ended):
        result.judge_cut(rig, blocks, not_upgraded, before, ended < until)
    rig.close()


def cut_upgrade_again(row, drawn, result):
    """The write fails that commits an upgrade; then another one on the same mount, with cuts in it."""
    for _ in range(OPTIONS.trials):
        rig = Rig(row.kind)
        before = prepare(rig, drawn, version=1)
        control = rig.start()
        heap = os.path.join(rig.mounted, "heap")
        control.fail(1, COPYING)
        expect((told("upgrade", heap), control.be_well()), (FAILED, 1))
        begun = time.monotonic()
        with Noise(heap, drawn.random()):
            expect(told("upgrade", heap, left_out=row.left_out), IS_VERSION_2)
            ended = time.monotonic()
        rig.stop()
        for until, blocks in cuts(rig, drawn, OPTIONS.moments // 2, begun, ended):
            result.judge_cut(rig, blocks, not_upgraded, before, ended < until)
        rig.close()


def left_by_fault(before, lines, text):
    """The states that a run of one caller may have left where a write failed, by their counts: two behind a doubt."""
    states, now = {before.count: before}, before
    for line, reply in zip(lines, text.splitlines()[1:-1]):
        if "@" in reply or reply == "doubt":
            both = states_of(now, [line])
            states = both if reply == "doubt" else {max(both): both[max(both)]}
            now = now if reply == "doubt" else both[max(both)]
    return states


def fault_then_stat(row, drawn, result, updates, nth, state):
    """A write fails under a run, and then the disk is well; then `stat` on the same mount, with cuts in it.

    Returns whether an update is in doubt behind the run.
    """
    rig = Rig(row.kind)
    before, lines = prepare(rig, drawn), [group(drawn, 8) for _ in range(updates)]
    control = rig.start()
    heap = os.path.join(rig.mounted, "heap")
    control.fail(nth, state)
    status, text = told("run", heap, script_in(rig.folder, "script", lines))
    expect(status in ((0, 7) if control.be_well() else (0,)), True)
    states, well = left_by_fault(before, lines, text), time.monotonic()
    with Noise(heap, drawn.random()):
        status, text = told("stat", heap, left_out=row.left_out)
        ended = time.monotonic()
    rig.stop()
    settled = {int(text.split()[3])} if status == 0 else set(states)
    for until, blocks in cuts(rig, drawn, OPTIONS.moments // 2, well, ended):
        result.judge_cut(rig, blocks, not_whole, states, settled if ended < until else set(states))
    rig.close()
    return len(states) == 2


def cut_doubt(row, drawn, result):
    """The write of the page fails that commits the second update, the last one."""
    for _ in range(OPTIONS.trials):
        expect(fault_then_stat(row, drawn, result, 2, 2, COPYING), True)


def cut_fault(row, drawn, result):
    """Any write fails."""
    for _ in range(OPTIONS.trials):
        fault_then_stat(row, drawn, result, 8, drawn.randint(1, 80), ANY)


def pieces(data):
    return (data[at : at + PIECE] for at in range(0, len(data), PIECE))


def writes_of_new_heap(kind):
    """Which writes of a disk `format` makes with words of the heap, counted from its begin."""
    rig = Rig(kind)
    rig.start()
    heap, begun = os.path.join(rig.mounted, "heap"), len(events(rig.log))
    expect(formatted(heap), FORMATTED)
    with open(heap, "rb") as file:
        words = file.read()
    rig.stop()
    of_heap = set(pieces(words)) - {bytes(PIECE)}
    writes = [data for what, _, _, data in events(rig.log)[begun:] if what == "w"]
    rig.close()
    return [nth for nth, data in enumerate(writes, 1) if not of_heap.isdisjoint(pieces(data))]


def format_again(row, drawn, result):
    """One write of a `format` fails: one with words of the regions, or that of the magic."""
    of_heap = writes_of_new_heap(row.kind)
    faults = [(nth, ANY) for nth in drawn.sample(of_heap, min(len(of_heap), OPTIONS.trials))] + [(1, IDLE)]
    expect(sum(one_format_again(row, drawn, result, *fault) for fault in faults) > 1, True)


def one_format_again(row, drawn, result, nth, state):
    """After a `format` that failed another one, and a run: what these told is there behind a clean end and a cut.

    Returns whether the first one failed by that write, and the run was done.
    """
    rig = Rig(row.kind)
    control = rig.start()
    heap, lines = os.path.join(rig.mounted, "heap"), ["enq 7", "put 1 2", "add 3"]
    states, script = states_of(Contents(), lines), script_in(rig.folder, "script", lines)
    control.fail(nth, state)
    first = formatted(heap)
    failed = control.be_well()
    second, begun = formatted(heap, row.left_out), time.monotonic()
    status, _ = told("run", heap, script)
    ended = time.monotonic()
    rig.mount_again()
    if status == 0:
        result.judge(not_whole, heap, states, {len(lines)})
    rig.stop()
    for until, blocks in cuts(rig, drawn, OPTIONS.trials, begun, ended):
        if status == 0 and ended < until:
            result.judge_cut(rig, blocks, not_whole, states, {len(lines)})
        elif second == FORMATTED:
            result.judge_cut(rig, blocks, not_whole, states, set(states))
    rig.close()
    return (failed, first, status) == (1, FAILED, 0)


def keep_what_was_synced(row, drawn, result):
    """A new heap and a run on a file system that keeps through a cut what was synced, and nothing else."""
    folder, plain = tempfile.mkdtemp(), tempfile.mkdtemp()
    server, heap, script = Lazy(folder), os.path.join(folder, "heap"), script_in(plain, "script", ["enq 7"])
    states = states_of(Contents(), ["enq 7"])
    expect(formatted(heap, row.left_out), FORMATTED)
    behind_format = server.kept()
    expect(told("run", heap, script, left_out=row.left_out)[0], 0)
    unmount(folder)
    server.thread.join()
    for count, files in enumerate([behind_format, server.kept()]):
        for name, data in files.items():
            with open(os.path.join(plain, name), "wb") as file:
                file.write(data)
        result.judge(not_whole, os.path.join(plain, "heap"), states, {count})
    shutil.rmtree(plain)


CASES = {
    "run": cut_run,
    "format": cut_format,
    "upgrade": cut_upgrade,
    "upgrade again": cut_upgrade_again,
    "doubt": cut_doubt,
    "fault": cut_fault,
    "format again": format_again,
    "synced": keep_what_was_synced,
}
