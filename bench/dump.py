#!/usr/bin/env python3
"""The rows of dump.sh on a heap that a talk has open. Its client says enq 1, deq, enq 2, deq and so on, so the count says what
is in the heap. What a row demands holds however fast the disk is, and however the system shares out its processors.

Usage, from any folder, once the programs are built: bench/dump.py [ROW..], the rows by their names
"""
import os
import signal
import subprocess
import sys
import time
from functools import partial
from subprocess import PIPE

sys.dont_write_bytecode = True  # the gate runs this

import replica
from replica import need, wait_for
from talk import GIVEN, Talk, Wrong, converse, expect, new_heap, told

BUSY = 3, "refused: in use, and too busy\n"


def line_at(place):
    return "deq" if place % 2 else f"enq {place // 2 + 1}"


def script_at(count):
    return f"enq {count // 2 + 1}\n" if count % 2 else ""


def expect_script(file, count):
    expect(told(GIVEN.dump, "script", file), (0, script_at(count)), f"the script at {count}")


def expect_check(file, first, order, count):
    status, text = told(GIVEN.dump, "check", file)
    sizes = [first, "kind a queue, a set and a map", f"order {order}", f"count {count}", f"queue {count % 2} set 0 map 0"]
    expect((status, text.splitlines()[:5]), (0, sizes), "what check tells")


def copied(order, count):
    return 0, f"copied order {order} count {count}\n"


def at_rest(order):
    """A talk that waits for its client's next line: each look tells all that was told, and no more."""
    heap = new_heap(order)
    with Talk(heap, 1) as talk:
        client = talk.meet(0)
        for count in 5, 10, 15:
            converse([client], {client: iter([[line_at(place) for place in range(count - 5, count)]])})
            copy = f"{heap}.{count}"
            expect(told(GIVEN.dump, "copy", heap, copy), copied(order, count), "a copy")
            for file in heap, copy:
                expect_script(file, count)
                expect_check(file, "region both: idle", order, count)
        client.close()
        expect(talk.end(), (0, "", ""), "the end of the talk")
    return "copies, scripts and sizes are those of the last reply, at three counts"


class Eager:
    """A client that always has so many lines waiting, so that its talk does not pause."""

    WAITING = 50

    def __init__(self, client):
        self.client, self.said, self.heard = client, 0, 0

    def hear(self):
        replies = self.client.replies()
        if not replies:
            raise Wrong("the talk ended before its last reply")
        self.heard += len(replies)
        place = self.heard - 1
        wanted = f"head {place // 2 + 1} @{place}" if place % 2 else f"queued @{place}"
        expect(replies[-1], wanted, "a reply")

    def go_on(self, is_going):
        while is_going():
            until = self.heard + self.WAITING
            self.client.say(*map(line_at, range(self.said, until)))
            self.said = until
            self.hear()

    def rest(self):
        while self.heard < self.said:
            self.hear()

    def beside(self, *words):
        """What romulus_dump tells, how many updates had been told before it began, and whether it ended beside the client at
        work. That rests a quarter of a second later: then no disk is too fast for a look at the heap."""
        self.go_on(lambda goal=self.heard + 20: self.heard < goal)
        before, until = self.heard, time.monotonic() + 0.25
        looking = subprocess.Popen([GIVEN.dump, *words], stdout=PIPE)
        self.go_on(lambda: looking.poll() is None and time.monotonic() < until)
        beside = looking.poll() is not None
        if not beside:
            self.rest()
        text = looking.communicate()[0].decode()
        expect(looking.returncode, 0, f"romulus_dump {words[0]} tells {text}")
        return text, before, beside


def in_use(order):
    """A client that does not pause: each copy is what its count makes, has what was told before it, and nothing that was not
    said yet."""
    heap, looks = new_heap(order), []
    with Talk(heap, 1) as talk:
        eager = Eager(talk.meet(0))
        for number in range(8):
            copy = f"{heap}.{number}"
            text, before, beside = eager.beside("copy", heap, copy)
            count = int(text.split()[-1])
            expect((0, text), copied(order, count), "a copy")
            expect(before <= count <= eager.said, True, f"a copy at {count}: {before} were told before it, {eager.said} said")
            expect_script(copy, count)
            looks.append(beside)
        for _ in range(2):
            text, before, beside = eager.beside("check", heap)
            count = int(text.splitlines()[3].split()[1])
            expect(before <= count <= eager.said, True, f"a check at {count}: {before} were told before it, {eager.said} said")
            expect(f"queue {count % 2} set 0 map 0" in text, True, f"a check at {count}, which tells {text}")
            looks.append(beside)
        eager.rest()
        expect_check(heap, "region both: idle", order, eager.said)
        eager.client.close()
        expect(talk.end(), (0, "", ""), "the end of the talk")
    return f"{len(looks)} looks, {sum(looks)} of which ended beside the client at work, up to count {count} of {eager.said}"


class Standing(Talk):
    """A talk on a heap of count 1 that stands still behind a sync of its next update, by a signal that strace gives it."""

    def __init__(self, order, sync=None):
        self.heap = new_heap(order)
        expect(told(GIVEN.talk, self.heap, input=b"enq 1\n"), (0, "queued @0\n"), "a talk")
        self.calls = self.heap + ".calls"
        stop = ["-e", f"inject=fdatasync:signal=SIGSTOP:when={sync}"] if sync else []
        # By -D the process that is started is the talk.
        super().__init__(self.heap, 0, ["strace", "-D", "-f", "-qq", "-o", self.calls, "-e", "trace=fdatasync", *stop])
        self.client = self.standard()
        if sync:
            self.client.say(line_at(1))
            wait_for("the stop of the talk", lambda: "stopped by SIGSTOP" in self.traced())

    def traced(self):
        """The syncs so far, and where it was stopped."""
        if not os.path.exists(self.calls):
            return ""
        with open(self.calls) as calls:
            return calls.read()


def syncs_of_opening(order):
    with Standing(order) as talk:
        expect(talk.client.ask("len"), "queue 1 set 0 map 0 #1", "a query")
        return talk.traced().count("fdatasync(")


def stages(order):
    """A talk that stands still behind each sync of one update, MUTATING, main, COPYING and back: what a look tells is determined.
    Then it is killed, and what it leaves is told."""
    need("strace")
    opening = syncs_of_opening(order)
    with Standing(order, opening + 3) as half, Standing(order, opening + 3) as going:
        # Back is not main yet, and stays so.
        tried = ["check", half.heap], ["copy", half.heap, half.heap + ".copy"]
        looks = [subprocess.Popen([GIVEN.dump, *words], stdout=PIPE) for words in tried]
        for sync, count in (1, 1), (2, 1), (4, 2):
            with Standing(order, opening + sync) as talk:
                copy = talk.heap + ".copy"
                expect(told(GIVEN.dump, "copy", talk.heap, copy), copied(order, count), f"a copy behind sync {sync}")
                expect_script(copy, count)
                expect_check(talk.heap, "region both: idle", order, count)
            stood = "region main: a copy is under way" if count == 2 else "region back: a batch is under way"
            expect_check(talk.heap, stood, order, count)
        copy = going.heap + ".copy"
        copying = subprocess.Popen([GIVEN.dump, "copy", going.heap, copy], stdout=PIPE)
        time.sleep(0.2)  # most often it has looked by then; it tells the same where it has not
        expect(copying.poll(), None, "a copy behind sync 3, before the talk goes on")
        release(going)
        expect((copying.wait(), copying.stdout.read().decode()), copied(order, 2), "a copy behind sync 3, once the talk goes on")
        expect_script(copy, 2)
        for look in looks:
            expect((look.wait(), look.stdout.read().decode()), BUSY, "a look behind sync 3, while the talk stands still")
        expect(os.path.exists(half.heap + ".copy"), False, "a copy of a heap that is too busy")
    expect_check(half.heap, "region main: a copy is under way", order, 2)
    return "behind syncs 1 and 2 the old count, behind 3 too busy until the talk goes on, behind 4 the new count"


def release(talk):
    """The talk that stood still tells its update, and ends."""
    talk.process.send_signal(signal.SIGCONT)
    expect(talk.client.replies(), ["head 1 @1"], "the reply once the talk goes on")
    talk.process.stdin.close()


ROWS = {
    **{f"at rest, order {order}": partial(at_rest, order) for order in (4, 8, 12, 16)},
    **{f"in use, order {order}": partial(in_use, order) for order in (4, 8, 12, 16)},
    "stages": partial(stages, 8),
}


if __name__ == "__main__":
    replica.find(program="romulus", talk="romulus_talk", dump="romulus_dump")
    sys.exit(replica.main("dump", ROWS, 120))
