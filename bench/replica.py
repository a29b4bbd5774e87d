#!/usr/bin/env python3
"""A heap that ships its frames while clients talk to it, and a follower of it, on real processes. It prints a row for each
thing that is looked at, and fails where a row does. A row is a function that tells what it saw, or raises Wrong.

What a row demands holds however the system shares out its processors: where a moment matters it is waited for.

Usage, from any folder, once the programs are built: bench/replica.py [--short] [ROW..], the rows by their names
"""
import fcntl
import os
import random
import re
import select
import shutil
import signal
import subprocess
import sys
import tempfile
import termios
import threading
import time
from functools import partial
from subprocess import DEVNULL, PIPE

sys.dont_write_bytecode = True  # the gate runs this

import talk
from talk import GIVEN, Talk, Wrong, converse, expect, new_heap, stat, told


STARTED = []  # processes of a row, which may not outlive it


def need(tool):
    if not shutil.which(tool):
        raise Wrong(f"{tool} is not here, so nothing was looked at")


def wait_for(what, has_come):
    """Waits until that has come, for a minute at most."""
    until = time.monotonic() + 60
    while not has_come():
        if time.monotonic() > until:
            raise Wrong(f"{what} did not come in a minute")
        time.sleep(0.005)


def bytes_in(pipe):
    """How many bytes wait in a pipe."""
    return int.from_bytes(fcntl.ioctl(pipe, termios.FIONREAD, bytes(4)), sys.byteorder)


class Primary(Talk):
    """The program with so many clients at named pipes, which ships to this stream."""

    def __init__(self, heap, clients, stream, wrap=()):
        super().__init__("--ship", clients, wrap=wrap, names=(stream, heap))


class Follower:
    """A follower of a stream: of a file also what is still to come, as the page has it."""

    def __init__(self, heap, stream, wrap=()):
        self.parts, words = [], [*wrap, GIVEN.replica, "follow", heap]
        if os.path.exists(stream) and not os.path.isfile(stream):
            self.process = subprocess.Popen([*words, stream], stdin=DEVNULL, stdout=PIPE, stderr=PIPE)
        else:
            wait_for("the stream's file", lambda: os.path.exists(stream))
            self.follow_a_reader(words, "tail", "-c", "+1", "-f", stream)
        self.parts.append(self.process)
        STARTED.extend(self.parts)

    def follow_a_reader(self, words, *reader):
        reading = subprocess.Popen(reader, stdout=PIPE, stderr=DEVNULL)
        self.process = subprocess.Popen([*words, "/dev/stdin"], stdin=reading.stdout, stdout=PIPE, stderr=PIPE)
        # Else the reader would not learn that the follower is gone.
        reading.stdout.close()
        self.parts.append(reading)

    def kill(self):
        for part in self.parts:
            part.kill()
            part.wait()

    def end(self):
        """How it ended, and what it printed, once its stream has."""
        out, _ = self.process.communicate(timeout=600)
        for part in self.parts[:-1]:
            part.kill()
            part.wait()
        return self.process.returncode, out.decode()


# It keeps what it reads before it hands that on: so no follower has what is not kept.
KEEPING = """
import os, sys
kept = os.open(sys.argv[2], os.O_WRONLY | os.O_CREAT)
stream = os.open(sys.argv[1], os.O_RDONLY)
while piece := os.read(stream, 1 << 16):
    for out in kept, 1:
        left = piece
        while left:
            left = left[os.write(out, left) :]
"""


class KeptFollower(Follower):
    """A follower at a pipe, whose bytes are kept in a file on their way to it."""

    def __init__(self, heap, stream, kept):
        self.parts = []
        self.follow_a_reader([GIVEN.replica, "follow", heap], sys.executable, "-ISc", KEEPING, stream, kept)
        self.parts.append(self.process)
        STARTED.extend(self.parts)
        wait_for("the kept file", lambda: os.path.exists(kept))


def script_of(heap):
    status, text = told(GIVEN.dump, "script", heap)
    expect(status, 0, f"romulus_dump tells {text[:80]}")
    return text


def name_of(heap):
    status, text = told(GIVEN.dump, "check", heap)
    expect(status, 0, f"romulus_dump tells {text[:80]}")
    return text.splitlines()[-1].split()[1]


def count_of(heap):
    return int(stat(heap)["count"])


def count_beside(heap):
    """The count of a heap that another program may have."""
    status, text = told(GIVEN.dump, "check", heap)
    expect(status, 0, f"romulus_dump tells {text[:80]}")
    return int(next(line for line in text.splitlines() if line.startswith("count ")).split()[1])


def follow(heap, stream):
    """Takes a whole file, and gives the numbers of frames that were applied, known and early, and the status."""
    status, text = told(GIVEN.replica, "follow", heap, stream)
    words = text.split()
    return [int(word) for word in words[1:6:2]], status


def make_copy(heap, copy):
    """Makes a heap a copy of another one, by the commands of the page."""
    fresh = copy + ".new"
    status, text = told(GIVEN.dump, "copy", heap, fresh)
    expect(status, 0, f"romulus_dump tells {text[:80]}")
    os.replace(fresh, copy)


def first_frames(kept, many):
    """The head of a stream that was kept, and so many of its frames."""
    with open(kept, "rb") as stream:
        given, end = stream.read(), 0
    for _ in range(many + 1):
        end += 8 * int.from_bytes(given[end:end + 8], "little")
    return given[:end]


def drawn_lines(seed, lines):
    """Lines of one client, most of them updates."""
    drawn = random.Random(seed)
    for _ in range(lines):
        key, value = drawn.randrange(40), drawn.randrange(1000)
        yield [drawn.choice([
            f"enq {value}", "deq", f"add {key}", f"rem {key}", f"put {key} {value}", f"put {key} {value}",
            f"del {key}", f"tx put {key} {value} ; add {key}", f"get {key}",
        ])]


class Told:
    """The last place that a client was told of."""

    def __init__(self):
        self.last = -1

    def hear(self, _, reply):
        if " @" in reply:
            self.last = max(self.last, int(reply.rpartition("@")[2]))


def same_heaps(first, second):
    expect(script_of(second), script_of(first), "that the follower is the primary")
    expect(count_of(second), count_of(first), "the follower's count")


def pipe(callers):
    """Clients at work, and a follower at a pipe: it is the primary at the end, and was never ahead of it."""
    folder, lines = tempfile.mkdtemp(dir=GIVEN.memory), 60 if GIVEN.short else 2000
    first, second, stream = new_heap(8, folder), new_heap(8, folder), os.path.join(folder, "pipe")
    os.mkfifo(stream)
    follower = Follower(second, stream)
    with Primary(first, callers, stream) as primary:
        clients = primary.meet_all()
        converse(clients, {client: drawn_lines(i, lines) for i, client in enumerate(clients)})
        for client in clients:
            client.close()
        expect(primary.end(), (0, "", ""), "the end of the primary")
    status, text = follower.end()
    count = count_of(first)
    expect((status, text), (0, f"applied {count} known 0 early 0\ncount {count}\n"), "the end of the follower")
    same_heaps(first, second)
    return f"{callers} clients: {count} frames by a pipe, the heaps are the same"


def stand_still(process):
    """Stops a process, and comes back once it stands still: until the signal is taken a read may still end."""
    process.send_signal(signal.SIGSTOP)

    def stands():
        with open(f"/proc/{process.pid}/status") as told_process:
            fields = dict(line.split(":\t", 1) for line in told_process)
        waits = int(fields["ShdPnd"], 16) >> signal.SIGSTOP - 1 & 1
        return fields["State"][0] in "tT" and not waits

    wait_for("the stop of a process", stands)


def follow_counted(rounds, together):
    """The syncs of a follower at a pipe behind sixteen clients that say so many lines each, and the frames. Where these are to
    come together the follower stands still while each client says one, and then takes them."""
    folder = tempfile.mkdtemp(dir=GIVEN.memory)
    first, second, stream, calls = new_heap(8, folder), new_heap(8, folder), os.path.join(folder, "pipe"), os.path.join(folder, "calls")
    os.mkfifo(stream)
    # By -D the process that is started is the follower.
    follower = Follower(second, stream, ("strace", "-D", "-f", "-qq", "-o", calls, "-e", "trace=fdatasync,fsync"))
    with Primary(first, 16, stream) as primary:
        clients = primary.meet_all()
        says = {client: drawn_lines(i, rounds) for i, client in enumerate(clients)}
        looked_at = os.open(stream, os.O_RDONLY | os.O_NONBLOCK)
        wait_for("the head to be read", lambda: not bytes_in(looked_at))
        for _ in range(rounds if together else 0):
            stand_still(follower.process)
            converse(clients, {client: iter([next(says[client])]) for client in clients})
            follower.process.send_signal(signal.SIGCONT)
            wait_for("the frames to be read", lambda: not bytes_in(looked_at))
        converse(clients, says)
        for client in clients:
            client.close()
        os.close(looked_at)
        expect(primary.end(), (0, "", ""), "the end of the primary")
    expect(follower.end()[0], 0, "the end of the follower")
    same_heaps(first, second)
    with open(calls) as told_calls:
        return len(re.findall(r"\bf(?:data)?sync\(", told_calls.read())), count_of(first)


def syncs():
    """The syncs of a follower for each frame, where the frames of sixteen clients have come together. Of a follower that
    takes them as they come it is told alone: one that is quicker than its primary finds few."""
    need("strace")
    rounds = 30 if GIVEN.short else 1000
    made, count = follow_counted(rounds, True)
    expect(made <= 0.4 * count + 4, True, f"at most 0.4 syncs a frame: {made} of {count}")
    live, live_count = follow_counted(rounds, False)
    return f"{made / count:.2f} syncs a frame, of {count} that came together; {live / live_count:.2f} as they came"


def counted(*words):
    """The instructions of a command, by callgrind."""
    out = os.path.join(tempfile.mkdtemp(), "out")
    command = ["valgrind", "--tool=callgrind", f"--callgrind-out-file={out}", *words]
    subprocess.run(command, check=True, stdin=DEVNULL, stdout=DEVNULL, stderr=DEVNULL)
    with open(out) as profile:
        return int(next(line for line in profile if line.startswith(("totals:", "summary:"))).split()[1])


def instructions():
    """The instructions of a frame that is followed beside those of an update of a talk that ships it, whose clients' lines are
    in files. Beside sixteen clients they are told alone: how many share a pass under valgrind is chance."""
    need("valgrind")
    lines = 320 if GIVEN.short else 3200

    def counts(many, callers):
        folder = tempfile.mkdtemp()
        first, second, stream, pairs = new_heap(8, folder), new_heap(8, folder), os.path.join(folder, "frames"), []
        for caller in range(callers):
            pairs += [os.path.join(folder, f"{caller}.{way}") for way in ("in", "out")]
            with open(pairs[-2], "w") as said:
                said.writelines(f"put {i % 40} {i}\n" for i in range(caller, many, callers))
        shipped = counted(GIVEN.talk, "--ship", stream, first, *pairs)
        followed = counted(GIVEN.replica, "follow", second, stream)
        same_heaps(first, second)
        return shipped, followed

    rows = []
    for callers in 1, 16:
        short, long = counts(lines, callers), counts(2 * lines, callers)
        shipped, followed = ((b - a) // lines for a, b in zip(short, long))
        if callers == 1:
            expect(followed <= 1.5 * shipped, True, f"at most 1.5 times the primary's instructions: {followed} beside {shipped}")
        rows.append(f"{followed} a frame, {shipped} an update of a primary of {callers}")
    return "; ".join(rows)


def copies():
    """Copies of a heap that sixteen clients are at work on: each has what they were told before, follows the stream of that
    talk, and is the primary at the end."""
    folder, many = tempfile.mkdtemp(dir=GIVEN.memory), 3 if GIVEN.short else 40
    first, stream, heard = new_heap(8, folder), os.path.join(folder, "frames"), Told()
    made, counts = [], []
    with Primary(first, 16, stream) as primary:
        clients = primary.meet_all()
        endless = {client: drawn_lines(i, 10**9) for i, client in enumerate(clients)}

        def go_on():
            converse(clients, {client: iter([next(endless[client]) for _ in range(20)]) for client in clients}, heard=heard.hear)

        while len(made) < many:
            go_on()  # so each copy has more than the one before
            before, copy = heard.last + 1, os.path.join(folder, f"copy.{len(made)}")
            copying = subprocess.Popen([GIVEN.dump, "copy", first, copy], stdout=PIPE)
            while copying.poll() is None:
                go_on()
            text = copying.communicate()[0].decode()
            expect((copying.returncode, text.startswith("copied order 8 count ")), (0, True), f"a copy, told {text!r}")
            made.append(copy)
            counts.append(int(text.split()[-1]))
            behind = heard.last + 1
            expect(before <= counts[-1] <= behind, True, f"a copy at {counts[-1]}: {before} were told before it, {behind} behind it")
        for client in clients:
            client.close()
        expect(primary.end(), (0, "", ""), "the end of the primary")
    expect(sorted({*counts}), counts, "the counts of the copies")
    for copy, count in zip(made, counts):
        expect(count_of(copy), count, "the count of a copy")
        (applied, _, early), status = follow(copy, stream)
        expect((count + applied, early, status), (count_of(first), 0, 0), "what a copy follows")
        same_heaps(first, copy)
    return f"{many} copies at counts from {counts[0]} to {counts[-1]} of {count_of(first)}: each follows"


def killed_followers():
    """A follower that is killed again and again while the primary is at work, and started by the page's command. Every other
    time it has done something before."""
    folder, kills = tempfile.mkdtemp(dir=GIVEN.memory), 6 if GIVEN.short else 200
    first, second, stream = new_heap(8, folder), new_heap(8, folder), os.path.join(folder, "frames")
    counts = [0]
    with Primary(first, 16, stream) as primary:
        clients = primary.meet_all()
        endless = {client: drawn_lines(i, 10**9) for i, client in enumerate(clients)}
        for turn in range(kills):
            follower = Follower(second, stream)
            converse(clients, {client: iter([next(endless[client]) for _ in range(20)]) for client in clients})
            if turn % 2:
                wait_for("the follower's next count", lambda: count_beside(second) > counts[-1])
            else:
                time.sleep(random.random() * 0.05)
            follower.kill()
            counts.append(count_of(second))
        for client in clients:
            client.close()
        expect(primary.end(), (0, "", ""), "the end of the primary")
    expect(sorted(counts), counts, "the counts of the follower")
    (_, _, early), status = follow(second, stream)
    expect((early, status), (0, 0), "the last of the stream")
    same_heaps(first, second)
    grown = len({*counts}) - 1
    expect(grown >= kills // 2, True, f"that the follower did something before half of the kills: {grown} of {kills}")
    return f"{kills} kills, {grown} counts on the way, {counts[-1]} of {count_of(first)} before the last start"


def killed_primaries(callers):
    """A primary that is killed at any moment, and a follower of it: nothing told is missing there. What was done and
    not told may be: then the follower begins anew as a copy, as the page says."""
    folder, kills = tempfile.mkdtemp(dir=GIVEN.memory), 6 if GIVEN.short else 200
    first, second = new_heap(8, folder), new_heap(8, folder)
    copies = lost = among = 0
    for turn in range(kills):
        stream = os.path.join(folder, f"frames.{turn}")
        with Primary(first, callers, stream) as primary:
            clients = primary.meet_all()
            follower = Follower(second, stream)
            last = kill_among(primary, clients, turn, turn % 2)
        follower.kill()
        (applied, known, early), status = follow(second, stream)
        expect((early, status in (0, 1)), (0, True), f"turn {turn}, the stream that was cut: early, and the status {status}")
        among += applied + known > 0
        behind = count_of(first) - count_of(second)
        expect(last < count_of(second), True, f"turn {turn}, that place {last} is at the follower")
        if behind:
            expect(0 < behind <= callers, True, f"turn {turn}, that {behind} updates of one batch alone are missing")
            lost, copies = lost + behind, copies + 1
            make_copy(first, second)
        same_heaps(first, second)
        os.remove(stream)
    expect(among >= kills // 2, True, f"that half of the kills came among updates: {among} of {kills}")
    return f"{kills} kills, {among} among updates: none told is missing; {lost} that nobody was told of, so {copies} copies"


def kill_among(primary, clients, seed, told_one):
    """Kills a primary while its clients talk, if asked for once one of them was told a place, and gives the last place that
    one was told of."""
    last = Told()
    if told_one:
        last.hear(None, clients[0].ask("enq 1"))
    said = {client: drawn_lines(1000 * seed + i, 10**9) for i, client in enumerate(clients)}
    converse(clients, said, time.monotonic() + random.random() * 0.2, last.hear)
    # Their last lines are on the way: a batch takes some 200 microseconds, and the kill comes within it.
    time.sleep(random.random() * 0.0003)
    primary.process.kill()
    primary.process.wait()
    for client in clients:
        for reply in client.close():
            last.hear(None, reply)
    return last.last


def killed_at_a_pipe(callers):
    """A follower at a named pipe: in turn it and its primary are killed. It has the first frames of what the pipe passed
    on, and nothing told is missing where the primary was killed. Where it is behind it begins anew as a copy. Every other
    time either is killed it has done something before."""
    folder, kills = tempfile.mkdtemp(dir=GIVEN.memory), 8 if GIVEN.short else 400
    first, second, third = new_heap(8, folder), new_heap(8, folder), os.path.join(folder, "third")
    copies = lost = among = 0
    for turn in range(kills):
        stream, kept = os.path.join(folder, f"pipe.{turn}"), os.path.join(folder, f"kept.{turn}")
        os.mkfifo(stream)
        begun = count_of(second)
        shutil.copy(second, third)
        follower = KeptFollower(second, stream, kept)
        with Primary(first, callers, stream) as primary:
            clients = primary.meet_all()
            if turn % 2:
                last = kill_among(primary, clients, turn, turn % 4 == 1)
                expect(follower.end()[0] in (0, 1), True, f"turn {turn}, the end of the follower")
                expect(last < count_of(second), True, f"turn {turn}, that place {last} is at the follower")
                lost += count_of(first) - count_of(second)
            else:
                grown = (lambda: count_beside(second) > begun) if turn % 4 == 0 else None
                killing = threading.Thread(target=kill_later, args=(follower, grown))
                killing.start()
                converse(clients, {client: drawn_lines(1000 * turn + i, 40) for i, client in enumerate(clients)})
                killing.join()
                for client in clients:
                    client.close()
                expect(primary.end()[0] in (0, 5), True, f"turn {turn}, the end of the primary")
                follower.kill()
        done = count_of(second) - begun
        among += 0 < done
        with open(stream + ".first", "wb") as frames:
            frames.write(first_frames(kept, done) if done else b"")
        (applied, known, early), status = follow(third, frames.name)
        expect((applied, known, early, status), (done, 0, 0, 0), f"turn {turn}, what was passed on")
        same_heaps(third, second)
        if count_of(first) != count_of(second):
            copies += 1
            make_copy(first, second)
        same_heaps(first, second)
        for path in stream, kept, frames.name:
            os.remove(path)
    expect(among >= kills // 2, True, f"that half of the kills came among frames: {among} of {kills}")
    return f"{kills} kills, {among} among frames: the follower is a prefix, none told is missing; {lost} that nobody was told of, {copies} copies"


def kill_later(follower, has_come):
    """Kills a follower, its reader stays, once that has come, or else within a tenth of a second."""
    try:
        if has_come:
            wait_for("the follower's next count", has_come)
        else:
            time.sleep(random.random() * 0.1)
    finally:
        follower.process.kill()


def failovers(callers):
    """Primaries that are killed at work, each with a follower at a pipe, which is adopted. What is lost is what nobody was
    told of. The old primary follows the new one, or is told that it has parted."""
    folder, kills = tempfile.mkdtemp(dir=GIVEN.memory), 5 if GIVEN.short else 200
    first, second = new_heap(8, folder), new_heap(8, folder)
    lost = parted = 0
    for turn in range(kills):
        stream, later = os.path.join(folder, f"pipe.{turn}"), os.path.join(folder, f"frames.{turn}")
        os.mkfifo(stream)
        follower = Follower(second, stream)
        with Primary(first, callers, stream) as primary:
            clients = primary.meet_all()
            last = kill_among(primary, clients, turn, True)
        expect(follower.end()[0] in (0, 1), True, f"turn {turn}, the end of the follower")
        count, place = count_of(first), count_of(second)
        adopted = told(GIVEN.replica, "adopt", second)
        expect(adopted, (0, f"adopted {name_of(first)} epoch {turn + 1} at {place}\n"), f"turn {turn}, an adoption")
        expect(last < place and place <= count <= place + callers, True, f"turn {turn}, told {last}, adopted at {place} of {count}")
        expect(told(GIVEN.talk, "--ship", later, second, input=b"enq 2\n")[0], 0, f"turn {turn}, a talk")
        answer = told(GIVEN.replica, "follow", first, later)
        if place < count:
            lost, parted = lost + count - place, parted + 1
            expect(answer, (3, f"refused: parted at {place}, count {count}\n"), f"turn {turn}, the old primary")
            make_copy(second, first)
        else:
            expect(answer, (0, f"applied 1 known 0 early 0\ncount {place + 1}\n"), f"turn {turn}, the old primary")
        same_heaps(second, first)
        first, second = second, first
        os.remove(stream)
        os.remove(later)
    return f"{kills} failovers: none told is lost; {lost} that nobody was told of, so {parted} old primaries had parted"


def failing_streams():
    """A stream that cannot take its head, or that another talk begins, is refused; of one that fails later is told at once, and by the status. The
    callers go on."""
    folder = tempfile.mkdtemp(dir=GIVEN.memory)
    heap = new_heap(8, folder)
    expect(told(GIVEN.talk, "--ship", "/dev/full", heap, stdin=DEVNULL), (5, "no stream\n"), "a full stream")
    locked = os.path.join(folder, "locked")
    expect(told("flock", locked, GIVEN.talk, "--ship", locked, heap, stdin=DEVNULL), (4, "no stream\n"), "a stream of another talk")
    stream = os.path.join(folder, "pipe")
    os.mkfifo(stream)
    reader = subprocess.Popen(["head", "-c", "60", stream], stdout=DEVNULL)
    with Primary(heap, 2, stream) as primary:
        clients = primary.meet_all()
        expect(clients[0].ask("enq 1"), "queued @0", "a reply")
        reader.wait()
        expect(clients[1].ask("enq 2"), "queued @1", "a reply beside a stream that failed")
        expect(clients[0].ask("enq 3"), "queued @2", "a reply behind a stream that failed")
        said = primary.process.stderr.readline().decode()
        expect("nothing more is shipped: Broken pipe" in said, True, f"the cause on standard error: {said!r}")
        for client in clients:
            client.close()
        status, out, _ = primary.end()
        expect((status, out), (5, ""), "the end of the primary")
    expect(count_of(heap), 3, "the count")
    return "a full one and one of another talk are refused; of one that breaks is told at once, with status 5, and all replies came"


def names():
    """Whose streams a heap follows, and a failover: what a primary had not sent is missing, and no more."""
    folder = tempfile.mkdtemp(dir=GIVEN.memory)
    first, second, other = (new_heap(8, folder) for _ in range(3))
    streams = [os.path.join(folder, f"frames.{i}") for i in range(8)]

    def ship(heap, stream, *lines):
        status, _ = told(GIVEN.talk, "--ship", stream, heap, input="".join(line + "\n" for line in lines).encode())
        expect(status, 0, "a talk")

    def answer(heap, stream, wanted, *options):
        status, text = told(GIVEN.replica, "follow", *options, heap, stream)
        expect((text.splitlines()[0], status), wanted, "a follower's answer")

    ship(first, streams[0], "enq 1", "enq 2")
    answer(second, streams[0], ("applied 2 known 0 early 0", 0))
    ship(other, streams[1], "enq 1")
    answer(second, streams[1], (f"refused: another heap {name_of(other)}", 3))
    expect(name_of(second), name_of(first), "the follower's name")
    ship(first, streams[2], "enq 3")
    ship(first, streams[3], "enq 4")
    answer(second, streams[3], ("refused: lacks 2", 3))
    said = subprocess.run([GIVEN.replica, "follow", second, streams[3]], stdout=DEVNULL, stderr=PIPE).stderr.decode()
    helps = f"make it a copy of the primary: romulus_dump copy PRIMARY NEW && mv NEW {second}"
    expect(said, f"romulus_replica: {second}: {helps}\n", "the way out on standard error")
    status, text = told(GIVEN.replica, "adopt", second)
    expect((text, status), (f"adopted {name_of(first)} epoch 1 at 2\n", 0), "an adoption")
    answer(second, streams[2], ("refused: epoch 0 is older than 1", 3))
    ship(second, streams[4], "enq 5")
    answer(first, streams[4], ("refused: parted at 2, count 4", 3))
    ship(second, streams[5], "enq 6")
    expect(told(GIVEN.replica, "adopt", second), (0, f"adopted {name_of(first)} epoch 2 at 4\n"), "an adoption")
    ship(second, streams[6], "enq 7")
    answer(first, streams[6], ("refused: epoch 2 is more than one after 0", 3))
    subprocess.run(["flock", second, "cp", second, first], check=True)
    ship(second, streams[7], "enq 8")
    answer(first, streams[7], ("applied 1 known 0 early 0", 0))
    same_heaps(second, first)
    nameless = os.path.join(folder, "nameless")
    with open(nameless, "wb") as frames:
        subprocess.run([GIVEN.replica, "ship", second, "/dev/stdin"], input=b"enq 7\n", stdout=frames, check=True)
    answer(first, nameless, ("refused: nameless stream", 3))
    answer(new_heap(8, folder), nameless, ("refused: nameless stream", 3))
    answer(first, nameless, ("applied 1 known 0 early 0", 0), "--anonymous")
    return "another heap, a gap, an older epoch, a skipped one, a parted heap and a nameless stream are refused by name"


def held_up():
    """A pipe that nobody reads holds updates up, and no reads; once it is read all go on."""
    folder = tempfile.mkdtemp(dir=GIVEN.memory)
    first, stream = new_heap(8, folder), os.path.join(folder, "pipe")
    os.mkfifo(stream)
    # Open for both ways, so that the primary need not wait, and nothing is read.
    reader = os.open(stream, os.O_RDWR)
    with Primary(first, 2, stream) as primary:
        writer, other = primary.meet_all()
        writer.say(*[f"put {i % 40} {i}" for i in range(3000)])
        wait_for("the end of the pipe's room", lambda: not select.select([], [reader], [], 0)[1])
        held = 0
        while held < bytes_in(reader):  # the last page may take a frame more
            held = bytes_in(reader)
            time.sleep(0.05)
        answer = other.ask("get 77")
        expect(answer.startswith("none #"), True, f"a read beside a full pipe: {answer}")
        done = int(answer.rpartition("#")[2])
        expect(done < 3000, True, f"that the pipe holds updates up: {done} were done")
        taken, replies = b"", []
        while len(replies) < 3000:
            os.set_blocking(reader, False)
            try:
                while True:
                    taken += os.read(reader, 1 << 16)
            except BlockingIOError:
                pass
            replies += writer.replies()
        for client in (writer, other):
            client.close()
        expect(primary.end()[0], 0, "the end of the primary")
    os.close(reader)
    return f"{done} updates, a read, and then the other {3000 - done}"


ROWS = {
    "pipe, 1": partial(pipe, 1),
    "pipe, 16": partial(pipe, 16),
    "syncs": syncs,
    "instructions": instructions,
    "copies": copies,
    "killed followers": killed_followers,
    "killed primaries, 16": partial(killed_primaries, 16),
    "killed primaries, 2": partial(killed_primaries, 2),
    "killed at a pipe": partial(killed_at_a_pipe, 16),
    "failovers": partial(failovers, 16),
    "failing streams": failing_streams,
    "held up": held_up,
    "names": names,
}


def find(**programs):
    """Notes where these programs are."""
    for what, name in programs.items():
        path = os.path.join(os.path.dirname(talk.BENCH), "crates", name, "out", name)
        if not os.path.exists(path):
            sys.exit(f"build the program first: ./{name}")
        setattr(GIVEN, what, path)


def main(of, rows, seconds, folder=None):
    """Looks at the rows that the command line names, or at all, so many seconds each at most. What they make is in a folder of
    that one."""
    GIVEN.short = "--short" in sys.argv
    names = [name for name in sys.argv[1:] if name != "--short"] or [*rows]
    with tempfile.TemporaryDirectory(dir=folder) as GIVEN.memory:
        tempfile.tempdir = GIVEN.memory
        well = sum(look_at(name, rows[name], seconds) for name in names)
    print(f"{of}: {well} rows passed, {len(names) - well} failed")
    return 0 if names and well == len(names) else 1


def look_at(name, row, seconds):
    """Says whether a row passes, and prints what it saw."""
    signal.signal(signal.SIGALRM, talk.too_long)
    begun = time.monotonic()
    signal.alarm(seconds)
    try:
        print(f"{name}: {row()}, {time.monotonic() - begun:.1f} s", flush=True)
        return True
    except (Wrong, OSError, ValueError, subprocess.SubprocessError) as error:
        print(f"{name}: FAILED: {type(error).__name__}: {error}", flush=True)
        return False
    finally:
        signal.alarm(0)
        while STARTED:
            part = STARTED.pop()
            if part.poll() is None:
                part.kill()


if __name__ == "__main__":
    find(program="romulus", talk="romulus_talk", replica="romulus_replica", dump="romulus_dump")
    memory = "/dev/shm" if os.path.isdir("/dev/shm") else None
    sys.exit(main("replica", ROWS, 120 if "--short" in sys.argv else 1800, memory))
