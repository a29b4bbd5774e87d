"""Clients of `romulus_talk`, and the rows of talk.sh, which says what they look at.

A client says lines through a descriptor and reads replies from another one. A talk is the program at work, with
clients at named pipes. A row is a function that tells what it saw, or raises Wrong.
"""
import argparse
import os
import random
import re
import selectors
import shutil
import signal
import statistics
import subprocess
import sys
import tempfile
import time
from concurrent.futures import ProcessPoolExecutor
from functools import partial
from multiprocessing import get_context
from subprocess import DEVNULL, PIPE

BENCH = os.path.dirname(os.path.abspath(__file__))
EXAMPLES = os.path.join(os.path.dirname(BENCH), "examples")
GIVEN = argparse.Namespace()  # the command line, and a folder in memory, where a sync costs nothing


class Wrong(Exception):
    """Something is not as it must be."""


def expect(found, wanted, what):
    if found != wanted:
        raise Wrong(f"{what}: {found!r} in place of {wanted!r}")


class Client:
    """Says lines, and reads their replies."""

    def __init__(self, says, hears):
        self.says, self.hears, self.rest = says, hears, b""

    def say(self, *lines):
        data = "".join(line + "\n" for line in lines).encode()
        while data:
            data = data[os.write(self.says, data) :]

    def replies(self):
        """The replies that came since, at least one; none at the end."""
        while b"\n" not in self.rest:
            piece = os.read(self.hears, 1 << 16)
            if not piece:
                return []
            self.rest += piece
        *lines, self.rest = self.rest.split(b"\n")
        return [line.decode() for line in lines]

    def ask(self, line):
        self.say(line)
        return "".join(self.replies())

    def close(self):
        os.close(self.says)
        left = self.replies()
        os.close(self.hears)
        return left


class Talk:
    """The program with so many clients at named pipes, behind these names of others. Where there is none of both, one
    client is at its standard streams."""

    def __init__(self, heap, clients, wrap=(), names=(), **streams):
        self.folder = tempfile.mkdtemp()
        self.pipes = [[os.path.join(self.folder, f"{i}.{way}") for way in ("in", "out")] for i in range(clients)]
        for pipe in sum(self.pipes, []):
            os.mkfifo(pipe)
        words = [*names, *sum(self.pipes, [])]
        streams = {"stdin": PIPE if not words else DEVNULL, "stdout": PIPE, "stderr": PIPE, **streams}
        self.process = subprocess.Popen([*wrap, GIVEN.talk, heap, *words], bufsize=0, **streams)

    def meet(self, number):
        """The client of this number, once it is met."""
        says, hears = self.pipes[number]
        return Client(os.open(says, os.O_WRONLY), os.open(hears, os.O_RDONLY))

    def meet_all(self):
        return [self.meet(number) for number in range(len(self.pipes))]

    def standard(self):
        return Client(self.process.stdin.fileno(), self.process.stdout.fileno())

    def end(self):
        """How it ended: its status, and what it printed."""
        out, errors = self.process.communicate(timeout=60)
        shutil.rmtree(self.folder)
        return self.process.returncode, (out or b"").decode(), (errors or b"").decode()

    def __enter__(self):
        return self

    def __exit__(self, *_):
        if self.process.returncode is None:
            self.process.kill()
            self.process.wait()


def told(program, *words, **options):
    ran = subprocess.run([program, *words], stdout=PIPE, stderr=PIPE, timeout=600, **options)
    return ran.returncode, ran.stdout.decode()


def new_heap(order=8, folder=None):
    heap = os.path.join(tempfile.mkdtemp(dir=folder), "heap")
    expect(told(GIVEN.program, "format", heap, "--order", str(order)), (0, f"formatted order {order}\n"), "format")
    return heap


def stat(heap):
    status, text = told(GIVEN.program, "stat", heap)
    expect(status, 0, f"stat tells {text}")
    return dict(line.split(" ", 1) for line in text.splitlines())


def converse(clients, said, until=float("inf"), heard=lambda client, reply: None):
    """Each client says a line, reads its reply, and only then says the next one, until none has a line left, or to
    that moment. `said` gives each client's next lines, and none at its end. All are served here, one after another."""
    ready = selectors.DefaultSelector()
    waits = {}

    def go_on(client):
        lines = next(said[client], None)
        if lines is None:
            ready.unregister(client.hears)
            del waits[client]
        else:
            waits[client] = len(lines)
            client.say(*lines)

    for client in clients:
        ready.register(client.hears, selectors.EVENT_READ, client)
        waits[client] = 0
        go_on(client)
    while waits and time.monotonic() < until:
        found = ready.select(min(30, until - time.monotonic()))
        if not found and time.monotonic() < until:
            raise Wrong("no reply came in 30 seconds")
        for key, _ in found:
            replies = key.data.replies()
            if not replies:
                raise Wrong("a client came to the end before its last reply")
            for reply in replies:
                heard(key.data, reply)
            waits[key.data] -= len(replies)
            if waits[key.data] == 0:
                go_on(key.data)


def puts(key, count):
    return iter([[f"put {key} {i}"] for i in range(count)])


# The rows.


def examples():
    """The two clients of the pages, each on a new heap."""
    path = os.pathsep.join([os.path.dirname(GIVEN.talk), os.environ["PATH"]])
    for name, command in ("talk.py", sys.executable), ("talk.sh", "bash"):
        words = command, os.path.join(EXAMPLES, name), new_heap(4)
        expect(told(*words, env={**os.environ, "PATH": path}), (0, "none @0\nwas 100 @1\nvalue 105 #2\n"), name)
    return "talk.py and talk.sh read each reply before the next line"


def drawn_line(drawn):
    """A line of any kind, some of which are no commands."""
    key, value = drawn.randrange(40), drawn.randrange(10**6)
    update = drawn.choice([f"enq {value}", "deq", f"add {key}", f"rem {key}", f"put {key} {value}", f"del {key}"])
    what = drawn.random()
    if what < 0.05:
        return f"tx {update} ; move {key} {drawn.randrange(40)} {drawn.randrange(99)}"
    if what < 0.45:
        asked = drawn.choice(["peek", f"has {key}", f"get {key}", "len", "total", f"fresh {value % 99}"])
        return asked + drawn.choice(["", "", "", "\r"])
    return drawn.choice(["", "deq ", f"put {key} 01", "x" * 5000]) if what > 0.999 else update


def text():
    """A talk, which is heard from a file and from a pipe in pieces of any length, tells what `run` tells."""
    drawn, lines = random.Random(1), 3000 if GIVEN.short else 100000
    parts = [[drawn_line(drawn) for _ in range(min(lines, 25000))] for _ in range(0, lines, 25000)]
    heaps = [new_heap(8, GIVEN.memory) for _ in range(3)]
    wanted, statuses = [], []
    for part in parts:  # a script has no room for more
        status, said = told(GIVEN.program, "run", heaps[0], "/dev/stdin", input="\n".join(part).encode())
        statuses.append(status)
        wanted += said.splitlines()[1:-1]
    expect({*statuses} <= {0, 1}, True, f"run ended with {statuses}")
    data = "\n".join(line for part in parts for line in part).encode()
    with tempfile.NamedTemporaryFile() as file:
        file.write(data)
        file.flush()
        found = [told(GIVEN.talk, heaps[1], stdin=open(file.name))]
    process = subprocess.Popen([GIVEN.talk, heaps[2]], stdin=PIPE, stdout=PIPE, bufsize=0)
    os.set_blocking(process.stdin.fileno(), False)
    said, ready = b"", selectors.DefaultSelector()
    ready.register(process.stdin, selectors.EVENT_WRITE)
    ready.register(process.stdout, selectors.EVENT_READ)
    while ready.get_map():
        for key, event in ready.select(30):
            if event & selectors.EVENT_READ:
                piece = os.read(key.fd, 1 << 16)
                said += piece
                if not piece:
                    ready.unregister(key.fileobj)
            elif data:
                data = data[os.write(key.fd, data[: drawn.randrange(1, 9000)]) :]
            else:
                ready.unregister(key.fileobj)
                process.stdin.close()
    found.append((process.wait(), said.decode()))
    for (status, said), heap, way in zip(found, heaps[1:], ("from a file", "from a pipe")):
        replies = said.splitlines()
        differ = next((i for i in range(lines) if wanted[i : i + 1] != replies[i : i + 1]), None)
        if differ is not None:
            raise Wrong(f"{way}, line {differ}: {replies[differ : differ + 1]} in place of {wanted[differ]}")
        expect((status, len(replies)), (max(statuses), lines), f"{way}, the status and the lines")
        with open(heaps[0], "rb") as one, open(heap, "rb") as other:
            expect(other.read() == one.read(), True, f"{way}, that the heaps are the same")
    return f"{lines} lines from a file and from a pipe: the replies, the heap and the status of run"


class Syncs:
    """A talk whose syncs are counted, each of which takes so many microseconds more. The first `WARM` lines of each
    client are not looked at: some come before the others talk."""

    WARM = 10

    def __init__(self, clients, talking, delay, lines):
        self.heap, self.trace, self.lines = new_heap(), tempfile.mktemp(), lines
        inject = ["-e", f"inject=fdatasync:delay_exit={delay}"] if delay else []
        traced = ["strace", "-f", "-qq", "--seccomp-bpf", "-o", self.trace, "-P", self.heap, "-e", "trace=fdatasync"]
        self.talk = Talk(self.heap, clients, wrap=[*traced, *inject])
        self.clients = self.talk.meet_all()
        converse(self.clients, {client: puts(i, 1) for i, client in enumerate(self.clients)})
        self.talking, self.heard, self.counts = self.clients[:talking], 0, []

    def said(self):
        return {client: puts(i, self.WARM + self.lines) for i, client in enumerate(self.talking)}

    def hear(self):
        self.heard += 1
        if self.heard in (self.WARM * len(self.talking), (self.WARM + self.lines) * len(self.talking)):
            with open(self.trace) as file:
                self.counts.append(file.read().count("fdatasync("))

    def end(self):
        """The syncs for as many updates as clients talk."""
        for client in self.clients:
            client.close()
        expect(self.talk.end(), (0, "", ""), "the end of a talk")
        return (self.counts[1] - self.counts[0]) / self.lines


def shared_syncs(settings, delay, lines):
    """The syncs for K updates in talks of so many clients of which K talk, all talks at once."""
    talks = [Syncs(*setting, delay, lines) for setting in settings]
    whose = {client: talk for talk in talks for client in talk.talking}
    said = {client: lines_said for talk in talks for client, lines_said in talk.said().items()}
    converse([*whose], said, heard=lambda client, _: whose[client].hear())
    return [talk.end() for talk in talks]


def syncs():
    """K clients that talk share syncs: of 20 milliseconds, four for K updates are aimed at. It fails where four or more
    need over half of what they would need alone; of two, and of a quicker disk, it is told alone."""
    if GIVEN.short:
        settings, aim, tries, delays = [(16, 16), (16, 2)], 6, 1, [(20000, 40)]
    else:
        settings, aim, tries, delays = [(1, 1), (4, 4), (16, 16), (16, 2)], 4.1, 3, [(20000, 200), (300, 1000), (0, 1000)]
    rows, wrong, missed = [], False, False
    for delay, lines in delays:
        # Beside each other one keeps the others waiting at times: that is for the short form.
        for group in [settings] if GIVEN.short else [[setting] for setting in settings]:
            # A client that is kept from a processor for a moment makes a pass of its own. So a few tries, the least counts.
            found = [shared_syncs(group, delay, lines)]
            while delay == 20000 and max(min(each) for each in zip(*found)) > aim and len(found) < tries:
                found.append(shared_syncs(group, delay, lines))
            for (clients, talking), each in zip(group, zip(*found)):
                of = f"{talking} of {clients}" if talking < clients else clients
                counts = ", then ".join(f"{one:.2f}" for one in each)
                rows.append(f"{of} clients, {delay / 1000:g} ms a sync: {counts} for {talking} updates")
                # An update is told once three syncs are over, so fewer were not counted.
                wrong |= min(each) < 3 or (delay == 20000 and talking >= 4 and min(each) > 2 * talking)
                missed |= delay == 20000 and min(each) > aim
    if wrong:
        raise Wrong("\n  ".join(["clients share too few syncs, or fewer were counted than can be", *rows]))
    told = f"the aim of {aim} is missed" if missed else f"at most {aim}"
    return "\n  ".join([f"{told} for K updates where K clients talk, on a slow disk", *rows])


def kills(callers):
    """Kills talks on one heap. Each client puts rising values under its key, odd ones four lines at once. Behind each
    kill each key is to have a value that was said, and at least the last one that was told."""
    turns = 5 if GIVEN.short else 200
    heap, values, among, several = new_heap(), [0] * callers, 0, 0
    for turn in range(turns):
        with Talk(heap, callers) as talk:
            clients = talk.meet_all()
            sent, heard = [*values], [*values]

            def rising(i):
                while True:
                    lines = range(sent[i] + 1, sent[i] + (5 if i % 2 else 2))
                    sent[i] = lines[-1]
                    yield [f"put {i + 1} {value}" for value in lines]

            def hear(client, reply):
                i = clients.index(client)
                was = f"was {heard[i]}" if heard[i] else "none"
                expect(reply.rpartition(" @")[0], was, f"a reply to client {i + 1}")
                heard[i] += 1

            until = time.monotonic() + (0 if turn % 10 == 9 else random.random() * 0.3)
            converse(clients, {client: rising(i) for i, client in enumerate(clients)}, until, hear)
            talk.process.kill()
            talk.process.wait()
            for client in clients:
                for reply in client.close():
                    hear(client, reply)
            expect(talk.end()[0], -9, "a killed talk")
        with open(heap, "rb") as file:
            state = file.read(25)[24]
        asked = "".join(f"get {i + 1}\n" for i in range(callers)).encode()
        if turn % 2:  # the next opening is that of another talk
            replies = told(GIVEN.talk, heap, input=asked)[1].splitlines()
            shown = stat(heap)
        else:
            shown = stat(heap)
            replies = told(GIVEN.program, "run", heap, "/dev/stdin", input=asked)[1].splitlines()[1:-1]
        found = [int(reply.split()[1]) if reply.startswith("value") else 0 for reply in replies]
        expect(len(found), callers, f"kill {turn}: the replies of the next opening, {replies}")
        for i, value in enumerate(found):
            if not heard[i] <= value <= sent[i]:
                raise Wrong(f"kill {turn}, state {state}: key {i + 1} has {value}, told {heard[i]}, said {sent[i]}")
        expect((shown["count"], shown["total"]), (str(sum(found)),) * 2, f"kill {turn}: the count and the total")
        did = sum(value > before for value, before in zip(found, values))
        among, several, values = among + (did > 0), several + (did > 1), found
    if among == 0 or several == 0:
        raise Wrong("no kill came among the updates")
    return f"{among} of {turns} kills came among updates of {callers} clients, {several} among those of several; count {sum(values)}"


ONE_THAT_TALKS = """
import os, sys
says, hears = os.open(sys.argv[1], os.O_WRONLY), os.open(sys.argv[2], os.O_RDONLY)
while True:
    os.write(says, b"put 0 7\\n")
    os.read(hears, 100)
"""


def go_on(client, key, what):
    """The other client goes on: it has a hundred updates done."""
    begun = time.monotonic()
    converse([client], {client: puts(key, 100)})
    expect(client.ask(f"get {key}").split(" #")[0], "value 99", what)
    return f"a hundred updates beside it in {time.monotonic() - begun:.2f} s"


def killed_client():
    heap = new_heap()
    with Talk(heap, 2) as talk:
        one = subprocess.Popen([sys.executable, "-c", ONE_THAT_TALKS, *talk.pipes[0]])
        other = talk.meet(1)
        while other.ask("get 0").startswith("none"):
            time.sleep(0.01)
        one.kill()
        one.wait()
        said = go_on(other, 1, "beside a client that was killed")
        other.close()
        status, out, errors = talk.end()
    # Its last reply is taken or not: that is chance.
    expect((status in (0, 5), out, errors), (True, "", ""), f"the end, status {status}")
    return said


def deaf_client():
    heap = new_heap()
    with Talk(heap, 2) as talk:
        deaf, other = talk.meet_all()
        os.set_blocking(deaf.says, False)
        said, quiet = 0, 0
        while quiet < 20:  # until both pipes are full
            try:
                said += os.write(deaf.says, b"len\n")
                quiet = 0
            except BlockingIOError:
                quiet += 1
                time.sleep(0.01)
        beside = go_on(other, 1, "beside a client that reads no more")
        other.close()
        expect(talk.process.poll(), None, "a talk with a client that reads no more")
        os.close(deaf.says)
        count = 0
        while True:
            replies = deaf.replies()
            count += len(replies)
            if not replies:
                break
        expect(count, said // 4, "the replies once it reads again")
        expect(talk.end(), (0, "", ""), "the end")
    return f"{beside}; {count} replies once it reads again"


def absent_client():
    heap = new_heap()
    with Talk(heap, 3) as talk:
        other = talk.meet(2)
        half = os.open(talk.pipes[1][0], os.O_WRONLY)  # one that opens its input alone
        said = go_on(other, 1, "beside clients that do not come")
        expect(other.close(), [], "the end of the other")
        time.sleep(0.1)
        expect(talk.process.poll(), None, "a talk with a client that did not come")
        hears = os.open(talk.pipes[1][1], os.O_RDONLY)
        late, lame = talk.meet(0), Client(half, hears)
        expect((late.ask("get 1"), lame.ask("get 1")), ("value 99 #100",) * 2, "a client that comes late")
        late.close()
        lame.close()
        expect(talk.end(), (0, "", ""), "the end")
    return said


def outputs():
    """Where a reply cannot be told the talk with that client ends, and the status says so."""
    lines, rows = b"put 1 1\nput 1 2\nput 1 3\n", []
    heap = new_heap()
    ran = subprocess.run(["sh", "-c", 'exec "$0" "$1" >&-', GIVEN.talk, heap], input=lines)
    expect((ran.returncode, stat(heap)["count"]), (5, "1"), "standard output closed")
    with open("/dev/full", "w") as full:
        ran = subprocess.run([GIVEN.talk, heap], input=lines, stdout=full)
    expect((ran.returncode, stat(heap)["count"]), (5, "2"), "standard output full")
    with Talk(heap, 2) as talk:  # one reads a reply, and closes its output
        one, other = talk.meet_all()
        one.ask("put 1 3")
        os.close(one.hears)
        one.say("put 1 4", "put 1 5")
        rows.append(go_on(other, 2, "beside a client whose output is closed"))
        other.close()
        os.close(one.says)
        expect(talk.end(), (5, "", ""), "an output that is closed")
    expect(stat(heap)["count"], "104", "an output that is closed")
    with open("/dev/null") as none:
        ran = subprocess.run([GIVEN.talk, heap], stdin=none, stdout=PIPE)
    expect((ran.returncode, ran.stdout), (0, b""), "no line at all")
    ran = subprocess.run(["sh", "-c", 'exec "$0" "$1" <&-', GIVEN.talk, heap], stdout=PIPE)
    expect((ran.returncode, ran.stdout), (0, b""), "standard input closed")
    return f"closed, full, and closed by its client: status 5 behind one update that could not be told; {rows[0]}"


def inputs():
    """Where an input cannot be had, others talk all the same, and the status says so."""
    heap = new_heap()
    folder = tempfile.mkdtemp()
    missing, text_file, put = (os.path.join(folder, name) for name in ("missing", "text", "put"))
    with open(put, "w") as file:
        file.write("put 1 1\n")
    for names, wrong, cause in (
        ([missing, text_file], missing, "no such file"),
        ([folder, text_file], folder, "is a folder"),
        ([put, heap], heap, "is the heap's own file"),
        ([heap, text_file], heap, "is the heap's own file"),
        ([put, put], put, "is its own input"),
        ([put, missing + "/there"], missing + "/there", ""),
    ):
        with open(heap, "rb") as file:
            before = file.read()
        with Talk(heap, 1, names=names) as talk:
            client = talk.meet(0)
            expect(client.ask("get 1").split(" #")[0], "none", f"beside {names}")
            client.close()
            status, out, errors = talk.end()
        with open(heap, "rb") as file:
            expect(file.read() == before, True, f"{names}: that the heap is the same")
        expect((status, out, errors.count("\n")), (4, "", 1), f"{names}")
        expect(errors.startswith(f"romulus_talk: {wrong}: {cause}"), True, f"{names}: {errors}")
    return "no such file, a folder, the heap itself, and an input that is its output: nothing is heard, status 4, the cause is told, another client talks on"


def refusals():
    """No client is met where there is no heap."""
    heap, folder = new_heap(), tempfile.mkdtemp()
    zeros, damaged = os.path.join(folder, "zeros"), os.path.join(folder, "damaged")
    with open(heap, "rb") as file:
        data = bytearray(file.read())
    with open(zeros, "wb") as file:
        file.write(bytes(len(data)))
    data[64] = 7
    with open(damaged, "wb") as file:
        file.write(data)
    for file, status, line in (zeros, 3, "refused: not a heap"), (damaged, 3, "refused: "), (folder, 7, "device failed"):
        for clients in 0, 2:
            with Talk(file, clients, stdin=DEVNULL) as talk:
                ended, out, errors = talk.end()
            expect((ended, out.startswith(line), out.count("\n")), (status, True, 1), f"{file}: {out}")
    for words in ["a"], ["a", "b", "c"], ["a", ""], ["a", "b"] * 17:
        with Talk(heap, 0, names=words) as talk:
            ended, out, errors = talk.end()
            expect((ended, out, errors[:6]), (2, "not a command\n", "usage:"), f"{words}")
    if not GIVEN.short:
        with Talk(heap, 1) as talk:
            client = talk.meet(0)
            expect(told(GIVEN.program, "stat", heap), (7, "device failed\n"), "stat beside a talk")
            expect(client.ask("put 1 1"), "none @0", "a talk beside stat")
            client.close()
            expect(talk.end(), (0, "", ""), "the end")
    return "status 3 and one line on standard output; status 7 for a folder; status 2 for four wrong lines of words"


def quiet():
    """An idle talk makes no system call beyond the reads that wait, and none takes memory behind the first reply."""
    seconds, rows = 3 if GIVEN.short else 60, []
    memory = re.compile(r"\b(brk|mmap|munmap|mremap|madvise|clone3?)\(.*")
    for clients in 0, 16:
        trace = tempfile.mktemp()
        heap = new_heap(8, GIVEN.memory)
        with Talk(heap, clients, wrap=["strace", "-f", "-qq", "-o", trace]) as talk:
            all_clients = talk.meet_all() or [talk.standard()]
            converse(all_clients, {client: iter([["len"]]) for client in all_clients})
            time.sleep(0.2)
            first = os.path.getsize(trace)
            drawn = random.Random(2)
            lines = [drawn_line(drawn) for _ in range(40 if GIVEN.short else 400)]
            converse(all_clients, {client: iter([[line] for line in lines]) for client in all_clients})
            time.sleep(0.2)
            before = os.path.getsize(trace)
            expect(before > first, True, "that calls are seen at once")
            time.sleep(seconds if clients else 0.5)
            with open(trace) as file:
                calls = file.read()
            expect(calls[before:], "", f"{clients or 'one at'} standard: calls of an idle talk")
            taken = [found[0] for found in memory.finditer(calls[first:])]
            expect(taken, [], "calls that take memory behind the first reply")
            for client in all_clients if clients else []:
                client.close()
            if not clients:
                talk.process.stdin.close()
            talk.process.wait()
        rows.append(f"{clients or 1} clients: no call in {seconds if clients else 0.5} idle seconds, no memory in {len(lines)} lines each")
    return "; ".join(rows)


def cut_talk(row, drawn, result):
    """Cuts under a talk. Each heap has all updates that were told by then, and none that was not said yet."""
    from cases import OPTIONS, Noise, Rig, cuts, not_whole, prepare, states_of, update

    rig = Rig(row.kind)
    before = prepare(rig, drawn)
    scripts = [[update(drawn) for _ in range(48 // row.callers + 12)] for _ in range(row.callers)]
    rig.start()
    heap, begun, at_place, saying = os.path.join(rig.mounted, "heap"), time.monotonic(), {}, {}
    with Noise(heap, drawn.random()):
        left_out = {"LD_PRELOAD": OPTIONS.calls, "POWER_LEAVE_OUT": row.left_out} if row.left_out else {}
        environment = {**os.environ, "ASAN_OPTIONS": "verify_asan_link_order=0", **left_out}
        with Talk(heap, row.callers, env=environment) as talk:
            clients = talk.meet_all()

            def says(client, lines):
                for line in lines:
                    saying[client] = line, time.monotonic()
                    yield [line]

            def hears(client, reply):
                at_place[int(reply.rpartition("@")[2])] = *saying[client], time.monotonic()

            converse(clients, {c: says(c, lines) for c, lines in zip(clients, scripts)}, heard=hears)
            for client in clients:
                client.close()
            expect(talk.end(), (0, "", ""), "a talk on this disk")
        ended = time.monotonic()
    rig.stop()
    places = range(before.count, before.count + len(at_place))
    states = states_of(before, [at_place[place][0] for place in places])
    for until, blocks in cuts(rig, drawn, OPTIONS.moments, begun, ended):
        least = max((place + 1 for place in places if at_place[place][2] < until), default=before.count)
        most = min((place for place in places if at_place[place][1] >= until), default=before.count + len(at_place))
        result.judge_cut(rig, blocks, not_whole, states, set(range(least, most + 1)))
    rig.close()


def look_at_cuts(given, row):
    """A row of power.py, in a process of its own."""
    GIVEN.__dict__.update(given)
    from cases import CASES
    from power import look

    CASES["talk"] = cut_talk
    return look(row)


def power():
    """Cuts of the power under talks, and the same with no sync at all, which must be caught."""
    sys.path.append(os.path.join(BENCH, "power"))
    tempfile.tempdir = GIVEN.memory
    from mounts import be_private
    from power import Row
    from program import OPTIONS

    calls = os.path.join(tempfile.mkdtemp(), "calls.so")
    subprocess.run(["cc", "-O1", "-shared", "-fPIC", "-o", calls, os.path.join(BENCH, "power/calls.c"), "-ldl"], check=True)
    OPTIONS.__dict__.update(program=GIVEN.program, calls=calls, moments=60, seed=int(time.time()))
    missing = [kind for kind in ("xfs", "ext4") if not shutil.which(f"mkfs.{kind}")]
    if missing:
        raise Wrong(f"mkfs.{missing[0]} is not here, so nothing was looked at")
    kinds = [("xfs", 1), ("xfs", 4), ("ext4", 1), ("ext4", 4)]
    rows = [Row("talk", *kind) for kind in kinds] + [Row("talk", *kind, "syncs") for kind in kinds]
    with ProcessPoolExecutor(1, get_context("fork"), be_private) as pool:
        found = [*pool.map(look_at_cuts, [vars(GIVEN)] * len(rows), rows)]
    said = "\n  ".join([f"seed {OPTIONS.seed}", *(("" if passed else "FAILED: ") + text for passed, text in found)])
    if not all(passed for passed, _ in found):
        raise Wrong(said)
    return said


def round_trip(process, lines):
    """The microseconds from a line to its reply, the middle one."""
    says, hears, times = process.stdin.fileno(), process.stdout.fileno(), []
    for line in lines:
        begun = time.perf_counter_ns()
        os.write(says, line)
        os.read(hears, 4096)
        times.append(time.perf_counter_ns() - begun)
    process.stdin.close()
    process.wait()
    return statistics.median(times) / 1000


def instructions(heap, lines, *words):
    """By callgrind, on a copy of the heap. It counts each byte of a `rep stosb`, which the processor does as one: so the
    C library is told to fill memory by other instructions."""
    with tempfile.TemporaryDirectory() as folder:
        copy, counted = shutil.copy(heap, folder), os.path.join(folder, "counted")
        command = ["valgrind", "--tool=callgrind", f"--callgrind-out-file={counted}", *(w or copy for w in words)]
        plain = {**os.environ, "GLIBC_TUNABLES": "glibc.cpu.x86_rep_stosb_threshold=1000000"}
        ran = subprocess.run(command, input=lines, stdout=DEVNULL, stderr=PIPE, env=plain)
        if ran.returncode:
            return None
        with open(counted) as file:
            return int(re.search(r"^summary: (\d+)", file.read(), re.M)[1])


def numbers():
    """Times of one client at the standard streams, and instructions beside those of `run`. They are told alone."""
    count, rows = 2000 if GIVEN.short else 20000, []
    gets, lines = [b"get 1\n"] * count, [f"put {i % 10} {i}\n".encode() for i in range(count)]
    piped = {"stdin": PIPE, "stdout": PIPE, "bufsize": 0}
    for what, said, command in (
        ("an echo of cat", gets, ["cat"]),
        ("a lone read", gets, [GIVEN.talk, new_heap(8, GIVEN.memory)]),
        ("a lone update in memory", lines, [GIVEN.talk, new_heap(8, GIVEN.memory)]),
    ):
        rows.append(f"{what}: {round_trip(subprocess.Popen(command, **piped), said):.1f} microseconds")
    for what, said in () if GIVEN.short else (("get", gets), ("put", lines)):
        heap, counts = new_heap(8, GIVEN.memory), []
        for words in (GIVEN.talk, ""), (GIVEN.program, "run", "", "/dev/stdin"):
            less, more = (instructions(heap, b"".join(said[:many]), *words) for many in (1000, 2000))
            counts.append(less and more and (more - less) / 1000)
        if None in counts:
            rows.append(f"{what}: valgrind cannot run these programs, so no instruction was counted")
        else:
            rows.append(f"{what}: {counts[0]:.0f} instructions a line, {counts[0] / counts[1]:.3f} times those of run, {counts[1]:.0f}")
    return "\n  ".join([f"load {' '.join(map(str, os.getloadavg()))}", *rows])


ROWS = {
    "examples": examples,
    "text": text,
    "syncs": syncs,
    "kills of 4": partial(kills, 4),
    "kills of 16": partial(kills, 16),
    "killed client": killed_client,
    "deaf client": deaf_client,
    "absent client": absent_client,
    "outputs": outputs,
    "inputs": inputs,
    "refusals": refusals,
    "quiet": quiet,
    "power": power,
    "numbers": numbers,
}


def too_long(*_):
    raise Wrong("it took too long")


def look_at(given, name):
    """Whether a row passed, and what is told of it."""
    GIVEN.__dict__.update(given)
    signal.signal(signal.SIGALRM, too_long)
    begun = time.monotonic()
    signal.alarm(60 if GIVEN.short else 1800)
    try:
        passed, said = True, ROWS[name]()
    except (Wrong, OSError, ValueError, subprocess.SubprocessError) as error:
        passed, said = False, f"FAILED: {type(error).__name__}: {error}"
    signal.alarm(0)
    return passed, f"{name}: {said}, {time.monotonic() - begun:.1f} s"


def main():
    parser = argparse.ArgumentParser(description="The rows of talk.sh")
    parser.add_argument("program")
    parser.add_argument("talk")
    parser.add_argument("--short", action="store_true")
    parser.add_argument("rows", nargs="*")
    parser.parse_intermixed_args(namespace=GIVEN)
    left_out = {"power"} if GIVEN.short else set()
    if GIVEN.short and os.environ.get("UNTRACED"):
        print("strace is not here, or may not trace: syncs and quiet were not looked at")
        left_out |= {"syncs", "quiet"}
    rows = GIVEN.rows or [name for name in ROWS if name not in left_out]
    passed = 0
    with tempfile.TemporaryDirectory(dir="/dev/shm" if os.access("/dev/shm", os.W_OK) else None) as GIVEN.memory:
        # Most rows sleep, so the short ones go side by side.
        with ProcessPoolExecutor(4 if GIVEN.short else 1, get_context("fork")) as pool:
            for has_passed, text in pool.map(look_at, [vars(GIVEN)] * len(rows), rows):
                passed += has_passed
                print(text, flush=True)
    print(f"talk: {passed} passed, {len(rows) - passed} failed")
    return not 0 < passed == len(rows)


if __name__ == "__main__":
    sys.exit(main())
