"""What a heap's file holds, and what updates make of it, told without the program."""
import struct
from dataclasses import dataclass, field

MAGIC = 0x524F4D554C555331
HEADER = 8
IDLE, MUTATING, COPYING = 0, 1, 2


class Broken(Exception):
    """These words are no heap, or the region that counts breaks a rule."""


def words_in(data):
    return list(struct.unpack(f"<{len(data) // 8}Q", data[: len(data) // 8 * 8]))


def length_of_region(order):
    return 16 + 6 * 2**order


@dataclass
class Contents:
    """A heap's state, and the count of updates that led to it."""

    count: int = 0
    queue: list = field(default_factory=list)
    members: set = field(default_factory=set)
    values: dict = field(default_factory=dict)

    def copy(self):
        return Contents(self.count, list(self.queue), set(self.members), dict(self.values))

    def update(self, line):
        """Does a line of a script, an update for which there is room."""
        for member in line.removeprefix("tx ").split(" ; "):
            self.do(*member.split())
        self.count += 1

    def do(self, what, key="", value=""):
        if what == "enq":
            self.queue.append(int(key))
        elif what == "deq":
            del self.queue[:1]
        elif what == "add":
            self.members.add(int(key))
        elif what == "rem":
            self.members.discard(int(key))
        elif what == "put":
            self.values[int(key)] = int(value)
        elif what == "del":
            self.values.pop(int(key), None)
        else:
            raise ValueError(what)

    def shown(self, order):
        """What `stat` prints."""
        sizes = len(self.queue), len(self.members), len(self.values)
        free = 15 * 2 ** (order - 4) - sum(sizes)
        return (
            f"order {order}\ncount {self.count}\nqueue {sizes[0]} set {sizes[1]} map {sizes[2]}\n"
            f"free {free}\ntotal {sum(self.values.values())}\n"
        )


class Chains:
    """The chains of a region, whose nodes are blocks that no other chain has."""

    def __init__(self, region, order):
        self.region, self.reached = region, set()
        self.blocks = 16 + 2 * 2**order  # where they begin; the first are the table of buckets
        self.buckets = 2**order // 4
        self.nodes = range(self.blocks + self.buckets, self.blocks + 4 * 2**order, 4)

    def chain(self, link, place_of_next):
        while link:
            if link not in self.nodes or link in self.reached:
                raise Broken(f"a link to {link}")
            self.reached.add(link)
            yield link
            link = self.region[link + place_of_next]

    def bucket(self, number):
        return self.chain(self.region[self.blocks + number], 2)


def contents_of(region, order):
    if region[0] != 1 or region[1] not in (1, 2):
        raise Broken("a region of another kind or version")
    chains = Chains(region, order)
    found = Contents(region[2])
    found.queue = [region[node] for node in chains.chain(region[3], 1)]
    found.members = {region[node] for node in chains.chain(region[6], 1)}
    found.values = {region[n]: region[n + 1] for i in range(chains.buckets) for n in chains.bucket(i)}
    if [len(found.queue), len(found.members), len(found.values)] != [region[5], region[7], region[9]]:
        raise Broken("a size that is not that of its chain")
    return found


class Heap:
    """A heap as a file's bytes have it."""

    def __init__(self, data):
        words = words_in(data)
        if len(words) < HEADER or words[:2] != [MAGIC, 1] or words[2] not in range(4, 17) or words[3] > COPYING:
            raise Broken("not a heap")
        self.order, self.state = words[2:4]
        length = length_of_region(self.order)
        if len(words) < HEADER + 2 * length:
            raise Broken("a heap that is too short")
        self.main, self.back = words[HEADER:][:length], words[HEADER + length :][:length]

    def counting(self):
        """The region that counts."""
        if self.state == IDLE and self.main != self.back:
            raise Broken("IDLE, and the regions differ")
        return self.back if self.state == MUTATING else self.main

    def version(self):
        return self.counting()[1]

    def contents(self):
        return contents_of(self.counting(), self.order)


def as_version_1(data):
    """A heap at rest as version 1 of the region had it, the last key of a bucket first."""
    words = words_in(data)
    order, length = words[2], length_of_region(words[2])
    region = words[HEADER:][:length]
    chains = Chains(region, order)
    region[1] = 1
    for number in range(chains.buckets):
        link = 0
        for node in list(chains.bucket(number)):
            region[node + 2 : node + 4] = [link, 0]
            link = node
        region[chains.blocks + number] = link
    return struct.pack(f"<{HEADER + 2 * length}Q", *words[:HEADER], *region, *region)
