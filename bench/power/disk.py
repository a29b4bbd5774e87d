"""A disk in memory, below a loop device and a file system: each write and flush is noted, and one write can fail.

Run as a program it serves FOLDER/disk: disk.py FOLDER BASE SIZE LOG CONTROL. The disk is first as the file BASE.
"""
import errno
import mmap
import os
import stat
import struct
import sys
import time

from fuse import FOLDER, LIBRARY, Fails, Server

BLOCK = 4096
HEAD = struct.Struct("<cdQI")  # kind, time, place, length; then the bytes
HEAP = b"1SULUMOR"  # how a heap's first page begins
ANY = -1


class Control:
    """Numbers that a test and its disk share: which write is to fail, and how many did.

    `nth` is counted down by each write, and the one that makes it 0 fails; where `state` is not ANY, only writes
    count that begin with a heap's first page with that state.
    """

    def __init__(self, path):
        with open(path, "ab") as file:
            file.truncate(BLOCK)
        with open(path, "r+b") as file:
            self.page = mmap.mmap(file.fileno(), BLOCK)

    def fail(self, nth, state=ANY):
        struct.pack_into("<qqq", self.page, 0, nth, state, 0)

    def be_well(self):
        """No write fails from now on. Returns how many did."""
        failed = struct.unpack_from("<q", self.page, 16)[0]
        self.fail(0)
        return failed

    def fails(self, data):
        nth, state, failed = struct.unpack_from("<qqq", self.page)
        if nth == 0 or (state != ANY and not (data[:8] == HEAP and int.from_bytes(data[24:32], "little") == state)):
            return False
        struct.pack_into("<qqq", self.page, 0, nth - 1, state, failed + (nth == 1))
        return nth == 1


class Disk(Server):
    """A folder with one file, `disk`."""

    def __init__(self, folder, base, size, log, control):
        super().__init__(folder)
        self.size, self.blocks, self.control = size, blocks_of(base), Control(control)
        self.log = open(log, "ab", buffering=0)

    def getattr(self, node):
        return (node, 0, stat.S_IFDIR | 0o700) if node == FOLDER else (node, self.size, stat.S_IFREG | 0o600)

    def lookup(self, name):
        if name != "disk":
            raise Fails(errno.ENOENT)
        return self.getattr(FOLDER + 1)

    def read(self, node, at, size):
        return read_blocks(self.blocks, at, min(size, max(0, self.size - at)))

    def write(self, node, at, data):
        if self.control.fails(data):
            self.log.write(HEAD.pack(b"e", time.monotonic(), at, 0))
            raise Fails(errno.EIO)
        write_blocks(self.blocks, at, data)
        self.log.write(HEAD.pack(b"w", time.monotonic(), at, len(data)) + data)

    def sync(self, node):
        self.log.write(HEAD.pack(b"f", time.monotonic(), 0, 0))


def blocks_of(path):
    """The blocks of a sparse file that are not all zero, by their numbers."""
    found, zeros = {}, bytes(BLOCK)
    with open(path, "rb") as file:
        at, end = 0, os.fstat(file.fileno()).st_size
        while at < end:
            try:
                at = os.lseek(file.fileno(), at, os.SEEK_DATA) // BLOCK * BLOCK
            except OSError:
                break  # no data behind here
            hole = os.lseek(file.fileno(), at, os.SEEK_HOLE)
            for place in range(at, hole, BLOCK):
                block = os.pread(file.fileno(), BLOCK, place).ljust(BLOCK, b"\0")
                if block != zeros:
                    found[place // BLOCK] = block
            at = hole
    return found


def read_blocks(blocks, at, size):
    first, last = at // BLOCK, (at + size + BLOCK - 1) // BLOCK
    whole = b"".join(blocks.get(i, bytes(BLOCK)) for i in range(first, last))
    return whole[at - first * BLOCK :][:size]


def write_blocks(blocks, at, data):
    done = 0
    while done < len(data):
        number, offset = divmod(at + done, BLOCK)
        piece = data[done : done + BLOCK - offset]
        old = blocks.get(number, bytes(BLOCK)) if len(piece) < BLOCK else b""
        blocks[number] = old[:offset] + piece + old[offset + len(piece) :]
        done += len(piece)


def events(log):
    """What a disk noted, in order: (kind, time, place, bytes), of kind "w", "f", or "e" for a write that failed."""
    with open(log, "rb") as file:
        noted = file.read()
    at, found = 0, []
    while at < len(noted):
        kind, when, place, size = HEAD.unpack_from(noted, at)
        at += HEAD.size
        found.append((kind.decode(), when, place, noted[at : at + size]))
        at += size
    return found


if __name__ == "__main__":
    LIBRARY.prctl(1, 9)  # it ends with the test, and the mounts with their namespace
    folder, base, size, log, control = sys.argv[1:]
    server = Disk(folder, base, int(size), log, control)
    print("ready", flush=True)
    server.serve()
