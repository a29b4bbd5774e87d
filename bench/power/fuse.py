"""As much of the FUSE protocol as a disk in memory needs, by hand.

A `Server` mounts itself on a folder and answers one request after another. A subclass says what the folder has.
Only root can mount.
"""
import ctypes
import errno
import os
import struct
import sys
import traceback

LIBRARY = ctypes.CDLL(None, use_errno=True)
LONGEST_WRITE = 131072
FOLDER = 1  # the node of the folder itself
NO_DEVICES = 6  # MS_NOSUID | MS_NODEV
DIRECT = 1  # FOPEN_DIRECT_IO: each read and write comes here, and no page of the file is kept


class Fails(Exception):
    """A request that is answered by this error."""

    def __init__(self, code):
        super().__init__(os.strerror(code))
        self.code = code


def attributes(node, size, mode):
    sectors, links, block = (size + 511) // 512, 1, 4096
    return struct.pack("<QQQQQQIIIIIIIIII", node, size, sectors, 0, 0, 0, 0, 0, 0, mode, links, 0, 0, 0, block, 0)


def entry(node, size, mode):
    return struct.pack("<QQQQII", node, 0, 0, 0, 0, 0) + attributes(node, size, mode)


def name_in(body):
    return bytes(body).split(b"\0")[0].decode()


class Server:
    """One mount. `serve` returns once it is unmounted."""

    def __init__(self, folder):
        self.requests = os.open("/dev/fuse", os.O_RDWR)
        options = f"fd={self.requests},rootmode=40000,user_id=0,group_id=0".encode()
        if LIBRARY.mount(b"power", folder.encode(), b"fuse.power", NO_DEVICES, options):
            raise OSError(ctypes.get_errno(), f"mount of {folder}")

    def serve(self):
        while True:
            try:
                request = os.read(self.requests, LONGEST_WRITE + 65536)
            except OSError as error:
                if error.errno in (errno.EINTR, errno.EAGAIN, errno.ENOENT):
                    continue
                return  # it is unmounted
            _, kind, number, node = struct.unpack_from("<IIQQ", request)
            if kind in (2, 36, 42):  # FORGET, INTERRUPT and BATCH_FORGET have no answer
                continue
            try:
                code, answer = 0, self.answer(kind, node, memoryview(request)[40:])
            except Fails as failed:
                code, answer = failed.code, b""
            except Exception:
                traceback.print_exc(file=sys.stderr)
                code, answer = errno.EIO, b""
            try:
                os.write(self.requests, struct.pack("<IiQ", 16 + len(answer), -code, number) + answer)
            except OSError:
                pass  # who asked is gone
            if kind == 38:  # DESTROY
                return

    def answer(self, kind, node, body):
        if kind in self.KINDS:
            return self.KINDS[kind](self, node, body)
        if kind in (18, 25, 29, 34, 38):  # RELEASE, FLUSH, RELEASEDIR, ACCESS, DESTROY
            return b""
        raise Fails(errno.ENOSYS)

    def _init(self, node, body):
        _, _, ahead, _ = struct.unpack_from("<IIII", body)
        # Version 7.31; reads may come side by side, writes may be longer than a page, and requests so many pages.
        sizes = struct.pack("<IIIIHHIIHHII", 7, 31, ahead, 1 | 1 << 5 | 1 << 22, 16, 12, LONGEST_WRITE, 1, 32, 0, 0, 0)
        return sizes + bytes(24)

    def _lookup(self, node, body):
        return entry(*self.lookup(name_in(body)))

    def _getattr(self, node, body):
        return struct.pack("<QII", 0, 0, 0) + attributes(*self.getattr(node))

    def _setattr(self, node, body):
        valid, _, _, size = struct.unpack_from("<IIQQ", body)
        if valid & 8:
            self.truncate(node, size)
        return self._getattr(node, body)

    def _open(self, node, body):
        return struct.pack("<QII", 0, DIRECT, 0)

    def _open_folder(self, node, body):
        return struct.pack("<QII", 0, 0, 0)

    def _read(self, node, body):
        _, at, size = struct.unpack_from("<QQI", body)
        return self.read(node, at, size)

    def _write(self, node, body):
        _, at, size = struct.unpack_from("<QQI", body)
        self.write(node, at, bytes(body[40 : 40 + size]))
        return struct.pack("<II", size, 0)

    def _room(self, node, body):
        return struct.pack("<QQQQQIIII", 1 << 20, 1 << 19, 1 << 19, 1 << 20, 1 << 19, 4096, 255, 4096, 0) + bytes(24)

    def _sync(self, node, body):
        self.sync(node)
        return b""

    def _sync_folder(self, node, body):
        self.sync_folder()
        return b""

    def _create(self, node, body):
        return entry(*self.create(name_in(body[16:]))) + self._open(node, body)

    # LOOKUP, GETATTR, SETATTR, OPEN, READ, WRITE, STATFS, FSYNC, INIT, OPENDIR, FSYNCDIR, CREATE
    KINDS = {
        1: _lookup, 3: _getattr, 4: _setattr, 14: _open, 15: _read, 16: _write, 17: _room, 20: _sync, 26: _init,
        27: _open_folder, 30: _sync_folder, 35: _create,
    }

    def truncate(self, node, size):
        raise Fails(errno.EPERM)

    def create(self, name):
        raise Fails(errno.EPERM)

    def sync_folder(self):
        raise Fails(errno.ENOSYS)
