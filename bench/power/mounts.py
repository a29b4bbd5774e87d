"""File systems to cut: made in a file, mounted on a disk that notes its writes, and mounted as a cut left it.

`be_private` comes first: then all mounts are in a namespace of this process, and go with it.
"""
import ctypes
import errno
import fcntl
import os
import random
import shutil
import struct
import subprocess
import sys
import tempfile
import threading
import time

from disk import ANY, BLOCK, Control, blocks_of, events, write_blocks
from fuse import LIBRARY

HERE = os.path.dirname(os.path.abspath(__file__))
MEGABYTE = 1 << 20
SECTOR = 512
# These writes are never torn: a superblock has a checksum, and a file system of this size has but one in use.
SUPERBLOCKS = {0, 1024, 65536, 64 * MEGABYTE}
EXT4 = "mkfs.ext4 -q -F -J size=4 -E lazy_itable_init=0,lazy_journal_init=0,nodiscard -b "
# By name: the kernel's name, the size, how it is made, and the options of its mount.
KINDS = {
    "ext4": ("ext4", 32 * MEGABYTE, EXT4 + "4096", ""),
    "ext4-1k": ("ext4", 32 * MEGABYTE, EXT4 + "1024", ""),
    "xfs": ("xfs", 300 * MEGABYTE, "mkfs.xfs -q -f -K", "nouuid"),
    "btrfs": ("btrfs", 128 * MEGABYTE, "mkfs.btrfs -q -f -K", ""),
}


def be_private():
    """Moves this process into a mount namespace of its own."""
    own_namespace, private_and_below = 0x20000, 1 << 14 | 1 << 18
    if LIBRARY.unshare(own_namespace) or LIBRARY.mount(b"none", b"/", None, private_and_below, None):
        raise OSError(ctypes.get_errno(), "no mount namespace of its own")


def free_loop():
    with open("/dev/loop-control", "rb") as control:
        return fcntl.ioctl(control, 0x4C82)  # LOOP_CTL_GET_FREE


def loop_on(path):
    """An open loop device on a file, and its name. It goes when nobody has it open or mounted."""
    for _ in range(500):
        number = free_loop()
        name = f"/dev/loop{number}"
        file, device = os.open(path, os.O_RDWR), os.open(name, os.O_RDWR)
        try:
            about = bytearray(232)
            struct.pack_into("<I", about, 52, 4)  # LO_FLAGS_AUTOCLEAR
            fcntl.ioctl(device, 0x4C0A, struct.pack("<II", file, 0) + bytes(about) + bytes(64))  # LOOP_CONFIGURE
            # A request is one call of the disk: were it several and a later one failed, the loop device
            # would take the short count for success.
            with open(f"/sys/block/loop{number}/queue/max_sectors_kb", "w") as longest:
                longest.write("64")
            return device, name
        except OSError as error:
            os.close(device)
            if error.errno != errno.EBUSY:
                raise
        finally:
            os.close(file)
        time.sleep(0.002)  # another process took it
    raise OSError(errno.EBUSY, "no loop device")


def mount(path, folder, kind):
    system, _, _, options = KINDS[kind]
    device, name = loop_on(path)
    try:
        if LIBRARY.mount(name.encode(), folder.encode(), system.encode(), 0, options.encode() or None):
            code = ctypes.get_errno()
            raise OSError(code, f"{kind} is not mounted: {os.strerror(code)}")
    finally:
        os.close(device)


def unmount(folder):
    for _ in range(500):
        if LIBRARY.umount2(folder.encode(), 0) == 0:
            return
        if ctypes.get_errno() != errno.EBUSY:
            break
        time.sleep(0.01)
    raise OSError(ctypes.get_errno(), f"{folder} is not unmounted")


class Rig:
    """A new file system of a kind, in a folder of its own: on a file, then on a disk, then as cuts left it."""

    def __init__(self, kind):
        self.kind, self.size = kind, KINDS[kind][1]
        self.folder = tempfile.mkdtemp()
        self.base, self.log, self.control, self.image, self.served, self.mounted, self.cut = (
            os.path.join(self.folder, name) for name in ("base", "log", "control", "image", "served", "mounted", "cut")
        )
        for name in (self.served, self.mounted, self.cut):
            os.mkdir(name)
        with open(self.base, "wb") as file:
            file.truncate(self.size)
        subprocess.run([*KINDS[kind][2].split(), self.base], check=True, stdout=subprocess.DEVNULL)

    def mount_base(self):
        mount(self.base, self.mounted, self.kind)
        return self.mounted

    def start(self):
        """Mounts the file system on a disk. Returns the disk's control."""
        for name in (self.log, self.control):
            open(name, "wb").close()
        words = [self.served, self.base, str(self.size), self.log, self.control]
        self.server = subprocess.Popen([sys.executable, os.path.join(HERE, "disk.py"), *words], stdout=subprocess.PIPE)
        if self.server.stdout.readline() != b"ready\n":
            raise RuntimeError("no disk is served")
        control = Control(self.control)
        control.fail(0, ANY)
        mount(os.path.join(self.served, "disk"), self.mounted, self.kind)
        return control

    def mount_again(self):
        """Unmounts and mounts the file system on the same disk: a clean end, and what the disk has then."""
        unmount(self.mounted)
        mount(os.path.join(self.served, "disk"), self.mounted, self.kind)

    def stop(self):
        unmount(self.mounted)
        unmount(self.served)
        self.server.wait()

    def mount_cut(self, blocks):
        """Mounts a disk of these blocks, whose journal is replayed by that."""
        with open(self.image, "wb") as file:
            file.truncate(self.size)
            for number, block in blocks.items():
                os.pwrite(file.fileno(), block, number * BLOCK)
        mount(self.image, self.cut, self.kind)
        return self.cut

    def unmount_cut(self):
        unmount(self.cut)

    def close(self):
        shutil.rmtree(self.folder, ignore_errors=True)


class Noise(threading.Thread):
    """Makes the system write a file's pages out at moments that no program chose."""

    def __init__(self, path, seed):
        super().__init__(daemon=True)
        self.path, self.drawn, self.over = path, random.Random(seed), threading.Event()

    def run(self):
        file, folder = -1, os.open(os.path.dirname(self.path), os.O_RDONLY)
        while not self.over.wait(self.drawn.random() * 0.0006):
            if file < 0 and os.path.exists(self.path):
                file = os.open(self.path, os.O_RDONLY)
            if file >= 0 and self.drawn.random() < 0.9:
                LIBRARY.sync_file_range(file, ctypes.c_long(0), ctypes.c_long(0), 7)
            elif file >= 0:
                LIBRARY.syncfs(folder)
        for descriptor in (file, folder):
            if descriptor >= 0:
                os.close(descriptor)

    def __enter__(self):
        self.start()

    def __exit__(self, *_):
        self.over.set()
        self.join()


def torn(blocks, at, data, drawn, share):
    for place in range(0, len(data), SECTOR):
        if drawn.random() < share:
            write_blocks(blocks, at + place, data[place : place + SECTOR])


def left_by_cut(firm, waiting, how, drawn):
    """The blocks behind a cut: what is firm, and of the writes that wait all, none, some, or some sectors."""
    blocks, share = dict(firm), drawn.choice([0.1, 0.3, 0.5, 0.7, 0.9])
    for at, data in waiting:
        if how == "all" or (how != "none" and (how == "some" or at in SUPERBLOCKS) and drawn.random() < share):
            write_blocks(blocks, at, data)
        elif how == "torn" and at not in SUPERBLOCKS:
            torn(blocks, at, data, drawn, share)
    return blocks


def cuts(rig, drawn, moments, begun, ended):
    """Disks as cuts leave them: (until when it may have been, blocks), up to three at each of so many moments.

    The moments are drawn from what the disk noted after `begun`, and one is that of `ended`. What was written before
    a flush that was answered is there.
    """
    log = [event for event in events(rig.log) if event[0] != "e"]
    late = [k + 1 for k, event in enumerate(log) if event[1] > begun]
    at_end = sum(event[1] <= ended for event in log)
    firm, waiting, done = blocks_of(rig.base), [], 0
    for moment in sorted({*drawn.sample(late, min(len(late), moments)), at_end}):
        for kind, _, at, data in log[done:moment]:
            if kind == "w":
                waiting.append((at, data))
            else:
                for place, written in waiting:
                    write_blocks(firm, place, written)
                waiting = []
        done = moment
        until = log[moment][1] if moment < len(log) else float("inf")
        for how in ["all", "none", drawn.choice(["some", "torn", "torn"])] if waiting else ["all"]:
            yield until, left_by_cut(firm, waiting, how, drawn)
