"""A file system in memory that keeps through a cut what was synced, and nothing else.

A file's bytes and length are kept as they were when it was synced last, a name as it was when its folder was.
POSIX promises no more than that.
"""
import errno
import stat
import threading

from fuse import FOLDER, Fails, Server


class Lazy(Server):
    """One folder with files, served by a thread of its own."""

    def __init__(self, folder):
        super().__init__(folder)
        self.names, self.kept_names = {}, {}
        self.files, self.kept_files = {}, {}
        self.thread = threading.Thread(target=self.serve, daemon=True)
        self.thread.start()

    def kept(self):
        """The files that a cut would leave now, by their names."""
        return {name: self.kept_files[node] for name, node in self.kept_names.items()}

    def getattr(self, node):
        if node == FOLDER:
            return node, 0, stat.S_IFDIR | 0o755
        return node, len(self.files[node]), stat.S_IFREG | 0o644

    def lookup(self, name):
        if name not in self.names:
            raise Fails(errno.ENOENT)
        return self.getattr(self.names[name])

    def create(self, name):
        node = FOLDER + 1 + len(self.files)
        self.names[name], self.files[node], self.kept_files[node] = node, bytearray(), b""
        return self.getattr(node)

    def truncate(self, node, size):
        self.files[node] = self.files[node][:size].ljust(size, b"\0")

    def read(self, node, at, size):
        return bytes(self.files[node][at : at + size])

    def write(self, node, at, data):
        if len(self.files[node]) < at + len(data):
            self.truncate(node, at + len(data))
        self.files[node][at : at + len(data)] = data

    def sync(self, node):
        self.kept_files[node] = bytes(self.files[node])

    def sync_folder(self):
        self.kept_names = dict(self.names)
