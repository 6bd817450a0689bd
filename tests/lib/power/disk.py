"""A disk of blocks that this process serves: a single file over FUSE, spoken here without a library, and a loop device over it.
Each write and each flush of it is noted in order, and one write can be refused."""

import ctypes
import errno
import os
import stat
import struct
import subprocess
import threading

from lib.trials import undisturbed

BLOCK = 4096
WRITE_MAX = 1 << 17
EMPTY = bytes(BLOCK)
ROOT = 1  # the one file
ANY = "any block"
(GETATTR, SETATTR, OPEN, READ, WRITE, RELEASE, FSYNC, FLUSH, INIT, ACCESS) = (3, 4, 14, 15, 16, 18, 20, 25, 26, 34)
SILENT = {2, 36, 42}  # forget, interrupt: they have no answer
DETACH = 2  # a mount that is in use
DIRECT = 1  # reads and writes come here at once, and no cache holds them
BIG_WRITES = 1 << 5


class Failed(Exception):
    """A command that failed."""


def command(*words):
    """What it prints; `Failed` where its status is not 0."""
    with undisturbed():
        ran = subprocess.run(list(map(str, words)), stdout=subprocess.PIPE, stderr=subprocess.STDOUT, timeout=120, check=False)
    if ran.returncode:
        raise Failed(f"{' '.join(map(str, words))}: {ran.stdout.decode().strip()}")
    return ran.stdout.decode().strip()


class Content:
    """The bytes of a disk; blocks of zeros are not kept."""

    def __init__(self, size, blocks=()):
        self.size, self.blocks = size, dict(blocks)

    def copy(self):
        return Content(self.size, self.blocks)

    def read(self, at, count):
        first, last = at // BLOCK, (at + count - 1) // BLOCK
        found = b"".join(self.blocks.get(block, EMPTY) for block in range(first, last + 1))
        return found[at - first * BLOCK : at - first * BLOCK + count]

    def write(self, at, data):
        place = 0
        while place < len(data):
            block, start = divmod(at + place, BLOCK)
            part = data[place : place + BLOCK - start]
            old = self.blocks.get(block, EMPTY)
            self.blocks[block] = old[:start] + part + old[start + len(part) :]
            place += len(part)

    @classmethod
    def load(cls, path):
        """The content of a file, which may have holes."""
        content = cls(os.path.getsize(path))
        with open(path, "rb") as file:
            at = 0
            while at < content.size:
                try:
                    at = os.lseek(file.fileno(), at, os.SEEK_DATA) // BLOCK * BLOCK
                except OSError:
                    break
                data = os.pread(file.fileno(), WRITE_MAX, at)
                content.write(at, data)
                at += len(data)
        return content

    def save(self, path):
        with open(path, "wb") as file:
            file.truncate(self.size)
            for block, data in self.blocks.items():
                os.pwrite(file.fileno(), data, block * BLOCK)


class Disk:
    """A content with a log of what is done to it: (offset, bytes) for a write, none for a flush."""

    def __init__(self, content):
        self.content, self.base = content, None
        self.log = []
        self.passing = {}  # by block, or for any, how many writes of it pass before one is refused
        self.refused = []  # the places in the log where one was
        self.lock = threading.Lock()

    def begin(self):
        """The log begins anew here."""
        with self.lock:
            self.base, self.log, self.refused = self.content.copy(), [], []

    def place(self):
        with self.lock:
            return len(self.log)

    def is_refused(self, at, data):
        for block in {ANY, *range(at // BLOCK, (at + len(data) - 1) // BLOCK + 1)} & set(self.passing):
            self.passing[block] -= 1
            if self.passing[block] < 0:
                del self.passing[block]
                return True
        return False

    def write(self, at, data):
        with self.lock:
            if self.is_refused(at, data):
                self.refused.append(len(self.log))
                raise OSError(errno.EIO, "refused")
            self.content.write(at, data)
            self.log.append((at, data))

    def flush(self):
        with self.lock:
            self.log.append(None)


class Server:
    """Serves a disk as a file at this path, which is there already."""

    def __init__(self, disk, path):
        self.disk, self.path = disk, os.fsencode(path)
        self.libc = ctypes.CDLL(None, use_errno=True)
        self.thread = threading.Thread(target=self.serve, daemon=True)
        self.device = os.open("/dev/fuse", os.O_RDWR | os.O_CLOEXEC)

    def __enter__(self):
        options = f"fd={self.device},rootmode={stat.S_IFREG:o},user_id=0,group_id=0,max_read={WRITE_MAX}"
        if self.libc.mount(b"swim", self.path, b"fuse", 0, options.encode()):
            os.close(self.device)
            raise OSError(ctypes.get_errno(), "mount of FUSE")
        self.thread.start()

    def __exit__(self, *_):
        """The mount ends, and with it the thread."""
        with undisturbed():
            self.libc.umount2(self.path, DETACH)
            self.thread.join(10)
            os.close(self.device)

    def serve(self):
        while True:
            try:
                request = os.read(self.device, WRITE_MAX + BLOCK)
            except OSError as error:
                if error.errno == errno.ENODEV:  # unmounted
                    return
                continue
            _, kind, unique = struct.unpack_from("<IIQ", request)
            if kind in SILENT:
                continue
            try:
                status, answer = 0, self.answer(kind, request[40:])
            except OSError as error:
                status, answer = -error.errno, b""
            try:
                os.write(self.device, struct.pack("<IiQ", 16 + len(answer), status, unique) + answer)
            except OSError:
                pass  # whoever asked has gone

    def answer(self, kind, words):
        if kind == INIT:
            return struct.pack("<IIIIHHIIHHI28x", 7, 31, WRITE_MAX, BIG_WRITES, 0, 0, WRITE_MAX, 1, 0, 0, 0)
        if kind in (GETATTR, SETATTR):
            return struct.pack("<QII", 3600, 0, 0) + self.attributes()
        if kind == OPEN:
            return struct.pack("<QII", 0, DIRECT, 0)
        if kind == READ:
            _, at, count = struct.unpack_from("<QQI", words)
            with self.disk.lock:
                return self.disk.content.read(at, min(count, self.disk.content.size - at))
        if kind == WRITE:
            _, at, count = struct.unpack_from("<QQI", words)
            self.disk.write(at, words[40 : 40 + count])
            return struct.pack("<II", count, 0)
        if kind == FSYNC:
            self.disk.flush()
            return b""
        if kind in (RELEASE, FLUSH, ACCESS):
            return b""
        raise OSError(errno.ENOSYS, "no such request here")

    def attributes(self):
        size = self.disk.content.size
        times = (0,) * 6
        return struct.pack("<QQQ3Q3I7I", ROOT, size, size // 512, *times, stat.S_IFREG | 0o600, 1, 0, 0, 0, BLOCK, 0)
