"""What a traced process did to the files of one folder and sent over UDP, as events in order, from a log of strace.

A call that may change such a file and has no rule here ends the reading by `NotModelled`: then the rules have to grow first.
Calls that only read are passed over where they have no rule."""

import collections
import itertools
import os
import re
from typing import NamedTuple

from lib.datagrams import own_numbers

WATCHED = (
    "open openat creat close dup dup2 dup3 fcntl read pread64 lseek write writev pwrite64 pwritev pwritev2 ftruncate "
    "fallocate fsync fdatasync sync_file_range fadvise64 msync mmap "
    "copy_file_range sendfile splice io_uring_setup io_submit statx fstat newfstatat flock sendto "
    "sendmsg sendmmsg"
).split()
HARMLESS = {"read", "lseek", "statx", "fstat", "newfstatat", "flock", "close", "fcntl", "mmap"}
NAMING = "rename renameat renameat2 unlink unlinkat link linkat symlink symlinkat truncate openat2".split()
TEXT = re.compile(r'"((?:\\x[0-9a-f]{2})*)"(\.\.\.)?')


class NotModelled(Exception):
    """A call that there is no rule for."""


class Call(NamedTuple):
    """The beginning or the end of a call. `words` are what the log has of it until then."""

    name: str
    words: str
    answer: int | None
    key: tuple  # the same at both
    ends: bool
    nth: int  # of this name in its thread, from 1

    def texts(self):
        found = TEXT.findall(self.words)
        if any(cut for _, cut in found):
            raise NotModelled(f"{self.name}: the log has only the beginning of a text")
        return [bytes.fromhex(text.replace("\\x", "")) for text, _ in found]

    def descriptor(self):
        found = re.match(r"(\d+)", self.words)
        return int(found.group(1)) if found else None

    def succeeded(self):
        return self.answer is not None and self.answer >= 0

    def numbers(self):
        """The whole words that are numbers, behind the last text."""
        return [int(word) for word in re.findall(r"(?<=, )-?\d+(?=[,) ]|$)", self.words.rpartition('"')[2])]


class Event(NamedTuple):
    kind: str
    about: str
    key: tuple
    file: object = None  # which open file, or the path
    at: int = 0
    data: bytes = b""
    answer: object = None


def answer_in(words):
    found = re.search(r"\)\s*= (-?\d+|0x[0-9a-f]+)", words)
    return int(found.group(1), 0) if found else None


def calls_in(lines, life):
    """The calls of a log in its order: each begins and ends, unless the process ended first."""
    begun, count, made = {}, itertools.count(), collections.Counter()
    for line in lines:
        found = re.match(r"(\d+) +(?:<\.\.\. (\w+) resumed>|(\w+)\()(.*)", line)
        if not found:
            continue
        thread, resumed, name, words = found.groups()
        if resumed:
            if thread in begun:
                call = begun.pop(thread)
                yield call._replace(words=call.words + words, answer=answer_in(words), ends=True)
            continue
        made[thread, name] += 1
        call = Call(name, words.removesuffix("<unfinished ...>"), None, (life, next(count)), False, made[thread, name])
        yield call
        if words.endswith("<unfinished ...>"):
            begun[thread] = call
        else:
            yield call._replace(answer=answer_in(words), ends=True)


class Reader:
    """Reads the events of one process from its calls."""

    def __init__(self, folder, six, life):
        self.folder, self.six, self.life = os.fsencode(str(folder)), six, life
        self.files = {}  # by descriptor, the open files of the folder: the name that events have for it
        self.places = {}  # by descriptor, where it is read next
        self.folders = set()  # descriptors
        self.opened = itertools.count()
        self.touching = {}  # the calls on the folder and its files: of this name and this nth of it in a thread

    def event(self, call, kind, **more):
        return Event(kind, f"life {self.life}, {call.name}", call.key, **more)

    def events_in(self, lines):
        for call in calls_in(lines, self.life):
            self.note(call)
            rule = RULES.get(call.name)
            if rule:
                yield from rule(self, call)
            elif call.name in WATCHED and call.name not in HARMLESS and self.concerns(call):
                raise NotModelled(f"{call.name} on a file of {os.fsdecode(self.folder)}")

    def note(self, call):
        is_on = call.descriptor() in self.files or call.descriptor() in self.folders
        if call.ends and call.name in ("open", "openat") and call.succeeded():
            path = self.path_of(call.texts()[0])
            is_on = path == self.folder or self.is_inside(path)
        if call.ends and call.name in NAMING:
            is_on = any(self.is_inside(self.path_of(text)) for text in call.texts())
        if is_on and call.name != "close":
            self.touching[call.name, call.nth] = None

    def concerns(self, call):
        """Whether a call without a rule may change a file: those with two descriptors have either in any place."""
        return call.name.startswith("io_") or any(int(word) in self.files for word in re.findall(r"\b\d+\b", call.words))

    def path_of(self, text):
        return os.path.normpath(os.path.join(os.fsencode(os.getcwd()), text))

    def is_inside(self, path):
        return os.path.dirname(path) == self.folder

    # What each call is.

    def opens(self, call):
        if not call.ends or not call.succeeded():
            return
        path = self.path_of(call.texts()[0])
        if path == self.folder:
            if "O_TMPFILE" in call.words:
                raise NotModelled("O_TMPFILE")
            self.folders.add(call.answer)
        elif self.is_inside(path):
            if "O_APPEND" in call.words:
                raise NotModelled("O_APPEND")
            name = (self.life, next(self.opened))
            self.files[call.answer], self.places[call.answer] = name, 0
            flags = {flag for flag in ("O_CREAT", "O_TRUNC") if flag in call.words or call.name == "creat"}
            yield self.event(call, "open", file=name, data=path, answer=flags)

    def closes(self, call):
        if not call.ends:
            self.files.pop(call.descriptor(), None)
            self.folders.discard(call.descriptor())
        yield from ()

    def doubles(self, call):
        """A second descriptor for an open file. What is read by place is not followed from there on."""
        is_copy = call.name != "fcntl" or "F_DUPFD" in call.words
        if is_copy and call.ends and call.succeeded():
            if call.descriptor() in self.files:
                self.files[call.answer] = self.files[call.descriptor()]
            elif call.descriptor() in self.folders:
                self.folders.add(call.answer)
            else:
                self.files.pop(call.answer, None)
        yield from ()

    def writes(self, call):
        file = self.files.get(call.descriptor())
        if file:
            data, (_, at) = call.texts()[0], call.numbers()[:2]
            yield self.event(call, "written" if call.ends else "write", file=file, at=at, data=data, answer=call.answer)

    def appends(self, call):
        """A write at the place where the last one ended."""
        file, descriptor = self.files.get(call.descriptor()), call.descriptor()
        if file:
            data, at = call.texts()[0], self.places.get(descriptor)
            if at is None:
                raise NotModelled(f"{call.name} at a place that is not followed")
            yield self.event(call, "written" if call.ends else "write", file=file, at=at, data=data, answer=call.answer)
            if call.ends and call.succeeded():
                self.places[descriptor] = at + call.answer

    def cuts(self, call):
        file = self.files.get(call.descriptor())
        if file:
            at = int(re.match(r"\d+, (\d+)", call.words).group(1))
            yield self.event(call, "written" if call.ends else "write", file=file, at=at, data=None, answer=call.answer)

    def syncs(self, call):
        """An interrupted sync has neither kept anything nor told of a failure."""
        if call.descriptor() in self.folders:
            if call.ends and call.answer == 0:
                yield self.event(call, "folder synced")
        elif file := self.files.get(call.descriptor()):
            told = call.answer is not None and "EINTR" not in call.words
            yield self.event(call, "synced" if call.ends else "sync", file=file, answer=call.answer == 0 if told else None)

    def drops(self, call):
        file = self.files.get(call.descriptor())
        where = re.match(r"\d+, (\d+), (\d+), POSIX_FADV_DONTNEED\b", call.words)
        if file and call.ends and call.answer == 0 and where:
            yield self.event(call, "drop", file=file, at=int(where.group(1)), answer=int(where.group(2)))

    def reads(self, call):
        descriptor = call.descriptor()
        if descriptor in self.files and call.ends and call.succeeded():
            data, at = call.texts()[0], self.places.get(descriptor)
            if call.name == "pread64":
                at = call.numbers()[1]
            else:
                self.places[descriptor] = at + len(data) if at is not None else None
            if at is not None:
                yield self.event(call, "read", file=self.files[descriptor], at=at, data=data)

    def seeks(self, call):
        if call.ends and call.succeeded() and call.descriptor() in self.files:
            self.places[call.descriptor()] = call.answer
        yield from ()

    def names(self, call):
        """A rename, a second name, or the end of a name."""
        paths = [self.path_of(text) for text in call.texts()] if call.ends and call.succeeded() else []
        if any(map(self.is_inside, paths)):
            if call.name.startswith("rename") and "RENAME_EXCHANGE" not in call.words and all(map(self.is_inside, paths)):
                yield self.event(call, "rename", file=paths[0], data=paths[1])
            elif call.name.startswith("link") and all(map(self.is_inside, paths)):
                yield self.event(call, "link", file=paths[0], data=paths[1])
            elif call.name.startswith("unlink"):
                yield self.event(call, "unlink", file=paths[0])
            else:
                raise NotModelled(f"{call.name} of {paths}")

    def maps(self, call):
        where = re.match(r"[^,]*, [^,]*, [^,]*, ([^,]*), (-?\d+)", call.words)
        if where and int(where.group(2)) in self.files and "MAP_SHARED" in where.group(1):
            raise NotModelled("mmap of a file, shared")
        yield from ()

    def sends(self, call):
        """Where a datagram says own numbers, it counts from its beginning on."""
        if call.ends:
            return
        if call.name == "sendto":
            numbers = own_numbers(call.texts()[0], self.six) if '"' in call.words else []
            if numbers:
                yield self.event(call, "send", at=max(numbers))
        elif b"SWIM".hex() in call.words.replace("\\x", ""):
            raise NotModelled(f"{call.name} of a datagram")


RULES = {
    **dict.fromkeys(("open", "openat", "creat"), Reader.opens),
    **dict.fromkeys(("dup", "fcntl"), Reader.doubles),
    **dict.fromkeys(("fsync", "fdatasync"), Reader.syncs),
    **dict.fromkeys(("pread64", "read"), Reader.reads),
    **dict.fromkeys(NAMING, Reader.names),
    **dict.fromkeys(("sendto", "sendmsg", "sendmmsg"), Reader.sends),
    "close": Reader.closes,
    "pwrite64": Reader.writes,
    "write": Reader.appends,
    "ftruncate": Reader.cuts,
    "fadvise64": Reader.drops,
    "lseek": Reader.seeks,
    "mmap": Reader.maps,
}
