"""Small cases, thought out by hand, that the reader of traces, the model of the system and the reader of state files have to
get right before anything is judged by them."""

import itertools
import os
import random

from lib.datagrams import ALIVE, PING, Datagram, encode
from lib.power.crash import exact_recipes, images_of
from lib.power.medium import FORGETS, KEEPS, File, Folder
from lib.power.state_file import MISSING, owner_bytes, recovery
from lib.power.trace import Event, NotModelled, Reader

PATH = b"/f/s"
OWNER = owner_bytes(7, "10.0.0.1", 7000)


# State files, from the bytes that docs/reference/STATE_FILE.md has.


def put(content, *pieces):
    found = bytearray(content)
    for at, data in pieces:
        data = bytes.fromhex(data) if isinstance(data, str) else data
        found[at : at + len(data)] = data
    return bytes(found)


def doubled(plain):
    return plain + bytes(byte ^ 0xFF for byte in plain)


def body(ceiling, *peers):
    places = b"".join(peers)
    return doubled(ceiling.to_bytes(8, "big") + bytes([len(peers)]) + places + bytes(48 - len(places)))


NEW = put(
    bytes(16385),
    (0, "53 57 49 4d 53 54 41 54 00 01 00 00 00 00 00 00 00 07 0a 00 00 01 1b 58"),
    (4096, "00 00 00 00 00 00 00 00 ff ff ff ff ff ff ff ff"),
    (8192, "a5"),
)
LOW, HIGH, NO_PORT = b"\x0a\0\0\2\x1b\x58", b"\x0a\0\0\3\x1b\x58", b"\x0a\0\0\2\0\0"
SECOND = put(NEW + bytes(16384), (2048, "a5"), (20480, body(9)), (24576, "a5"))
STATE_FILES = {
    "a new file": (NEW, 1),
    "no file": (None, MISSING),
    "a byte too short": (NEW[:-1], "NotState"),
    "longer than it has to be": (NEW + b"any", 1),
    "other letters": (put(NEW, (0, "54")), "NotState"),
    "another owner": (put(NEW, (23, "59")), "WrongOwner"),
    "both gates shut": (put(NEW, (8192, "00")), "NoSlot"),
    "a gate half open": (put(NEW, (8192, "a4")), "NoSlot"),
    "a body that disagrees": (put(NEW, (4096, "01")), "Damaged"),
    "the other slot is damaged": (put(NEW, (16384, "a5")), "Damaged"),
    "the greater of two": (put(NEW, (12288, doubled((41).to_bytes(8, "big"))), (16384, "a5")), 42),
    "no number left": (put(NEW, (4096, doubled((1 << 62).to_bytes(8, "big")))), "Exhausted"),
    "above all numbers": (put(NEW, (4096, doubled(((1 << 62) + 1).to_bytes(8, "big")))), "Damaged"),
    "another mark": (put(NEW, (2048, "5a")), 1),
    "version 2": (SECOND, 10),
    "version 2, too short": (SECOND[:-1], "NotState"),
    "version 2, another mark": (put(SECOND, (2048, "a4")), 1),
    "version 2, the slots before the mark are not looked at": (put(SECOND, (4096, "77")), 10),
    "two peers": (put(SECOND, (20480, body(9, LOW, HIGH))), 10),
    "peers in another order": (put(SECOND, (20480, body(9, HIGH, LOW))), "Damaged"),
    "a peer twice": (put(SECOND, (20480, body(9, LOW, LOW))), "Damaged"),
    "a peer of port 0": (put(SECOND, (20480, body(9, NO_PORT))), "Damaged"),
    "nine peers": (put(SECOND, (20480, doubled(bytes(8) + b"\x09" + bytes(48)))), "Damaged"),
    "a place without a peer is not zero": (put(SECOND, (20480, doubled(bytes(8) + b"\0" + LOW + bytes(42)))), "Damaged"),
}

# What a crash may leave of a file of four letters: the steps, then the images by each rule, or by both.

BOTH = (KEEPS, FORGETS)
CRASHES = {
    "a write is kept or lost": (["write 1 b"], {BOTH: "aaaa abaa"}),
    "a sync keeps it": (["write 1 b", "sync ok"], {BOTH: "abaa"}),
    "a write after the sync": (["write 1 b", "sync ok", "write 2 c"], {BOTH: "abaa abca"}),
    "two writes, each for itself": (["write 1 b", "write 2 c"], {BOTH: "aaaa abaa aaca abca"}),
    "a torn write": (["write 1 bc"], {BOTH: "aaaa abca abaa aaca"}),
    "two writes of one byte, in both orders": (["write 1 b", "write 1 c"], {BOTH: "aaaa abaa acaa"}),
    "a file that grows": (["write 5 b"], {BOTH: "aaaa aaaa0 aaaa00 aaaa0b"}),
    "a file that is cut": (["cut 2"], {BOTH: "aaaa aa"}),
    "a failed sync alone": (["write 1 b", "sync fails"], {BOTH: "aaaa abaa"}),
    "a failed sync, then one that succeeds": (
        ["write 1 b", "sync fails", "sync ok"],
        {(KEEPS,): "abaa", (FORGETS,): "aaaa abaa"},
    ),
    "an interrupted sync tells of nothing": (["write 1 b", "sync none", "sync ok"], {BOTH: "abaa"}),
    "what was forgotten is written again": (["write 1 b", "sync fails", "write 1 b", "sync ok"], {BOTH: "abaa"}),
    "half of what was forgotten is written again": (
        ["write 1 bc", "sync fails", "write 1 b", "sync ok"],
        {(KEEPS,): "abca", (FORGETS,): "abaa abca"},
    ),
    "a read from memory shows nothing": (
        ["write 1 b", "sync fails", "read 0 abaa", "sync ok"],
        {(KEEPS,): "abaa", (FORGETS,): "aaaa abaa"},
    ),
    "a read after the drop shows what the disk has": (
        ["write 1 b", "sync fails", "drop", "read 0 abaa"],
        {(KEEPS,): "aaaa abaa", (FORGETS,): "abaa"},
    ),
    "a drop of other pages": (
        ["write 1 b", "sync fails", "drop 4096 4096", "read 0 abaa"],
        {BOTH: "aaaa abaa"},
    ),
    "a drop of a part of the page": (
        ["write 1 b", "sync fails", "drop 0 2", "read 0 abaa"],
        {BOTH: "aaaa abaa"},
    ),
    "a drop leaves the pages that wait": (
        ["write 1 b", "sync fails", "write 2 c", "drop", "read 0 abca", "sync ok"],
        {(KEEPS,): "abca", (FORGETS,): "aaca abca"},
    ),
    "a failed write may have been written": (["write fails 1 b"], {BOTH: "aaaa abaa"}),
    "a failed write is not what a sync keeps": (["write fails 1 b", "sync ok"], {BOTH: "aaaa"}),
    "a short write": (["write short 1 bc"], {BOTH: "aaaa abaa"}),
    "a kill in a write that was not done": (["begin 1 b", "ended aaaa", "open", "sync ok"], {BOTH: "aaaa"}),
    "a kill in a write that was done": (["begin 1 b", "ended abaa", "open", "sync ok"], {BOTH: "abaa"}),
    "a kill in a write, and no sync": (["begin 1 b", "ended abaa"], {BOTH: "aaaa abaa"}),
    "a new name is lost": (["new name", "write 0 b", "sync ok"], {BOTH: "none b"}),
    "a new name is kept": (["new name", "write 0 b", "sync ok", "folder"], {BOTH: "b"}),
    "a rename is kept or lost": (["new name t", "write 0 b", "sync ok", "folder", "rename t s"], {BOTH: "aaaa b"}),
    "a second name is kept or lost": (["new name t", "write 0 b", "sync ok", "link t s"], {BOTH: "aaaa b"}),
    "a second name is kept": (["new name t", "write 0 b", "sync ok", "link t s", "folder"], {BOTH: "b"}),
}


def event(kind, number, **more):
    return Event(kind, "a case", (0, number), **{"file": "h", **more})


def events_of(step, number):
    """The events of a step such as `write short 1 bc`."""
    kind, *words = step.split()
    if kind == "write":
        data = words[-1].encode()
        answer = {"fails": -1, "short": 1}.get(words[0], len(data))
        about = {"at": int(words[-2]), "data": data}
        return [event("write", number, **about), event("written", number, **about, answer=answer)]
    if kind == "begin":
        return [event("write", number, at=int(words[0]), data=words[1].encode())]
    if kind == "ended":
        return [event("ended", number, file=PATH, data=words[0].encode())]
    if kind == "open":
        return [event("open", number, data=PATH, answer=set())]
    if kind == "cut":
        about = {"at": int(words[0]), "data": None}
        return [event("write", number, **about), event("written", number, **about, answer=0)]
    if kind == "sync":
        return [event("sync", number), event("synced", number, answer={"ok": True, "fails": False, "none": None}[words[0]])]
    if kind == "read":
        return [event("read", number, at=int(words[0]), data=words[1].encode())]
    if kind == "new":
        return [event("open", number, data=b"/f/" + (words[1:] or ["new"])[0].encode(), answer={"O_CREAT"})]
    if kind in ("rename", "link"):
        return [event(kind, number, file=b"/f/" + words[0].encode(), data=b"/f/" + words[1].encode())]
    if kind == "drop":
        low, count = map(int, words or (0, 0))
        return [event("drop", number, at=low, answer=count)]
    return [event("folder synced", number)]


def images_after(steps, rule):
    """The images of the last moment, those with any bytes left out."""
    folder = Folder(rule, {PATH: b"aaaa"})
    folder.feed(event("open", -1, data=PATH, answer=set()))
    for number, step in enumerate(steps):
        for one in events_of(step, number):
            folder.feed(one)
    path = b"/f/new" if "new name" in steps else PATH
    found = images_of(folder, os.fsdecode(path), random.Random(1), 1000)
    return {"none" if image is None else image.replace(b"\0", b"0").decode() for image, how in found if how != "any bytes"}


# A write over three sectors: each of them is kept or lost.
LONG = b"a" * 1536
OVER_SECTORS = [(256, b"b" * 256), (512, b"b" * 512), (1024, b"b" * 256)]


def images_over_sectors():
    file = File(KEEPS, LONG)
    file.write(event("write", 1, at=256, data=b"b" * 1024))
    return {recipe.image() for recipe in exact_recipes(file)}


# Logs of strace, and the kinds of the events in them.

AT_NEW = r'1 openat(AT_FDCWD, "\x2f\x66\x2f\x73", O_RDWR|O_CREAT|O_CLOEXEC, 0666) = 5'


def sent(who):
    """The line of a datagram that says a number of this member."""
    data = encode(Datagram(PING, 1, ("10.0.0.9", 7000), ("10.0.0.8", 7000), [(ALIVE, who, 4)]))
    text = "".join(f"\\x{byte:02x}" for byte in data)
    return f'1 sendto(4, "{text}", {len(data)}, 0, NULL, 0) = {len(data)}'


LOGS = {
    "a life": (
        [AT_NEW, r'1 pwrite64(5, "\x61", 1, 0) = 1', "1 fsync(5) = 0", "1 close(5) = 0"],
        "open write written sync synced",
    ),
    "another file": ([r'1 openat(AT_FDCWD, "\x2f\x67", O_RDWR) = 5', r'1 pwrite64(5, "\x61", 1, 0) = 1'], ""),
    "two threads": (
        [AT_NEW, "1 fsync(5 <unfinished ...>", r'2 pread64(5, "\x61", 1, 0) = 1', "1 <... fsync resumed>) = -1 EIO (x)"],
        "open sync read synced",
    ),
    "the folder": ([r'1 open("\x2f\x66", O_RDONLY) = 6', "1 fsync(6) = 0"], "folder synced"),
    "pages are dropped": ([AT_NEW, "1 fadvise64(5, 0, 0, POSIX_FADV_DONTNEED) = 0"], "open drop"),
    "pages are wanted": ([AT_NEW, "1 fadvise64(5, 0, 4096, POSIX_FADV_WILLNEED) = 0"], "open"),
    "reads by place": ([AT_NEW, r'1 read(5, "\x61", 9) = 1', r'1 read(5, "", 9) = 0', "1 fstat(5, {}) = 0"], "open read read"),
    "a write by place": ([AT_NEW, r'1 write(5, "\x61", 1) = 1', r'1 write(5, "\x62", 1) = 1'], "open write written write written"),
    "a write by a place that nobody follows": ([AT_NEW, "1 dup(5) = 6", r'1 write(6, "\x61", 1) = 1'], NotModelled),
    "another name": ([r'1 rename("\x2f\x66\x2f\x73", "\x2f\x66\x2f\x74") = 0'], "rename"),
    "a shared mapping": ([AT_NEW, "1 mmap(NULL, 9, PROT_WRITE, MAP_SHARED, 5, 0) = 0x7f"], NotModelled),
    "a place that is copied to": ([AT_NEW, "1 copy_file_range(3, NULL, 5, NULL, 9, 0) = 9"], NotModelled),
    "a datagram with an own number": ([sent(("10.0.0.1", 7000)), sent(("10.0.0.1", 7001))], "send"),
    "a second name": ([r'1 link("\x2f\x66\x2f\x73", "\x2f\x66\x2f\x74") = 0'], "link"),
    "a second name elsewhere": ([r'1 link("\x2f\x66\x2f\x73", "\x2f\x67\x2f\x74") = 0'], NotModelled),
}


def kinds_in(lines):
    try:
        return " ".join(found.kind for found in Reader("/f", OWNER[8:], 1).events_in(lines))
    except NotModelled:
        return NotModelled


def check_own_cases(trials):
    for name, (content, want) in STATE_FILES.items():
        trials.equal(recovery(content, OWNER), want, f"state file, {name}")
    for name, (lines, want) in LOGS.items():
        trials.equal(kinds_in(lines), want, f"log, {name}")
    for name, (steps, wants) in CRASHES.items():
        for rule, want in ((rule, want) for rules, want in wants.items() for rule in rules):
            trials.equal(images_after(steps, rule), set(want.split()), f"crash, {name}, by the rule `{rule}`")
    wants = (itertools.compress(OVER_SECTORS, choice) for choice in itertools.product((0, 1), repeat=3))
    trials.holds(images_over_sectors() == {put(LONG, *want) for want in wants}, "crash, a write over three sectors")
