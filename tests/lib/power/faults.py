"""Calls that fail: each call that a life makes on its state file fails once or from there on, writes end short at a limit of
the length, and the member is killed at each call. Then another life follows, and its power goes at each moment."""

import itertools
import resource
import shutil
from typing import NamedTuple

from lib.power.crash import Crashes, in_turn
from lib.power.medium import FORGETS, KEEPS, Folder, Strayed
from lib.power.trace import Event, NotModelled, Reader
from lib.trials import counted

ERRORS = {
    "open": ("EIO", "ENOSPC", "EINTR", "EMFILE"),
    "openat": ("EIO", "ENOSPC", "EINTR", "EMFILE"),
    "pwrite64": ("EIO", "ENOSPC", "EINTR", "EDQUOT"),
    "ftruncate": ("EIO", "ENOSPC", "EINTR"),
    "fsync": ("EIO", "ENOSPC", "EINTR"),
    "fdatasync": ("EIO", "ENOSPC", "EINTR"),
    "pread64": ("EIO", "EINTR"),
    "read": ("EIO", "EINTR"),
    "statx": ("EIO", "EINTR"),
    "fstat": ("EIO",),
    "newfstatat": ("EIO",),
    "lseek": ("EIO",),
    "flock": ("EINTR", "EAGAIN"),
    "link": ("EIO", "ENOSPC", "EEXIST", "EPERM"),  # the last one from a file system without links
    "unlink": ("EIO",),
    "fadvise64": ("EIO", "EINVAL"),
}
LASTING = {  # those that may also fail from a call on
    "pwrite64": ("EIO", "ENOSPC"),
    "fsync": ("EIO",),
    "fdatasync": ("EIO",),
    "pread64": ("EIO",),
    "fadvise64": ("EINVAL",),
}
KILLED_AT = ("pwrite64", "fsync", "fdatasync", "ftruncate", "pread64", "fadvise64")
SENDS = 5  # at which it is killed
ROUNDS = 4  # suspicions of a life whose calls fail
UNLIMITED = (resource.RLIM_INFINITY, resource.RLIM_INFINITY)


class Fault(NamedTuple):
    """What fails in a life: a rule for strace, or a limit of the length of files."""

    rule: str = ""
    limit: int | None = None

    def words(self):
        """How a life is started with it."""
        if self.limit is None:
            return {"inject": [self.rule]}
        return {"prefix": ["prlimit", f"--fsize={self.limit}:"]}

    def __str__(self):
        return self.rule or f"writes end at {self.limit}"


class Start(NamedTuple):
    """A state file to begin with, and the greatest number that was sent before."""

    name: str
    content: bytes | None
    sent: int = 0


def events_of(member, life):
    """The events of the life that has just ended, and the reader that knows its calls."""
    reader = Reader(member.folder, member.six, life)
    with member.trace.open() as lines:
        events = list(reader.events_in(lines))
    content = member.content()
    path = str(member.file).encode()
    return [*events, Event("ended", f"life {life}", (life, "end"), file=path, data=content)], reader


def sent_in(events):
    return [event.at for event in events if event.kind == "send"]


def faults_of(reader, events):
    """What may fail in a life that made these calls."""
    for (name, nth), error in ((call, error) for call in reader.touching for error in ERRORS.get(call[0], ())):
        yield Fault(f"{name}:error={error}:when={nth}")
        if error in LASTING.get(name, ()):
            yield Fault(f"{name}:error={error}:when={nth}+")
    places = {(event.at, event.at + len(event.data)) for event in events if event.kind == "write" and event.data}
    if shutil.which("prlimit"):
        limits = {at for low, high in places for at in (low, low + 1, (low + high) // 2, high - 1)}
        yield from (Fault(limit=limit) for limit in sorted(limits))


def kills_of(reader):
    calls = [call for call in reader.touching if call[0] in KILLED_AT]
    for name, nth in calls + [("sendto", nth) for nth in range(1, SENDS + 1)]:
        yield Fault(f"{name}:signal=KILL:when={nth}")


def starts_of(member, draw):
    """A file of each version, made without failures, with what may fail in a life on each, and in the making."""
    member.init(traced=True)
    made, making = events_of(member, 0)
    yield Start("no file", None), list(faults_of(making, made))
    sent = 0
    for name in ("version 1", "version 2"):
        start = Start(name, member.content(), sent)
        member.run(traced=True)
        member.suspect(ROUNDS, draw)
        member.kill()
        events, reader = events_of(member, 1)
        sent = max([sent, *sent_in(events)])
        yield start, [*faults_of(reader, events), *kills_of(reader)]


class Faults:
    """Runs lives whose calls fail, and judges them."""

    def __init__(self, member, draw, trials, most):
        self.member, self.draw, self.trials = member, draw, trials
        self.path = str(member.file)
        self.crashes = {rule: Crashes(member.owner, draw, most) for rule in (KEEPS, FORGETS)}

    def failing_life(self, fault):
        """A life in which calls fail; a limit is lifted in its middle, so that what ended short is done again."""
        member = self.member
        member.run(traced=True, **fault.words())
        member.suspect(ROUNDS // 2, self.draw)
        if fault.limit is not None and (own := member.process_id()):
            resource.prlimit(own, resource.RLIMIT_FSIZE, UNLIMITED)
        if not member.has_ended():
            member.suspect(ROUNDS // 2, self.draw)
        member.kill()

    def lives(self, start, faults, about):
        """The events of a life with each of these faults, and of one without that follows."""
        member, found = self.member, []
        member.put(start.content)
        member.heard = start.sent
        for number, fault in enumerate(faults):
            if start.content is None and number == 0:
                status = member.init(traced=True, **fault.words())
                self.trials.holds(status in (0, 1), f"{about}: swim init has status {status}")
            else:
                status = self.failing_life(fault)
            found.append(events_of(member, number)[0])
            if status:  # the file is thrown away
                return found
        member.run(traced=True)
        goes_on = member.suspect(ROUNDS - 1, self.draw)
        member.kill()
        self.trials.holds(goes_on, f"{about}: the next life: {member.said()[-90:]!r}")
        return [*found, events_of(member, len(faults))[0]]

    def attempt(self, start, faults):
        """One run, and all that it may leave by each rule."""
        about = f"{start.name}, {', then '.join(map(str, faults))}"
        try:
            lives = self.lives(start, faults, about)
            self.judge_numbers(start, lives, about)
            for rule, crashes in self.crashes.items():
                before = len(crashes.wrong)
                contents = {} if start.content is None else {self.path.encode(): start.content}
                self.look(crashes, Folder(rule, contents), start, lives)
                found = crashes.wrong[before:]
                self.trials.holds(not found, f"{about}, where {rule}: " + "; ".join(map(str, found[:1])))
        except (NotModelled, Strayed) as wrong:
            self.trials.holds(False, f"{about}: {type(wrong).__name__}: {wrong}")

    def look(self, crashes, folder, start, lives):
        """Once `swim init` has ended well, the file is there for good."""
        sent, made = start.sent, start.content is not None
        for number, events in enumerate(lives):
            sent = crashes.at_each_moment(folder, self.path, events, sent, made or number > 0)

    def judge_numbers(self, start, lives, about):
        """No life says a number that an earlier one has said, whatever a crash leaves."""
        before = start.sent
        for number, events in enumerate(lives, 1):
            said = sent_in(events)
            least = min(said, default=before + 1)
            self.trials.holds(least > before, f"{about}: life {number} says {least}, and {before} was said before")
            before = max([before, *said])


def is_of_sync(fault):
    return fault.rule.startswith(("fsync:error", "fdatasync:error"))


def drawn_faults(faults, draw, count):
    """So many of all kinds of calls and errors, one kind after the other, with more of the syncs, from which most can come."""
    kinds = {}
    for start, fault in draw.sample(faults, len(faults)):
        kinds.setdefault((fault.rule.split(":when")[0], fault.rule.endswith("+")), []).append((start, fault))
    syncs = [row for row in kinds.values() if is_of_sync(row[0][1])]
    first = list(itertools.islice(in_turn(syncs), count // 4))
    rows = [[one for one in row if one not in first] for row in draw.sample(list(kinds.values()), len(kinds))]
    return first + list(itertools.islice(in_turn(rows), count - len(first)))


def pairs_of(faults, draw, count):
    """A failed sync in a life, and any fault in the one that follows."""
    lived = [(start, fault) for start, fault in faults if start.content is not None]
    syncs = [(start, fault) for start, fault in lived if is_of_sync(fault)]
    firsts = draw.choices(syncs, k=count) if syncs else []
    return [(start, (fault, draw.choice(lived)[1])) for start, fault in firsts]


def check_faults(member, draw, trials, most, counts):
    """Runs so many of all faults, or all of them, and so many pairs; gives what their crashes may leave, by each rule."""
    if not shutil.which("prlimit"):
        trials.skip("short writes", "there is no prlimit")
    faults = [(start, fault) for start, some in starts_of(member, draw) for fault in some]
    runs = Faults(member, draw, trials, most)
    count, pairs = counts
    chosen = [(start, (fault,)) for start, fault in (drawn_faults(faults, draw, count) if count else faults)]
    print(f"calls that fail, and kills: {len(chosen)} of {len(faults)}, and {pairs} pairs", flush=True)
    chosen += pairs_of(faults, draw, pairs)
    for start, some in counted(chosen, "calls that fail", len(chosen)):
        failed = trials.failed
        runs.attempt(start, some)
        if len(some) > 1 and trials.failed > failed:  # one of the two may do it alone
            for fault in some:
                runs.attempt(start, (fault,))
    for rule, crashes in runs.crashes.items():
        print(f"where {rule}: {crashes}", flush=True)
    return runs.crashes
