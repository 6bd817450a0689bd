"""What `swim watch ADDR --json` says on standard input, and how a system is kept as the group is, for the hooks beside this file."""

import argparse
import json
import os
import select
import sys
import time
from typing import NamedTuple, Optional

HERE = ("alive", "suspect")  # a suspected member may live: it is not given up before it has failed
SECONDS = 5  # that a system may take to answer


class Refused(Exception):
    """What a system says instead of doing what it is told."""


class Change(NamedTuple):
    """What became of a member: its kind now and before, `None` where there is no row."""

    time: str
    member: str
    now: Optional[str]
    was: Optional[str]


def complain(text):
    print(text, file=sys.stderr, flush=True)


def lines_read(seconds, source=0):
    """All lines that have come by now, once some have; none after so many seconds."""
    rest = b""
    while True:
        if not select.select([source], [], [], seconds)[0]:
            yield []
            continue
        data = os.read(source, 1 << 16)
        if not data:
            return
        *whole, rest = (rest + data).split(b"\n")
        yield [json.loads(line) for line in whole]


def kind_of(row):
    return row and row["kind"]


def change_in(line):
    """The change that a line tells; none where it tells a gap, which goes to standard error."""
    if "gap" in line:
        complain(f"{line['time']} gap {line['gap']}")
        return None
    change = line["change"]
    return Change(line["time"], change["member"], kind_of(change["now"]), kind_of(change["was"]))


class Group:
    """Which members are there, by what was told until now."""

    def __init__(self, patience):
        self.patience = patience  # seconds after which one that nobody tells of is not there
        self.here = {}  # whether a member is there
        self.lost = {}  # since when a member has no row, though it was not seen failed
        self.answers = None  # since when the member that is watched answers

    def take(self, line):
        change = change_in(line)
        if change is None:
            self.answers = None if line["gap"] == "begins" else time.monotonic()
            return
        self.answers = self.answers or time.monotonic()
        if change.now:
            self.here[change.member] = change.now in HERE
        elif change.was in HERE:  # the member that is watched was started anew, and does not know it yet
            self.here.pop(change.member, None)
            self.lost[change.member] = time.monotonic()

    def has(self, member):
        """Whether a member is there; `None` while that is not known."""
        if member in self.here:
            return self.here[member]
        since = self.answers and max(self.answers, self.lost.get(member, 0))
        return False if since and time.monotonic() - since > self.patience else None


def settle(system, group):
    """Makes a system use exactly the members that are there, and gives what it refuses."""
    used, refused = system.used(), []
    for member in sorted(used.keys() | group.here.keys()):
        is_there = group.has(member)
        if is_there not in (None, used.get(member, False)):
            try:
                system.use(member, is_there)
            except (OSError, Refused) as why:
                refused.append(f"{member}: {why}")
    return refused


def keep(system, words):
    """Keeps a system as the group is: after each change, and every so often, since it may have been started anew meanwhile. What it
    refuses is told once."""
    group, told = Group(words.unknown), []
    for lines in lines_read(words.every):
        for line in lines:
            group.take(line)
        try:
            refused = settle(system, group)
        except (OSError, Refused) as why:
            refused = [str(why)]
        for text in refused:
            if text not in told:
                complain(text)
        told = refused


def read_words(doc, **names):
    """The words of a hook that keeps a system: what it is, by these names, and two options."""
    parser = argparse.ArgumentParser(description=doc, formatter_class=argparse.RawDescriptionHelpFormatter)
    every = "seconds after which the system is looked at again without a change (%(default)s)"
    unknown = "seconds after which a member that nobody tells of is not there (%(default)s)"
    parser.add_argument("--every", type=float, default=5, metavar="SECONDS", help=every)
    parser.add_argument("--unknown", type=float, default=60, metavar="SECONDS", help=unknown)
    for name, about in names.items():
        parser.add_argument(name, help=about)
    return parser.parse_args()
