"""Recordings in a folder, read as docs/reference/RECORDINGS.md says. It shares no line with the crates."""

import re
from typing import NamedTuple

from lib.datagrams import Endpoint
from lib.processes import swim
from lib.trials import expect, expect_true

NAME = re.compile(r"life-(\d{7,})-era-(\d{6,})\.recording")
PART = re.compile(r"\.life-(\d{7,})-era-(\d{6,})\.recording\.part")
CLOCK = re.compile(r"clock (0|[1-9]\d*) (0|[1-9]\d*) (0|[1-9]\d*)")
PHASES = ("running", "left", "expelled")
EVENTS = ("deal", "recv", "recvfail", "sendfail", "join", "leave", "members")


def endpoint(text):
    host, _, port = text.rpartition(":")
    return Endpoint(host, int(port))


class Recording(NamedTuple):
    """One era: its life, its place in it, when it began and ended in milliseconds since 1970, its tick's length, the lines of where it
    began, and its calls, each the lines before its event and that."""

    life: int
    era: int
    clock: tuple
    begun: list
    calls: list

    @property
    def number(self):
        """The own number with which it began."""
        return int(self.begun[-1].split()[1])

    def received(self):
        """The datagrams that the member was given, with their senders, in order."""
        events = [call[-1].split() for call in self.calls]
        return [(endpoint(words[1]), b"" if words[2] == "-" else bytes.fromhex(words[2])) for words in events if words[0] == "recv"]


def read_recording(path):
    """A file that is whole: it has its head, where the era began, and calls of which the last one has its event."""
    name = NAME.fullmatch(path.name)
    expect_true(name, f"{path.name} is no name of a recording")
    text = path.read_bytes().decode("ascii")
    expect_true(text.endswith("\n"), f"{path.name} ends in the midst of a line")
    head, second, *lines = text[:-1].split("\n")
    expect_true(head == "recording 2", f"{path.name} begins with {head!r}")
    clock = CLOCK.fullmatch(second)
    expect_true(clock, f"the second line of {path.name} is {second!r}")
    start = next((at for at, line in enumerate(lines) if line.split()[0] in PHASES), None)
    expect_true(start is not None, f"{path.name} does not say where the era began")
    calls, call = [], []
    for line in lines[start + 1 :]:
        call.append(line)
        if line.split()[0] in EVENTS:
            calls.append(call)
            call = []
    expect_true(not call, f"{path.name} ends in the midst of a call")
    return Recording(int(name[1]), int(name[2]), tuple(map(int, clock.groups())), lines[: start + 1], calls)


def paths_in(folder):
    """The recordings of a folder, in the order in which their eras ended."""
    return sorted(path for path in folder.iterdir() if NAME.fullmatch(path.name))


def recordings_in(folder):
    """All recordings of a folder, in the order of their names."""
    return [read_recording(path) for path in paths_in(folder)]


EVENT = re.compile(r"event \d+ save (none|done|failed) number (\d+) phase (running|left|expelled)")
SEND = re.compile(r"send (\S+) (taken|lost) ([0-9a-f]+)")


class Played(NamedTuple):
    """What `swim play` says of a call: the own number after it, and the datagrams, each with whom it went to and what became of it."""

    number: int
    sends: list


def play(path):
    """The calls of a recording as `swim play` plays it, one for each that stands there."""
    ran = swim("play", input=path.read_bytes())
    expect((ran.status, ran.err), (0, ""), f"swim play < {path.name}")
    calls = []
    for line in ran.out.splitlines():
        if event := EVENT.fullmatch(line):
            calls.append(Played(int(event[2]), []))
        elif send := SEND.fullmatch(line):
            calls[-1].sends.append((endpoint(send[1]), send[2], bytes.fromhex(send[3])))
    expect(len(calls), len(read_recording(path).calls), f"the calls that are played of {path.name}")
    return calls
