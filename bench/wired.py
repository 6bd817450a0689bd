"""A network with delay and loss for groups on one machine: the switch of wire.c, behind which each address has a namespace of its own."""

import ctypes
import os
import random
import subprocess
import time
from contextlib import contextmanager
from pathlib import Path
from typing import NamedTuple

from lib.processes import PLACE, compile_c, start
from lib.trials import expect, expect_true

SOURCE = Path(__file__).resolve().parent / "wire.c"
FIRST = 100  # the descriptor of the first namespace
CLONE_NEWNET = 0x40000000
LIBC = ctypes.CDLL(None, use_errno=True)
READY = 1  # seconds in which what waits at a gate has come there
HELD = 'read go; exec "$@"'  # a shell that begins a program once its standard input ends


class Sent(NamedTuple):
    """What a switch took so far."""

    packets: int
    bytes: int
    lost: int
    latest: int  # microseconds by which it handed a packet on too late, at most


class Loopback:
    """The loopback device of this network, which has all addresses."""

    opened = None

    def enter(self, address):
        """Nothing: the sockets that a thread makes are there."""

    def words(self, address):
        """None, to begin a program there."""
        return []

    @contextmanager
    def gate(self):
        """The standard input of what is started meanwhile, which begins at once."""
        yield subprocess.DEVNULL

    def order(self, group):
        """The order in which these are started."""
        return group

    def sent(self):
        """What was sent so far."""
        words = next(line for line in Path("/proc/net/dev").read_text().splitlines() if line.strip().startswith("lo:"))
        count, packets = words.split(":")[1].split()[8:10]
        return Sent(int(packets), int(count), 0, 0)


class Wire:
    """A switch that keeps each packet for so many milliseconds, and for some of so many more, and loses so many of 100, as the seed
    draws them."""

    def __init__(self, addresses, delay, jitter, loss, seed):
        path = compile_c(PLACE.folder / "wire", SOURCE)
        self.places = {address: place for place, address in enumerate(addresses)}
        self.opened = None
        words = [path, 1000 * delay, 1000 * jitter, loss, seed, *addresses]
        self.process = start(words, stdin=subprocess.PIPE, stdout=subprocess.PIPE, text=True)
        expect(self.process.stdout.readline(), "ready\n", "the switch")

    def space(self, address):
        """The file that is the namespace of an address."""
        return f"/proc/{self.process.pid}/fd/{FIRST + self.places[address]}"

    def enter(self, address):
        """From now on the sockets that this thread makes are in the namespace of an address."""
        space = os.open(self.space(address), os.O_RDONLY)
        try:
            expect_true(LIBC.setns(space, CLONE_NEWNET) == 0, f"setns: {os.strerror(ctypes.get_errno())}")
        finally:
            os.close(space)

    def words(self, address):
        """The words before those of a program that is to begin there once its standard input ends."""
        return ["nsenter", f"--net={self.space(address)}", "sh", "-c", HELD, "sh"]

    @contextmanager
    def gate(self):
        """The standard input of what is started meanwhile, which begins all at once in the end. `opened` says when."""
        reader, writer = os.pipe()
        try:
            yield reader
            time.sleep(READY)
        finally:
            os.close(reader)
            os.close(writer)
            self.opened = time.monotonic()

    def order(self, group):
        """The order in which these are started: a drawn one, since those who came to a gate first begin first."""
        return random.sample(group, len(group))

    def sent(self):
        """What was sent so far."""
        self.process.stdin.write("\n")
        self.process.stdin.flush()
        return Sent(*map(int, self.process.stdout.readline().split()))
