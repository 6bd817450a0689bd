"""Recordings that are written here, as docs/reference/RECORDINGS.md has them."""

from typing import NamedTuple

from lib.datagrams import GROUP, encode

KINDS = ("", "alive", "suspect", "confirm")
DEAL = "deal " + bytes(range(256)).hex()  # a turn list in the order of the members


class Times(NamedTuple):
    """The times of a member, in ticks, and the others of the second line."""

    period: int = 10
    direct: int = 3
    suspect: int = 50
    forget: int = 6000
    helpers: int = 3
    block: int = 1
    limit: int = 65536


class EraTime(NamedTuple):
    """When an era began and ended, in milliseconds since 1970, and how long a tick is to be."""

    begun: int
    ended: int
    tick: int = 100

    def moment(self, ticks):
        """When so many ticks had counted, as far as the recording says."""
        counted = self.begun + ticks * self.tick
        return min(counted, self.ended) if self.begun < self.ended else counted


def beginning(me, rows, times=Times(), rules=1, number=1, time=0, seq=1, era=None):
    """The lines of a running member that knows these rows, as (endpoint, kind, number, since), and waits for nothing. `era` says when
    that was."""
    yield "recording 2" if era else "recording 1"
    if era:
        yield f"clock {' '.join(map(str, era))}"
    yield f"member {GROUP} {me} 3 {rules}"
    yield f"times {' '.join(map(str, times))}"
    for who, kind, its_number, since in rows:
        yield f"{KINDS[kind]} {who} {its_number} {since}"
    yield f"+alive {me} {number} 0"
    for who, kind, its_number, _ in rows:
        yield f"+{KINDS[kind]} {who} {its_number} 0"
    yield f"running {number} {time} {seq} 0 {number}"


def received(datagram):
    return f"recv {datagram.sender} {encode(datagram).hex()}"


def recording(*lines):
    return "".join(f"{line}\n" for line in lines)
