"""Hostile datagrams for a member, drawn from valid ones."""

import struct

from lib.datagrams import ACK, ALIVE, CONFIRM, JOIN, NOBODY, PAGE, PING, PING_REQ, SUSPECT, Datagram, Endpoint, Update, encode, six_bytes

ROWS = 256  # of a table
HOSTILE = (0, 1, 2**22, 2**32 - 1, 2**62 - 1, 2**62, 2**62 + 1, 2**63, 2**64 - 1)
LEAP = 2**20  # the most by which a suspicion may pass the own number, for it to be refuted


class Storm:
    """Draws datagrams for a member from this socket."""

    def __init__(self, member, draw, sender):
        self.draw, self.me, self.sender = draw, member.me, sender
        self.own = six_bytes(member.me)
        self.others = [Endpoint(f"127.77.{n // 250}.{n % 250 + 1}", 9) for n in range(2 * ROWS)]
        self.valid = [self.valid_one() for _ in range(2000)]

    def valid_one(self):
        draw, kind = self.draw, self.draw.choice((PING, PING_REQ, ACK, JOIN, PAGE))
        kinds = (ALIVE, ALIVE, SUSPECT, CONFIRM)
        updates = [
            Update(draw.choice(kinds), draw.choice(self.others), draw.randrange(5))
            for _ in range(draw.choice((0, 1, 3, 30)))
        ]
        subject = draw.choice((self.me, draw.choice(self.others))) if kind != JOIN else NOBODY
        return encode(Datagram(kind, draw.randrange(2**32), self.sender, subject, tuple(updates)))

    def next(self, number):
        """A datagram for a member with this own number, or one that is near it."""
        draw, data = self.draw, bytearray(self.draw.choice(self.valid))
        draw.choice((flip, flip, cut, join, number_of, spoof, leave_as_it_is))(self, data)
        return data if self.is_fair(data, number) else self.valid[0]

    def is_fair(self, data, number):
        """Whether it neither expels the member nor makes its number leap within what the rules allow."""
        if bytes((CONFIRM, 0)) + self.own in data:
            return False
        at = data.find(bytes((SUSPECT, 0)) + self.own)
        if at < 0 or len(data) < at + 16:
            return True
        suspected = struct.unpack(">Q", data[at + 8 : at + 16])[0]
        return not number <= suspected <= number + 2 * LEAP


def flip(storm, data):
    for _ in range(storm.draw.choice((1, 1, 2, 8))):
        data[storm.draw.randrange(len(data))] ^= 1 << storm.draw.randrange(8)


def cut(storm, data):
    del data[storm.draw.randrange(len(data)) :]


def join(storm, data):
    data += storm.draw.choice(storm.valid)


def number_of(storm, data):
    """A hostile number in an update about the member or another one."""
    who = storm.draw.choice((storm.own, six_bytes(storm.draw.choice(storm.others))))
    number = storm.draw.choice(HOSTILE)
    data[32:] = struct.pack(">BB6sQ", storm.draw.choice((ALIVE, SUSPECT)), 0, who, number)
    data[6] = 1


def spoof(storm, data):
    data[20:26] = storm.draw.choice((storm.own, six_bytes(storm.draw.choice(storm.others)), bytes(6)))


def leave_as_it_is(storm, data):
    pass
