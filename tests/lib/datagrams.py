"""Datagrams, as docs/reference/FORMATS.md has them."""

import socket
import struct
from typing import NamedTuple

from lib.trials import expect

GROUP = 7
PING, PING_REQ, ACK, JOIN, PAGE = range(1, 6)
ALIVE, SUSPECT, CONFIRM = range(1, 4)
HEAD, UPDATE = 32, 16  # bytes


class Endpoint(NamedTuple):
    host: str
    port: int

    def __str__(self):
        return f"{self.host}:{self.port}"


NOBODY = Endpoint("0.0.0.0", 0)


class Update(NamedTuple):
    kind: int
    who: Endpoint
    number: int


class Datagram(NamedTuple):
    kind: int
    sequence: int
    sender: Endpoint
    subject: Endpoint
    updates: tuple = ()
    group: int = GROUP


def six_bytes(endpoint):
    host, port = endpoint
    return socket.inet_aton(host) + struct.pack(">H", port)


def endpoint_in(data):
    return Endpoint(socket.inet_ntoa(data[:4]), struct.unpack(">H", data[4:6])[0])


def encode(datagram, rules=1):
    count = len(datagram.updates)
    head = struct.pack(">4sBBBBQI", b"SWIM", rules, datagram.kind, count, 0, datagram.group, datagram.sequence)
    updates = (struct.pack(">BB6sQ", kind, 0, six_bytes(who), number) for kind, who, number in datagram.updates)
    return head + six_bytes(datagram.sender) + six_bytes(datagram.subject) + b"".join(updates)


def decode(data, rules=1):
    mark, version, kind, count, zero, group, sequence = struct.unpack(">4sBBBBQI", data[:20])
    expect((mark, version, zero, len(data)), (b"SWIM", rules, 0, HEAD + UPDATE * count), "the head of a datagram")
    updates = []
    for at in range(HEAD, len(data), UPDATE):
        update_kind, zero, who, number = struct.unpack(">BB6sQ", data[at : at + UPDATE])
        expect(zero, 0, "the second byte of an update")
        updates.append(Update(update_kind, endpoint_in(who), number))
    return Datagram(kind, sequence, endpoint_in(data[20:26]), endpoint_in(data[26:32]), tuple(updates), group)


# Of bytes that may be anything.


def sequence_of(data):
    return struct.unpack(">I", data[16:20])[0]


def is_kind(data, kind):
    return len(data) >= HEAD and data[:4] == b"SWIM" and data[5] == kind


def own_numbers(data, six):
    """The numbers that a datagram says of the endpoint with these six bytes."""
    if len(data) < HEAD or data[:4] != b"SWIM":
        return []
    updates = (data[at : at + UPDATE] for at in range(HEAD, len(data) - UPDATE + 1, UPDATE))
    return [struct.unpack(">Q", update[8:])[0] for update in updates if update[2:8] == six]
