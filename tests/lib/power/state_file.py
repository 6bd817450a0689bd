"""The state file, read as docs/reference/STATE_FILE.md says, and by nothing else of the repository: what the program does is judged by
this reader, so it shares no line with the program."""

import struct
from typing import NamedTuple

HEAD = b"SWIMSTAT\0\1"
MARK, MARKED = 2048, 0xA5
OPEN = 0xA5
NUMBER_MAX = 1 << 62
PEERS_MAX = 8
ALL_BITS = (1 << 64) - 1
MISSING = "Missing"  # there is no such file
SPENT = "Exhausted"  # the one refusal of a sound file


class Slot(NamedTuple):
    body: int
    gate: int


class Layout(NamedTuple):
    length: int  # of a file at least
    slots: tuple
    body: int  # bytes of a body


FIRST = Layout(16385, (Slot(4096, 8192), Slot(12288, 16384)), 16)
SECOND = Layout(32769, (Slot(20480, 24576), Slot(28672, 32768)), 114)


def owner_bytes(group, host, port):
    return struct.pack(">Q4BH", group, *map(int, host.split(".")), port)


def first_ceiling(body):
    """The ceiling of a body of version 1; none if it is damaged."""
    ceiling, complement = struct.unpack(">QQ", body)
    return ceiling if complement == ceiling ^ ALL_BITS and ceiling <= NUMBER_MAX else None


def second_ceiling(body):
    """The ceiling of a body of version 2; none if it is damaged."""
    plain, complement = body[:57], body[57:]
    if bytes(byte ^ 0xFF for byte in plain) != complement:
        return None
    ceiling, count = struct.unpack(">QB", plain[:9])
    places = [plain[at : at + 6] for at in range(9, 57, 6)]
    peers, rest = places[:count], places[count:]
    sound = ceiling <= NUMBER_MAX and count <= PEERS_MAX
    sound = sound and all(peer[4:] != b"\0\0" for peer in peers) and not any(map(any, rest))
    sound = sound and all(low < high for low, high in zip(peers, peers[1:]))
    return ceiling if sound else None


def layout_of(image):
    """The layout of the version that the mark names; none if the image is too short for it."""
    if len(image) < FIRST.length:
        return None
    layout = SECOND if image[MARK] == MARKED else FIRST
    return layout if len(image) >= layout.length else None


def recovery(image, owner):
    """The first number of a life that opens this image, or the name of the refusal."""
    if image is None:
        return MISSING
    layout = layout_of(image)
    if layout is None or image[:10] != HEAD:
        return "NotState"
    if image[10:24] != owner:
        return "WrongOwner"
    ceiling_in = second_ceiling if layout is SECOND else first_ceiling
    bodies = [image[slot.body : slot.body + layout.body] for slot in layout.slots if image[slot.gate] == OPEN]
    ceilings = [ceiling_in(bytes(body)) for body in bodies]
    if not ceilings:
        return "NoSlot"
    if None in ceilings:
        return "Damaged"
    floor = max(ceilings)
    return SPENT if floor == NUMBER_MAX else floor + 1
