"""What swim.h says. Made of c/swim.h by .ci/bindings."""

import ctypes as _c
import enum
from typing import Any, Dict, List, Tuple

VERSION = 1003
DATAGRAM_MAX = 512
MEMBERS_MAX = 257
NOTES_MAX = 32
PEERS_MAX = 8
SEEDS_MAX = 8
LIMIT_MAX = 65536

# The defaults of `swim run`, by rules 2.
USUAL: Dict[str, int] = {
    "period": 10,
    "direct": 3,
    "suspect": 50,
    "forget": 6000,
    "block": 1,
    "lambda_": 3,
    "helpers": 3,
    "rules": 2,
    "tick_ms": 100,
}

# The preset `lan`, by rules 2, with ticks of 50 ms.
LAN: Dict[str, int] = {
    "period": 10,
    "direct": 2,
    "suspect": 80,
    "forget": 12000,
    "block": 1,
    "lambda_": 3,
    "helpers": 5,
    "rules": 2,
    "tick_ms": 50,
}


class Code(enum.IntEnum):
    """Why a call did nothing."""

    OK = 0
    NOTHING = 1  # no datagram waits, or no change is left
    NULL = 2  # a pointer is null that may not be
    CLOSED = 3  # the handle is closed
    IS_OPEN = 4  # the handle is open already
    NO_ENDPOINT = 5  # the own port or that of a peer or seed is 0
    WAITING = 6  # datagrams of the last event wait: take them by swim_next_datagram first
    SHORT = 7  # the buffer is too short, and the datagram still waits
    NO_MEMORY = 8
    FILE = 9  # the system refused the file or a call on it: errno says why
    LOCKED = 10  # another handle or another process has the state file
    BAD_LAMBDA = 11
    BAD_PERIOD = 12
    BAD_DIRECT = 13
    BAD_SUSPECT = 14
    BAD_FORGET = 15
    BAD_HELPERS = 16
    BAD_BLOCK = 17
    BAD_RULES = 18
    BAD_ADDRESS = 19  # no member is reached at the own address: it is 0.0.0.0, 255.255.255.255 or of multicast
    BAD_RESERVED = 20  # a byte of `reserved` is not 0
    OPEN_DEVICE = 21  # a read, write or sync failed, errno says why: the opening may be tried again
    OPEN_NOT_STATE = 22  # it is no state file
    OPEN_WRONG_OWNER = 23  # it is of another group or endpoint
    OPEN_NO_SLOT = 24  # swim_make_state was cut short, or else something wrote the file: see swim_make_state
    OPEN_DAMAGED = 25  # something else wrote the file, or the disk lost what it had synced: docs/operate/INCIDENTS.md
    OPEN_EXHAUSTED = 26  # there is no incarnation left
    OPEN_LIMIT = 27  # `limit` is 0 or above SWIM_LIMIT_MAX
    OPEN_NO_MEMORY = 28
    MAKE_NOT_EMPTY = 31  # the file has bytes, and nothing was written
    MAKE_DEVICE = 32  # a write or sync failed, errno says why: the file is not to be used
    MAKE_RANGE = 33  # does not come
    KEEP_DEVICE = 41  # a write or sync failed: errno says why
    KEEP_CHANGED = 42  # the file is not as the member left it
    KEEP_EXHAUSTED = 43  # there is no incarnation left
    BUSY = 51  # another thread is in a call on this handle
    FORKED = 52  # the handle was opened before this process was forked: it is the parent's
    BAD_DESCRIPTOR = 53  # it is not open for both reading and writing, or it has O_APPEND
    TOO_MANY = 54  # more than SWIM_SEEDS_MAX seeds
    NO_HANDLE = 55  # the struct is no handle, neither closed nor open: it did not begin with all bytes 0, or was written over


class Note(enum.IntEnum):
    """What an event took note of."""

    BAD_DATAGRAM = 1  # the bytes are no datagram
    OTHER_GROUP = 2  # a datagram of another group
    NOT_SENDER = 3  # a datagram that names another sender than the address that it came from
    FROM_SELF = 4  # a datagram that names this member as its sender
    LEAP = 5  # a suspicion of this member has an incarnation that is too far above its own
    NO_NUMBER_LEFT = 6  # a suspicion of this member has the greatest incarnation
    TABLE_FULL = 7  # there is no room for a new member
    MISDIRECTED = 8  # a ping about another member, or a join to oneself
    RELAYS_FULL = 9  # there is no room to ask one more member for another
    UNKNOWN_TARGET = 10  # somebody asked for a member that is not held for alive or suspected
    UNASKED = 11  # an ack or a page that answers nothing that was asked
    SAVE_FAILED = 12  # the state file took no save: the own incarnation stays as it is
    EXPELLED = 13  # by rules 1: the group confirmed this member
    STOPPED = 14  # an event after the member left or was expelled
    RECEIVE_FAILED = 15  # swim_receive_failed
    SEND_FAILED = 16  # swim_send_failed
    TIME_OVER = 17  # a tick at 2^62
    OTHER_VERSION = 18  # a datagram of the other rules


class Kind(enum.IntEnum):
    """What is held of a member."""

    ALIVE = 1
    SUSPECT = 2
    CONFIRM = 3


class Phase(enum.IntEnum):
    """Whether a member takes part."""

    RUNNING = 0
    LEFT = 1
    EXPELLED = 2


class swim_endpoint(_c.Structure):
    _fields_ = [
        ("address", _c.c_uint32),
        ("port", _c.c_uint16),
    ]


class swim_settings(_c.Structure):
    _fields_ = [
        ("group", _c.c_uint64),
        ("period", _c.c_uint64),
        ("direct", _c.c_uint64),
        ("suspect", _c.c_uint64),
        ("forget", _c.c_uint64),
        ("block", _c.c_uint64),
        ("address", _c.c_uint32),
        ("lambda_", _c.c_uint32),
        ("helpers", _c.c_uint32),
        ("rules", _c.c_uint32),
        ("port", _c.c_uint16),
        ("tick_ms", _c.c_uint16),
        ("reserved", _c.c_uint8 * 28),
    ]


class swim_row(_c.Structure):
    _fields_ = [
        ("number", _c.c_uint64),
        ("address", _c.c_uint32),
        ("port", _c.c_uint16),
        ("kind", _c.c_uint8),
        ("reserved", _c.c_uint8 * 17),
    ]


class swim_status(_c.Structure):
    _fields_ = [
        ("number", _c.c_uint64),
        ("first", _c.c_uint64),
        ("alive", _c.c_uint64),
        ("suspect", _c.c_uint64),
        ("confirmed", _c.c_uint64),
        ("phase", _c.c_uint32),
        ("reserved", _c.c_uint8 * 52),
    ]


class swim_inside(_c.Structure):
    _fields_ = [
        ("mark", _c.c_uint64),
        ("at", _c.c_void_p),
    ]


class swim_member(_c.Structure):
    _fields_ = [
        ("inside", swim_inside),
        ("busy", _c.c_uint32),
        ("forks", _c.c_uint32),
        ("tick_ms", _c.c_uint32),
        ("reserved", _c.c_uint32),
    ]


SIZES: Dict[Any, int] = {
    swim_endpoint: 8,
    swim_settings: 96,
    swim_row: 32,
    swim_status: 96,
    swim_inside: 16,
    swim_member: 32,
}

CALLS: Dict[str, Tuple[Any, List[Any]]] = {
    "swim_version": (_c.c_uint32, []),
    "swim_name": (_c.c_char_p, [_c.c_int]),
    "swim_text": (_c.c_char_p, [_c.c_int]),
    "swim_note_name": (_c.c_char_p, [_c.c_int]),
    "swim_make": (_c.c_int, [_c.c_char_p, _c.POINTER(swim_settings)]),
    "swim_make_state": (_c.c_int, [_c.c_int, _c.POINTER(swim_settings)]),
    "swim_open": (_c.c_int, [_c.POINTER(swim_member), _c.c_char_p, _c.POINTER(swim_settings), _c.c_uint32]),
    "swim_open_descriptor": (_c.c_int, [_c.POINTER(swim_member), _c.c_int, _c.POINTER(swim_settings), _c.c_uint32]),
    "swim_open_memory": (_c.c_int, [_c.POINTER(swim_member), _c.POINTER(swim_settings), _c.c_uint32]),
    "swim_close": (_c.c_int, [_c.POINTER(swim_member)]),
    "swim_tick": (_c.c_int, [_c.POINTER(swim_member), _c.c_uint64]),
    "swim_advance": (_c.c_int, [_c.POINTER(swim_member), _c.c_uint64, _c.c_uint64, _c.POINTER(_c.c_uint64)]),
    "swim_receive": (_c.c_int, [_c.POINTER(swim_member), swim_endpoint, _c.c_void_p, _c.c_size_t]),
    "swim_receive_failed": (_c.c_int, [_c.POINTER(swim_member)]),
    "swim_send_failed": (_c.c_int, [_c.POINTER(swim_member), _c.c_uint32]),
    "swim_seeds": (_c.c_int, [_c.POINTER(swim_member), _c.POINTER(swim_endpoint), _c.c_size_t, _c.c_uint64]),
    "swim_join": (_c.c_int, [_c.POINTER(swim_member), swim_endpoint]),
    "swim_leave": (_c.c_int, [_c.POINTER(swim_member)]),
    "swim_next_datagram": (_c.c_int, [_c.POINTER(swim_member), _c.POINTER(swim_endpoint), _c.c_void_p, _c.c_size_t, _c.POINTER(_c.c_size_t)]),
    "swim_members": (_c.c_int, [_c.POINTER(swim_member), _c.POINTER(swim_row), _c.c_size_t, _c.POINTER(_c.c_size_t)]),
    "swim_next_change": (_c.c_int, [_c.POINTER(swim_member), _c.POINTER(swim_row), _c.POINTER(swim_row)]),
    "swim_get_status": (_c.c_int, [_c.POINTER(swim_member), _c.POINTER(swim_status)]),
    "swim_notes": (_c.c_int, [_c.POINTER(swim_member), _c.c_void_p, _c.POINTER(_c.c_size_t)]),
    "swim_stored_peers": (_c.c_int, [_c.POINTER(swim_member), _c.POINTER(swim_endpoint), _c.POINTER(_c.c_size_t)]),
    "swim_keep_peers": (_c.c_int, [_c.POINTER(swim_member)]),
}
