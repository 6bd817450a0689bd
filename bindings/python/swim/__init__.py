"""A member of a SWIM group, by polling: the proved library libswim, through ctypes.

    with swim.Member("member.state", swim.Settings(group=7, me=("127.0.0.1", 7000))) as member:
        member.seeds([("127.0.0.1", 7001)])           # whom to join, once
        for to, data in member.datagrams(): ...       # after each event: send each
        member.receive(source, data)                  # each datagram
        due = member.advance(time.monotonic())        # then, and when it is due again: ticks, and joins

After each event `datagrams` has to be taken to its end: the next event is refused until then. `swim.aio.Member` does all of it
over UDP under asyncio. Threads may call one member: each call waits for the one before. `docs/develop/EMBEDDING.md` says how time, random
words and the state file are to be fed.

A member in memory, for tests:

>>> settings = Settings(group=7, me=("127.0.0.1", 7000))
>>> with Member(None, settings) as member:
...     member.join(("127.0.0.1", 7001))
...     [(to, len(data)) for to, data in member.datagrams()]
...     member.members()
[(('127.0.0.1', 7001), 48)]
[Row(kind=<Kind.ALIVE: 1>, who=('127.0.0.1', 7000), number=1)]
>>> member.tick()
Traceback (most recent call last):
    ...
swim.Closed: CLOSED: the handle is closed
"""

import ctypes as _c
import ipaddress
import os
import secrets
import threading
from dataclasses import dataclass
from typing import Any, Callable, Iterator, List, Optional, Sequence, Tuple, Union

from . import _made
from ._made import DATAGRAM_MAX, MEMBERS_MAX, NOTES_MAX, PEERS_MAX, SEEDS_MAX, Code, Kind, Note, Phase

__all__ = [
    "DATAGRAM_MAX", "MEMBERS_MAX", "SEEDS_MAX", "Change", "Closed", "Code", "Forbidden", "IsFolder", "Kind", "Locked", "Member", "Missing",
    "NoFolder", "Note", "Phase", "Present", "Row", "Settings", "Status", "SwimError", "Waiting", "make", "version",
]  # fmt: skip

Address = Tuple[str, int]  # "127.0.0.1", 7000: as sockets have it
Source = Union[Address, Tuple[str, int, int, int]]  # where a datagram came from, as recvfrom of a socket of IPv4 or of both kinds says it
Path = Union[str, bytes, "os.PathLike[str]"]
File = Union[Path, int]  # a path or, as open() takes it, a descriptor
Data = Union[bytes, bytearray, memoryview]

if any(_c.sizeof(shape) != size for shape, size in _made.SIZES.items()):
    raise ImportError("the layouts of swim.h are not those of this machine")


def _load() -> _c.CDLL:
    """The library beside this module, as a wheel has it, or where SWIM_LIBRARY says, or where the system looks."""
    beside = os.path.join(os.path.dirname(__file__), "libswim.so.1")
    usual = beside if os.path.exists(beside) else "libswim.so.1"
    library = _c.CDLL(os.environ.get("SWIM_LIBRARY", usual), use_errno=True)
    for name, (answer, arguments) in _made.CALLS.items():
        call = getattr(library, name, None)
        if call is None:
            raise ImportError("libswim is older than this module")
        call.argtypes, call.restype = arguments, answer
    loaded = library.swim_version()
    if loaded // 1000 != _made.VERSION // 1000 or loaded < _made.VERSION:
        raise ImportError(f"libswim has version {loaded}, and this module is for {_made.VERSION}")
    return library


_library = _load()


class SwimError(OSError):
    """A code of the library other than SWIM_OK: `code`, and `errno` with it where the system refused something, else None. What Python
    has a class for is of that class too: of a file that is not there a Missing, which is a FileNotFoundError."""

    def __init__(self, code: int, errno: int = 0):
        self.code = Code(code) if code in Code.__members__.values() else code
        self.name: str = _library.swim_name(code).decode().replace("SWIM_", "", 1)
        text = _library.swim_text(code).decode()
        has_errno = errno != 0 and self.code in _HAVE_ERRNO
        text = f"{self.name}: {text}" + (f" ({os.strerror(errno)})" if has_errno else "")
        super().__init__(*((errno, text) if has_errno else (text,)))
        self._text: str = text

    def __str__(self) -> str:
        return self._text

    def __reduce__(self) -> Tuple[Any, ...]:
        """So that it goes from one process to another."""
        return type(self), (int(self.code), self.errno or 0)


class Closed(SwimError):
    """The member is closed."""


class Waiting(SwimError):
    """Datagrams of the last event have to be taken first."""


class Locked(SwimError):
    """Another member or another process has the state file."""


class Missing(SwimError, FileNotFoundError):
    """The state file, or its folder, is not there."""


class Present(SwimError, FileExistsError):
    """Something is where the state file was to be made."""


class Forbidden(SwimError, PermissionError):
    """The system does not let this user open or make the file."""


class IsFolder(SwimError, IsADirectoryError):
    """A folder is where the state file was to be."""


class NoFolder(SwimError, NotADirectoryError):
    """A part of the path is no folder."""


_CLASSES = {Code.CLOSED: Closed, Code.WAITING: Waiting, Code.LOCKED: Locked}
_HAVE_ERRNO = (Code.FILE, Code.OPEN_DEVICE, Code.MAKE_DEVICE, Code.KEEP_DEVICE)
_BY_ERRNO = {kind.__bases__[1]: kind for kind in (Missing, Present, Forbidden, IsFolder, NoFolder)}


def _error(code: int, errno: int) -> SwimError:
    """The error of a code and of what the system said, as the class that OSError would have."""
    kind = _BY_ERRNO.get(type(OSError(errno, ""))) if code in _HAVE_ERRNO else _CLASSES.get(code)  # type: ignore[call-overload]
    return (kind or SwimError)(code, errno)


def _must(code: int) -> None:
    if code != Code.OK:
        raise _error(code, _c.get_errno())


def _to_c(address: Address) -> _made.swim_endpoint:
    if not 0 <= address[1] <= 65535:
        raise ValueError(f"{address[1]} is no port")
    return _made.swim_endpoint(int(ipaddress.IPv4Address(address[0])), address[1])


def _from_c(address: int, port: int) -> Address:
    return str(ipaddress.IPv4Address(address)), port


@dataclass(frozen=True)
class Settings:
    """What a member is told at its start, with the defaults of `swim run` and rules 2, or by `lan` those of that preset; swim.h has the
    ranges. They are judged where a member is made or opened, before its file is looked at."""

    group: int
    me: Address
    period: int = _made.USUAL["period"]
    direct: int = _made.USUAL["direct"]
    suspect: int = _made.USUAL["suspect"]
    forget: int = _made.USUAL["forget"]
    block: int = _made.USUAL["block"]
    lambda_: int = _made.USUAL["lambda_"]
    helpers: int = _made.USUAL["helpers"]
    rules: int = _made.USUAL["rules"]
    tick_ms: int = _made.USUAL["tick_ms"]

    @classmethod
    def lan(cls, group: int, me: Address, **others: int) -> "Settings":
        """Those of a group that `swim up` made: the preset `lan`, with ticks of 50 ms, and rules 2. What is given besides counts."""
        return cls(group, me, **{**_made.LAN, **others})

    def _to_c(self) -> _made.swim_settings:
        wide = {name: getattr(self, name) for name in ("group", "period", "direct", "suspect", "forget", "block")}
        words = {name: getattr(self, name) for name in ("lambda_", "helpers", "rules")}
        if any(not 0 <= n < 1 << 64 for n in wide.values()) or any(not 0 <= n < 1 << 32 for n in words.values()):
            raise ValueError("a setting does not fit its type")
        if not 0 <= self.tick_ms < 1 << 16:
            raise ValueError(f"tick_ms {self.tick_ms} is not 0 to 65,535")
        me = _to_c(self.me)
        return _made.swim_settings(**wide, **words, address=me.address, port=me.port, tick_ms=self.tick_ms)


@dataclass(frozen=True)
class Row:
    """What is held of a member. `number` is its incarnation."""

    kind: Kind
    who: Address
    number: int


@dataclass(frozen=True)
class Change:
    """How what is held of a member changed: None where there was no row, or is none any more."""

    now: Optional[Row]
    was: Optional[Row]


@dataclass(frozen=True)
class Status:
    """What a status page shows. `number` is the own incarnation, and `first` the one with which this life began."""

    phase: Phase
    number: int
    first: int
    alive: int
    suspect: int
    confirmed: int


def _row(row: _made.swim_row) -> Optional[Row]:
    return Row(Kind(row.kind), _from_c(row.address, row.port), row.number) if row.kind else None


def version() -> int:
    """The version of the library that is loaded, a thousand times the first number and then the second."""
    return int(_library.swim_version())


def make(path: File, settings: Settings) -> None:
    """Makes the state file of a member at a path where nothing is, whole or not at all; or in the empty file of a descriptor, which is
    open for reading and writing, without O_APPEND."""
    if isinstance(path, int):
        _must(_library.swim_make_state(path, settings._to_c()))
    else:
        _must(_library.swim_make(os.fsencode(path), settings._to_c()))


class Member:
    """A member on its state file, or, where `path` is None, on one in memory, for tests. A file at a path is locked; a descriptor is
    duplicated, and two members on its file are the caller's to rule out. Calls of several threads wait for one another. It is neither
    copied nor pickled (TypeError): two of one life would be two members on one file."""

    def __init__(self, path: Optional[File], settings: Settings, limit: int = 1):
        self._lock = threading.Lock()
        self._handle = _made.swim_member()
        if path is None:
            _must(_library.swim_open_memory(self._handle, settings._to_c(), limit))
        elif isinstance(path, int):
            _must(_library.swim_open_descriptor(self._handle, path, settings._to_c(), limit))
        else:
            _must(_library.swim_open(self._handle, os.fsencode(path), settings._to_c(), limit))

    def __enter__(self) -> "Member":
        return self

    def __exit__(self, *why: object) -> None:
        self.close()

    def __reduce_ex__(self, protocol: Any) -> Any:
        """Asked by copy.copy, copy.deepcopy and pickle."""
        raise TypeError("a swim member is one life of its state file, and is not copied")

    def __del__(self) -> None:
        if getattr(self, "_handle", None) is not None:
            _library.swim_close(self._handle)  # nobody else has it any more

    def _call(self, call: Callable[..., int], *arguments: Any) -> None:
        with self._lock:
            _must(call(self._handle, *arguments))

    def close(self) -> None:
        """Ends the member, and nothing is sent. A second time does nothing."""
        with self._lock:
            _library.swim_close(self._handle)

    def tick(self, random: Optional[int] = None) -> None:
        """Time goes on by one tick, with 64 random bits: the system's, if none are given. Late ticks are never made up."""
        self._call(_library.swim_tick, secrets.randbits(64) if random is None else random)

    def advance(self, now: float, random: Optional[int] = None) -> float:
        """Makes one tick if one is due by the program's clock, in seconds, as time.monotonic(), joins whom the seeds call for, and answers
        when to call again. Ticks are as long as the settings say; late ones are skipped. Use this or tick, and not both."""
        due = _c.c_uint64()
        self._call(_library.swim_advance, int(now * 1000), secrets.randbits(64) if random is None else random, due)
        return due.value / 1000

    def receive(self, source: Source, data: Data) -> bool:
        """Bytes came from there, as recvfrom says it. No datagram, whatever it is, makes this fail. False if it was left aside, and was no
        event: from port 0, or from an address of IPv6 that stands for none of IPv4."""
        host, port = source[:2]
        if ":" in host:
            mapped = ipaddress.IPv6Address(host.partition("%")[0]).ipv4_mapped  # (Python 3.8 refuses the zone of a local address)
            if mapped is None:
                return False
            host = str(mapped)
        if port == 0:
            return False
        kept = bytes(memoryview(data)[: DATAGRAM_MAX + 1])
        self._call(_library.swim_receive, _to_c((host, port)), kept, len(kept))
        return True

    def receive_failed(self) -> None:
        """A receive failed."""
        self._call(_library.swim_receive_failed)

    def send_failed(self, count: int = 1) -> None:
        """So many datagrams were not sent."""
        self._call(_library.swim_send_failed, count)

    def seeds(self, seeds: Sequence[Address], random: Optional[int] = None) -> None:
        """Whom the program knows of its group: advance joins them, and those that the state file stored, from now on."""
        all_seeds = (_made.swim_endpoint * len(seeds))(*map(_to_c, seeds))
        self._call(_library.swim_seeds, all_seeds, len(seeds), secrets.randbits(64) if random is None else random)

    def join(self, peer: Address) -> None:
        """Asks a member of the group for all that it knows, once."""
        self._call(_library.swim_join, _to_c(peer))

    def leave(self) -> None:
        """Leaves the group: the datagrams that wait then tell it."""
        self._call(_library.swim_leave)

    def datagrams(self) -> Iterator[Tuple[Address, bytes]]:
        """What is to be sent, each datagram once: where to, and its bytes."""
        to, data, length = _made.swim_endpoint(), _c.create_string_buffer(DATAGRAM_MAX), _c.c_size_t()
        while True:
            with self._lock:
                code = _library.swim_next_datagram(self._handle, to, data, DATAGRAM_MAX, length)
                if code == Code.NOTHING:
                    return
                _must(code)
                found = _from_c(to.address, to.port), data.raw[: length.value]
            yield found

    def members(self) -> List[Row]:
        """A Row of each member that is known, the own one among them, by address and port."""
        rows, count = (_made.swim_row * MEMBERS_MAX)(), _c.c_size_t()
        self._call(_library.swim_members, rows, MEMBERS_MAX, count)
        return [row for row in map(_row, rows[: count.value]) if row]

    def changes(self) -> Iterator[Change]:
        """What changed since the last of these was told, by address and port; after the opening all members are new."""
        now, was = _made.swim_row(), _made.swim_row()
        while True:
            with self._lock:
                code = _library.swim_next_change(self._handle, now, was)
                if code == Code.NOTHING:
                    return
                _must(code)
                found = Change(_row(now), _row(was))
            yield found

    def status(self) -> Status:
        """What a status page shows."""
        found = _made.swim_status()
        self._call(_library.swim_get_status, found)
        return Status(Phase(found.phase), found.number, found.first, found.alive, found.suspect, found.confirmed)

    def notes(self) -> List[int]:
        """What the last event took note of: each a Note, or its number, where the library knows more than this module."""
        notes, count = (_c.c_uint8 * NOTES_MAX)(), _c.c_size_t()
        self._call(_library.swim_notes, notes, count)
        return [Note(note) if note <= max(Note) else note for note in notes[: count.value]]

    def stored_peers(self) -> List[Address]:
        """Whom an earlier life knew."""
        peers, count = (_made.swim_endpoint * PEERS_MAX)(), _c.c_size_t()
        self._call(_library.swim_stored_peers, peers, count)
        return [_from_c(peer.address, peer.port) for peer in peers[: count.value]]

    def keep_peers(self) -> None:
        """Saves whom the member knows in the state file."""
        self._call(_library.swim_keep_peers)
