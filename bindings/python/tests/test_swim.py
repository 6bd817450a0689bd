"""What the module adds to libswim: exceptions, locks, types. tests/embedded tries the library itself."""

import asyncio
import copy
import errno
import pickle
import socket
import threading
from pathlib import Path
from typing import Callable, Iterator, List, Optional, Type, Union

import pytest

import swim
import swim.aio

PEER = ("127.0.0.1", 7001)


@pytest.fixture
def settings() -> swim.Settings:
    with socket.socket(socket.AF_INET, socket.SOCK_DGRAM) as udp:
        udp.bind(("127.0.0.1", 0))
        return swim.Settings(group=7, me=udp.getsockname())


@pytest.fixture
def member(settings: swim.Settings) -> Iterator[swim.Member]:
    with swim.Member(None, settings) as member:
        yield member


def test_errors_tell_their_errno(tmp_path: Path, settings: swim.Settings) -> None:
    path = tmp_path / "member.state"
    with pytest.raises(swim.SwimError) as refused:
        swim.Member(path, settings)
    assert (refused.value.code, refused.value.errno) == (swim.Code.FILE, errno.ENOENT)
    swim.make(path, settings)
    with pytest.raises(OSError) as made_before:
        swim.make(path, settings)
    assert made_before.value.errno == errno.EEXIST
    with swim.Member(path, settings):
        with pytest.raises(swim.Locked):
            swim.Member(path, settings)


def test_errors_are_the_classes_of_their_errno(tmp_path: Path, settings: swim.Settings) -> None:
    path = tmp_path / "member.state"
    with pytest.raises(FileNotFoundError) as missing:
        swim.Member(path, settings)
    assert isinstance(missing.value, swim.SwimError)
    with pytest.raises(FileNotFoundError):
        swim.make(tmp_path / "none" / "member.state", settings)
    swim.make(path, settings)
    with pytest.raises(FileExistsError):
        swim.make(path, settings)
    with pytest.raises(NotADirectoryError):
        swim.Member(path / "member.state", settings)
    with pytest.raises(IsADirectoryError):
        swim.Member(tmp_path, settings)


@pytest.mark.parametrize(
    "code, number, kind",
    [
        (swim.Code.FILE, errno.EACCES, PermissionError),
        (swim.Code.OPEN_DEVICE, errno.EIO, swim.SwimError),
        (swim.Code.WAITING, errno.ENOENT, swim.Waiting),
    ],
)
def test_the_class_of_a_code(code: swim.Code, number: int, kind: Type[OSError]) -> None:
    error = swim._error(code, number)
    assert isinstance(error, kind) and isinstance(error, swim.SwimError)
    assert isinstance(error, FileNotFoundError) is False


def test_settings_are_judged_before_the_file(tmp_path: Path) -> None:
    nowhere = swim.Settings(group=7, me=("0.0.0.0", 7000))
    for call in (swim.make, swim.Member):
        with pytest.raises(swim.SwimError) as refused:
            call(tmp_path / "none" / "member.state", nowhere)
        assert refused.value.code is swim.Code.BAD_ADDRESS
    with pytest.raises(ValueError):
        swim.Member(None, swim.Settings.lan(7, ("127.0.0.1", 7000), tick_ms=1 << 16))


def test_the_settings_of_a_group_that_swim_up_made() -> None:
    """SETTINGS.md, "Presets"."""
    lan = swim.Settings.lan(7, ("127.0.0.1", 7000))
    assert (lan.period, lan.direct, lan.suspect, lan.forget, lan.lambda_, lan.helpers, lan.rules, lan.tick_ms) == (10, 2, 80, 12000, 3, 5, 2, 50)
    with swim.Member(None, lan) as member:
        assert [member.advance(now) for now in (5.0, 5.025, 5.05, 60.0)] == [5.05, 5.05, 5.1, 60.05]


def test_a_descriptor_takes_a_member(tmp_path: Path, settings: swim.Settings) -> None:
    path = tmp_path / "member.state"
    with open(path, "w+b", buffering=0) as file:
        swim.make(file.fileno(), settings)
        member = swim.Member(file.fileno(), settings)
    with member:  # it has a descriptor of its own
        assert member.status().first == 1
    with open(path, "a+b") as added:
        with pytest.raises(swim.SwimError) as refused:
            swim.Member(added.fileno(), settings)
    assert refused.value.code is swim.Code.BAD_DESCRIPTOR


def test_errors_go_to_other_processes(tmp_path: Path, member: swim.Member, settings: swim.Settings) -> None:
    member.close()
    calls: List[Callable[[], object]] = [lambda: swim.Member(tmp_path / "none.state", settings), member.tick]
    for call in calls:
        with pytest.raises(swim.SwimError) as raised:
            call()
        here, there = raised.value, pickle.loads(pickle.dumps(raised.value))
        assert (type(there), there.code, there.errno, str(there)) == (type(here), here.code, here.errno, str(here))


def test_codes_are_classes(member: swim.Member) -> None:
    member.join(PEER)
    with pytest.raises(swim.Waiting) as refused:
        member.tick()
    assert refused.value.errno is None
    assert str(refused.value).startswith("WAITING: ")
    member.close()
    member.close()
    with pytest.raises(swim.Closed):
        member.tick()


@pytest.mark.parametrize("address", ["0.0.0.0", "255.255.255.255", "224.0.0.1"])
def test_no_member_is_reached_at(address: str) -> None:
    with pytest.raises(swim.SwimError) as refused:
        swim.Member(None, swim.Settings(group=7, me=(address, 7000)))
    assert refused.value.code is swim.Code.BAD_ADDRESS


@pytest.mark.parametrize("kind", [bytes, bytearray, memoryview])
def test_any_bytes_are_taken(member: swim.Member, kind: Callable[[bytes], Union[bytes, bytearray, memoryview]]) -> None:
    member.receive(PEER, kind(b"x" * 600))
    assert member.notes() == [swim.Note.BAD_DATAGRAM]


def test_port_0_is_left_aside(member: swim.Member) -> None:
    assert not member.receive(("127.0.0.1", 0), b"x")
    assert member.notes() == []


def test_a_socket_of_ipv6_harms_nobody(member: swim.Member) -> None:
    assert not member.receive(("::1", 7001), b"x")
    assert member.notes() == []
    assert member.receive(("::ffff:127.0.0.1", 7001), b"x")
    assert member.notes() == [swim.Note.BAD_DATAGRAM]
    assert not member.receive(("fe80::1%lo", 7001, 0, 1), b"x")  # a sender of IPv6 on the same link


def test_a_socket_of_both_kinds_is_taken(member: swim.Member) -> None:
    with socket.socket(socket.AF_INET6, socket.SOCK_DGRAM) as both, socket.socket(socket.AF_INET, socket.SOCK_DGRAM) as old:
        both.setsockopt(socket.IPPROTO_IPV6, socket.IPV6_V6ONLY, 0)
        both.bind(("::", 0))
        old.sendto(b"x", ("127.0.0.1", both.getsockname()[1]))
        data, source = both.recvfrom(swim.DATAGRAM_MAX + 1)
    assert len(source) == 4
    assert member.receive(source, data)
    assert member.notes() == [swim.Note.BAD_DATAGRAM]
    assert not member.receive(("::1", 7001, 0, 0), data)


def test_late_ticks_are_skipped(member: swim.Member) -> None:
    assert [member.advance(now) for now in (5.0, 5.05, 5.1, 60.0)] == [5.1, 5.1, 5.2, 60.1]


def test_seeds_are_asked_again_by_the_clock(member: swim.Member) -> None:
    member.seeds([PEER])
    asked = []
    for now in (1.0, 1.05, 1.1, 1.2, 1.3):
        member.advance(now)
        asked.append([to for to, _ in member.datagrams()])
    assert asked == [[PEER], [], [PEER], [], [PEER]]
    with pytest.raises(swim.SwimError) as refused:
        member.seeds([PEER] * (swim.SEEDS_MAX + 1))
    assert refused.value.code is swim.Code.TOO_MANY


def test_changes_are_told_once(member: swim.Member) -> None:
    own = swim.Row(swim.Kind.ALIVE, member.members()[0].who, 1)
    assert list(member.changes()) == [swim.Change(now=own, was=None)]
    assert list(member.changes()) == []
    member.leave()
    assert list(member.changes()) == [swim.Change(now=swim.Row(swim.Kind.CONFIRM, own.who, 1), was=own)]


def test_threads_wait_for_one_another(member: swim.Member) -> None:
    def use() -> None:
        for _ in range(200):
            member.receive(PEER, b"x")
            member.members()

    threads = [threading.Thread(target=use) for _ in range(4)]
    for thread in threads:
        thread.start()
    for thread in threads:
        thread.join()
    assert len(member.members()) == 1


@pytest.mark.parametrize("copied", [copy.copy, copy.deepcopy, pickle.dumps])
def test_a_member_is_not_copied(member: swim.Member, copied: Callable[[swim.Member], object]) -> None:
    with pytest.raises(TypeError, match="is not copied"):
        copied(member)
    assert member.status().first == 1  # it is still open


def test_asyncio_counts_notes_and_always_ends(settings: swim.Settings, monkeypatch: pytest.MonkeyPatch) -> None:
    async def fail_to_keep() -> swim.aio.Member:
        member = swim.aio.Member(None, settings)
        await member.start()
        member.datagram_received(b"x", PEER)
        member.datagram_received(b"x", ("127.0.0.1", 0))
        monkeypatch.setattr(member._member, "keep_peers", refuse)
        with pytest.raises(swim.SwimError):
            await member.stop()
        return member

    def refuse() -> None:
        raise swim.SwimError(swim.Code.KEEP_DEVICE, errno.ENOSPC)

    member = asyncio.run(fail_to_keep())
    assert member.noted == {swim.Note.BAD_DATAGRAM: 1}
    with pytest.raises(swim.Closed):
        member.status()


@pytest.mark.parametrize(
    "leave, fault, left",
    [(None, None, False), (False, None, False), (True, None, True), (True, KeyError("of the program"), False), (None, KeyError("of it"), False)],
)
def test_asyncio_leaves_only_if_asked(
    settings: swim.Settings, monkeypatch: pytest.MonkeyPatch, leave: Optional[bool], fault: Optional[Exception], left: bool
) -> None:
    asked = {} if leave is None else {"leave": leave}
    seen = []

    async def live() -> None:
        async with swim.aio.Member(None, settings, **asked) as member:
            close = member._member.close
            monkeypatch.setattr(member._member, "close", lambda: (seen.append(member.status().phase), close()))
            if fault is not None:
                raise fault

    if fault is None:
        asyncio.run(live())
    else:
        with pytest.raises(type(fault)):
            asyncio.run(live())
    assert seen == [swim.Phase.LEFT if left else swim.Phase.RUNNING]


@pytest.mark.parametrize("tick_ms", [100, 50, None])
def test_asyncio(settings: swim.Settings, tick_ms: Optional[int]) -> None:
    async def meet() -> bool:
        other = swim.Settings(group=7, me=("127.0.0.1", settings.me[1] + 1 if settings.me[1] < 65535 else 1024))
        async with swim.aio.Member(None, settings, peers=[other.me], tick_ms=tick_ms) as first:
            await asyncio.sleep(0.3)  # it has asked in vain
            async with swim.aio.Member(None, other, tick_ms=tick_ms) as second:
                for _ in range(100):
                    if first.status().alive == second.status().alive == 1:
                        return True
                    await asyncio.sleep(0.1)
        return False

    assert asyncio.run(meet())
