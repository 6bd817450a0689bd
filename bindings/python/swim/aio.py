"""A whole member over UDP under asyncio: it ticks, skips ticks that are late, and joins as long as it takes.

    async with swim.aio.Member("member.state", settings, peers=[("10.0.0.2", 7000)]) as member:
        ...                     # member.members(), member.changes(), member.status(), as of swim.Member

It ends without a leave, as a program that is restarted has to: the others wait for it, and it comes back with a greater incarnation. With
`leave=True` it leaves its group where the block is left without an exception.
"""

import asyncio
import contextlib
import dataclasses
from typing import Any, Counter, Optional, Sequence, Tuple

import swim


class Member(asyncio.DatagramProtocol):
    """A member that runs from `start`, which `async with` calls, to `stop`. State files are saved in the loop, at a suspicion and
    at the end: some milliseconds on a slow disk. `noted` counts what it took note of in what came, each a swim.Note: many of OTHER_GROUP,
    NOT_SENDER or OTHER_VERSION mean that somebody is set up wrongly. Ticks are as long as the settings say, or `tick_ms` where it is given.
    With `leave` it leaves its group as it ends, which is for one that does not come back soon; after an exception it never does."""

    def __init__(
        self,
        path: Optional[swim.File],
        settings: swim.Settings,
        peers: Sequence[swim.Address] = (),
        tick_ms: Optional[int] = None,
        leave: bool = False,
    ):
        if tick_ms is not None:
            settings = dataclasses.replace(settings, tick_ms=tick_ms)
        self._settings, self._member, self._is_leaving = settings, swim.Member(path, settings), leave
        self._member.seeds(peers)
        self.noted: Counter[int] = Counter()
        self.members, self.changes, self.status = self._member.members, self._member.changes, self._member.status

    async def start(self) -> None:
        loop = asyncio.get_running_loop()
        try:
            self._udp, _ = await loop.create_datagram_endpoint(lambda: self, local_addr=self._settings.me)
        except OSError:
            self._member.close()
            raise
        self._ticks = loop.create_task(self._tick())
        self._ticks.add_done_callback(self._tell)

    def _tell(self, ticks: "asyncio.Task[None]") -> None:
        """Ticks never end but by `stop`: if they do, the loop is told."""
        fault = None if ticks.cancelled() else ticks.exception()
        if fault is not None:
            ticks.get_loop().call_exception_handler({"message": "a swim member ticks no more", "exception": fault})

    async def stop(self, leave: Optional[bool] = None) -> None:
        """Ends the member, which leaves its group if this, or else the constructor, says so. It ends, and leaves, also where its peers
        cannot be saved, which is raised then."""
        self._ticks.cancel()
        await asyncio.gather(self._ticks, return_exceptions=True)
        with contextlib.ExitStack() as end:
            end.callback(self._member.close)
            end.callback(self._udp.close)
            if self._is_leaving if leave is None else leave:
                end.callback(self._leave)
            self._member.keep_peers()

    def _leave(self) -> None:
        self._member.leave()
        self._send()

    async def __aenter__(self) -> "Member":
        await self.start()
        return self

    async def __aexit__(self, fault: Any, *more: object) -> None:
        await self.stop(leave=False if fault is not None else None)

    async def _tick(self) -> None:
        now = asyncio.get_running_loop().time
        while True:
            due = self._member.advance(now())
            self._send()
            await asyncio.sleep(max(0.0, due - now()))
            await asyncio.sleep(0)  # what waits at the socket is read before a tick

    def _send(self) -> None:
        for to, data in self._member.datagrams():
            self._udp.sendto(data, to)

    def datagram_received(self, data: bytes, addr: Tuple[Any, ...]) -> None:
        if self._member.receive((addr[0], addr[1]), data):
            self.noted.update(self._member.notes())
            self._send()

    def error_received(self, exc: Exception) -> None:
        """A send failed at once or later; the protocol lives with lost datagrams."""
