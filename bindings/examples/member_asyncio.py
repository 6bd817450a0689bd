"""A member in Python under asyncio: `member_asyncio.py STATE-FILE GROUP PORT PEER-PORT SECONDS`, on loopback alone, as member.c: also in
that only a trial may make a state file where there is none."""

import asyncio
import os
import sys
from typing import List

import swim
import swim.aio


async def run(path: str, settings: swim.Settings, peers: List[swim.Address], seconds: float) -> None:
    async with swim.aio.Member(path, settings, peers, leave=True) as member:
        await asyncio.sleep(seconds)
        for row in member.members():
            print(row.kind.name.lower(), f"{row.who[0]}:{row.who[1]}", row.number)


def main() -> None:
    path, group, port, peer, seconds = sys.argv[1], *map(int, sys.argv[2:6])
    settings = swim.Settings(group=group, me=("127.0.0.1", port))
    if not os.path.exists(path):
        swim.make(path, settings)
    asyncio.run(run(path, settings, [("127.0.0.1", peer)] if peer else [], seconds))


main()
