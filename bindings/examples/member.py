"""A member in Python: `member.py STATE-FILE GROUP PORT PEER-PORT SECONDS`, on loopback alone, as member.c: also in that only a trial may
make a state file where there is none."""

import os
import select
import socket
import sys
import time
from typing import List

import swim

LATE = 0.1  # seconds that a tick may be late for what waits at the socket


def send_all(member: swim.Member, udp: socket.socket) -> None:
    lost = 0
    for to, data in member.datagrams():
        try:
            udp.sendto(data, to)
        except OSError:
            lost += 1
    if lost:
        member.send_failed(lost)


def receive_until(member: swim.Member, udp: socket.socket, due: float) -> None:
    """Hands in what waits, and what comes until then."""
    while select.select([udp], [], [], max(0.0, due - time.monotonic()))[0]:
        data, source = udp.recvfrom(swim.DATAGRAM_MAX + 1)
        member.receive(source, data)
        send_all(member, udp)
        if time.monotonic() > due + LATE:
            return


def run(member: swim.Member, udp: socket.socket, seeds: List[swim.Address], seconds: float) -> None:
    member.seeds(seeds)
    end = time.monotonic() + seconds
    while time.monotonic() < end:
        due = member.advance(time.monotonic())
        send_all(member, udp)
        receive_until(member, udp, due)


def main() -> None:
    path, group, port, peer, seconds = sys.argv[1], *map(int, sys.argv[2:6])
    settings = swim.Settings(group=group, me=("127.0.0.1", port))
    if not os.path.exists(path):
        swim.make(path, settings)
    with socket.socket(socket.AF_INET, socket.SOCK_DGRAM) as udp:
        udp.bind(settings.me)
        with swim.Member(path, settings) as member:
            run(member, udp, [("127.0.0.1", peer)] if peer else [], seconds)
            for row in member.members():
                print(row.kind.name.lower(), f"{row.who[0]}:{row.who[1]}", row.number)
            member.keep_peers()
            member.leave()
            send_all(member, udp)


main()
