"""Measures the built program over loopback, and prints the table of a running member in Markdown:

    bench/measure program [--program PATH]

It takes a bit over a minute. Run it on a machine that does nothing else: what sends the datagrams is Python, in one
process beside the member, so the rates are what a member answers at least."""

import os
import statistics
import sys
import time
from pathlib import Path

sys.dont_write_bytecode = True
from lib.datagrams import ACK
from lib.members import Member, Peer
from lib.processes import place_for
from lib.trials import end_in_order, program_parser

PAGE_BYTES = os.sysconf("SC_PAGE_SIZE")
TICKS_A_SECOND = os.sysconf("SC_CLK_TCK")


def row(what, value, bar=""):
    print(f"| {what} | {value} | {bar} |", flush=True)


def started(name, **keys):
    """A member that runs, with the default settings but for these."""
    return Member(name, **{"tick_ms": 100, "log": "warn", **keys}).init().start()


def answered(peer, member, seconds, window):
    """The moments of the acks to pings of which so many are always under way."""
    under_way, moments, end = {}, [], time.monotonic() + seconds
    while time.monotonic() < end:
        while len(under_way) < window:
            under_way[peer.ping(member.me)] = time.monotonic()
        found = peer.next(0.2)
        now = time.monotonic()
        if found and found.kind == ACK and under_way.pop(found.sequence, None):
            moments.append(now)
        elif not found:
            under_way.clear()
    return moments


def measure_ping():
    member, peer = started("ping"), Peer()
    took = []
    for _ in range(2000):
        sent = time.monotonic()
        peer.acked(member.me)
        took.append((time.monotonic() - sent) * 1000)
    hundredths = statistics.quantiles(took, n=100)
    row("from a ping to its ack, median", f"{statistics.median(took):.2f} ms", "1 ms")
    row("from a ping to its ack, 99 of 100 within", f"{hundredths[98]:.2f} ms")
    member.stop()


def measure_rate():
    member, peer = started("rate"), Peer()
    seconds = 10
    moments = answered(peer, member, seconds, 32)
    row("pings answered in a second, 32 under way", f"{len(moments) / seconds:.0f}")
    member.stop()


def length(member):
    return int(member.ask("status").split()[-1])


def resident_mb(member):
    pages = int(Path(f"/proc/{member.process.pid}/statm").read_text().split()[1])
    return pages * PAGE_BYTES / 1e6


def end_era(member, peer):
    """Sends pings until an era has ended."""
    before = length(member)
    while True:
        answered(peer, member, 0.05, 16)
        now = length(member)
        if now < before:
            return
        before = now


def measure_memory():
    member, peer = started("memory"), Peer()
    row("resident memory at the start", f"{resident_mb(member):.1f} MB")
    end_era(member, peer)
    row("resident memory after one full era of 4,096 entries", f"{resident_mb(member):.1f} MB")
    end_era(member, peer)
    end_era(member, peer)
    row("resident memory after three", f"{resident_mb(member):.1f} MB")
    member.stop()


def processor_seconds(member):
    fields = Path(f"/proc/{member.process.pid}/stat").read_text().rpartition(")")[2].split()
    return (int(fields[11]) + int(fields[12])) / TICKS_A_SECOND


def measure_idle():
    member = started("idle")
    time.sleep(1)
    before, seconds = processor_seconds(member), 20
    time.sleep(seconds)
    share = (processor_seconds(member) - before) / seconds * 100
    row("processor time of an idle member", f"{share:.2f} % of a core", "1 %")
    member.stop()


def measure_gap():
    """The longest silence of answers in 20 seconds, over several eras, with a ping in each millisecond."""
    member, peer = started("gap", limit=1000), Peer()
    moments, end = [], time.monotonic() + 20
    while time.monotonic() < end:
        peer.ping(member.me)
        while found := peer.next(0.001):
            if found.kind == ACK:
                moments.append(time.monotonic())
    silence = max(later - earlier for earlier, later in zip(moments, moments[1:]))
    row("longest silence of answers, eras of 1,000 entries", f"{silence * 1000:.0f} ms")
    row("pings unanswered meanwhile", f"{peer.sequence - len(moments)} of {peer.sequence}")
    member.stop()


def main():
    end_in_order()
    words = program_parser(__doc__).parse_args()
    print("| What | Measured | Bar |\n|---|---:|---:|")
    with place_for(words.program.resolve()):
        for measure in (measure_ping, measure_rate, measure_memory, measure_idle, measure_gap):
            measure()


if __name__ == "__main__":
    main()
