"""Loads running members with pings by a sender in C, beside an echo in C, in one run, and prints the table in Markdown:

    bench/measure load [--program PATH] [--seconds N] [--rounds N]

In each round the echo and each member take their turn, for so many seconds at each window: so many pings are under way at any moment.
A figure is the median of the rounds; a share is that of the echo's answers a second at the same window in the same run. Run it on a
machine that does nothing else. It takes gcc, and some six minutes."""

import socket
import statistics
import sys
from pathlib import Path
from typing import NamedTuple

sys.dont_write_bytecode = True
from lib.datagrams import GROUP
from lib.members import Member, free_endpoint
from lib.processes import PLACE, compile_c, place_for, run_to_its_end, start
from lib.trials import end_in_order, expect, program_parser

SOURCE = Path(__file__).resolve().parent / "load.c"
WINDOWS = (1, 32, 256)
UPDATES = 30  # in each ping of the last column, 32 of which are under way
MEMBERS = {  # what is told of each but the echo, and its settings
    "member": {},
    "member, `limit` 65,536": {"limit": 65_536},
    "member, `limit` 256": {"limit": 256},
    "member that records": {"record": True},
    "member that records, `limit` 256": {"limit": 256, "record": True},
}


class Load(NamedTuple):
    """What a sender measured."""

    rate: float
    median: float
    late: float
    lost: int


def loaded(sender, port, window, seconds, updates=0):
    ran = run_to_its_end([sender, port, GROUP, 1, window, seconds, updates])
    expect(ran.status, 0, f"the sender ({ran.err})")
    rate, median, late, lost = ran.out.split()
    return Load(float(rate), float(median), float(late), int(lost))


def loads_at(sender, port, seconds):
    """The loads of each window, and the one with updates."""
    found = {window: loaded(sender, port, window, seconds) for window in WINDOWS}
    return found | {"updates": loaded(sender, port, 32, seconds, UPDATES)}


def echo(sender, seconds):
    port = free_endpoint(socket.SOCK_DGRAM).port
    process = start([sender, "echo", port])
    found = loads_at(sender, port, seconds)
    process.kill()
    process.wait()
    return found


def member(sender, seconds, name, keys):
    keys = dict(keys)
    if keys.pop("record", False):
        keys["record"] = PLACE.folder / f"{name}.recordings"
        keys["record"].mkdir()
    running = Member(name, tick_ms=100, suspect=100_000, log="warn", **keys).init().start()
    found = loads_at(sender, running.me.port, seconds)
    running.kill()
    return found


def cell(loads, beside):
    """The answers a second, their share of the echo's, and the times."""
    rate = statistics.median(load.rate for load in loads)
    share = rate / statistics.median(load.rate for load in beside)
    late = statistics.median(load.late for load in loads)
    lost = sum(load.lost for load in loads)
    text = f"{rate:,.0f} ({share:.2f}); {statistics.median(load.median for load in loads):.0f}, {late:.0f} us"
    return f"{text}; {lost} lost" if lost else text


def main():
    parser = program_parser(__doc__)
    parser.add_argument("--seconds", type=float, default=3, metavar="N", help="that each load takes")
    parser.add_argument("--rounds", type=int, default=5, metavar="N", help="in which each takes its turn")
    end_in_order()
    words = parser.parse_args()
    found = {}
    with place_for(words.program.resolve()):
        sender = compile_c(PLACE.folder / "load", SOURCE)
        for turn in range(words.rounds):
            found.setdefault("echo in C", []).append(echo(sender, words.seconds))
            for place, (name, keys) in enumerate(MEMBERS.items()):
                found.setdefault(name, []).append(member(sender, words.seconds, f"load{turn}-{place}", keys))
    columns = (*WINDOWS, "updates")
    heads = [f"{window} under way" for window in WINDOWS] + [f"32, with {UPDATES} updates each"]
    print("| Answers a second (share of the echo's); median, 99 of 100 within | " + " | ".join(heads) + " |")
    print("|---" * (len(columns) + 1) + "|")
    for name, rounds in found.items():
        cells = [cell([one[column] for one in rounds], [one[column] for one in found["echo in C"]]) for column in columns]
        print(f"| {name} | " + " | ".join(cells) + " |", flush=True)


main()
