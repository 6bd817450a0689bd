"""Measures `swim simulate`, and prints a table in Markdown:

    bench/measure simulate [--program PATH]

It takes half a minute on a machine that does nothing else. Times are those of the processor, of one core, since a simulation is one
thread. Memory is the most that was resident, as the kernel tells it while the program runs: what it tells of a process that has ended
is no less than what this script had. What a member takes of it is the difference between a group of 257 and one of 65, and what an
entry of its journal takes that between eras of 65 entries and of 1."""

import os
import re
import subprocess
import sys
import time
from pathlib import Path

sys.dont_write_bytecode = True
from lib.processes import PLACE, place_for, start
from lib.trials import Wrong, end_in_order, program_parser

MOST, FEW = 257, 65
SHORT, LONG = 1, 65
PAUSE = 0.005  # seconds from one look at the memory to the next
RUNS = 20  # of a small group of each size
SMALL = range(3, 13)
HARD = {
    "minutes": 1,
    "rules": 2,
    "limit": 16,
    "loss": 20,
    "repeats": 20,
    "jitter": 3,
    "kills": 10,
    "restart_after": 50,
    "dropped": 50,
    "filled": 25,
    "odd_clocks": 1,
    "clock_rate": 150,
    "cut_members": 1,
    "cut_at": 20,
    "cut_for": 10,
    "pauses": 5,
    "failing_syncs": 50,
}


def started(*words, **keys):
    """A run of this plan."""
    plan = PLACE.folder / "plan.toml"
    plan.write_text("".join(f"{key} = {number}\n" for key, number in keys.items()))
    quiet = {"stdin": subprocess.DEVNULL, "stdout": subprocess.DEVNULL}
    return start([PLACE.program, "simulate", plan, *words], **quiet)


def ended(process):
    """Seconds of the processor that a run took."""
    status, used = os.wait4(process.pid, 0)[1:]
    process.returncode = os.waitstatus_to_exitcode(status)
    if process.returncode:
        raise Wrong(f"swim simulate ended with {process.returncode}")
    return used.ru_utime + used.ru_stime


def seconds_of(*words, **keys):
    return ended(started(*words, **keys))


def resident_kb(**keys):
    """The most kilobytes of 1,000 bytes that were resident in a run."""
    process, most = started(**keys), 0
    status = Path(f"/proc/{process.pid}/status")
    while found := re.search(r"^VmHWM:\s+(\d+) kB$", status.read_text(), re.MULTILINE):
        most = max(most, int(found[1]))
        time.sleep(PAUSE)
    ended(process)
    return most * 1.024


def row(what, value, bar=""):
    print(f"| {what} | {value} | {bar} |", flush=True)


def measure_speed():
    minutes = 10
    seconds = seconds_of(members=MOST, minutes=minutes)
    row(f"{MOST} members for {minutes} minutes, at the default settings", f"{seconds:.1f} s", "10 s")
    row("minutes of members in an hour", f"{MOST * minutes * 3600 / seconds:,.0f}", "100,000")


def measure_memory():
    few, many = (resident_kb(members=members, minutes=1, kills=0, limit=SHORT) for members in (FEW, MOST))
    long = resident_kb(members=MOST, minutes=1, kills=0, limit=LONG)
    entry = (long - many) / (LONG - SHORT) / MOST
    member = (many - few) / (MOST - FEW)
    row(f"resident memory of {FEW} members, limit {SHORT}", f"{few / 1000:.1f} MB")
    row(f"resident memory of {MOST} members, limit {SHORT}", f"{many / 1000:.1f} MB")
    row("an entry of a journal", f"{entry:.1f} KB")
    row("a member beyond its journal", f"{member - SHORT * entry:.1f} KB", "40 KB")


def measure_small_groups():
    seconds = sum(seconds_of("--runs", RUNS, members=members, **HARD) for members in SMALL)
    what = f"{RUNS * len(SMALL)} groups of {SMALL[0]} to {SMALL[-1]} members with hard faults, a minute each"
    row(what, f"{seconds:.1f} s", "120 s")


def main():
    end_in_order()
    words = program_parser(__doc__).parse_args()
    print("| What | Measured | Bar |\n|---|---:|---:|")
    with place_for(words.program.resolve()):
        for measure in (measure_speed, measure_memory, measure_small_groups):
            measure()


if __name__ == "__main__":
    main()
