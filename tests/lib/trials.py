"""What all tests share: their options, how an interrupt ends them, their judgement, their count of what held, and their last
line."""

import argparse
import random
import shutil
import signal
import subprocess
import sys
import tempfile
import threading
import time
from contextlib import contextmanager
from pathlib import Path
from types import SimpleNamespace

ROOT = Path(__file__).resolve().parents[2]
PROGRAM = ROOT / "crates" / "swim" / "out" / "swim"
PATIENCE = 30  # seconds that anything may take on a busy machine before a test fails
SILENCE = 10  # seconds after which a long run says how far it is


# Options.


def program_parser(doc):
    """A parser of the option that whatever runs the program has."""
    about = doc.split("\n")
    shape = argparse.RawTextHelpFormatter
    parser = argparse.ArgumentParser(description=about[0], epilog="\n".join(about[1:]), formatter_class=shape)
    program = "swim; without it, the one that `rt ci` leaves"
    parser.add_argument("--program", type=Path, default=PROGRAM, metavar="PATH", help=program)
    return parser


def parser_for(doc):
    """A parser of the options that all tests have."""
    parser = program_parser(doc)
    parser.add_argument("--seed", type=int, metavar="N", help="of all that is drawn; without it, another one each time")
    parser.add_argument("--sample", action="store_true", help="a part of it")
    keeping = "a new folder for the state files, traces and logs; without it they are gone in the end"
    parser.add_argument("--keep", type=Path, metavar="FOLDER", help=keeping)
    return parser


def words_of(parser):
    """The options. A seed that was not named is drawn. From here on a script that is told to end cleans up first."""
    end_in_order()
    words = parser.parse_args()
    if not words.program.is_file():
        parser.error(f"{words.program} is not there; `rt ci`, or `rt run` in crates/swim, builds it")
    if words.keep and words.keep.exists() and any(words.keep.iterdir()):
        parser.error(f"{words.keep} is not empty")
    words.program = words.program.resolve()
    words.seed = random.SystemRandom().randrange(1 << 32) if words.seed is None else words.seed
    print(f"--seed {words.seed}", flush=True)
    return words


def read_words(doc):
    return words_of(parser_for(doc))


def page(name):
    """A page of docs/, on whichever shelf it stands."""
    return next((ROOT / "docs").glob(f"*/{name}.md"))


@contextmanager
def folder_for(keep):
    """A folder for a run: the one to keep, or one that is gone in the end, after an interrupt too."""
    if keep:
        keep.mkdir(parents=True, exist_ok=True)
        yield keep.resolve()
        return
    folder = None
    try:
        with undisturbed():
            folder = Path(tempfile.mkdtemp(prefix="swim-")).resolve()
        yield folder
    finally:
        with undisturbed():
            if folder:
                shutil.rmtree(folder)


# Interrupts.

INTERRUPT = SimpleNamespace(held=0, has_come=False, has_ended=False, lock=threading.Lock())


def end_if_free():
    """Ends the script if it was told to, and nothing is being started or undone. That is for the main thread to do."""
    if not INTERRUPT.has_come or INTERRUPT.held or INTERRUPT.has_ended:
        return
    if threading.current_thread() is threading.main_thread():
        INTERRUPT.has_ended = True
        sys.exit(1)
    signal.raise_signal(signal.SIGTERM)


def note(*_):
    INTERRUPT.has_come = True
    end_if_free()


def end_in_order():
    """From here on these signals end the script once, so that nothing disturbs the cleaning up."""
    for kind in (signal.SIGINT, signal.SIGTERM, signal.SIGHUP):
        signal.signal(kind, note)


@contextmanager
def undisturbed():
    """An interrupt waits while a process is started, which would be left else, and while something is undone."""
    with INTERRUPT.lock:
        INTERRUPT.held += 1
    try:
        yield
    finally:
        with INTERRUPT.lock:
            INTERRUPT.held -= 1
    end_if_free()


# Judgement.


class Wrong(Exception):
    """What a test found."""


class Skipped(Exception):
    """Why a test cannot be tried on this machine."""


def expect(got, want, about):
    if got != want:
        raise Wrong(f"{about}: {got!r} in place of {want!r}")


def expect_true(holds, about):
    if not holds:
        raise Wrong(about)


def wait_for(about, look, seconds=PATIENCE):
    """What `look` gives, once it is true."""
    end = time.monotonic() + seconds
    while time.monotonic() < end:
        found = look()
        if found:
            return found
        time.sleep(0.02)
    raise Wrong(f"in {seconds} seconds not: {about}")


class Lateness(threading.Thread):
    """How late this machine wakes a sleeper meanwhile. A bound in seconds is for a machine that runs: one that stands still, or is
    busy, has as much longer."""

    NAP = 0.005  # seconds

    def __init__(self):
        super().__init__(daemon=True)
        self.over = threading.Event()
        self.total = self.worst = 0.0

    def run(self):
        while not self.over.is_set():
            began = time.monotonic()
            time.sleep(self.NAP)
            late = time.monotonic() - began - self.NAP
            self.total, self.worst = self.total + late, max(self.worst, late)

    def __enter__(self):
        self.start()
        return self

    def __exit__(self, *_):
        self.over.set()
        self.join()


def smallest(parts, fails, seconds=SILENCE):
    """Some of these parts, in their order, that still fail: without any one of them they do not, or the time was over."""
    end, size = time.monotonic() + seconds, len(parts) // 2
    while size:
        for at in range(0, len(parts), size):
            if time.monotonic() > end:
                return parts
            fewer = parts[:at] + parts[at + size :]
            if fails(fewer):
                parts = fewer
                break
        else:
            size //= 2
        size = min(size, len(parts) // 2)
    return parts


def counted(items, about, total):
    """These items. Where they take long, a line says now and then how far it is."""
    began = told = time.monotonic()
    for number, item in enumerate(items):
        if time.monotonic() - told > SILENCE:
            told = time.monotonic()
            print(f"  {about}: {number} of {total} after {told - began:.0f} s", flush=True)
        yield item


class Trials:
    """Counts what held, what did not and what was skipped, and tells of the last two at once."""

    SHOWN = 20  # so many failures are told

    def __init__(self):
        self.passed = self.failed = self.skipped = 0
        self.lock = threading.Lock()

    def holds(self, truth, about):
        """Counts one trial, and says whether it held."""
        with self.lock:
            self.passed += bool(truth)
            self.failed += not truth
            if not truth and self.failed <= self.SHOWN:
                print(f"FAILED {about}", flush=True)
        return truth

    def equal(self, got, want, about):
        return self.holds(got == want, f"{about}: {got!r} in place of {want!r}")

    def attempt(self, about, trial):
        """Counts one trial that raises where it fails, and gives what it gives."""
        try:
            found = trial()
        except Skipped as why:
            self.skip(about, why)
            return None
        except (Wrong, OSError, subprocess.TimeoutExpired) as wrong:
            self.holds(False, f"{about}: {type(wrong).__name__}: {wrong}")
            return None
        self.holds(True, about)
        return found

    def add(self, passed, failed, skipped):
        self.passed, self.failed, self.skipped = self.passed + passed, self.failed + failed, self.skipped + skipped

    def moments(self, crashes, about):
        """Counts each moment of some crashes, and tells what was looked at."""
        print(f"{about}: {crashes}", flush=True)
        self.passed += crashes.moments - len(crashes.wrong)
        for image in crashes.wrong:
            self.holds(False, f"{about}: {image}")

    def skip(self, name, why):
        self.skipped += 1
        print(f"skipped: {name}: {why}", flush=True)

    def end(self, said=""):
        """Prints what is to be said of it and the last line, and ends the script."""
        print(*filter(None, [said]), f"{self.passed} passed, {self.failed} failed, {self.skipped} skipped", sep="\n", flush=True)
        sys.exit(1 if self.failed else 0)
