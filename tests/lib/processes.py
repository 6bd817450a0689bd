"""What a test starts: the program, with a folder for its files. In the end no process and no file of it is left."""

import os
import re
import signal
import subprocess
from contextlib import contextmanager, suppress
from types import SimpleNamespace
from typing import NamedTuple

from lib.trials import Wrong, expect, folder_for, undisturbed

LONGEST = 300  # seconds that what ends by itself may take, as a long script in a program without proof
PLACE = SimpleNamespace(program=None, folder=None, is_over=False)
STARTED = []


class Ran(NamedTuple):
    """How a program ended, and what it printed."""

    status: int
    out: str
    err: str


@contextmanager
def place_for(program, keep=None):
    """Which program it is and where its files lie: in a folder to keep, or one that is gone in the end."""
    with folder_for(keep) as folder:
        PLACE.program, PLACE.folder, PLACE.is_over = str(program), folder, False
        try:
            yield
        finally:
            with undisturbed():
                PLACE.is_over = True
                end_started()


def start(command, **more):
    """A process that is ended with the test."""
    with undisturbed():
        if PLACE.is_over:
            raise Wrong("the test is over")
        process = subprocess.Popen(list(map(as_word, command)), **more)
        STARTED.append(process)
    return process


def kill(process):
    """Kills a process; one that leads a group of its own with all that it has started there."""
    with suppress(ProcessLookupError):  # it has ended
        if os.getpgid(process.pid) == process.pid:
            os.killpg(process.pid, signal.SIGKILL)
        else:
            process.kill()


def as_word(word):
    return word if isinstance(word, bytes) else str(word)


def run_to_its_end(command, input=None, seconds=LONGEST, **more):
    """What a command prints, and its status. It may take so many seconds."""
    streams = {"stdin": subprocess.DEVNULL if input is None else subprocess.PIPE, "stdout": subprocess.PIPE}
    with start(command, **{**streams, "stderr": subprocess.PIPE, **more}) as process:
        try:
            out, err = process.communicate(input, seconds)
        except BaseException:
            kill(process)
            raise
        with suppress(ValueError):  # it is being ended
            STARTED.remove(process)
    return Ran(process.returncode, (out or b"").decode(), (err or b"").decode())


def compile_c(program, *words):
    """Builds a program of the test's folder, without a warning. What the compiler puts aside is there too. An interrupt waits for its end,
    since what it has started would be left."""
    with undisturbed():
        made = run_to_its_end(["gcc", "-O2", "-Wall", "-Wextra", "-o", program, *words], env={**os.environ, "TMPDIR": str(PLACE.folder)})
    expect((made.status, made.err), (0, ""), f"gcc of {program.name}")
    return program


def swim(*words, **more):
    return run_to_its_end([PLACE.program, *words], **more)


class Told(str):
    """What the program says on standard error when it ends. On its second line it names the thing, which `tests/mistakes` looks at: what is
    equal here may have such a line or not."""

    def __eq__(self, said):
        first, _, rest = str(said).partition("\n")
        if rest.startswith("  "):
            rest = rest.partition("\n")[2]
        return str(self) in (str(said), f"{first}\n{rest}")

    def __ne__(self, said):
        return not self == said

    __hash__ = str.__hash__


# The last lines of docs/operate/INCIDENTS.md, after the texts that have one.
HINTS = (
    (
        r"init refused 1 NotEmpty|open refused (2 NotState|4 NoSlot)",
        'if a member has run on this file, keep it, and see "A lost state file" in OPERATIONS.md. If none has, it is what an interrupted'
        " `swim init` or `swim up` left: no incarnation was sent then, so delete it and begin again",
    ),
    (
        r"open refused 3 WrongOwner",
        "`group` or `me` is not the one that the file was made with: `swim show FILE` prints what it was made with",
    ),
    (
        r"init refused 2 Device",
        "a write or a sync failed: look at the room of its disk (`df`) and at `dmesg`. No number was used: make room, and begin again",
    ),
    (
        r"open refused 1 Device",
        "a read, a write or a sync of it failed: look at the room of its disk (`df`) and at `dmesg`, leave the file as it is, and start again",
    ),
    (
        r"open refused 5 Damaged",
        "something else wrote to it, or its disk lost what it had synced: `swim show FILE` says which bytes are wrong. Do not repair it, and see"
        ' "A lost state file" in OPERATIONS.md',
    ),
    (r"settings refused .+", "SETTINGS.md says what each key takes; `swim run --show-settings FILE` tries a file and starts nothing"),
    (
        r"file refused",
        'look at the path, and who owns it and its folder (`ls -la`). If a state file is lost, see "A lost state file" in OPERATIONS.md before any'
        " `swim init`",
    ),
    (
        r"socket refused",
        "the addresses have to be this machine's and free (`ss -lntup`), and each member of a machine needs a `control` of its own, a port or a"
        " path (`ss -lxp`)",
    ),
    (
        r"address refused",
        "an address is an IPv4 endpoint without leading zeros, such as 127.0.0.1:7001; where a member is asked, it may be the path of its control"
        " socket, with a slash, and there and at `up --join` a host name with a port, such as db1.example:7001",
    ),
    (
        r"threads refused",
        "a running member has four threads: look at `TasksMax` of its unit, the pids limit of its container, and `ulimit -u` of its"
        " user, which other programs may have used up; its state file is good for the next start",
    ),
    (
        r"era refused",
        "this is a fault of the program, which ends before it goes on: please report it; its state file is good for the next start",
    ),
    (
        r"host refused",
        "the system knows no IPv4 address of this host, or did not say within 5 seconds: `getent ahostsv4 NAME` asks it the same",
    ),
    (
        r"not ended",
        "the member said that it stops, and a minute later its control socket was still open: it records eras, waits for its disk, or"
        " is not what answers there. Look at its log; `swim ctl ADDR stop --now` waits for nothing",
    ),
)

# And those after `file refused` where the system says more.
LOCKED = "this member runs already, and `swim status ADDR` asks it at its `control`; or another process has its state file. Nothing is lost: make no new one"
NO_LOCKS = (
    "its file system gives no lock (flock), and without one a second process could write the file: ENOLCK comes of NFS without its lock service,"
    " ENOSYS and EOPNOTSUPP of a file system that has none. Move the file to a local disk (`findmnt -T FILE`), while no member runs on it;"
    " nothing was written"
)
OUTPUT = "standard output was not taken whole: look whether its disk is full (`df`), and whether it was closed (`>&-`)"
READ_ONLY = (
    "its file system takes no writes (EROFS): it was mounted so, or the system made it so after its disk had failed. Look at"
    " `findmnt -T FILE` and `dmesg`; leave the file where it is, and start again once its file system can be written"
)
DEVICE = (
    "its disk fails (EIO): look at `dmesg`. Leave a state file where it is, and put no copy in its place: see \"The disk\" in OPERATIONS.md"
)

# And after `socket refused` where a member is asked.
UNREACHED = (
    "a member has to run with this `control`: look whether it runs, and where it listens (`ss -lntp`, or `ss -lxp` for a path, which only the"
    " member's own user may use)"
)
SILENT = "the member stands still or hangs (`ps`; SIGCONT wakes one that was stopped), or others hold all of its control connections (`ss -tnp`)"


def refused(text, hint=None):
    """What the program says on standard error when it ends with this text, and with this hint where it is not the usual one."""
    hints = [hint] if hint else [usual for wanted, usual in HINTS if re.fullmatch(wanted, text)]
    return Told("".join(f"swim: {said}\n" for said in (text, *hints)))


def why_no_namespace(*kinds):
    """Why this machine makes no namespaces of these kinds with a file system of its own in them; none if it does."""
    ran = run_to_its_end(["unshare", *kinds, "--mount", "mount", "-t", "tmpfs", "swim", "/mnt"])
    return ran.err.strip() if ran.status else None


def end_started():
    """Ends each process that is still there, by its id."""
    while STARTED:
        process = STARTED.pop()
        if process.poll() is None:
            kill(process)
            process.wait()
