"""Control groups of a test's own."""

import os
from contextlib import contextmanager
from pathlib import Path

from lib.processes import end_started
from lib.trials import wait_for

KINDS = ("cgroup", "cgroup2")
ENTER = 'echo $$ > "$1/cgroup.procs" && shift && exec "$@"'


def inside(group, *words):
    """The words of a command that runs in a group from its beginning."""
    return ["sh", "-c", ENTER, "sh", group, *words]


def parent_of(controller):
    """The group of this process that a controller is of: one of its own, where the system has these apart, or else the one of all."""
    mounts = [line.split() for line in Path("/proc/self/mounts").read_text().splitlines()]
    found = [(kind, at) for _, at, kind, options, *_ in mounts if kind == "cgroup2" or kind == "cgroup" and controller in options.split(",")]
    if not found:
        return None
    kind, at = min(found, key=lambda pair: KINDS.index(pair[0]))
    mine = (line.split(":", 2) for line in Path("/proc/self/cgroup").read_text().splitlines())
    path = next(path for _, names, path in mine if (controller in names.split(",") if kind == "cgroup" else not names))
    return Path(at + path)


@contextmanager
def own_group(controller=None, file="cgroup.procs"):
    """A group below the one of this process, which has this file, or why there is none. It is gone in the end."""
    parent = parent_of(controller)
    if parent is None:
        yield None, "no control groups are mounted"
        return
    group = parent / f"swim-{os.getpid()}"
    try:
        group.mkdir()
    except OSError as why:
        yield None, str(why)
        return
    try:
        yield (group, None) if (group / file).exists() else (None, f"a control group has no {file} here")
    finally:
        end_started()
        wait_for("its control groups are empty", lambda: is_removed(group))


def is_removed(group):
    """Removes a group with all below it, which a process that still ends may prevent."""
    try:
        for path in sorted((path for path in group.rglob("*") if path.is_dir()), reverse=True):
            path.rmdir()
        group.rmdir()
    except OSError:
        return not group.exists()
    return True
