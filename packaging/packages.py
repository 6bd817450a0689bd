"""What the scripts that make Debian packages share."""

import gzip
import hashlib
import os
import re
import shutil
import subprocess
import sys
from email.utils import formatdate
from pathlib import Path

ROOT = Path(__file__).resolve().parent.parent
KIT_LICENCES = ("LICENSE", "LICENSE-MIT", "LICENSE-APACHE")  # one is enough; the shorter ones first


def output(*words):
    return subprocess.run(words, check=True, capture_output=True, text=True, cwd=ROOT).stdout.strip()


def put(tree, path, data, mode=0o644):
    """A file of the package."""
    whole = tree / path
    whole.parent.mkdir(parents=True, exist_ok=True)
    whole.write_bytes(data if isinstance(data, bytes) else data.encode())
    whole.chmod(mode)


def kit_crates(crate):
    """The crates of the kit that this crate and those below it name."""
    lines = (line.partition(":") for line in (ROOT / "crates.txt").read_text().splitlines())
    used = {name.split()[0]: names.split() for name, _, names in lines}
    below, found = [crate], set()
    while below:
        crate = below.pop()
        if crate not in found:
            found.add(crate)
            below += used.get(crate, ())
    return sorted(found - set(used))


def put_licences(tree, crate, documents):
    """The notices of the kit's crates that are in what is built of a crate, and the file that says so."""
    kit = Path(output("rt", "doc")).parent / "rattle"
    lines = [f"Built from the repository of {output('git', 'log', '-1', '--format=%an')}, which names no licence of its own."]
    lines += ["", f"It has in it these crates of {output('rt', 'version')}, with their notices:", ""]
    for name in kit_crates(crate):
        found = next((path for file in KIT_LICENCES if (path := kit / name / file).is_file()), None)
        lines.append(f"{name}: {f'licences/{name}' if found else 'a part of the kit, without one'}")
        if found:
            put(tree, f"{documents}/licences/{name}", found.read_bytes())
    put(tree, f"{documents}/copyright", "\n".join(lines) + "\n")


def put_changelog(tree, documents, source, release):
    """Debian's own change log: what changed is told by the page of the repository."""
    when = formatdate(int(os.environ["SOURCE_DATE_EPOCH"]), localtime=False).replace("-0000", "+0000")
    who = output("git", "log", "-1", "--format=%an <%ae>")
    entry = f"{source} ({release}) unstable; urgency=medium\n\n  * As docs/develop/CHANGELOG.md of the commit says.\n\n -- {who}  {when}\n"
    put(tree, f"{documents}/changelog.Debian.gz", gzip.compress(entry.encode(), 9, mtime=0))


def c_library(*binaries):
    """The version of the C library that these ask for, as a dependence."""
    found = [version for path in binaries for version in re.findall(rb"GLIBC_([0-9]+)\.([0-9]+)", path.read_bytes())]
    if not found:
        sys.exit(f"{' '.join(map(str, binaries))}: no program of this system's C library. What .ci/tried leaves is a script for this tree alone")
    newest = max(found, key=lambda version: tuple(map(int, version)))
    return f"libc6 (>= {b'.'.join(newest).decode()})"


def put_control(tree, **fields):
    """What dpkg reads of a package: its fields, and the sums of its files."""
    files = sorted(path for path in tree.rglob("*") if path.is_file())
    usual = {
        "Architecture": output("dpkg", "--print-architecture"),
        "Maintainer": output("git", "log", "-1", "--format=%an <%ae>"),
        "Priority": "optional",
        "Installed-Size": str(sum(-(-path.stat().st_size // 1024) for path in files)),
    }
    lines = (f"{name}: {text}\n" for name, text in {**fields, **usual}.items() if name != "Description")
    put(tree, "DEBIAN/control", "".join(lines) + f"Description: {fields['Description']}\n")
    sums = (f"{hashlib.md5(path.read_bytes()).hexdigest()}  {path.relative_to(tree)}\n" for path in files)
    put(tree, "DEBIAN/md5sums", "".join(sums))


def packed(tree, into):
    """The package of a tree, whose folder has the package's name and version."""
    made = tree.parent / f"{tree.name}_{output('dpkg', '--print-architecture')}.deb"
    output("dpkg-deb", "--root-owner-group", "--build", str(tree), str(made))
    into.mkdir(parents=True, exist_ok=True)
    return shutil.copy(made, into / made.name)


def is_proved(program, crate):
    """Whether it is the program that `rt run` or `rt ci` has left in the crate once all was proved, and none of its sources is newer."""
    left = crate / "out" / crate.name
    sources = (path for folder in ("src", "specs") for path in crate.parent.glob(f"*/{folder}/**/*") if path.is_file())
    if not left.is_file() or program.read_bytes() != left.read_bytes():
        return False
    return max(path.stat().st_mtime for path in sources) <= left.stat().st_mtime


def build_note(program, crate):
    """The file `share/swim/build`: of which commit the program is, by which kit, and whether it is proved. `swim --version` prints it."""
    commit = output("git", "log", "-1", "--format=%H")[:12]
    changed = " with changes" if output("git", "status", "--porcelain", "--untracked-files=no", "--", "crates", "crates.txt") else ""
    proved = "proved" if is_proved(program, crate) else "NOT PROVED"
    return f"commit {commit}{changed}, {output('rt', 'version')}, {proved}\n"


def commit_time():
    """The time of the commit, which files in a package have."""
    return os.environ.setdefault("SOURCE_DATE_EPOCH", output("git", "log", "-1", "--format=%ct"))
