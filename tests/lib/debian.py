"""A fresh Debian root of this machine's packages, and what a command needs to run in it."""

import os
import re
import shutil
import subprocess
from pathlib import Path

LINKS = {"bin": "usr/bin", "lib": "usr/lib", "lib64": "usr/lib64", "sbin": "usr/sbin"}
LEFT_OUT = ("/usr/share/doc/", "/usr/share/info/", "/usr/share/locale/", "/usr/share/man/")
PATHS = {"PATH": "/usr/sbin:/usr/bin:/sbin:/bin"}


def query(form, *packages):
    return subprocess.run(["dpkg-query", "-W", "-f", form, *packages], check=True, capture_output=True, text=True).stdout


def needed(named):
    """The essential packages, those that are named, and all that they depend on, of the ones that are installed here."""
    depends, provider, wanted = {}, {}, list(named)
    rows = query("${Package}\t${Status}\t${Essential}\t${Pre-Depends}, ${Depends}\t${Provides}\n").splitlines()
    for package, status, essential, depended, provided in (row.split("\t") for row in rows):
        if status.endswith(" installed"):
            depends[package] = [names_in(either) for either in depended.split(",")]
            provider.update({name: package for name in names_in(provided)})
            wanted += [package] if essential == "yes" else []
    found = set()
    while wanted:
        package = wanted.pop()
        if package not in found:
            found.add(package)
            installed = ([provider.get(name, name) for name in either] for either in depends[package])
            wanted += [next(name for name in either if name in depends) for either in installed if either]
    return sorted(found)


def names_in(text):
    """The packages that a part of a field names, without versions and architectures."""
    return re.findall(r"(?:^|[|,])\s*([a-z0-9][a-z0-9+.-]+)", text)


def copy_packages(root, packages):
    """Their files, their entries of dpkg's database, and the users that a new Debian has."""
    listed = set(subprocess.run(["dpkg-query", "-L", *packages], check=True, capture_output=True, text=True).stdout.splitlines())
    there = [path for path in sorted(listed) if path.startswith("/") and os.path.lexists(path) and path != "/."]
    kept = [path for path in there if not path.startswith(LEFT_OUT) and path.strip("/") not in LINKS]
    pack = ["tar", "-c", "-C", "/", "--no-recursion", "-T", "-"]
    packed = subprocess.run(pack, input="\n".join(path[1:] for path in kept).encode(), check=True, capture_output=True).stdout
    subprocess.run(["tar", "-x", "-p", "--keep-directory-symlink", "-C", root], input=packed, check=True)
    database = root / "var/lib/dpkg"
    status = subprocess.run(["dpkg-query", "-s", *packages], check=True, capture_output=True, text=True).stdout
    (database / "status").write_text(f"{status}\n")
    for package in packages:
        for path in Path("/var/lib/dpkg/info").glob(f"{package}[.:]*"):
            if path.stem.split(":")[0] == package:
                shutil.copy(path, database / "info")
    for name in ("passwd", "group"):
        shutil.copy(root / f"usr/share/base-passwd/{name}.master", root / f"etc/{name}")


def make_root(root, packages):
    """A Debian without any package that it need not have."""
    for link, target in LINKS.items():
        (root / target).mkdir(parents=True)
        (root / link).symlink_to(target)
    for folder in ("dev", "var/lib/dpkg/info", "var/lib/dpkg/updates", "run/systemd/system"):
        (root / folder).mkdir(parents=True)
    copy_packages(root, packages)
    (root / "dev/null").touch()
    subprocess.run(["mount", "--bind", "/dev/null", root / "dev/null"], check=True)
    subprocess.run(["ldconfig", "-r", root], check=True)
