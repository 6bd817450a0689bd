"""The C library without proofs. The kit builds a static library of a proved crate alone, but `rt try` compiles any program, and hands its
module to the kit's clang. So a copy of the crate gets a `main` that reaches each exported call, and a kit whose clang keeps the module:
of that the library is made, in which the calls have the names and the parameters that the proved one gives them."""

import os
import re
import shutil
import subprocess
from pathlib import Path

from trying import CRATES, TOP, built_from

NAME = "swim_library"
EXPORTED = re.compile(r'pub extern "C" fn (\w+)\((.*?)\) -> u32', re.S)
VALUES = {  # of each type of a parameter: what PROGRAM has
    "Global": "rt.alloc()",
    "&mut SwimMember": "&mut member",
    "&SwimSettings": "&settings",
    "&SwimEndpoint": "&endpoint",
    "&mut SwimEndpoint": "&mut endpoint",
    "&[SwimEndpoint]": "&endpoints",
    "&mut [SwimEndpoint]": "&mut endpoints",
    "&mut SwimRow": "&mut row",
    "&mut [SwimRow]": "&mut rows",
    "&mut SwimStatus": "&mut status",
    "&[u8]": "&bytes",
    "&mut [u8]": "&mut bytes",
    "&mut usize": "&mut count",
    "&mut u64": "&mut next",
    "u64": "1",
    "u32": "1",
    "i32": "-1",
}
PROGRAM = """
fn main(rt: HostRuntime) -> std::io::Result<()> {
    let mut member = handle::closed(rt.alloc());
    let settings = SwimSettings { group: 0, period: 0, direct: 0, suspect: 0, forget: 0, block: 0, address: 0, lambda: 0,
        helpers: 0, rules: 0, port: 0 };
    let mut endpoint = SwimEndpoint { address: 0, port: 0 };
    let mut endpoints = [endpoint; 1];
    let mut row = SwimRow { number: 0, address: 0, port: 0, kind: 0 };
    let mut was = row;
    let mut rows = [row; 1];
    let mut status = SwimStatus { number: 0, first: 0, alive: 0, suspect: 0, confirmed: 0, phase: 0 };
    let mut bytes = [0u8; 1];
    let mut count = 0usize;
    let mut next = 0u64;
    let mut all = 0u64;
{calls}
    println!(rt; "{all}")
}
"""
HANDLE = """
/// A closed handle.
pub(crate) fn closed(alloc: std::alloc::Global) -> SwimMember {
    SwimMember {
        mark: 0,
        alloc,
        slot: HandleSlot::to_nothing(alloc),
    }
}
"""
CLANG = """#!/bin/sh
# keeps the module that is to be compiled, with the words, and ends the run at the one that has the program
for word; do case $word in *.bc) module=$word ;; esac; done
case " $* " in
*-fsanitize=address*)
    cp "$module" {kept}/module.bc
    printf '%s\\n' "$@" > {kept}/words
    exit 1
    ;;
esac
exec {clang} "$@"
"""


def put_crates(folder):
    """A copy of the crates, in which the library is a program. Gives its folder, and the names of its calls by their whole ones."""
    shutil.copytree(CRATES, folder / "crates", ignore=shutil.ignore_patterns("out", "bodies", "must-fail"))
    own = folder / "crates" / NAME
    shutil.copy(TOP / "HANDLES", folder)
    lines = (TOP / "crates.txt").read_text().replace(f"{NAME} staticlib:", f"{NAME}:")
    (folder / "crates.txt").write_text(lines)
    handle = own / "src" / "handle.rt"
    handle.write_text(handle.read_text() + HANDLE)
    return own, put_main(own / "src")


def put_main(source):
    """Makes a program of the library, which reaches each exported call."""
    names, calls = {}, []
    for path in sorted(source.rglob("*.rt")):
        for name, words in EXPORTED.findall(path.read_text()):
            types = [" ".join(word.split(":")[1].split()) for word in words.split(",") if word.strip()]
            values = [VALUES[kind] for kind in types]
            if values[-2:] == ["&mut row", "&mut row"]:
                values[-1] = "&mut was"
            calls.append(f"    all += {path.stem}::{name}({', '.join(values)}) as u64;")
            names[f"{NAME}::{path.stem}::{name}"] = name
    root = source / "lib.rt"
    (source / "main.rt").write_text(root.read_text() + PROGRAM.replace("{calls}", "\n".join(calls)))
    root.unlink()
    return names


def put_kit(folder, kept):
    """The kit by links, with the two scripts that look for it beside themselves, and with a clang that keeps what it is given."""
    kit = Path(shutil.which("rt")).resolve().parents[1]
    for place in (folder / "bin", folder / "toolchain" / "bin"):
        place.mkdir(parents=True)
    for entry in (*kit.iterdir(), *(kit / "bin").iterdir(), *(kit / "toolchain").iterdir(), *(kit / "toolchain" / "bin").iterdir()):
        link = folder / entry.relative_to(kit)
        if entry in (kit / "bin" / "rt", kit / "bin" / "rtlib.py"):
            shutil.copy(entry, link)
        elif entry.name == "clang":
            link.write_text(CLANG.format(kept=kept, clang=entry))
            link.chmod(0o755)
        elif not link.exists():
            link.symlink_to(entry)
    return folder / "bin" / "rt", kit / "toolchain" / "bin" / "clang"


def to_library(text, names):
    """The module with the exported calls in sight, by the names that C knows, and without the program's own beginning."""
    for whole, name in names.items():
        text = text.replace(f'@"{whole}"', f"@{name}")
        text = re.sub(rf"^define internal (.*@{name}\()", r"define \1", text, flags=re.M)
    return re.sub(r"^define (.*@main\()", r"define internal \1", text, flags=re.M)


def archive(jobs, aside):
    """The archive without proofs, or None, and what was said."""
    kept = aside / "kept"
    kept.mkdir()
    crate, names = put_crates(aside / "copy")
    rt, clang = put_kit(aside / "kit", kept)
    _, said = jobs.run([rt, "try"], crate)
    if not (kept / "words").exists():
        return None, said
    read = ["-x", "ir", kept / "module.bc", "-S", "-emit-llvm", "-Xclang", "-disable-llvm-passes", "-O0", "-o", kept / "module.ll"]
    status, said = jobs.run([clang, *read])
    if status:
        return None, said
    module = kept / "module.ll"
    module.write_text(to_library(module.read_text(), names))
    words = (kept / "words").read_text().splitlines()
    left_out = {"-fPIE", "-O0", "-fsanitize=address", "-c", "-x", "ir", "-o", "module.bc", "module.o"}
    words = [word for word in words if Path(word).name not in left_out]
    status, said = jobs.run([clang, *words, "-O1", "-fPIC", "-c", "-x", "ir", module, "-o", kept / "library.o"])
    if not status:
        status, said = jobs.run(["ar", "rcsD", kept / "library.a", kept / "library.o"])
    return (None if status else kept / "library.a"), said


def tried_library(jobs, folder):
    """The library as `bindings/c/build` makes it, in a folder, of an archive without proofs."""
    found, said = archive(jobs, jobs.folder)
    if found is None:
        return None, said
    env = {**os.environ, "SWIM_ARCHIVE": str(found)}
    subprocess.run([TOP / "bindings" / "c" / "build", folder], check=True, env=env)
    shutil.copy(found, folder / "libswim_library.a")
    (folder / "NOT_PROVED").write_text(f"libswim without any proof, of {built_from()}\n")
    return folder, said
