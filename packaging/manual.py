"""The manual pages, made of the words that the program's own help has, and of the titles of the documents."""

import re
import subprocess
from typing import NamedTuple


# What the page of a command says of the script of the package that has the same name as the page.
SCRIPTS = {
    "run": "The script swim-run CONFIG runs this command for a service or a container: at SIGTERM it stops the member in order. "
    "OPERATIONS.md, \"Signals, and a container\", tells of it."
}


class Help(NamedTuple):
    """What a help text says: its first line, its usage, and its lists of pairs by their headings."""

    about: str
    usage: str
    lists: dict


def said(program, *words):
    """What the program prints at these words."""
    return subprocess.run([program, *words], check=True, capture_output=True, text=True).stdout


def help_of(program, *words):
    """The help text of the program or of one of its commands. A line of an unknown form ends the build."""
    first, *lines = said(program, *words, "--help").splitlines()
    usage, lists, pairs = None, {}, None
    for line in filter(None, lines):
        if found := re.fullmatch(r"Usage: (.+)", line):
            usage = found[1]
        elif found := re.fullmatch(r"(\w+):", line):
            pairs = lists.setdefault(found[1], [])
        elif (found := re.fullmatch(r" +(\S+(?: \S+)*)  +(\S.*)", line)) and pairs is not None:
            pairs.append(found.groups())
        else:
            raise SystemExit(f"help of {words}: no line of a help text: {line!r}")
    return Help(first, usage, lists)


HEADINGS = ("Run", "Look", "Explain", "Try", "Check")  # under which the program's help has its commands


def commands_in(help):
    """The pairs of all commands in the help of the program."""
    return [pair for heading in HEADINGS for pair in help.lists[heading]]


def spelled(text):
    """A text as roff takes it: dashes stay dashes, and no line begins with a request."""
    return re.sub(r"^([.'])", r"\\&\1", text.replace("\\", r"\e").replace("-", r"\-"))


def tagged(pairs):
    """A list of pairs."""
    return [line for name, text in pairs for line in (".TP", f".B {spelled(name)}", spelled(text))]


def command_section(help):
    """A command: what it does, how it is called, and what its words mean."""
    examples = help.lists.pop("Examples", [])
    pairs = [pair for heading in help.lists.values() for pair in heading]
    shown = [".PP", "Examples:", *tagged(examples)] if examples else []
    return [spelled(help.about), ".PP", f".B {spelled(help.usage)}", *tagged(pairs), *shown]


def page_of(program, date, command):
    """The page of one command."""
    help = help_of(program, command)
    name, version = said(program, "--version").split()[:2]
    lines = [f'.TH {name.upper()}-{command.upper()} 1 {date} "{name} {version}"', ".SH NAME"]
    lines += [rf"{name}\-{command} \- {spelled(help.about)}", ".SH SYNOPSIS", f".B {spelled(help.usage)}"]
    for heading, pairs in help.lists.items():
        lines += [f".SH {heading.upper()}", *tagged(pairs)]
    if command in SCRIPTS:
        lines += [".SH NOTES", spelled(SCRIPTS[command])]
    lines += [".SH SEE ALSO", f".BR {name} (1)"]
    return "\n".join(lines) + "\n"


def pages_of_commands(program, date):
    """The page of each command but `help`, by its name."""
    commands = [command for command, _ in commands_in(help_of(program)) if command != "help"]
    return {f"swim-{command}": page_of(program, date, command) for command in commands}


def page_of_script(program, date, script):
    """The page of a script of the package: its head says what it does, and then how it is called."""
    name, version = said(program, "--version").split()[:2]
    lines = [line.lstrip("# ") for line in re.match(r"#!.*\n((?:#.*\n)+)", script.read_text())[1].splitlines()]
    about, usage = " ".join(lines[:-2]), lines[-1]
    short, rest = about.split(": ", 1)
    page = [f'.TH {script.name.upper()} 1 {date} "{name} {version}"', ".SH NAME", rf"{spelled(script.name)} \- {spelled(short[0].lower() + short[1:])}"]
    page += [".SH SYNOPSIS", f".B {spelled(usage)}", ".SH DESCRIPTION", spelled(rest[0].upper() + rest[1:]), ".SH SEE ALSO", f".BR {name} (1)"]
    return "\n".join(page) + "\n"


def manual(program, date, documents):
    """The page of the whole. `documents` are the paths and the titles of what is installed beside it."""
    whole = help_of(program)
    name, version = said(program, "--version").split()[:2]
    lines = [f'.TH {name.upper()} 1 {date} "{name} {version}"']
    lines += [".SH NAME", rf"{name} \- {spelled(whole.about)}", ".SH SYNOPSIS", f".B {spelled(whole.usage)}", ".SH COMMANDS"]
    for command, about in commands_in(whole):
        lines.append(f".SS {command}")
        lines += [spelled(about)] if command == "help" else command_section(help_of(program, command))
    for heading, pairs in whole.lists.items():
        if heading not in HEADINGS:
            lines += [f".SH {heading.upper()}", *tagged(pairs)]
    lines += [".SH SEE ALSO", *tagged(documents)]
    return "\n".join(lines) + "\n"
