"""Completions of the words for bash, zsh and fish, made of what the program's own help says, as the manual page is."""

import re
from typing import NamedTuple

from manual import commands_in, help_of

LINES = ("status", "about", "members", "counters", "leave", "record", "reload", "stop")  # the control lines of one word
FILES = ("FILE", "CONFIG", "PLAN", "DIR", "PLACE")  # the values that are paths


class Option(NamedTuple):
    """An option: its names, the name of its value if it takes one, and what it is for."""

    names: list
    value: str
    about: str


class Command(NamedTuple):
    """A command: what it does, its options, and the names of its words in order."""

    name: str
    about: str
    options: list
    words: list


def option_of(spelled, about):
    names = re.findall(r"(?<!\S)--?[\w-]+", spelled)
    value = re.search(r"<(\w+)>", spelled)
    return Option(names, value and value[1], about)


def commands_of(program):
    """Every command but `help`, which takes their names."""
    found = []
    for name, about in commands_in(help_of(program)):
        if name == "help":
            continue
        lists = help_of(program, name).lists
        options = [option_of(*pair) for pair in lists["Options"]]
        found.append(Command(name, about, options, [re.sub(r"\W", "", word) for word, _ in lists.get("Arguments", [])]))
    return found


def quoted(text):
    """A text between single quotes, as all three shells take it."""
    return "'" + text.replace("'", "") + "'"


def bash(commands):
    lines = ["# Completion of swim for bash.", "_swim() {"]
    lines += ["    local word=${COMP_WORDS[COMP_CWORD]} before=${COMP_WORDS[COMP_CWORD-1]} command=${COMP_WORDS[1]} words= files="]
    names = " ".join(command.name for command in commands)
    lines += ["    if [ $COMP_CWORD = 1 ]; then", f'        COMPREPLY=($(compgen -W "{names} help --help --version" -- "$word"))', "        return", "    fi"]
    lines += ["    case $command in", f'    help) words="{names}" ;;']
    for command in commands:
        options = " ".join(name for option in command.options for name in option.names)
        said = f'{options} {" ".join(LINES)}' if "LINE" in command.words else options
        files = " files=yes" if set(FILES) & set(command.words) else ""
        lines.append(f'    {command.name}) words="{said}"{files} ;;')
    lines += ["    esac", "    case $before in"]
    valued = [option for command in commands for option in command.options if option.value]
    paths = sorted({name for option in valued if option.value in FILES for name in option.names})
    others = sorted({name for option in valued if option.value not in FILES for name in option.names})
    lines += [f"    {'|'.join(paths)}) words= files=yes ;;"] if paths else []
    lines += [f"    {'|'.join(others)}) words= files= ;;"] if others else []
    lines += ["    esac", '    COMPREPLY=($(compgen -W "$words" -- "$word"))']
    lines += ['    [ -z "$files" ] || COMPREPLY+=($(compgen -f -- "$word"))', "}", "complete -o filenames -F _swim swim"]
    return "\n".join(lines) + "\n"


def zsh(commands):
    lines = ["#compdef swim", "# Completion of swim for zsh.", "local -a commands", "commands=("]
    lines += [f"    {quoted(command.name + ':' + command.about.replace(':', ' '))}" for command in commands]
    lines += [")", "if (( CURRENT == 2 )); then", "    _describe command commands", "    return", "fi", "case $words[2] in"]
    for command in commands:
        said = []
        for option in command.options:
            action = f":{option.value}:{'_files' if option.value in FILES else ''}" if option.value else ""
            about = option.about.replace("[", "(").replace("]", ")")
            said += [quoted(f"{name}[{about}]{action}") for name in option.names]
        for place, word in enumerate(command.words, 2):
            action = "_files" if word in FILES else f"({' '.join(LINES)})" if word == "LINE" else ""
            said.append(quoted(f"{place}:{word}:{action}"))
        lines.append(f"{command.name}) _arguments {' '.join(said)} ;;")
    return "\n".join([*lines, "esac"]) + "\n"


def fish(commands):
    lines = ["# Completion of swim for fish.", "complete -c swim -f"]
    for command in commands:
        lines.append(f"complete -c swim -n __fish_use_subcommand -a {command.name} -d {quoted(command.about)}")
        here = quoted(f"__fish_seen_subcommand_from {command.name}")
        for option in command.options:
            names = " ".join(f"-l {name[2:]}" if name.startswith("--") else f"-s {name[1:]}" for name in option.names)
            value = " -r -F" if option.value in FILES else " -x" if option.value else ""
            lines.append(f"complete -c swim -n {here} {names}{value} -d {quoted(option.about)}")
        if set(FILES) & set(command.words):
            lines.append(f"complete -c swim -n {here} -F")
        if "LINE" in command.words:
            lines.append(f"complete -c swim -n {here} -a {quoted(' '.join(LINES))}")
    return "\n".join(lines) + "\n"


def completions(program):
    """Each file, by where it is installed."""
    commands = commands_of(program)
    return {
        "usr/share/bash-completion/completions/swim": bash(commands),
        "usr/share/zsh/vendor-completions/_swim": zsh(commands),
        "usr/share/fish/vendor_completions.d/swim.fish": fish(commands),
    }
