"""Scripts of `swim play` and their transcripts, as docs/reference/SCRIPTS.md has them: what a line prints, and which numbers it
says."""

import re
from typing import NamedTuple

from lib.datagrams import PING, SUSPECT, Datagram, Endpoint, Update, decode, encode
from lib.processes import swim
from lib.trials import ROOT, expect, expect_true

ME = Endpoint("10.0.0.1", 7000)  # the member of a script that names no other
PEER = Endpoint("10.0.0.2", 7000)

ADDRESS = r"\d+\.\d+\.\d+\.\d+:\d+"
EVENT = re.compile(r"event \d+ save (none|done|failed) number (\d+) phase (running|left|expelled)")
NOTE = r"note \d+ [A-Za-z]+(?: \d+(?: [A-Za-z]+)?)?"
ROW = rf"row (?:alive|suspect|confirm) {ADDRESS} \d+"
SEND = rf"send {ADDRESS} (taken|lost) ([0-9a-f]+)"
PART = re.compile(f"{NOTE}|{ROW}|{SEND}")  # a line of an event after its first
SLOT = r"(closed|damaged|open \d+)"
REFUSAL = r"refused \d+ [A-Za-z]+"
OPENED = re.compile(r"(?:open|start) ok number (\d+)")

EVENTS = ("tick", "recv", "recvfail", "sendfail", "join", "leave", "members")
ANSWERS = {  # what a line that is no event may print, in one line
    "init": rf"init (ok|{REFUSAL})|open already",
    "start": rf"start ok number \d+|(init|open|settings) {REFUSAL}|open already",
    "open": rf"open ok number \d+|(open|settings) {REFUSAL}|open already|no disk",
    "kill": "killed|no member",
    "crash": "crashed|no disk",
    "slots": rf"slots a {SLOT} b {SLOT}|no disk",
    "rebase": "rebase ok|no member",
    "keep": rf"keep (ok|{REFUSAL})|no member",
    "peers": rf"peers( {ADDRESS})+|peers none|no member",
    "disk": "|open already|no disk",
}


class Step(NamedTuple):
    """A line of a script, what it printed, and the rules of the life that it met."""

    command: str
    printed: tuple
    rules: int

    @property
    def word(self):
        return self.command.split(" ")[0]


def received(data):
    """The line by which a member gets these bytes of its peer."""
    return f"recv {PEER} {data.hex() or '-'}"


def ping(*updates):
    """The bytes of a ping with these updates."""
    return encode(Datagram(PING, 1, PEER, ME, updates))


def suspicion(number):
    """The line of a ping that suspects the member of this number."""
    return received(ping(Update(SUSPECT, ME, number)))


def played(lines):
    """These lines, each with what it printed."""
    script = "".join(f"{line}\n" for line in lines)
    ran = swim("play", input=script.encode())
    expect((ran.status, ran.err), (0, ""), "the end of play")
    return steps_of(script, ran.out)


def scripts():
    """All scripts that lie in examples/."""
    return sorted((ROOT / "examples").glob("**/*.swim"))


def script_named(name):
    return next(path for path in scripts() if path.stem == name)


def commands_of(script):
    return [line for line in script.splitlines() if line and not line.startswith("#")]


def steps_of(script, transcript):
    """The lines of a script, each with what it printed. Wrong where a line cannot have printed that."""
    left = transcript.split("\n")
    expect_true(left.pop() == "", "a transcript's last line has its end")
    steps, rules, rules_to_come = [], 1, 1
    for command in commands_of(script):
        word = command.split(" ")[0]
        if command.startswith("set rules "):
            rules_to_come = int(command.removeprefix("set rules "))
        count = lines_of_event(left) if word in EVENTS else lines_of_answer(word, left)
        if count and OPENED.fullmatch(left[0]):
            rules = rules_to_come
        steps.append(Step(command, tuple(left[:count]), rules))
        del left[:count]
    expect_true(not left, f"lines that no line of the script prints: {left[:3]}")
    return steps


def lines_of_event(lines):
    """How many of these lines an event printed."""
    first = lines[0] if lines else ""
    if first == "no member" or re.fullmatch(REFUSAL, first):
        return 1
    expect_true(EVENT.fullmatch(first), f"the first line of an event: {first!r}")
    count = 1
    while count < len(lines) and PART.fullmatch(lines[count]):
        count += 1
    return count


def lines_of_answer(word, lines):
    """How many of these lines a line that is no event printed."""
    answers = ANSWERS.get(word, "")
    first = lines[0] if lines else ""
    if answers and re.fullmatch(answers, first):
        return 1
    expect_true(not answers or answers.startswith("|"), f"what {word} prints: {first!r}")
    return 0


def number_of_event(step):
    found = EVENT.fullmatch(step.printed[0]) if step.printed else None
    return int(found[2]) if found else None


def first_number(step):
    """The number with which a life begins here, if one does."""
    found = OPENED.fullmatch(step.printed[0]) if step.printed else None
    return int(found[1]) if found else None


def sends_of(step):
    """The datagrams that a step sent, each with what became of it."""
    parts = (PART.fullmatch(line) for line in step.printed[1:])
    return [(found[1], decode(bytes.fromhex(found[2]), step.rules)) for found in parts if found and found[1]]


def own_numbers(step):
    """The numbers that the step's datagrams say of their sender."""
    return [u.number for _, datagram in sends_of(step) for u in datagram.updates if u.who == datagram.sender]


def check_numbers(steps):
    """Wrong where a later life on a disk says or begins with a number that an earlier one has said, or a life says one
    that it does not have. Gives how many numbers were said."""
    said_before, said, present, count = 0, 0, 0, 0
    for step in steps:
        if step.word in ("init", "start", "disk", "group", "me") and "open already" not in step.printed:
            said_before, said = 0, 0  # another disk, or another owner's numbers
        began = first_number(step)
        if began is not None:
            said_before, present = max(said_before, said), began
            expect_true(began > said_before, f"{step.printed[0]}, and {said_before} was said before")
        present = number_of_event(step) or present
        for number in own_numbers(step):
            expect_true(said_before < number <= present, f"{step}: {number} is said, {said_before} was before")
            said, count = max(said, number), count + 1
    return count
