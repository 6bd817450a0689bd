"""A member that tells what it sees of one other, as docs/reference/PROTOCOL.md has it: rows, probes, relays, and what `swim explain` is to print
(docs/reference/RECORDINGS.md). It shares no line with the crates."""

import re
from typing import NamedTuple

from lib.datagrams import ACK, ALIVE, CONFIRM, PING_REQ, SUSPECT
from lib.written import DEAL, KINDS, Times, beginning, received

NAMES = ("", "ping", "ping-req", "ack", "join", "page")


def overrides(kind, number, old, old_number):
    """By rules 1."""
    if old == CONFIRM:
        return False
    if kind == CONFIRM:
        return True
    return number >= old_number if (kind, old) == (SUSPECT, ALIVE) else number > old_number


class Told(NamedTuple):
    """What a member tells: its tick, and what."""

    tick: int
    text: str


SILENT = re.compile(r"the era begins: .*|a datagram of its own came: .*|.*(, which changes nothing: |, passed over: ).*|\S+ answered the probe, .*")
PROBES = re.compile(r"(?:probed by a ping|\S+ was asked to ping it), sequence (\d+)(?:, which was not sent)?")
ANSWER = re.compile(r"\S+ answered the probe, sequence (\d+)")


def news(story):
    """What of an era's story changes or explains something, and where it begins."""
    answered = {answer[1] for told in story if (answer := ANSWER.fullmatch(told.text))}
    silent = lambda text: SILENT.fullmatch(text) or ((probe := PROBES.fullmatch(text)) and probe[1] in answered)
    return [story[0], *(told for told in story[1:] if not silent(told.text))]


def time_of_day(at):
    """As `swim explain` prints it."""
    seconds, tenths = at // 1000, at // 100 % 10
    return f"{seconds // 3600 % 24:02}:{seconds // 60 % 60:02}:{seconds % 60:02}.{tenths}Z"


def last_suspicion(story, number):
    """What is told from where the last suspicion with this number begins: the one before it was forgotten, or it is told to be alive again
    without a greater number."""
    said = rf"(suspect|confirm), number {number}, (accused|expired): .*|\S+ told: (suspect|confirm), number {number} \(.*"
    start, is_held, is_over = 0, False, False
    for place, (_, text) in enumerate(story):
        alive = re.fullmatch(r"\S+ told: alive, number (\d+) \(.*", text)
        if re.fullmatch(said, text):
            start, is_held, is_over = place if is_over else start, True, False
        elif is_held and (text.startswith("forgotten: ") or alive and int(alive[1]) <= int(number)):
            is_over = True
    return story[start:]


def first(story, pattern):
    """The first that is told so, in full."""
    return next((told for told in story if re.fullmatch(pattern, told.text)), None)


def names(them):
    return " and ".join(filter(None, (", ".join(them[:-1]), them[-1])))


def accusation(me, it, story, suspected, when):
    """By which probe it was suspected."""
    seq = suspected.text.split()[-1]
    pings = [told for told in story if re.fullmatch(rf"probed by a ping, sequence {seq}(, which was not sent)?", told.text)]
    asked = [told.text.split()[0] for told in story if re.fullmatch(rf"\S+ was asked to ping it, sequence {seq}(, which was not sent)?", told.text)]
    if not pings:
        return f"{me} suspected {it} at {when(suspected)}, since nobody answered its probe"
    helped = f"{names(asked)} helped" if asked else "nobody was there to help"
    return f"{me} probed {it} at {when(pings[-1])}, {helped}, no answer; suspected at {when(suspected)}"


def cause(me, it, story, when, stood):
    """The last line, from the story of one member. `when` says when something was, `stood` how long so many ticks are."""
    blamed = r"(?:suspect|confirm), number (\d+)"
    tells = rf"\S+ told: {blamed} \((?:it was|refuted).*\)"
    numbers = [found[1] or found[2] for told in story if (found := re.match(rf"(?:{blamed}, (?:accused|expired)|{tells})", told.text))]
    if not numbers:
        return f"nobody suspected {it} in these recordings"
    number = numbers[-1]
    last = last_suspicion(story, number)
    suspected = first(last, rf"suspect, number {number}, accused: .*")
    told = first(last, rf"\S+ told: (suspect|confirm), number {number} \(it was.*\)")
    expired = first(last, rf"confirm, number {number}, expired: .*")
    refuted = first(last, rf"\S+ told: alive, number \d+ \((?:refuted: |it is back: )it was (suspect|confirm), number {number}, .*\)")
    if suspected:
        said = accusation(me, it, story, suspected, when)
    elif told:
        by, kind = told.text.split()[0], told.text.split()[2].rstrip(",")
        if by == str(it) and kind == "confirm":
            said = f"{it} itself told {me} at {when(told)} that it leaves"
        else:
            said = f"{by} told {me} at {when(told)} that {it} is {kind}ed; who found that is in none of these recordings"
    else:
        said = f"{it} was suspected before these recordings"
    if expired:
        said += f"; not refuted in {stood(expired.tick - int(expired.text.split()[-1]))}, confirmed at {when(expired)}"
    if refuted and "it is back" in refuted.text:
        said += f"; it is back at {when(refuted)} with number {refuted.text.split('number ')[1].split(' ')[0]}"
    elif refuted:
        said += f"; refuted at {when(refuted)}"
    return said if expired or refuted else f"{said}; these recordings end before it was refuted or confirmed"


class Watched:
    """A member of rules 1, and what it tells of `it`. Rows are [kind, number, since]. `era` says when its era is."""

    def __init__(self, me, it, rows, times=Times(), era=None):
        self.me, self.it, self.times, self.era = me, it, times, era
        self.rows = {who: [kind, number, since] for who, kind, number, since in rows}
        self.lines = list(beginning(me, rows, times, era=era))
        self.time, self.seq, self.probe, self.listed, self.story = 0, 1, None, [], []
        self.tell(f"the era begins: it is {self.held(it)}" if it in self.rows else "the era begins: it is not known")

    def tell(self, text):
        self.story.append(Told(self.time, text))

    def held(self, who):
        kind, number, since = self.rows[who]
        return f"{KINDS[kind]}, number {number}, since tick {since}"

    def eligible(self):
        return [who for who in sorted(self.rows) if self.rows[who][0] != CONFIRM]

    def age(self):
        """Suspicions and confirms that stood too long."""
        for who in sorted(self.rows):
            kind, number, since = self.rows[who]
            if kind == SUSPECT and self.time - since >= self.times.suspect:
                self.rows[who] = [CONFIRM, number, self.time]
                if who == self.it:
                    self.tell(f"confirm, number {number}, expired: nothing refuted the suspicion of tick {since}")
        for who in sorted(self.rows):
            kind, number, since = self.rows[who]
            if kind == CONFIRM and self.time - since >= self.times.forget:
                del self.rows[who]
                if who == self.it:
                    self.tell(f"forgotten: it was confirm since tick {since}")

    def blame(self):
        if not self.probe or self.probe[2]:
            return
        who, seq, _ = self.probe
        if who == self.it:
            self.tell(f"the period ends, and nobody answered the probe, sequence {seq}")
        if who in self.rows and self.rows[who][0] == ALIVE:
            number = self.rows[who][1]
            self.rows[who] = [SUSPECT, number, self.time]
            if who == self.it:
                self.tell(f"suspect, number {number}, accused: nobody answered the probe, sequence {seq}")

    def begin_probe(self, is_lost):
        self.listed = [who for who in self.listed if who in self.eligible()] or self.eligible()
        self.probe = None
        if not self.listed:
            return
        who = self.listed.pop(0)
        self.probe = [who, self.seq, False]
        if who == self.it:
            self.tell(f"probed by a ping, sequence {self.seq}{', which was not sent' if is_lost else ''}")
        self.seq += 1
        if is_lost:
            self.lines.append("lost 1")

    def ask(self):
        if not self.probe or self.probe[2] or self.probe[0] not in self.eligible():
            return
        who, seq, _ = self.probe
        others = self.eligible()
        helpers = [other for other in others if other > who] + [other for other in others if other < who]
        for helper in helpers[: self.times.helpers] if who == self.it else ():
            self.tell(f"{helper} was asked to ping it, sequence {seq}")

    def tick(self, is_lost=False):
        """A tick; the ping of the probe that it begins, if it does, may be lost."""
        self.time += 1
        self.age()
        if self.time % self.times.period == 0:
            self.blame()
            self.begin_probe(is_lost)
        if self.time % self.times.period == self.times.direct:
            self.ask()
        self.lines.append(DEAL)

    def hear(self, by, update):
        kind, who, number = update
        said = f"{by} told: {KINDS[kind]}, number {number}"
        row = self.rows.get(who)
        if row and not overrides(kind, number, *row[:2]):
            text = f"{said}, which changes nothing: it stays {self.held(who)}"
        elif not row and kind == CONFIRM:
            text = f"{said}, passed over: it is not known"
        else:
            before = f"it was {self.held(who)}" if row else "it was not known"
            refutes = "refuted: " if row and (kind, row[0]) == (ALIVE, SUSPECT) else ""
            text = f"{said} ({refutes}{before})"
            self.rows[who] = [kind, number, self.time]
        if who == self.it:
            self.tell(text)

    def receive(self, datagram):
        """A datagram of this group, which is about others alone."""
        if datagram.sender == self.it:
            self.tell(f"a datagram of its own came: {NAMES[datagram.kind]}, sequence {datagram.sequence}")
        for update in datagram.updates:
            self.hear(datagram.sender, update)
        asked = (datagram.subject, datagram.sequence)
        if datagram.kind == ACK and self.probe and asked == tuple(self.probe[:2]):
            if not self.probe[2] and asked[0] == self.it:
                self.tell(f"{datagram.sender} answered the probe, sequence {asked[1]}")
            self.probe[2] = True
        if datagram.kind == PING_REQ and datagram.subject in self.eligible():
            if datagram.subject == self.it:
                self.tell(f"pinged for {datagram.sender}, sequence {self.seq}")
            self.seq += 1
        self.lines.append(received(datagram))

    def when(self, told):
        """When something that is told was."""
        return time_of_day(self.era.moment(told.tick)) if self.era else f"tick {told.tick}"

    def stood(self, ticks):
        """How long so many ticks are."""
        if not self.era:
            return f"{ticks} ticks"
        seconds, tenths = divmod(ticks * self.era.tick // 100, 10)
        return f"{seconds}.{tenths} s" if tenths else f"{seconds} s"

    def heading(self):
        times = self.times
        spans = f"a probe has {times.period}, a suspicion stands {times.suspect}, a confirm is forgotten after {times.forget}"
        known = f"a tick is {self.era.tick} ms" if self.era else "when that was is not recorded"
        return f"{self.it}, as {self.me} saw it. Its ticks: {spans}; {known}"

    def printed(self, is_all):
        """What is printed of it alone, but for the heading, the day, and the last line."""
        time = lambda told: f"{self.when(told)} " if self.era else ""
        return [f"{time(told)}tick {told.tick}  {told.text}" for told in (self.story if is_all else news(self.story))]

    def cause(self):
        return cause(self.me, self.it, self.story, self.when, self.stood)
