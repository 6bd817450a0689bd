"""A member of a soak, and what the soak knows of it."""

import time
from typing import NamedTuple

from lib import members as running
from lib.datagrams import CONFIRM, SUSPECT, Endpoint
from lib.processes import Ran, swim
from lib.trials import PATIENCE, Wrong, expect

UP, RESTING, DEAD, OUT = "up", "resting", "dead", "out"  # out: it was expelled, and waits until it is forgotten
NOTHING = ("nothing", 0)


class View(NamedTuple):
    """What a member says of itself and of the group."""

    phase: str
    number: int
    rows: dict  # kind and number, by place


class Kill:
    """A kill for good or not, and after how many seconds the others knew of it."""

    def __init__(self, for_good):
        self.for_good = for_good
        self.suspected, self.confirmed, self.by_all = None, None, None
        self.due = 0.0  # when all others have to have confirmed it, once somebody has looked
        self.is_late, self.rose = False, False

    def heard(self, wire, place):
        self.suspected = wire.seconds_until(SUSPECT, place)
        self.confirmed = wire.seconds_until(CONFIRM, place)


class Member(running.Member):
    """A member in a home of the network."""

    def __init__(self, place, network, join, **keys):
        home = network.homes[place]
        super().__init__(f"member{place}", me=home.me, control=home.control, join=join, **keys)
        self.place, self.home, self.places = place, home, network.places
        self.state, self.view, self.kill_of = RESTING, None, None
        self.began, self.lived = None, 0.0
        self.ended = self.shown = time.monotonic()  # its last life, and when another one last held it after that
        self.due = 0.0  # when a resting one starts
        self.born = 0  # the first number that it says of itself in this life

    def connect(self):
        with self.home.entered():
            return super().connect()

    def launch(self, **more):
        with self.home.entered():
            super().launch(**more)
        self.state, self.view, self.born, self.began = UP, None, 0, time.monotonic()

    def order(self, line):
        """Gives it this line by `swim ctl`."""
        with self.home.entered():
            return swim("ctl", str(self.control), line)

    def look(self):
        """Takes its view. Where it does not answer, as at an era's end, the view before stays."""
        expect(self.process.poll(), None, f"the status of {self.name}, which nobody ended ({self.log.read_text()[-1000:]!r})")
        try:
            phase, number = self.status()
            rows = {self.place_of(who): row for who, row in self.rows().items()}
        except (OSError, Wrong):
            return
        self.view = View(phase, number, rows)
        self.born = self.born or number

    def place_of(self, who):
        host, port = who.split(":")
        return self.places[Endpoint(host, int(port))]

    def holding(self, place):
        return self.view.rows.get(place, NOTHING)

    def end(self, state):
        """Its life is over."""
        self.state, self.view = state, None
        self.ended = self.shown = time.monotonic()
        self.lived += self.ended - self.began

    def die(self, for_good, rest):
        self.kill()
        self.end(DEAD if for_good else RESTING)
        self.due = self.ended + rest
        self.kill_of = Kill(for_good)

    def leave_group(self):
        """It was expelled, and is told to stop."""
        expect(self.order("stop"), Ran(0, "ok stopping\n", ""), "stop")
        expect(self.process.wait(PATIENCE), 0, "the status after stop")
        self.end(OUT)

    def seconds_lived(self):
        return self.lived + (time.monotonic() - self.began if self.state == UP else 0)


def views_of(group, place):
    """How the other members that run hold this one."""
    return [other.holding(place) for other in group if other.place != place and other.view]


def is_known(group):
    """Whether each member that runs holds all that run for alive or in doubt, and says so itself."""
    runs = [member.place for member in group if member.state == UP]
    answered = [member.view for member in group if member.state == UP]
    return all(view and all(place in view.rows for place in runs) for view in answered)


def is_agreed(group):
    """Whether all members run, and each holds each for alive with the number that it has."""
    if not all(member.view and member.view.phase == "running" for member in group):
        return False
    truth = {member.place: ("alive", member.view.number) for member in group}
    return all(member.view.rows == truth for member in group)
