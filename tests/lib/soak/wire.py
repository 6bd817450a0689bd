"""What the members of a soak have said, by what is on the wire."""

import time

from lib.datagrams import CONFIRM, PAGE, SUSPECT, decode
from lib.trials import Wrong


class Wire:
    """Counts the datagrams, and follows the own numbers and the first suspicion and Confirm of each member."""

    def __init__(self, count, trials, rules):
        self.trials, self.rules = trials, rules
        self.places = {}  # of the members, by endpoint
        self.datagrams, self.bytes = 0, 0
        self.lives = [0] * count
        self.before = [0] * count  # the greatest number of the lives before
        self.said = [set() for _ in range(count)]  # the numbers of this life
        self.numbers = 0  # that were said in the lives before
        self.ended = [None] * count  # when a life was ended
        self.told = {}  # when, by kind and place, one was first told after that
        self.accused = {}  # who first told, and in what, that a member is confirmed which lives, by its place
        self.homes = []
        self.capture = bytearray()  # all that was sent, as `swim check` reads it
        self.sent = [[] for _ in range(count)]  # the same, by the place of who sent it

    def see(self, source, data):
        """One datagram, as it leaves the member at this place."""
        self.datagrams += 1
        self.bytes += len(data)
        self.capture += f"{self.homes[source].public} {data.hex()}\n".encode()
        self.sent[source].append(data)
        try:
            datagram = decode(data, self.rules)
        except Wrong as wrong:
            self.trials.holds(False, f"member {source} sends {data.hex()}: {wrong}")
            return
        for update in datagram.updates:
            place = self.places.get(update.who)
            if place == source:
                self.say(place, update.number)
            elif update.kind in (SUSPECT, CONFIRM) and place is not None and self.ended[place]:
                self.told.setdefault((update.kind, place), time.monotonic())
            elif update.kind == CONFIRM and place is not None:
                self.accused.setdefault(place, (source, datagram.kind == PAGE, update.number))

    def say(self, place, number):
        """A member says its own number, which is above those of its earlier lives, and never falls."""
        before, said = self.before[place], self.said[place]
        if number not in said:
            most = max(said, default=before)
            about = f"life {self.lives[place]} of member {place} says {number}; {most} was said before"
            self.trials.holds(number > most, about)
            said.add(number)

    def begin_life(self, place):
        self.lives[place] += 1
        self.ended[place] = None
        self.accused.pop(place, None)

    def end_life(self, place):
        """The member was ended, and all that it sent has been seen."""
        self.before[place] = self.greatest(place)
        self.numbers += len(self.said[place])
        self.said[place] = set()
        self.ended[place] = time.monotonic()
        for kind in (SUSPECT, CONFIRM):
            self.told.pop((kind, place), None)

    def accusation(self, place):
        """Who told first that the member is confirmed, though it lives."""
        source, in_page, number = self.accused.get(place, (None, False, 0))
        if source is None:
            return "of which no datagram in its life told"
        return f"first told by {source} in {'a page' if in_page else 'gossip'}, with {number} where it says {sorted(self.said[place])}"

    def greatest(self, place):
        return max(self.said[place], default=self.before[place])

    def seconds_until(self, kind, place):
        """From the end of this member's life until such an update about it was first told, or None."""
        told = self.told.get((kind, place))
        return told - self.ended[place] if told and self.ended[place] else None

    def all_numbers(self):
        return self.numbers + sum(map(len, self.said))
