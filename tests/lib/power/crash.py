"""The images that a crash may leave of a file at one moment, and what an opening of each would say.

An image keeps or loses each loose write: all choices where they are few. One write more is torn: at any byte if it is short,
and at the sectors of 512 bytes in any choice. Writes of the same bytes come in any order. A new length is kept, lost, or
something between. A name that no sync of its folder covers is kept or lost. The last kind, "any bytes", puts whatever it
likes where a write is loose, as docs/reference/STATE_FILE.md allows a disk."""

import collections
import itertools
import random
from typing import NamedTuple

from lib.power.medium import PAGE, File, changed
from lib.power.state_file import MISSING, SPENT, recovery

SECTOR = 512
FEW = 6  # loose writes of which each choice is made
ORDERS = 24  # at most
SHORT = 128  # bytes of a write that is torn at each
RECIPES = 4000  # of a moment at most, from which some are drawn
ANY = 20  # of those with any bytes, at most
SECTOR_CHOICES = 8  # that are drawn of a longer one


def choices_of(count):
    """Which of so many are kept: each choice, or some where there are too many."""
    if count <= FEW:
        return itertools.product((False, True), repeat=count)
    draw = random.Random(count)
    drawn = [tuple(draw.choices((False, True), k=count)) for _ in range(1 << FEW)]
    return [(False,) * count, (True,) * count, *drawn]


def subsets(pieces):
    for choice in choices_of(len(pieces)):
        yield list(itertools.compress(pieces, choice))


def pieces_in(changes):
    return [(change.at, change.data) for change in changes]


def overlap(changes):
    ends = sorted((change.at, change.end()) for change in changes)
    return any(change.data is None for change in changes) or any(low[1] > high[0] for low, high in zip(ends, ends[1:]))


def lengths_between(low, high):
    """Lengths that a growing file may have after a crash: the ends, and those at the edges of pages and parts of them."""
    edges = {low, low + 1, high - 1, high}
    for page in range(low // PAGE, high // PAGE + 1):
        edges |= {page * PAGE + part for part in (0, 1, 16, 114)}
    return sorted(edge for edge in edges if low <= edge <= high)


def of_length(content, length):
    return content[:length] + bytes(max(0, length - len(content)))


class Recipe(NamedTuple):
    """How to make an image: what is put over the durable content of a file, and how long it is then."""

    how: str
    file: File
    pieces: list
    length: int | None = None

    def image(self):
        content = changed(self.file.durable, self.pieces)
        return content if self.length is None else of_length(content, self.length)


def kept_or_lost(file):
    """Each choice of the loose writes, in each order that matters, with each length."""
    orders = itertools.islice(itertools.permutations(file.loose), ORDERS) if overlap(file.loose) else [file.loose]
    grows = all(change.data is not None for change in file.loose)
    high = max([len(file.durable), *(change.end() for change in file.loose)])
    lengths = lengths_between(len(file.durable), high) if grows else [None]
    for number, order in enumerate(orders):
        for kept in subsets(pieces_in(order)):
            for length in lengths:
                yield Recipe("another order" if number else "kept or lost", file, kept, length)


def pieces_of(change):
    """What may be kept of a torn write: (how it is torn, the pieces)."""
    cuts = range(change.at // SECTOR * SECTOR + SECTOR, change.end(), SECTOR)
    edges = [change.at, *cuts, change.end()]
    sectors = [(low, change.data[low - change.at : high - change.at]) for low, high in itertools.pairwise(edges)]
    if len(change.data) <= SHORT:
        for cut in range(1, len(change.data)):
            yield "torn at a byte", [(change.at, change.data[:cut])]
            yield "torn at a byte", [(change.at + cut, change.data[cut:])]
    if len(sectors) > 1:
        draw = random.Random(len(sectors))
        some = [tuple(draw.choices((False, True), k=len(sectors))) for _ in range(SECTOR_CHOICES)]
        for choice in some if len(sectors) > FEW else choices_of(len(sectors)):
            yield "torn at a sector", list(itertools.compress(sectors, choice))


def torn(file, place):
    """The loose write at this place torn, with each choice of the others."""
    before, after = pieces_in(file.loose[:place]), pieces_in(file.loose[place + 1 :])
    for how, pieces in pieces_of(file.loose[place]):
        for choice in choices_of(len(before) + len(after)):
            first, rest = itertools.compress(before, choice), itertools.compress(after, choice[place:])
            yield Recipe(how, file, [*first, *pieces, *rest])


def in_turn(rows):
    """One of each row, then the next of each, until all are at their end."""
    rows = [iter(row) for row in rows]
    while rows:
        left = []
        for row in rows:
            for found in itertools.islice(row, 1):
                left.append(row)
                yield found
        rows = left


def exact_recipes(file):
    """Of images with whole and torn writes."""
    writes = [place for place, change in enumerate(file.loose) if change.data]
    yield from kept_or_lost(file)
    yield from in_turn(torn(file, place) for place in writes)


def any_bytes(file, draw, count):
    """Drawn images with anything where a write is loose, and past the durable end."""
    writes = [change for change in file.loose if change.data]
    high = max([len(file.durable), *(change.end() for change in writes)])
    for _ in range(count if writes else 0):
        content = file.durable
        if high > len(content) and draw.random() < 0.5:
            content += draw.choice((b"\xff", b"\xa5", b"\x5a")) * (high - len(content))
        for change in draw.sample(writes, len(writes)):
            old = of_length(content, high)[change.at : change.end()]
            content = changed(content, [(change.at, draw.choice(FILLS)(draw, old, change.data))])
        length = draw.choice((high, high, len(file.durable), draw.randint(len(file.durable), high)))
        yield of_length(content, length), "any bytes"


def mixed(draw, old, new):
    """Each bit of the one or of the other."""
    some = draw.getrandbits(8 * len(old))
    old, new, length = int.from_bytes(old), int.from_bytes(new), len(old)
    return (old & some | new & ~some).to_bytes(length)


FILLS = (
    lambda draw, old, new: new,
    lambda draw, old, new: old,
    lambda draw, old, new: draw.randbytes(len(old)),
    lambda draw, old, new: bytes([draw.choice((0, 0xFF, 0xA5, 0x5A))]) * len(old),
    mixed,
    lambda draw, old, new: mixed(draw, draw.randbytes(len(old)), mixed(draw, old, new)),
)


def images_of(folder, path, draw, most):
    """Images of this moment, each once, and at most so many of those with whole or torn writes."""
    files = folder.files_after_crash(path)
    there = [file for file in files if file is not None]
    recipes = [recipe for file in there for recipe in itertools.islice(exact_recipes(file), RECIPES)]
    chosen = draw.sample(recipes, most) if len(recipes) > most else recipes
    found = {recipe.image(): recipe.how for recipe in chosen}
    for file in there:
        found = dict(any_bytes(file, draw, min(most, ANY))) | found
    return [*found.items()] + [(None, "name lost")] * (None in files)


class Image:
    """An image, with what was sent before, and what an opening of it would say."""

    def __init__(self, content, how, where, sent, made, owner):
        self.content, self.how, self.where, self.sent, self.made = content, how, where, sent, made
        self.answer = recovery(content, owner)

    def is_right(self):
        """Whether a number is above all that were sent. Before `swim init` has answered there may be no file, but never a part
        of one; else only the want of a number refuses."""
        if isinstance(self.answer, int):
            return self.answer > self.sent
        return self.answer == SPENT or not self.made and self.answer == MISSING

    def __str__(self):
        return f"{self.where}, {self.how}: opens with {self.answer}, and {self.sent} was sent"


class Crashes:
    """What was looked at in some traces: each moment, its images, and those that are wrong."""

    ROOM = 1000  # images that are kept to draw from

    def __init__(self, owner, draw, most):
        self.owner, self.draw, self.most = owner, draw, most
        self.moments = self.looked = 0
        self.kinds = collections.Counter()
        self.wrong = []  # the first wrong image of each moment that has one
        self.sample = []

    def at_each_moment(self, folder, path, events, sent=0, made=True):
        """Feeds the events to the folder, and looks at each moment that a crash may take; gives the greatest sent."""
        for event in events:
            has_changed = folder.feed(event)
            sent = max(sent, event.at if event.kind == "send" else 0)
            made = made or event.kind == "folder synced"
            if has_changed or event.kind == "send":
                self.look(folder, path, f"{event.about}, {event.kind}", sent, made)
        return sent

    def look(self, folder, path, where, sent, made):
        self.moments += 1
        found = [
            Image(content, how, where, sent, made, self.owner)
            for content, how in images_of(folder, path, self.draw, self.most)
        ]
        self.wrong += [image for image in found if not image.is_right()][:1]
        for image in found:
            self.looked += 1
            self.kinds[image.how] += 1
            self.note(image)

    def note(self, image):
        """Keeps it to draw from, each image with the same chance."""
        if len(self.sample) < self.ROOM:
            self.sample.append(image)
        elif (place := self.draw.randrange(self.looked)) < self.ROOM:
            self.sample[place] = image

    def __str__(self):
        kinds = ", ".join(f"{kind} {count}" for kind, count in sorted(self.kinds.items()))
        return f"{self.looked} images of {self.moments} moments ({kinds})"
