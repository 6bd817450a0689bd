"""A folder as the system keeps it: what programs see of it, what is durable, and what lies between the two.

A write that no sync covers is `loose`: a crash may keep it or lose it. What a failed sync means differs by the rule:

- KEEPS: a later sync that succeeds keeps what a failed one did not. docs/reference/STATE_FILE.md assumes this of a disk.
- FORGETS: Linux takes the pages for written once it has told of the failure. So what the failed sync covered may be lost for
  good, though later syncs succeed, and a read gives it from memory, until the same bytes are written again. Reads give what
  the disk has once the pages were dropped, and a read of such bytes shows that they are durable."""

import copy
import itertools
import math
import os

KEEPS, FORGETS = "a later sync keeps it", "a failed sync forgets it"
PAGE = 4096


class Strayed(Exception):
    """A program saw other bytes than are kept here: the trace or a rule has missed something."""


class Change:
    """A write, or a cut of the length where there is no data, that a crash may keep or lose."""

    def __init__(self, at, data, key):
        self.at, self.data, self.key = at, data, key
        self.ended = False
        self.reached = True  # memory, so that a read gives it; a failed one did not
        self.lost = False  # no later sync covers it
        self.shown = False  # a read would come from the disk

    def end(self):
        return self.at + len(self.data or b"")

    def pages(self):
        return range(self.at // PAGE, (max(self.end(), self.at + 1) - 1) // PAGE + 1)

    def without(self, low, high):
        """What remains of it outside these places."""
        if self.data is None or self.end() <= low or high <= self.at:
            return [self]
        pieces = []
        for start, end in ((self.at, min(low, self.end())), (max(high, self.at), self.end())):
            if start < end:
                piece = copy.copy(self)
                piece.at, piece.data = start, self.data[start - self.at : end - self.at]
                pieces.append(piece)
        return pieces


def changed(content, changes):
    """The content after these changes, in their order. A gap before a write has zero bytes."""
    found = bytearray(content)
    for at, data in changes:
        if data is None:
            del found[at:]
        found.extend(bytes(max(0, at + len(data or b"") - len(found))))
        if data:
            found[at : at + len(data)] = data
    return bytes(found)


class File:
    """A file without its name."""

    def __init__(self, rule, content=b""):
        self.rule = rule
        self.durable = self.seen = content
        self.loose, self.under = [], {}

    def write(self, event):
        self.loose.append(Change(event.at, event.data, event.key))
        return True

    def written(self, event):
        """A failed write may have left anything in its range; a short one has written only so much."""
        change = next(change for change in self.loose if change.key == event.key)
        change.ended = event.answer is not None
        change.reached = change.ended and event.answer >= 0
        whole = event.answer == len(change.data or b"")
        if change.reached:
            change.data = change.data and change.data[: event.answer]
            self.seen = changed(self.seen, [(change.at, change.data)])
        return not whole

    def settle(self, event):
        """The process has ended, and this is in the file. A write that was under way has reached memory or has not."""
        for change in self.loose:
            if not change.ended:
                after = changed(self.seen, [(change.at, change.data)])
                change.ended, change.reached = True, event.data == after
                self.seen = after if change.reached else self.seen
        self.under.clear()
        if event.data != self.seen:
            raise Strayed(f"{event.about}: in the end the file has other bytes than the trace says")

    def sync(self, event):
        self.under[event.key] = [change for change in self.loose if change.ended and not change.lost]

    def synced(self, event):
        covered = self.under.pop(event.key, [])
        if event.answer:
            self.keep(covered)
        elif event.answer is False and self.rule == FORGETS:
            for change in covered:
                change.lost, change.shown = True, False
        return event.answer

    def keep(self, covered):
        """These are durable, and what was lost in their places before them is past."""
        kept = [change for change in covered if change.reached]
        self.durable = changed(self.durable, [(change.at, change.data) for change in kept])
        left = []
        for place, change in enumerate(self.loose):
            pieces = [] if change in covered else [change]
            for later in kept:
                if change.lost and later.data is not None and self.loose.index(later) > place:
                    pieces = [piece for one in pieces for piece in one.without(later.at, later.end())]
            left += pieces
        self.loose = left

    def drop(self, event):
        """Whole pages from a place on, so many bytes, or all for 0. Those that wait to be written stay."""
        end = event.at + event.answer
        end = math.inf if not event.answer or end >= len(self.seen) else end
        waiting = {page for change in self.loose if not change.lost for page in change.pages()}
        for change in self.loose:
            pages = change.pages()
            is_inside = event.at <= pages.start * PAGE and pages.stop * PAGE <= end
            change.shown |= change.lost and is_inside and waiting.isdisjoint(pages)

    def read(self, event):
        end = event.at + len(event.data)
        if self.seen[event.at : end] != event.data:
            raise Strayed(f"{event.about}: a read at {event.at} gives other bytes than were written")
        left = []
        for change in self.loose:
            pieces = change.without(event.at, end) if change.shown else [change]
            if pieces != [change]:
                low, high = max(event.at, change.at), min(end, change.end())
                self.durable = changed(self.durable, [(low, event.data[low - event.at : high - event.at])])
            left += pieces
        has_shown, self.loose = left != self.loose, left
        return has_shown


class Folder:
    """The files of a folder by name. Nothing else is in it when the trace begins than `contents` has."""

    def __init__(self, rule, contents=()):
        self.rule = rule
        self.names = {path: File(rule, content) for path, content in dict(contents).items()}
        self.durable = dict(self.names)
        self.moves = []  # of names that no sync of the folder covers, each as what it changes
        self.open = {}

    def feed(self, event):
        """Takes an event, and says whether what a crash may leave has changed."""
        if event.kind in FOR_FILES:
            return bool(FOR_FILES[event.kind](self.open[event.file], event))
        if event.kind in FOR_FOLDERS:
            FOR_FOLDERS[event.kind](self, event)
            return True
        return False

    def opened(self, event):
        if event.data not in self.names:
            self.name({event.data: File(self.rule)})
        file = self.open[event.file] = self.names[event.data]
        if "O_TRUNC" in event.answer and file.seen:
            cut = event._replace(at=0, data=None, answer=0)
            file.write(cut)
            file.written(cut)

    def name(self, move):
        self.moves.append(move)
        self.names = named(self.names, [move])

    def rename(self, event):
        self.name({event.data: self.names[event.file], event.file: None})

    def link(self, event):
        self.name({event.data: self.names[event.file]})

    def unlink(self, event):
        self.name({event.file: None})

    def synced(self, _event):
        self.durable, self.moves = dict(self.names), []

    def ended(self, event):
        """The process has ended. `data` is what is under this name then, none if nothing is."""
        self.open.clear()
        file = self.names.get(event.file)
        if (file is None) != (event.data is None):
            raise Strayed(f"{event.about}: in the end the file is there, and the trace says it is not, or the other way")
        if file is not None:
            file.settle(event)

    def seen(self, path):
        """What a program sees at this name; none if there is nothing."""
        file = self.names.get(os.fsencode(str(path)))
        return None if file is None else file.seen

    def files_after_crash(self, path):
        """The files that a crash may leave under this name, none if there may be none."""
        choices = itertools.product((False, True), repeat=len(self.moves))
        kept = (itertools.compress(self.moves, choice) for choice in choices)
        return list(dict.fromkeys(named(self.durable, moves).get(os.fsencode(str(path))) for moves in kept))


def named(names, moves):
    found = dict(names)
    for move in moves:
        found.update(move)
    return {path: file for path, file in found.items() if file is not None}


FOR_FILES = {
    "write": File.write,
    "written": File.written,
    "sync": File.sync,
    "synced": File.synced,
    "drop": File.drop,
    "read": File.read,
}
FOR_FOLDERS = {
    "open": Folder.opened,
    "rename": Folder.rename,
    "link": Folder.link,
    "unlink": Folder.unlink,
    "folder synced": Folder.synced,
    "ended": Folder.ended,
}
