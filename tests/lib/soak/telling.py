"""What a soak prints: a line of the views now and then, and a table in the end."""

import statistics
import time

LEGEND = """Each column is a member, by how the others that run and know it hold it:
  .  alive                     s  suspect by some    c  confirmed by some    -  unknown to all
  +  alive, unknown to some    S  suspect by all     C  confirmed by all"""


def mark_of(views):
    """One letter for these views of one member."""
    held = {kind for kind, _ in views}
    known = held - {"nothing"}
    for kind, letter in (("confirm", "c"), ("suspect", "s")):
        if kind in known:
            return letter.upper() if known == {kind} else letter
    return "-" if not known else "." if known == held else "+"


class Picture:
    """Lines of the views over time, each with what was done since the line before."""

    def __init__(self, every):
        self.every = every
        self.began = time.monotonic()
        self.next = 0.0
        self.done = []

    def seconds(self):
        return time.monotonic() - self.began

    def tell(self, what):
        self.done.append(what)

    def draw(self, marks, running):
        """Prints a line if it is time for one."""
        if self.seconds() >= self.next:
            self.next = self.seconds() + self.every
            print(f"{self.seconds():6.1f} s  {''.join(marks)} {running:3} up  {', '.join(self.done)}".rstrip(), flush=True)
            self.done.clear()


def seconds_of(time):
    return "never" if time is None else f"{time:.1f} s"


def spread(times):
    """The least, the median and the greatest of some seconds, and how many there were."""
    found = sorted(seconds for seconds in times if seconds is not None)
    if not found:
        return "none"
    return f"{found[0]:.1f}, {statistics.median(found):.1f}, {found[-1]:.1f} s ({len(found)})"


def print_table(rows):
    print("\n| What | Figure |\n|---|---|")
    for what, figure in rows:
        print(f"| {what} | {figure} |")
    print(flush=True)
