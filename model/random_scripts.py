"""Draws random scripts of several shapes. A script is valid except for its odd part, which may be refused."""
import random
from typing import NamedTuple

from model.model import LARGEST_TAG

# what the files have: two have the same bytes
FILES = ("-", "0a0b", "68656c6c6f", "0a0b")
# the requests
KINDS = ("open", "open", "any", "read", "read", "read", "close", "close", "update")
TINY = ("open", "open", "any", "any", "read", "read", "read", "close", "update", "update")
AT_SLOTS = ("open", "open", "read", "read", "read", "close", "update")
STEADY = ("open", "open", "read", "read", "update")
BUSY = ("open", "open", "open", "any", "read", "read", "read", "close", "close", "update")


class Shape(NamedTuple):
    """Of what a script is drawn: numbers of slots, submissions, chains and members; the requests, the lengths of reads, how often a
    call comes between two submissions, how often something is odd, and how many entries an update has at most."""

    slots: tuple
    submissions: tuple
    chains: tuple
    members: tuple
    kinds: tuple = KINDS
    lengths: tuple = (0, 1, 2, 5)
    calls: float = 0.5
    odd: float = 0.03
    entries: int = 16


# all; much that is odd; small; chains that contend for two slots; more; the largest; many chains
SHAPES = {
    "random": Shape((1, 1, 2, 2, 3, 4, 6, 16), (1, 2, 2, 3, 4), (1, 1, 2, 2, 3, 4, 6), (1, 1, 2, 2, 3, 4, 6)),
    "odd": Shape((0, 1, 2, 3, 4, 16, 256, 257), (1, 2, 2, 3, 4), (0, 1, 2, 3, 5, 12), (1, 1, 2, 2, 3, 4, 6), (*KINDS * 8, "long"), odd=0.1),
    "tiny": Shape((1, 2, 3), (1, 1, 2), (1, 2, 2, 3), (1, 1, 1, 2, 3), TINY, calls=0.3),
    "contending": Shape((2,), (1, 1, 2), (2, 3, 4, 5), (1, 2, 3, 3, 4), AT_SLOTS, calls=0, odd=0),
    "meeting": Shape((2,), (1, 1, 2), tuple(range(3, 9)), (1, 1, 2, 3), TINY, calls=0, odd=0),
    "large": Shape((256,), (1,), (1023,), (16,), (*STEADY * 4, "any", "close"), (0, 0, 1), 0, 0.005, 4),
    "busy": Shape((4,), (1,), (64,), (4,), BUSY, (1,), 0, 0, 2),
}


class Drawn:
    """A script as it is drawn, with the size of the table there."""

    def __init__(self, rng, shape):
        self.rng, self.shape, self.size = rng, shape, 0

    def is_odd(self):
        return self.rng.random() < self.shape.odd

    def slot(self):
        return self.rng.choice((0, self.size, 255, 256)) if not self.size or self.is_odd() else self.rng.randrange(self.size)

    def listed(self, count, least):
        """Entries of the catalogue and -1, and -2 where `least` allows it."""
        files = len(FILES)
        entries = [self.rng.choice((least, -1, *range(files))) for _ in range(count)]
        if self.is_odd():
            entries[self.rng.randrange(count)] = self.rng.choice((-3, files, files + 7))
        return ",".join(map(str, entries))

    def tagged(self, listed):
        """A list, of which every second is followed by tags; entries that open no file have an odd one."""
        if self.rng.random() < 0.5:
            return listed
        opens = [not it.startswith("-") or self.is_odd() for it in listed.split(",")]
        return f"{listed} {','.join(str(self.rng.choice((0, 1, 5, 5, LARGEST_TAG)) if it else 0) for it in opens)}"

    def span(self):
        """The first slot and the number of the entries of an update, of which half go over the table."""
        most = max(1, min(self.size, self.shape.entries))
        count = self.rng.choice((most, self.rng.randint(1, most)))
        return self.slot() if self.is_odd() else self.rng.randint(0, max(0, self.size - count)), count

    def request(self):
        kind, at = self.rng.choice(self.shape.kinds), self.slot()
        name = "none" if self.is_odd() else f"f{self.rng.randrange(len(FILES))}"
        if kind == "open":
            return f"open {name} at {at}"
        if kind == "any":
            return f"open {name} any"
        if kind == "read":
            length = 4096 if self.is_odd() else self.rng.choice(self.shape.lengths)
            return f"read {at} {self.rng.choice((4, 9)) if self.is_odd() else self.rng.choice((0, 0, 0, 1))} {length}"
        if kind == "close":
            return f"close {at}"
        if kind == "long":
            return self.rng.choice((f"read {at} 0 4097", f"update 0 {','.join(['0'] * 17)}"))
        first, count = self.span()
        return f"update {first} {self.listed(count, -2)}"

    def chain(self):
        members = [self.request() for _ in range(self.rng.choice(self.shape.members))]
        return [f"{it} {self.rng.choice(('link', 'link', 'hardlink'))}" for it in members[:-1]] + members[-1:]

    def submission(self):
        return [line for _ in range(self.rng.choice(self.shape.chains)) for line in self.chain()] + ["submit"]

    def table(self):
        size = self.rng.choice(self.shape.slots)
        self.size = self.size or (size if size <= 256 else 0)
        return f"sparse {size}" if size == 0 or self.rng.random() < 0.4 else f"register {self.tagged(self.listed(size, -1))}"

    def call(self):
        """A line between submissions."""
        kind = self.rng.choice(("range", "range", "regupdate", "regupdate", "regupdate", "unregister"))
        if not self.size or self.is_odd():
            return self.table()
        if kind == "unregister":
            self.size = 0
            return "unregister"
        first, count = self.span()
        return f"range {first} {count - (self.rng.random() < 0.2)}" if kind == "range" else f"regupdate {first} {self.tagged(self.listed(count, -2))}"

    def script(self):
        lines = [f"file f{nth} {it}" for nth, it in enumerate(FILES)]
        for _ in range(self.rng.choice(self.shape.submissions)):
            while self.rng.random() < self.shape.calls:
                lines.append(self.call())
            if not self.size and not self.is_odd():
                lines.append(self.table())
            lines += self.submission()
        return "".join(f"{it}\n" for it in lines).encode()


def random_scripts(name, seed, count, **other):
    """So many scripts of the shape of that name, with other values where they are given, each with a name of its own."""
    for nth in range(count):
        yield f"{name}-{seed}-{nth}", Drawn(random.Random(f"{seed} {nth}"), SHAPES[name]._replace(**other)).script()
