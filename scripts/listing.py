"""Reads the list of a script's texts, as `fixcheck --all` prints it and examples/questions keeps it."""
import re
from typing import NamedTuple

from scripts.programs import kept_script, run
from scripts.repository import read

# the number of texts that are listed if none is given
MOST = 100
HEAD = re.compile(r"(at least )?(\d+) texts?, if no allocation fails(?:: not shown to be all within (\d+) states and (\d+) MiB)?(?:; the first (\d+):)?")


class Listing(NamedTuple):
    """A list of texts: how many there are, whether these are all that the rules allow, and the listed ones, each with its orders."""

    count: int
    are_all: bool
    texts: list

    def is_whole(self):
        return self.are_all and self.count == len(self.texts)

    def alone(self):
        return [text for text, _ in self.texts]

    def complaint(self, texts):
        """Returns what is wrong with the list if these are all texts that there are, or None."""
        listed = self.alone()
        missing, more = texts - set(listed), set(listed) - texts
        if missing:
            return f"{len(missing)} texts aren't listed, as {min(missing)!r}"
        if more:
            return f"{len(more)} listed texts come of no order, as {min(more)!r}"
        if len(listed) != len(texts):
            return "a text is listed twice"
        return None if self.count == len(listed) else f"{self.count} texts are counted, and {len(listed)} listed"


def parsed(lines):
    """Parses the lines of a list. Lines that begin with `#` are skipped."""
    head, texts = None, []
    for line in lines:
        if line.startswith("    ") and texts:
            texts[-1] = texts[-1][0] + line[4:] + "\n", texts[-1][1]
        elif re.fullmatch(r"text \d+", line):
            texts.append(("", []))
        elif line.startswith("order ") and texts:
            texts[-1][1].append(line)
        elif head is None and HEAD.fullmatch(line):
            head = HEAD.fullmatch(line)
        elif line and not line.startswith("#"):
            raise ValueError(f"{line!r} is no line of a list")
    if head is None:
        raise ValueError("the list doesn't begin with the number of texts")
    return Listing(int(head[2]), head[1] is None, texts)


def kept(path):
    return parsed(read(path).split("\n"))


class Failed(Exception):
    """fixcheck gave no list."""


def asked(fixcheck, script, most=MOST, *options):
    """Runs `fixcheck --all` on a script. Its exit status must be 0 if the list is complete, and 6 otherwise."""
    with kept_script(script) as path:
        status, said, message = run([fixcheck, f"--all={most}", *options, "--", path], seconds=300)
    if status not in (0, 6) or message:
        raise Failed(f"fixcheck --all ended with status {status} and said: {message.strip()}")
    found = parsed(said.split("\n"))
    if found.are_all != (status == 0):
        raise Failed(f"fixcheck --all ended with status {status} after {said[:80]!r}")
    return found
