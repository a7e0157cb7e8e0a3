"""examples FOLDER: writes the rows of examples/faults.txt into a folder: NAME.script, NAME.text, NAME.fault. Modules read examples by
it."""
import os
import re
import sys

from scripts.repository import read, scripts_of, write

TABLE = "examples/faults.txt"
# the exit status of an invalid script
INVALID = 3


class Example:
    """A script by its path, or by faults/NAME, its text, and if it is invalid what standard error has after the program's name."""

    def __init__(self, name, script, text, fault=""):
        self.name, self.script, self.text, self.fault = name, script, text, fault
        self.status = INVALID if fault else 0


def repeated(text, ends):
    """Returns the text once for each number that its head `A..B ` means, with the number in place of `@`."""
    head = re.match(r"(\d+)\.\.(\d+) ", text)
    if not head:
        return text + ends
    first, last = int(head[1]), int(head[2])
    numbers = range(first, last + 1) if first <= last else range(first, last - 1, -1)
    return "".join(text[head.end() :].replace("@", str(it)) + ends for it in numbers)


def lines_of(line):
    line = re.sub(r"\{(.*?)\}", lambda it: repeated(it[1], ""), line)
    return "".join(repeated(it, "\n") for it in line.split(" / "))


def rows():
    """Yields the rows of the table."""
    for row in re.split(r"\n(?=\w)", read(TABLE))[1:]:
        name, *lines = row.rstrip("\n").split("\n")
        script, text = ("".join(lines_of(it[4:]) for it in lines if it.startswith(begin)) for begin in ("    ", "  > "))
        name, _, fault = name.partition(": ")
        yield Example(f"faults/{name}", script.encode(), text, fault)


def examples(*folders):
    """Yields the examples of these folders, and after them the rows."""
    for path, script in scripts_of(*folders):
        yield Example(path, script, text_beside(path))
    yield from rows()


def text_beside(path):
    return read(path.removesuffix("script") + "text")


def command():
    for it in rows():
        name = os.path.join(os.path.abspath(sys.argv[1]), os.path.basename(it.name))
        for ending, content in (("script", it.script), ("text", it.text), *([("fault", f"{it.fault}\n")] if it.fault else [])):
            write(f"{name}.{ending}", content)
    return 0
