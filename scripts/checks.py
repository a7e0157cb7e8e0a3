"""Counts results and parses arguments, for all checks.

A check ends with its cases in the Test Anything Protocol, which prove(1) reads: the plan, which is the number of cases in
tests/cases.txt, and a line for each case. Complaints, and the last line, which is for people, are comments of that protocol.

checks NAME SEEN WRONG [NUMBER:TOOL..]: ends a check that is written in bash. NUMBER cases were left out, since TOOL is missing."""
import argparse
import os
import re
import sys

from scripts.repository import read

# the number of cases of each check, and how many times it there may be if it is "about" so many
CASES, MOST = "tests/cases.txt", 1.05
# the words of the command that are no paths
WORDS = [it for it in sys.argv[1:] if not os.path.exists(it)]


def kept_numbers():
    """Returns for each name in tests/cases.txt the words before its number, if it is not exact, and the number."""
    lines = re.findall(r"^([^#:\n]+): (at least |about )?(\d+)$", read(CASES), re.MULTILINE)
    return {name: (words.strip(), int(number)) for name, words, number in lines}


def comment(text):
    return "# " + text.replace("\n", "\n# ")


def fits(seen, words, number):
    return seen == number or words and number < seen and (words == "at least" or seen <= number * MOST)


def name_of(key):
    return re.split(r" (?=-|\d)", key)[0]


def protocol(seen, wrong, left_out, is_least, number):
    """Yields the plan, and a line for each case, wrong ones first. If `number` isn't exact, one stands for all further ones."""
    each = [("not ok", "")] * wrong + [("ok", "")] * (seen - wrong) + [("ok", f" # SKIP no {tool}") for count, tool in left_out for _ in range(count)]
    yield f"1..{number + is_least}"
    for nth, (word, why) in enumerate(each[:number] if is_least else each, 1):
        yield f"{word} {nth}{why}"
    if is_least and len(each) >= number:
        yield f"{'not ok' if wrong > number else 'ok'} {number + 1} - {len(each) - number} further cases"


def last_line(key, seen, wrong, what="looked at", left_out=()):
    """Prints the end of a check, and returns its status: 1 if a case is wrong, or if their number isn't the kept one. `key` has its
    name and options: with others than the kept ones it must have some case. `left_out` has numbers of cases with the missing tools."""
    cases = seen + sum(count for count, _ in left_out)
    words, number = kept_numbers().get(key, ("", max(cases, 1) if key != name_of(key) else sys.maxsize))
    if "HARNESS_ACTIVE" in os.environ or not sys.stdout.isatty():
        print(*protocol(seen, wrong, left_out, bool(words), number), sep="\n")
    is_kept = number > 0 and fits(cases, words, number)
    if not is_kept:
        print(f"# {key}: {cases} cases were looked at, and {CASES} has {words and words + ' '}{number}")
    also = f" and {cases - seen} left out" if cases > seen else ""
    print(f"# {name_of(key)}: {seen} {what}{also}, {wrong} wrong", flush=True)
    return 0 if is_kept and not wrong else 1


class Counted:
    """The number of cases of a check and of wrong ones, which are printed under its name; and what else is given, as attributes."""

    def __init__(self, name, **given):
        self.name, self.seen, self.wrong, self.left_out = name, 0, 0, []
        vars(self).update(given)

    def want(self, holds, what):
        self.seen += 1
        if not holds:
            self.wrong += 1
            print(comment(f"{self.name}: {what}"), flush=True)

    def skip(self, count, tool, why=""):
        """Leaves out as many cases, since a tool is missing."""
        self.left_out.append((count, tool))
        print(comment(f"{self.name}: {count} cases are left out: there is no {tool}{why and f': {why}'}"), flush=True)

    def end(self, what="looked at"):
        """Prints the end of the check, and returns the status."""
        return last_line(" ".join([self.name, *WORDS]), self.seen, self.wrong, what, self.left_out)


def arguments(usage, paths="", flags="", numbers=None, options=None, words=()):
    """Parses the arguments of a command: paths (with a `?` they may be left out), then numbers with their defaults; flags; options,
    whose value is a path unless it is a number; and options that have a word."""
    parser = argparse.ArgumentParser(usage=usage)
    for name in paths.split():
        may_lack = {"nargs": "?"} if name.endswith("?") else {}
        parser.add_argument(name.rstrip("?"), type=os.path.abspath, **may_lack)
    for name, number in (numbers or {}).items():
        parser.add_argument(name, type=int, nargs="?", default=number)
    for name in flags.split():
        parser.add_argument(f"--{name}", action="store_true")
    for name, value in (options or {}).items():
        kind = int if isinstance(value, int) else os.path.abspath
        parser.add_argument(f"--{name}", type=kind, default=value)
    for name in words:
        parser.add_argument(f"--{name}", default="")
    return parser.parse_args()


def command():
    name, seen, wrong, *left_out = sys.argv[1:]
    pairs = [it.partition(":") for it in left_out]
    return last_line(name, int(seen), int(wrong), left_out=[(int(count), tool) for count, _, tool in pairs])
