"""judge-linux [--states N] [--fixcheck PROGRAM] SCRIPT TEXT: judges a text that a Linux kernel printed for a script, on this machine or
another: `legal`, `legal but for N differences of Linux`, `not legal` or `undecided` within N states (default 200,000). man/judge-linux.1
describes them. TEXT may be -, for standard input.

The exit status is 0, 7, 1 or 6 by the verdict, 4 if fixcheck or Python 3.10 is missing, and otherwise that of fixcheck. A `closed` line
of a refused open is taken out first, and fixcheck judges the rest. Any other difference is searched for on the model with the
differences (model/orders.py, kernel/rules.py), and nothing is proved of that."""
import argparse
import itertools
import os
import re
import sys

from kernel.kernels import FIXCHECK, Linux, listed, missing_program
from model.model import Script, fault_of, requests_of
from model import orders
from scripts.programs import LEGAL, NOT_LEGAL, UNDECIDED, run
from kernel.rules import SLOTS_OF_LINUX

BUT_FOR, CANT_READ = 7, 4
REFUSED_OPEN = "refused_open_opens_its_file"
# an answer that a rule allows without saying when, and that the model never gives
NO_MEMORY = re.compile(r"^\S+ -12$", re.MULTILINE)


class Differing(Linux):
    """Linux with the lines at which it differs: each a name, and the place of a line, or the place of a request."""

    files_allowed = SLOTS_OF_LINUX
    asked = set()

    def __init__(self, files, shown):
        super().__init__(files, shown)
        self.line, self.place, self.at = 0, None, frozenset()

    def meets(self, name):
        self.asked.add(name)
        is_met = super().meets(name)
        if is_met:
            self.at |= {(name, self.line, self.place)}
        return is_met

    def perform(self, place, request):
        self.place = place
        return super().perform(place, request)

    def refusal_of_submission(self, requests):
        fault = fault_of(requests)
        self.line += fault[1] - 1 if fault else 0
        return super().refusal_of_submission(requests)


class Search(orders.Search):
    """A search in which each player knows where its command begins to write. `left` is how many states may still be looked at."""

    left = 0

    def spend(self):
        Search.left -= 1
        if Search.left < 0:
            raise orders.TooManyOrders

    def after(self, player, command, begin):
        player.line, player.place = begin, None
        yield from super().after(player, command, begin)


def lines_of(lines, begin, place):
    """The places of the lines that show a difference: the first one, and that of a file that a refused open opened and closed."""
    if place is None:
        return [begin]
    marks = "{}.{}.{} ".format(*place), "closed {}.{}.{}.0 ".format(*place)
    rest = itertools.takewhile(lambda it: it[0] == begin or re.match(rf"{place[0]}\.|closed ", it[1]), enumerate(lines[begin:], begin))
    found = [nth for nth, line in rest if line.startswith(marks)]
    return found[:1] + [it for it in found[1:] if lines[it].startswith(marks[1]) and lines[found[0]].split(" ")[1].startswith("-")]


def differences_in(script, text, splits):
    """The names of the differences that explain the text, each with the places of its lines, or None. A kernel may lack some: those that
    leave the fewest out are tried first. With `splits` each entry of an update is a step of its own."""
    names, lines = sorted(listed()[0]), text.split("\n")[:-1]
    if text and not text.endswith("\n"):
        return None
    Differing.asked = set()
    tried = set()
    for count in range(len(names) + 1):
        for without in itertools.combinations(names, count):
            # what no play asked for needn't be left out
            if count and not set(without) <= Differing.asked or without in tried:
                continue
            tried.add(without)
            ending = Search(lines, splits).ending(Differing(script.files, frozenset(names) - set(without)), script.commands)
            if ending:
                found = {}
                for name, begin, place in ending.at:
                    found.setdefault(name, set()).update(lines_of(lines, begin, place))
                return {name: sorted(found[name]) for name in sorted(found)}
    return None


def refused_opens(script, lines):
    """The places of the `closed` lines of opens that were refused for their slot, each with that of the open's own line."""
    opens = {place: request[1].decode() for place, request, _ in requests_of(script) if request[0] == "open"}
    found, results, block = {}, {}, []
    for nth, line in enumerate([*lines, ""]):
        mark = re.fullmatch(r"closed (r?)(\d+)\.(\d+)(?:\.(\d+)\.(\d+))? (\S+)", line)
        if mark:
            numbers = [int(it) for it in mark.groups()[1:5] if it]
            block.append((not mark[1], numbers, mark[6], nth))
            continue
        if all(one[:2] < other[:2] for one, other in zip(block, block[1:])):
            for is_request, numbers, name, at in block:
                place = tuple(numbers[:3])
                if is_request and numbers[3:] == [0] and place in results and opens.get(place) == name:
                    found[at] = results[place]
        block = []
        answer = re.fullmatch(r"(\d+)\.(\d+)\.(\d+) -(?:6|22|23)", line)
        if answer:
            results[tuple(map(int, answer.groups()))] = nth
        elif not re.match(r"\d", line):
            results = {}
    return found


def has_others(script):
    """Whether a play of the script meets a difference other than that of a refused open. None of these depends on the order of chains."""
    Differing.asked = set()
    Differing(script.files, frozenset()).play(script.commands)
    return Differing.asked - {REFUSED_OPEN}


def with_numbers_of(lines, taken, said):
    """What fixcheck says of a text without some of these lines, with the numbers of the lines in the whole text."""
    left = [nth for nth in range(len(lines) + 2) if nth not in taken]
    number = lambda it: str(left[int(it[0]) - 1] + 1)
    said = re.sub(r"\blines? \d+(?:(?:, | and )\d+)*(?!\d| of the script)", lambda it: re.sub(r"\d+", number, it[0]), said)
    return re.sub(r"(?m)(?<=^  )\d+(?=: )", number, said)


def report(found, lines):
    print(f"legal but for {len(found)} difference{'s' * (len(found) != 1)} of Linux")
    for name, places in found.items():
        print(name)
        for it in places:
            print(f"  {it + 1}: {lines[it]}")
    return BUT_FOR


def judged(given, text):
    """The exit status and the lines of fixcheck for a text, and its message, which is printed."""
    status, said, message = run([given.fixcheck, "--", given.script, "-"], text, seconds=None)
    sys.stderr.write(message)
    return status, said


def by_search(given, script, text, status, said):
    """The verdict by a search for differences, where fixcheck ended with this status, and said this."""
    found = is_cut = None
    for splits in (False, True):
        # an order in which an update is one step is found sooner
        Search.left = given.states
        try:
            found = found or differences_in(script, text, splits)
            is_cut = False
        except orders.TooManyOrders:
            is_cut = True
    if found is None and is_cut:
        print(f"undecided: {given.states} states are too few for the search for differences; fixcheck says: {said}", end="")
        return UNDECIDED
    if found:
        return report(found, text.split("\n"))
    if found is not None:
        # model/orders.py has found an order by the rules alone
        assert status == UNDECIDED, f"an order gives the text, and fixcheck says: {said}"
        print("legal")
        return LEGAL
    if status == NOT_LEGAL and NO_MEMORY.search(text):
        print(f"undecided: the search for differences knows no answer -12; fixcheck says: {said}", end="")
        return UNDECIDED
    print(said, end="")
    return status


def command():
    parser = argparse.ArgumentParser(usage=__doc__)
    parser.add_argument("--states", type=int, default=orders.LARGEST_SEARCH)
    parser.add_argument("--fixcheck", default=FIXCHECK, type=os.path.abspath)
    parser.add_argument("script")
    parser.add_argument("text")
    given = parser.parse_args()
    try:
        with open(given.script, "rb") as file:
            script = file.read()
        given_text = sys.stdin.buffer.read() if given.text == "-" else open(given.text, "rb").read()
    except OSError as error:
        print(f"judge-linux: {error.filename} can't be read: {error.strerror}", file=sys.stderr)
        return CANT_READ
    if not os.path.exists(given.fixcheck):
        print(f"judge-linux: {missing_program(given.fixcheck, 'check')}", file=sys.stderr)
        return CANT_READ
    status, said = judged(given, given_text)
    if status not in (NOT_LEGAL, UNDECIDED):
        print(said, end="")
        return status
    text = given_text.decode(errors="backslashreplace")
    script, lines = Script(script), text.split("\n")[:-1]
    taken = refused_opens(script, lines) if text.endswith("\n") else {}
    if taken:
        status, said = judged(given, "".join(f"{it}\n" for nth, it in enumerate(lines) if nth not in taken))
        if status == LEGAL:
            return report({REFUSED_OPEN: sorted({*taken, *taken.values()})}, lines)
        said = with_numbers_of(lines, taken, said)
    if not has_others(script):
        print(said, end="")
        return status
    return by_search(given, script, text, status, said)
