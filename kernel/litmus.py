"""litmus [SCRIPT [N]] [--fixfiles PROGRAM] [--fixcheck PROGRAM] [--build]: lists every text that the rules allow for a script, and counts
how often this machine's kernel and fixfiles gave each in N plays (default 1,000). SCRIPT and N default to the variables of these names.
--build, which `make litmus` passes, proves and builds the programs first. litmus(1) describes the players and the rows.

A text that the rules don't allow is explained by differences of docs/use/LINUX.md (kernel/rules.py), or is NOT ALLOWED, and then the
exit status is 1."""
import argparse
import collections
import concurrent.futures
import errno
import functools
import os
import subprocess
import sys
from typing import NamedTuple

from kernel import kernels
from kernel.kernels import PLAYER
from scripts.listing import MOST
from model.model import Script, requests_of
from model import orders
from scripts import listing, programs
from scripts.programs import LEGAL, NOT_LEGAL, UNDECIDED, Progress, in_parallel, run
from scripts.repository import ROOT, read_bytes

PLAYS, MOST_PLAYS = 1_000, 1_000_000
# the most instructions of a turn, one after another
TURNS = (20, 100, 500)
SHOWN_NEVER = 20
# the widths of a row's number and of a player's column, and what follows them
NUMBER, COLUMN, GAP = 4, 12, "   "
# the limit of states in the search for differences of Linux that explain a text
orders.LARGEST_SEARCH = 20_000


class Failed(Exception):
    """A play that gave no text."""


def text_of(name, ran):
    """Returns the text of a run, which must have ended well."""
    status, text, message = ran
    if status or message:
        raise Failed(f"{name} ended with status {status} and printed: {message.strip()}")
    return text


def in_turns(fixfiles, script, nth):
    """Plays on 2 to 16 workers, in turns of a length that depends on the number of the play."""
    workers = "--workers", str(2 + nth % 15)
    return text_of("fixfiles", programs.in_turns(fixfiles, script, nth, TURNS[nth % len(TURNS)], *workers))


def player_of(*command):
    return lambda script, _: text_of(os.path.basename(command[0]), run(command, script))


def players(fixfiles):
    """Returns the players, each a function of the script and the number of the play, and a line about each that is left out."""
    those, left_out = {}, []
    status, missing = kernels.built_player()
    if status == 0:
        those |= {"kernel": player_of(PLAYER), "async": player_of(PLAYER, "--async")}
    else:
        left_out.append(f"The kernel is left out: {missing}.")
    for workers in (4, 16):
        those[f"{workers} workers"] = player_of(fixfiles, "--workers", str(workers))
    try:
        programs.built("step.c")
        those["stepped"] = functools.partial(in_turns, fixfiles)
    except (OSError, subprocess.CalledProcessError):
        left_out.append("The plays in turns are left out: there is no C compiler cc for x86-64 here.")
    return those, left_out


def counted(those, script, plays):
    """Returns for each player how often it gave each text, and a line about each player that failed."""
    counts, left_out, progress = {}, [], Progress()
    for name, play in those.items():
        with concurrent.futures.ThreadPoolExecutor(os.cpu_count()) as pool:
            begun = [pool.submit(play, script, nth) for nth in range(plays)]
            try:
                counts[name] = collections.Counter()
                for nth, it in enumerate(begun, 1):
                    counts[name][it.result()] += 1
                    progress.show(f"{name}: {nth:,} of {plays:,}")
            except Failed as failure:
                del counts[name]
                left_out.append(f"{name} is left out: {failure}.")
                for it in begun:
                    it.cancel()
    progress.end()
    return counts, left_out


class Row(NamedTuple):
    """A text with its number, from 1, or 0 for one that isn't listed; a remark, whether something is wrong, and orders that give it."""

    number: int
    text: str
    remark: str = ""
    is_wrong: bool = False
    orders: tuple = ()


class Judge:
    """Asks fixcheck about texts of a script."""

    def __init__(self, fixcheck, script):
        self.fixcheck, self.script = fixcheck, script

    def status(self, text):
        return programs.verdict(self.fixcheck, self.script, text)[0]

    def statuses(self, texts):
        return dict(zip(texts, in_parallel(self.status, texts)))

    def rows(self, found, given):
        """Yields the allowed texts, which are the listed ones or else those of `given` that are legal, and then the others."""
        listed = dict(found.texts if found.is_whole() else ())
        statuses = self.statuses([*listed, *(it for it in given if it not in listed)])
        allowed = list(listed) if found.is_whole() else [it for it in given if statuses[it] == LEGAL]
        for number, text in enumerate(allowed, 1):
            is_wrong = statuses[text] not in (LEGAL, UNDECIDED)
            remark = f"LISTED, BUT fixcheck ENDS WITH STATUS {statuses[text]}: " if is_wrong else ""
            yield Row(number, text, remark, is_wrong, tuple(listed.get(text, ())))
        for text in given:
            if text not in allowed:
                yield Row(0, text, *self.verdict(text, statuses[text]))

    def verdict(self, text, status):
        """Returns a remark about a text that isn't listed, and whether something is wrong."""
        if status == LEGAL:
            is_short = " -12\n" in text
            return "allowed if an allocation fails: " if is_short else "LEGAL BY fixcheck, BUT NOT LISTED: ", not is_short
        names = kernels.found(status, "", self.script, text, kernels.listed()[0]).standing
        if isinstance(names, frozenset):
            return f"not allowed; explained by {', '.join(sorted(names))}: ", False
        return "NOT ALLOWED: " if status == NOT_LEGAL else f"fixcheck ENDS WITH STATUS {status}: ", True


def lines_of(script):
    """Returns the line of each request, without its link, by its place."""
    found = {}
    for place, (kind, *words), _ in requests_of(Script(script)):
        if kind == "open":
            words = [words[0].decode(), "any" if words[1] is None else f"at {words[1]}"]
        elif kind == "update":
            words = [words[0], ",".join(map(str, words[1]))]
        found["{}.{}.{}".format(*place)] = " ".join(map(str, [kind, *words]))
    return found


def readable(line, requests):
    """Returns a line with its request beside its place, the name of an error, and printable bytes as text."""
    place, *words = line.split(" ")
    if place not in requests or not words:
        return line
    said = words[0]
    if said.startswith("-"):
        said += f" {errno.errorcode.get(-int(said), '')}".rstrip()
    if len(words) > 1:
        got = bytes.fromhex(words[1])
        said += f" {words[1]}" + (f' "{got.decode()}"' if all(32 <= it <= 126 for it in got) else "")
    return f"{place} {requests[place]}: {said}"


def items(text, requests):
    """Yields a text's lines. A close after the first submission names the command that it follows."""
    front = ""
    for line in text.splitlines():
        word = line.split(" ")[0]
        if word in ("closed", "tag"):
            yield front + line
            continue
        submission = word.split(".")[0]
        if submission.isdigit():
            front = "" if submission == "1" else f"after submission {submission} "
        else:
            front = "at the end " if word == "teardown" else f"by {word} "
        yield readable(line, requests)


def differing(texts, requests):
    """Returns the lines that all texts have, and for each text its other lines."""
    bags = [collections.Counter(items(it, requests)) for it in texts]
    shared = functools.reduce(lambda one, other: one & other, bags)
    owns = []
    for text in texts:
        left, own = shared.copy(), []
        for it in items(text, requests):
            if left[it]:
                left[it] -= 1
            elif it != "teardown":
                own.append(it)
        owns.append(own)
    return [it for it in shared.elements() if it != "teardown"], owns


def table(counts, rows, owns):
    """Yields a line for each text, and below a text that nobody gave the orders that give it."""
    yield " " * NUMBER + "".join(f"{it:>{COLUMN}}" for it in counts) + GAP + "lines that differ"
    for row, own in zip(rows, owns):
        given = [it[row.text] for it in counts.values()]
        yield f"{row.number or '!':>{NUMBER}}" + "".join(f"{it or '-':>{COLUMN}}" for it in given) + GAP + row.remark + "; ".join(own)
        if not any(given):
            yield from (" " * (NUMBER + COLUMN * len(counts)) + GAP + it for it in row.orders)


def sums(counts, found, rows):
    """Yields for each player the texts that it never gave, and the number of its plays that gave a text that isn't listed."""
    for name, those in counts.items():
        never = [str(it.number) for it in rows if it.number and not those[it.text]]
        seen = sum(it.number > 0 and those[it.text] > 0 for it in rows)
        others = sum(those[it.text] for it in rows if not it.number)
        shown = ", ".join(never[:SHOWN_NEVER]) + (" .." if len(never) > SHOWN_NEVER else "")
        yield (f"{name} gave {seen} of {found.count if found.are_all else 'them'}" + (f", never {shown}" if never and found.is_whole() else "")
               + (f"; {others:,} play{'s' * (others > 1)} gave a text that isn't listed" if others else ""))


def head(found):
    """Returns how many texts there are, and on which condition."""
    if not found.are_all:
        return "the rules allow more texts than fixcheck lists; the rows are those that were given"
    number = f"the rules allow {found.count:,} text{'s' if found.count > 1 else ''} if no allocation fails"
    return number if found.is_whole() else f"{number}; the rows are those that were given"


def report(judge, found, counts):
    """Returns the lines of the rows and the sums, and whether something is wrong."""
    every = sum(counts.values(), collections.Counter())
    rows = list(judge.rows(found, [it for it, _ in every.most_common()]))
    lines = []
    if rows:
        shared, owns = differing([it.text for it in rows], lines_of(judge.script))
        # of a great many texts the first ones are shown, and each that is wrong
        shown = [(row, own) for row, own in zip(rows, owns) if row.number <= MOST or row.is_wrong]
        lines += [f"in every text: {'; '.join(shared)}", "", *table(counts, *zip(*shown))]
        lines.append(f"and {len(rows) - len(shown)} more\n" if len(rows) > len(shown) else "")
    return [*lines, *sums(counts, found, rows)], any(it.is_wrong for it in rows)


def count_texts(path, plays, fixfiles, fixcheck):
    """Prints the report of a script. Returns the exit status."""
    script = read_bytes(path)
    try:
        found = listing.asked(fixcheck, script)
    except (listing.Failed, ValueError) as failed:
        print(f"litmus: {failed}")
        return 1
    those, left_out = players(fixfiles)
    counts, failed = counted(those, script, plays)
    lines, is_wrong = report(Judge(fixcheck, script), found, counts)
    print(f"{os.path.basename(path)}: {head(found)}; {plays:,} plays each")
    for it in [*left_out, *failed, *lines]:
        print(it)
    return 1 if is_wrong else 0


def typed(in_repository, in_archive):
    return in_repository if os.path.exists(os.path.join(ROOT, "Makefile")) else in_archive


def checked_plays(word):
    if not word.isascii() or not word.isdigit() or not 1 <= int(word) <= MOST_PLAYS:
        example = typed("make litmus SCRIPT=path N=1000", "litmus path 1000")
        sys.exit(f"N is the number of plays, from 1 to {MOST_PLAYS:,}, and not '{word}', as in: {example}")
    return int(word)


def command():
    parser = argparse.ArgumentParser(usage=__doc__)
    parser.add_argument("script", nargs="?", default=os.environ.get("SCRIPT", ""))
    parser.add_argument("plays", nargs="?", default=os.environ.get("N") or str(PLAYS))
    parser.add_argument("--fixfiles", default=os.path.join(ROOT, "bin/fixfiles"), type=os.path.abspath)
    parser.add_argument("--fixcheck", default=kernels.FIXCHECK, type=os.path.abspath)
    parser.add_argument("--build", action="store_true")
    options = parser.parse_args()
    usage = typed("make litmus SCRIPT=", "./litmus ") + "examples/questions/open_any_beside_a_close.script"
    variables = {**os.environ, "SCRIPT": options.script, "USAGE": usage}
    status = subprocess.run([f"{ROOT}/scripts/need", "script"], env=variables, check=False).returncode
    if status:
        return status
    times = checked_plays(options.plays)
    if options.build:
        words = "fx_cli", "fixfiles", "check_cli", "fixcheck"
        if subprocess.run([f"{ROOT}/scripts/build-program", *words], check=False).returncode:
            return 1
    for program in (options.fixfiles, options.fixcheck):
        if not os.path.exists(program):
            print(f"litmus: {kernels.missing_program(program, 'litmus')}", file=sys.stderr)
            return 4
    return count_texts(os.path.abspath(options.script), times, options.fixfiles, options.fixcheck)
