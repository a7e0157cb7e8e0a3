"""Logs of calls in flight (docs/inside/FLIGHT.md): reads a log as the recorders print it, and has the verified judge decide whether it is legal
(yachtjudge.judge_events). That the lines are read rightly is tested.

    python3 yachtlog.py [--full-reason] [--whole-updates] [--states N] [--memory MIB] [--moves N] [--seconds N] [--draw SVG] LOG..

prints for each log `legal`, `not legal` with the line at which no flight is left and the reason, `undecided`, or `not a log` with the first
line that no log has there. Of a long reason the last sentences are printed, and with --full-reason all of them. With --whole-updates each
update must be one step, as on Linux; a log that is not legal for that alone has no reason. A log `-` is read from
standard input. `python3 yachtlog.py --shorten LOG` prints a log with fewer calls and the same wrong line. --draw writes a picture of one log, or
of the shorter one. Without the library yachtjudge a log is read, and not judged.

The exit status is 1 if a log is not legal, whatever the others are. Else it is 5 if an allocation of the judge failed, 4 if a log can't be
read, a picture can't be written or something that the command needs is missing, 3 if a text is not a log, 6 if a log is undecided, and 0 if all are legal. It is 2 if
an argument is invalid. From Python:

    >>> import yachtlog
    >>> log = yachtlog.Log("file a 61\\ncall 1 sparse 1\\ndone 1.1 0\\ncall 2 open a at 0\\ndone 2.1 0\\nsettled\\n")
    >>> log.judge().word
    'legal'
"""
from __future__ import annotations

import sys

# with an exit status that no verdict has
if sys.version_info < (3, 10):
    sys.stderr.write("This needs Python 3.10 or later, and python3 is %d.%d.\n" % sys.version_info[:2])
    sys.exit(4)

import argparse
import os
import signal
from typing import TYPE_CHECKING

from yachtlines import Answer, BadLog, Event, Lines, Request

if TYPE_CHECKING:
    from yachtjudge import LogVerdict

# the largest number of sentences of a reason that are printed
SENTENCES = 12

__all__ = ["Answer", "BadLog", "Event", "Log", "Request"]

# the defaults of fixcheck, and the largest number of each; and the largest number of moves, which is no limit
STATES, MEMORY, MOST, MOVES = 1_000_000, 1_024, 2**32 - 1, 2**64 - 1


class Log(Lines):
    """A log: its catalogue, its slots, its calls and its events. Raises BadLog for a text that is not a log."""

    def judge(self, states: int = STATES, memory: int = MEMORY, moves: int = MOVES, *, whole_updates: bool = False) -> LogVerdict:
        """Judges the log by the verified judge, with at most `states` states and `memory` MiB in a search, and at most `moves` moves of all
        searches together; with `whole_updates` each update must be one step. If it is legal and has tags, it is judged again with the tag of
        each file in place of its close, and with as many moves. The line of an undecided log is one that the judge leaves undecided whatever
        its limits are, or 0.

        Raises ImportError if the library yachtjudge is missing, and what yachtjudge.judge_events raises."""
        import yachtjudge

        verdict = yachtjudge.read_log(self.source, states, memory, moves, whole_updates)
        if verdict is not None:
            return verdict
        for events in self.readings():
            # the answer -12 of a pipe is not one of a look
            before = [it for it in events if it.line < self.lacking] if self.lacking else events
            verdict = yachtjudge.judge_events(self, before, states, memory, moves, whole_updates=whole_updates)
            if self.lacking and verdict.word != "not legal":
                return yachtjudge.LogVerdict("undecided", self.lacking)
            if verdict.word != "legal":
                break
        assert verdict is not None
        return verdict

    def reason(self, verdict: LogVerdict) -> list[str]:
        """Returns the reason of a verdict on the log in sentences, or none if it has no reason. The last one is a contradiction, and each of the
        others follows from the log and from sentences before it."""
        from yachtreason import Words

        return Words(self, self.events, verdict.reason).sentences() if verdict.reason else []

    def shortened(self, verdict: LogVerdict, states: int = STATES, memory: int = MEMORY, moves: int = MOVES, *, whole_updates: bool = False) -> str:
        """Returns the log up to the line of its verdict, 'not legal', with fewer calls: a log of which this is the first wrong line, too. After
        50 seconds no further log is tried."""
        from yachtshorten import Shortening

        def is_wrong(text: str) -> bool:
            found = Log(text).judge(states, memory, moves, whole_updates=whole_updates)
            return (found.word, found.line) == ("not legal", text.count("\n"))

        shortening = Shortening(self, self.source, verdict.line)
        return shortening.text(shortening.shortest(is_wrong))


NO_MEMORY, MISSING, NOT_A_LOG = 5, 4, 3
STATUSES = {"legal": 0, "not legal": 1, "undecided": 6}
# what the command ends with, if one of its logs has it: the first one of these
ORDER = (STATUSES["not legal"], NO_MEMORY, MISSING, NOT_A_LOG, STATUSES["undecided"])


def limit(word: str, most: int = MOST) -> int:
    """Reads a limit of the judge."""
    number = int(word) if word.isascii() and word.isdigit() else -1
    if not 0 <= number <= most:
        raise argparse.ArgumentTypeError(f"a limit is a number from 0 to {most}, not {word}")
    return number


def limit_of_moves(word: str) -> int:
    """Reads a number of moves."""
    return limit(word, MOVES)


def arguments() -> argparse.Namespace:
    parser = argparse.ArgumentParser(prog="yachtlog.py", description="Judges logs of calls in flight (docs/use/RECORDING.md).")
    parser.add_argument("logs", nargs="+", metavar="LOG", help="the path of a log, or - for standard input")
    parser.add_argument("--states", type=limit, default=STATES, metavar="N", help=f"largest number of states of a search (default {STATES})")
    parser.add_argument("--full-reason", action="store_true", help=f"print the whole reason, not its last {SENTENCES} sentences")
    parser.add_argument("--whole-updates", action="store_true", help="each update must be one step, not one for each entry")
    parser.add_argument("--shorten", action="store_true", help="print a log with fewer calls and the same wrong line, and the verdict on standard error")
    parser.add_argument("--draw", metavar="SVG", help="write a picture of the log, of at most 120 lines, to this file")
    parser.add_argument("--memory", type=limit, default=MEMORY, metavar="MIB", help=f"largest number of MiB for the states (default {MEMORY})")
    parser.add_argument("--moves", type=limit_of_moves, default=MOVES, metavar="N", help="largest number of moves of all searches (default: no limit)")
    parser.add_argument("--seconds", type=limit, default=0, metavar="N", help="largest number of seconds to judge each log (default 0: no limit)")
    options = parser.parse_args()
    if (options.shorten or options.draw) and len(options.logs) > 1:
        parser.error(f"{'--shorten' if options.shorten else '--draw'} takes one log")
    return options


def content_of(path: str) -> bytes:
    if path == "-":
        return sys.stdin.buffer.read()
    with open(path, "rb") as file:
        return file.read()


def judged(path: str, options: argparse.Namespace) -> tuple[Log | None, LogVerdict, str]:
    """Returns a log that is not legal, or is drawn, and with --shorten has fewer calls; the verdict on it; and the line of the verdict."""
    content = content_of(path)
    try:
        from yachtjudge import judge_log
    except ImportError:
        Log(content)
        raise
    # the time to load a log doesn't count
    signal.setitimer(signal.ITIMER_REAL, options.seconds)
    limits = options.states, options.memory, options.moves
    verdict = judge_log(content, *limits, whole_updates=options.whole_updates)
    lines = content.split(b"\n")
    if verdict.word == "not legal":
        log = Log(content if options.draw else b"\n".join([*lines[: verdict.line], b""]))
        if options.shorten:
            log = Log(log.shortened(verdict, *limits, whole_updates=options.whole_updates))
            verdict = log.judge(*limits, whole_updates=options.whole_updates)
        return log, verdict, log.line(verdict.line)
    return Log(content) if options.draw else None, verdict, lines[verdict.line - 1].decode("ascii")


def status_of(path: str, options: argparse.Namespace) -> int:
    """Prints the verdict on a log. Returns the status that it has by itself."""
    try:
        log, verdict, shown_line = judged(path, options)
    except OSError as fault:
        print(f"yachtlog: {path} can't be read: {fault.strerror}", file=sys.stderr)
        return MISSING
    except ImportError as missing:
        print(f"{path}: a log, not judged")
        print(f"yachtlog: {missing}", file=sys.stderr)
        if options.draw:
            print(f"yachtlog: {options.draw} is not drawn", file=sys.stderr)
        return MISSING
    except MemoryError:
        print(f"yachtlog: {path}: there is no memory to judge it", file=sys.stderr)
        return NO_MEMORY
    except BadLog as fault:
        print(f"{path}: not a log: {fault}")
        return NOT_A_LOG
    if options.shorten and log and verdict.word == "not legal":
        print(log.source, end="")
    line, to = f": line {verdict.line}: {shown_line}" if verdict.line else "", sys.stderr if options.shorten else sys.stdout
    print(f"{path}: {verdict.word}{line}", file=to)
    print(shown(log.reason(verdict) if log else [], options.full_reason), end="", file=to)
    return (drawn(log, verdict, options) if log and options.draw else 0) or STATUSES[verdict.word]


def status_within(path: str, options: argparse.Namespace) -> int:
    """Prints the verdict on a log, and returns its status. With --seconds a process of its own judges it, which its alarm ends. Another signal ends both."""
    if not options.seconds:
        return status_of(path, options)
    sys.stdout.flush()
    child = os.fork()
    if not child:
        status = status_of(path, options)
        sys.stdout.flush()
        os._exit(status)
    status = os.waitstatus_to_exitcode(os.waitpid(child, 0)[1])
    if status >= 0:
        return status
    if status != -signal.SIGALRM:
        os.kill(os.getpid(), -status)
    print(f"{path}: undecided", file=sys.stderr if options.shorten else sys.stdout)
    return STATUSES["undecided"]


def drawn(log: Log, verdict: LogVerdict, options: argparse.Namespace) -> int:
    """Draws a log. Returns a status if the picture can't be written, or 0."""
    from yachtdraw import TooLong, picture

    try:
        svg = picture(log, verdict, len(verdict.reason) if options.full_reason else SENTENCES)
        with open(options.draw, "w", encoding="utf-8") as file:
            file.write(svg)
    except (OSError, TooLong) as fault:
        print(f"yachtlog: {options.draw} is not drawn: {fault.strerror if isinstance(fault, OSError) else fault}", file=sys.stderr)
        return MISSING
    return 0


def shown(sentences: list[str], is_full: bool) -> str:
    """Returns the lines of a reason: the last sentences, and how many there are before them."""
    left = 0 if is_full else max(len(sentences) - SENTENCES, 0)
    more = [f"{left} sentences before these: --full-reason prints them"] if left else []
    return "".join(f"    {it}\n" for it in [*more, *sentences[left:]])


def main() -> int:
    options = arguments()
    found = {status_within(it, options) for it in options.logs}
    return next((it for it in ORDER if it in found), 0)


def command() -> int:
    """Runs the command. If nobody reads standard output any more, the rest is not printed."""
    # the judge doesn't return for a signal
    signal.signal(signal.SIGINT, signal.SIG_DFL)
    try:
        status = main()
        sys.stdout.flush()
    except BrokenPipeError:
        os.dup2(os.open(os.devnull, os.O_WRONLY), sys.stdout.fileno())
        return MISSING
    return status


if __name__ == "__main__":
    sys.exit(command())
