"""measure-logs [CALLS]: measures how long the verified judge takes for logs of calls in flight.

It prints the CPU seconds of a spoiled log of 480,000 calls and the number of steps of its reason; then those of two legal logs, of 60,000
calls and of eight times as many; then for 3, 8, 12 and 16 open calls those of a legal log of CALLS calls and of a log with each kind of
fault near its end (model/flight_logs.py), each for at most 60 CPU seconds; with --faults these alone. With --targets the exit status is 1
if the spoiled log of 480,000 calls takes more than 10 CPU seconds, or a fault takes more than one CPU second and three times those of the
legal log, and each of these is printed."""
import itertools
import multiprocessing
import resource
import time

from scripts.checks import arguments
from model.flight_logs import FAULTS, Log, Spoiler
import yachtjudge

# where a log is spoiled
NEAR_END = 0.9
LONG_CALLS, LONG_OPEN = 480_000, 6
# the calls of a legal log, how many of them are open, and how many times as many the other one has
LEGAL_CALLS, LEGAL_OPEN, TIMES = 60_000, 5, 8
SLOTS = 4
# the numbers of open calls of logs with faults, the most CPU seconds of each, and how many of a
# kind are tried until one is not legal
FAULTY_OPEN, MOST, TRIED = (3, 8, 12, 16), 60, 12
# what --targets wants: the most CPU seconds of the long log
SECONDS = 10
# the largest ratio of a log with a fault that takes more CPU seconds than this
FAULT_RATIO, FAULT_SECONDS = 3, 1
NOT_LEGAL = "not legal"


class Judged:
    """The verdict on a log, the number of steps of its reason, and the CPU seconds that it took."""

    def __init__(self, lines):
        text, began = "\n".join(lines) + "\n", time.process_time()
        verdict = yachtjudge.judge_log(text)
        self.word, self.steps, self.seconds = verdict.word, f"{len(verdict.reason)} steps", time.process_time() - began


def judge(lines, answers):
    """Writes the verdict on a log and its CPU seconds, unless they are more than MOST."""
    resource.setrlimit(resource.RLIMIT_CPU, (MOST, MOST))
    it = Judged(lines)
    answers.send((it.word, it.seconds, it.steps))


def limited(lines):
    """Returns the verdict on a log, its CPU seconds and the number of steps of its reason, by a process of its own."""
    answers, other = multiprocessing.Pipe(duplex=False)
    process = multiprocessing.get_context("fork").Process(target=judge, args=(lines, other))
    process.start()
    other.close()
    try:
        return answers.recv()
    except EOFError:
        return "no verdict", MOST, "0 steps"
    finally:
        process.join()


def long_row(missed):
    lines = next(Spoiler(Log(LONG_CALLS, LONG_OPEN, SLOTS, 1).lines, NEAR_END).stale())
    it = Judged(lines)
    print(f"{LONG_CALLS} calls, {LONG_OPEN} open, {len(lines)} lines: {it.word} {it.seconds:.2f}; {it.steps}")
    if it.word != NOT_LEGAL or it.seconds > SECONDS:
        missed.append(f"{it.seconds:.2f} s for {LONG_CALLS} calls")


def legal_rows():
    """Prints how long a legal log takes, and a log of more calls."""
    first = None
    for calls in LEGAL_CALLS, TIMES * LEGAL_CALLS:
        lines = Log(calls, LEGAL_OPEN, SLOTS, 1).lines
        it = Judged(lines)
        first = first or it.seconds
        print(f"{calls} calls, {LEGAL_OPEN} open, {len(lines)} lines: {it.word} {it.seconds:.2f}, ratio {it.seconds / first:.1f}")


def with_fault(log, kind):
    """Judges logs with a fault of a kind until one isn't legal, and returns the last answer."""
    lines, found = log.settled() if kind == "lost" else log.lines, ("legal", 0, "0 steps")
    for wrong in itertools.islice(getattr(Spoiler(lines, NEAR_END), kind)(), TRIED):
        found = limited(wrong)
        if found[0] != "legal":
            break
    return found


def fault_rows(calls, missed):
    for width in FAULTY_OPEN:
        log = Log(calls, width, SLOTS, width)
        word, least, _ = limited(log.lines)
        print(f"{calls} calls, {width} open: {word} {least:.2f}", end="", flush=True)
        for kind in FAULTS:
            word, seconds, steps = with_fault(log, kind)
            print(f", {kind} {seconds:.2f} ({steps if word == NOT_LEGAL else word})", end="", flush=True)
            if word != NOT_LEGAL or seconds > max(FAULT_RATIO * least, FAULT_SECONDS):
                missed.append(f"{kind} at {width} open calls: {word} {seconds:.2f}")
        print()


def command():
    asked = arguments(__doc__, flags="targets faults", numbers={"calls": 5_000})
    missed = []
    if not asked.faults:
        long_row(missed)
        legal_rows()
    fault_rows(asked.calls, missed)
    for what in missed if asked.targets else ():
        print(f"missed: {what}")
    return asked.targets and bool(missed)
