"""Records calls in flight on this machine's kernel (kernel/flight), and has the verified judge decide on the logs, for kernel/conform."""
import glob
import os
import re
import subprocess
from typing import NamedTuple

from scripts.programs import given_time, run
from scripts.repository import BUILD, ROOT, is_newer

RECORDER = os.path.join(BUILD, "record-in-flight")
# how often the recorder waits until all is settled
SETTLED = 2


class Flights(NamedTuple):
    """The logs of a rule: arguments of the recorder, their number for each random script, and whether each update must be one step."""

    words: list
    share: float
    is_whole: bool = False


# the rules of docs/inside/FLIGHT.md that a kernel must keep, and what docs/use/LINUX.md says
RULES = {
    "chains_in_flight_are_requests_one_at_a_time": Flights([], 0.2),
    "waiting_reads_hold_their_file": Flights(["--pipes", "--chains", "20"], 0.1),
    "updates_in_flight_are_one_step": Flights([], 0.1, True),
}


def judge():
    """Returns the reader of logs, or what is missing to judge them."""
    try:
        import yachtjudge  # noqa: F401, to see whether its library is there
        import yachtlog
    except ImportError as missing:
        return None, str(missing)
    return yachtlog, ""


def built_recorder(sources=f"{ROOT}/kernel", program=RECORDER):
    """Builds the recorder, unless it is newer than its sources."""
    files = [*glob.glob(f"{sources}/flight/*.c"), f"{sources}/events.c", f"{sources}/script.c"]
    if is_newer(program, [*files, *glob.glob(f"{sources}/*.h"), *glob.glob(f"{sources}/flight/*.h")]):
        return program
    subprocess.run(["cc", "-O1", "-Wall", "-Wextra", "-o", program, *files, "-luring", "-lpthread"], check=True)
    return program


def recorded(program, words, seed):
    """Returns a log, and why there is none. The recorder waits until all is settled, empties the table, and waits again."""
    status, log, complaint = run([program, str(seed), *words], seconds=given_time(60))
    if status:
        return log, f"the recorder ended with status {status}: {complaint}"
    is_whole = log.endswith("\nsettled\n") and log.count("\nsettled\n") == SETTLED
    return log, "" if is_whole else f"the log was cut off: it doesn't end with the second of {SETTLED} lines `settled`"


def overlaps(log):
    """Checks whether a log has an answer before that of an earlier call, as most logs of requests have that threads of the kernel start."""
    calls = [int(it) for it in re.findall(r"^done (\d+)\.", log, re.MULTILINE)]
    return any(later < it for it, later in zip(calls, calls[1:]))


def complaint_of(yachtlog, log, is_whole=False):
    """Returns what the judge says of a log that is not legal, or is none, and whether it is undecided."""
    try:
        read = yachtlog.Log(log)
    except yachtlog.BadLog as fault:
        return f"not a log: {fault}", False
    verdict = read.judge(whole_updates=is_whole)
    if verdict.word == "not legal":
        line = log.splitlines()[verdict.line - 1]
        return f"not legal: line {verdict.line} of the log: {line}", False
    return "", verdict.word == "undecided"
