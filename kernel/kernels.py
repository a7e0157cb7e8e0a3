"""Plays scripts on a kernel (kernel/play.c) and compares the texts with the rules, for kernel/conform.

A text is right if fixcheck calls it legal. If fixcheck refuses it, the differences of docs/use/LINUX.md may explain it: kernel/rules.py
changes the model by them, and model/orders.py searches for an order in which the changed model prints the text. If fixcheck is
undecided, model/orders.py decides."""
import functools
import os
import re
from typing import NamedTuple

from model.model import CHAINS, REGISTRATIONS, SUBMISSIONS, Script, play
from model.orders import TooManyOrders, ending_of
from scripts.programs import LEGAL, NOT_LEGAL, UNDECIDED, given_time, run, run_within, verdict
from scripts.repository import BUILD, ROOT, read
from kernel.rules import Linux

PLAYER = os.path.join(BUILD, "play-on-kernel")
FIXCHECK = os.path.join(ROOT, "bin/fixcheck")
# the exit statuses if a line has no system call, and if there is no io_uring
CANT_SAY, NO_KERNEL = 78, 77
# the limit of states for most texts, and for those that need more
STATES, MOST_STATES = 1_000, 1_000_000
# the most bytes of a play: 30 times those of the longest text of a script that is played here
MOST_BYTES = 1 << 26
AGREES, LEFT_OUT, UNSAID = "agrees", "left out", "unsaid"


def listed():
    """Returns the differences' names, by docs/use/LINUX.md's first table, and the version of the kernel that has them."""
    table = read("docs/use/LINUX.md").split("\n## ")[1]
    names = frozenset(re.findall(r"^\| `([a-z_]+)` \|", table, re.MULTILINE))
    return names, re.search(r"^Found on kernel (\d+\.\d+)", table, re.MULTILINE)[1]


def of_older_kernels():
    """Returns the names of the differences that only older kernels have, the first cells of the page's table of Linux 6.1."""
    table = read("docs/use/LINUX.md").split("\n## Linux 6.1\n")[1].split("\n## ")[0]
    return frozenset(re.findall(r"^\| `([a-z_0-9]+)` \|", table, re.MULTILINE))


def large_differences():
    """Yields the scripts of three differences that are too large to be kept as files."""
    yield "too_many_chains", b"close 0\n" * (CHAINS + 1) + b"submit\n"
    yield "too_many_submissions", b"submit\n" * (SUBMISSIONS + 1)
    yield "too_many_registrations", b"register -1\nunregister\n" * (REGISTRATIONS + 1)


def built_player():
    """Builds the player of this machine's kernel. Returns the exit status and the line that says what is missing."""
    status, text, message = run([f"{ROOT}/kernel/play-on-kernel", "--build"])
    return status, (text + message).strip().removeprefix("kernel: skipped: ")


def missing_program(program, goal):
    """Returns what is printed of a program that is missing: what proves and builds it, and who has it built."""
    return f"there is no program {program}: `make {goal}` proves and builds it in the repository, and the archive has it"


def verdict_of(fixcheck, text, written):
    """Returns LEGAL, NOT_LEGAL or UNDECIDED, and what fixcheck prints."""
    for states in (STATES, MOST_STATES):
        status, said, complaint = verdict(fixcheck, text, written, "--states", str(states))
        if complaint or status not in (LEGAL, NOT_LEGAL, UNDECIDED):
            raise RuntimeError(f"fixcheck ended with status {status}: {said}{complaint}")
        if status != UNDECIDED:
            break
    return status, "".join(f"{it}\n" for it in said)


class Found(NamedTuple):
    """A player's text of a script. `standing` is AGREES, LEFT_OUT, UNSAID, the differences that explain it, or None. Then come the
    text, the player's message, and what fixcheck prints."""

    standing: object
    written: str
    complaint: str = ""
    said: str = ""


def found(status, said, text, written, shown):
    """Compares a text with the rules, given the exit status of fixcheck and what it printed."""
    if status == LEGAL:
        return Found(AGREES, written)
    # a text that the unchanged model prints is legal: then fixcheck must not refuse it
    legal = None if status == NOT_LEGAL else AGREES
    if written == play(text)[0]:
        return Found(legal, written, said=said)
    try:
        ending = ending_of(Script(text), written, functools.partial(Linux, shown=shown))
    except TooManyOrders:
        return Found(LEFT_OUT, written, said=said)
    return Found(ending and (ending.met or legal), written, said=said)


def found_of_kernel(player, fixcheck, text, shown, seconds=120):
    """Plays a script for at most `seconds`, and compares its text with the rules and the differences. May raise TooLong."""
    fault = play(text)[2]
    status, written, complaint = run_within(MOST_BYTES, [player], text, given_time(seconds))
    if status == CANT_SAY:
        return Found(UNSAID, written, complaint)
    if fault:
        return Found(AGREES if status == 3 and f"line {fault.line}:" in complaint else None, written, complaint)
    if status:
        return Found(None, written, f"{complaint}status {status}")
    return found(*verdict_of(fixcheck, text, written), text, written, shown)._replace(complaint=complaint)


def text_of_kernel(player, text, nth, seconds=120):
    """Returns the text of the nth play, or None if it failed. In every second play a thread of the kernel starts each request."""
    status, written, complaint = run_within(MOST_BYTES, [player, *(["--async"] if nth % 2 else [])], text, given_time(seconds))
    return None if status or complaint else written
