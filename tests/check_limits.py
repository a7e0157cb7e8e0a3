"""check-limits PROGRAM [--few | --memory] [--seconds N]: plays the scripts of tests/limits.py and compares text and status, and those
between the limits over both tables, on one worker and on seven, or on each number of workers. Then it measures the memory that the
largest submissions need. With --few it plays some short scripts, with --memory it only measures, over one table. A run may take N
seconds."""
import re

from scripts.checks import Counted, arguments
from tests.limits import CHAINS, ENTRIES, MEMBERS, SCRIPT_BYTES, heaviest_submission, large_text, limits
from scripts.programs import difference, limited, run
from tests.sweeps import BY_WORKERS, sweeps

KIB = 1024
# the most bytes of a file number, which check-workers measures: guarded by one word its node and
# the count of its holds; without a lock its word and the place of its file, in lists that are moved
# over once as the table is made
BYTES_PER_NUMBER = {"words": 100, "baton": 64}
# the tags of closed files: 8 bytes in a worker's list and in the joined one
BYTES_OF_TAGS = 2 * 8 * CHAINS * MEMBERS * ENTRIES
# one worker, and a number that is neither the least nor a power of two
WORKERS = (1, 7)
# and what depends on how many they are, on each number; the heaviest submission on some
ALL_WORKERS = range(1, 17)
SOME_WORKERS = (1, 2, 4, 16)
FEW = ("full_table", "bad_list_in_a_line_too_long")
# the seconds that a run has
LONGEST = 120


def ran(program, script, kibibytes=None):
    """The status, the text and the message. Without a limit nothing runs in the child before the program: that takes long."""
    return run(program, script, LONGEST, **(limited(kibibytes) if kibibytes else {}))


def least_memory(program, script):
    """The least address space, in KiB, in which the program plays the script to its end. Up to 16 too much."""
    text = ran(program, script)[1]
    low, high = 0, 1024 * KIB
    while high - low > 16:
        middle = (low + high) // 2
        if ran(program, script, middle)[:2] == (0, text):
            high = middle
        else:
            low = middle
    return high


def check_text(program, name, script, wanted, fault, told):
    differs = difference(ran(program, script), (3 if fault else 0, wanted, f"fixfiles: {fault}\n" if fault else ""))
    told.want(not differs, f"{name} {differs}")


def check_texts(program, told, names=None):
    for name, *it in limits():
        if not names or name in names:
            check_text(program, name, *it, told)


def check_sweeps(program, told):
    """Each on every table and number of workers, which its text doesn't depend on."""
    for name, *it in [("heaviest", *heaviest_submission()), *sweeps()]:
        kind = re.sub(r"_\d+$", "", name)
        for table in BYTES_PER_NUMBER:
            for workers in SOME_WORKERS if kind == "heaviest" else ALL_WORKERS if kind in BY_WORKERS else WORKERS:
                options = ["--table", table, "--workers", str(workers)]
                check_text([*program, *options], f"{name} {' '.join(options)}", *it, "", told)


def check_memory(program, table, told):
    """The address space of the largest script, the submission with the most file numbers, and a long text."""
    program = [*program, "--table", table]
    least = least_memory(program, "\n" * SCRIPT_BYTES)
    print(f"limits: a script of {SCRIPT_BYTES:,} empty lines is read in {least:,} KiB", flush=True)
    told.want(least <= 10 * 1024, "that is more than 10 MiB")
    for name, (script, text) in (("heaviest_submission", heaviest_submission()), ("text_of_8_megabytes", large_text(1))):
        least = least_memory(program, script)
        # the script and its requests, the numbers, the closes with tags, the lines, the text
        most = 8 * 1024 + (4 * len(script) + 65_728 * BYTES_PER_NUMBER[table] + BYTES_OF_TAGS + 4 * len(text)) // KIB
        print(f"limits: over {table} {name} plays in {least:,} KiB, for a script of {len(script):,} bytes and a text of {len(text):,}", flush=True)
        told.want(least <= most, f"{name} takes more than {most:,} KiB")


def command():
    global LONGEST
    given = arguments(__doc__, "program", "few memory", options={"seconds": LONGEST})
    LONGEST = given.seconds
    told, program = Counted("limits"), [given.program]
    if given.memory:
        check_memory(program, "words", told)
    else:
        check_texts(program, told, FEW if given.few else None)
    if not given.few and not given.memory:
        check_sweeps(program, told)
        for table in BYTES_PER_NUMBER:
            check_memory(program, table, told)
    return told.end()
