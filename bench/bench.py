"""bench PROGRAM: compares the program with bench/plain.rs, a plain Rust program that does the same. It prints the instructions of
playing scripts, each as a multiple of the plain program's, and fails only if the two write different texts. They are counted by
callgrind (valgrind), of a tenth of each script's submissions, less those of the same script with a bad line at its end, which is read
and not played. Then a submission is timed on 1, 2 and 4 workers by wall-clock time, which other work changes."""
import os
import re
import shutil
import subprocess
import sys
import tempfile
import time

from scripts.checks import arguments
from tests.limits import heaviest_submission, large_text, lines, linked
from scripts.programs import BUILD
from scripts.repository import ROOT, write

RUNS = 7
# what part of the submissions of a script is counted
PART = 10
BAD_LINE = "bad\n"
# the beginning of a script with a full table
FULL = ["file a.txt 68656c6c6f", "sparse 256", *(f"open a.txt at {it}" for it in range(256)), "submit"]


def own_slots(times):
    """1,023 chains of five opens, reads and closes and an open, each at one of 256 slots, some times."""
    chains = [[f"open a.txt at {it % 256}", f"read {it % 256} 0 5", f"close {it % 256}"] * 5 + [f"open a.txt at {it % 256}"] for it in range(1023)]
    return lines("file a.txt 68656c6c6f", "sparse 256", *([request for chain in chains for request in linked(*chain)] + ["submit"]) * times)


def scripts(part):
    """Each script with what it shows. Of those with several submissions it makes a part."""
    yield "1,023 chains of one read (nothing is installed), 200 times", lines(*FULL, *(["read 7 0 5"] * 1023 + ["submit"]) * (200 // part))
    opens = [f"open a.txt at {it % 256}" for it in range(1023)]
    yield "1,023 chains of one open (each installs one file), 100 times", lines(*FULL, *(opens + ["submit"]) * (100 // part))
    yield "20,000 submissions of one read, on a full table of 256", lines(*FULL, *["read 7 0 5", "submit"] * (20_000 // part))
    yield "5,000 submissions of one open, on a full table of 256", lines(*FULL, *["open a.txt at 7", "submit"] * (5_000 // part))
    five = ["open a.txt at 0", "read 0 0 5", "close 0"] * 5 + ["open a.txt at 0"]
    yield "16,368 opens, reads and closes, 10 times", lines("file a.txt 68656c6c6f", "sparse 1", *(linked(*five) * 1023 + ["submit"]) * (10 // part))
    yield "16,368 opens, reads and closes, of each chain at one of 256 slots, 10 times", own_slots(10 // part)
    yield "16,368 updates of 16 entries", heaviest_submission()[0]
    yield "1,023 reads of 4,096 bytes (a text of 8 million bytes)", large_text(1)[0]


def counted(program, script):
    words = ["valgrind", "--tool=callgrind", "--callgrind-out-file=/dev/null", *program]
    said = subprocess.run(words, input=script.encode(), capture_output=True, check=False).stderr.decode()
    return int(re.search(r"Collected : (\d+)", said)[1])


def instructions(program, script):
    """Returns the instructions of playing a script, without reading it."""
    return counted(program, script) - counted(program, script + BAD_LINE)


def small_scripts():
    """Pairs of scripts, of 5,000 submissions and of none, with what each submission has."""
    for name, lines_of in (("one read", ["read 7 0 5", "submit"]), ("one open", ["open a.txt at 7", "submit"])):
        yield name, *(lines(*FULL, *lines_of * times) for times in (5_000, 0))


def count_instructions(program, plain):
    """Prints the instructions of each script by those of the plain program. Returns how many of the texts differ."""
    differ = 0
    for what, script in scripts(PART):
        texts = [subprocess.run([it], input=script.encode(), capture_output=True, check=True).stdout for it in (program, plain)]
        differ += texts[0] != texts[1]
        own, other = instructions([program], script), instructions([plain], script)
        print(f"bench: {what}: {own / other:.2f} times the plain program's {other:,} instructions", flush=True)
    for what, script, none in small_scripts():
        own, other = (instructions([it], script) - instructions([it], none) for it in (program, plain))
        print(f"bench: {what} by itself: {own / other:.2f} times the plain program's {other / 5_000:,.0f} instructions", flush=True)
    # it is read and not played, since its last line is bad
    script = lines(*["read 7 0 5"] * 380_000) + BAD_LINE
    own, other = (counted([it], script) for it in (program, plain))
    print(f"bench: {len(script):,} bytes of requests are read: {own / other:.2f} times the plain program's {other:,} instructions", flush=True)
    return differ


def clock_of(program, workers, path):
    """The seconds on the clock of a run that reads this file and whose text nobody reads."""
    with open(path) as script:
        started = time.perf_counter()
        subprocess.run([program, "--workers", workers], stdin=script, stdout=subprocess.DEVNULL, stderr=subprocess.DEVNULL)
        return time.perf_counter() - started


def playing_clocks(program, script, crews):
    """The seconds on the clock that a script takes each crew, without its reading: the least of runs by turns."""
    least = {}
    with tempfile.TemporaryDirectory() as room:
        for kind, text in ("played", script), ("read", script + BAD_LINE):
            write(f"{room}/{kind}", text)
        for _ in range(2 * RUNS):
            for workers in crews:
                for kind in "played", "read":
                    took = clock_of(program, workers, f"{room}/{kind}")
                    least[workers, kind] = min(took, least.get((workers, kind), took))
    return [least[workers, "played"] - least[workers, "read"] for workers in crews]


def measure_crews(program):
    """A submission of many steps on 1, 2 and 4 workers over words by the clock, and the load of the machine meanwhile."""
    clocks = playing_clocks(program, own_slots(10), ("1", "2", "4"))
    told = " and ".join(f"{it / clocks[0]:.2f} times that on {workers}" for it, workers in zip(clocks[1:], (2, 4)))
    what = "1,023 chains of 16 at one of 256 slots each, 10 times"
    print(f"bench: {what}: {1000 * clocks[0]:.1f} ms by the clock on one worker over words, {told}", flush=True)
    print(f"bench:   meanwhile the load was {os.getloadavg()[0]:.1f}", flush=True)


def command():
    given = arguments(__doc__, "program")
    for tool in "rustc", "valgrind":
        if shutil.which(tool) is None:
            sys.exit(f"bench: there is no {tool} here: nothing is measured")
    os.makedirs(BUILD, exist_ok=True)
    subprocess.run(["rustc", "-O", "--edition", "2021", "-o", f"{BUILD}/plain", f"{ROOT}/bench/plain.rs"], check=True)
    differ = count_instructions(given.program, f"{BUILD}/plain")
    measure_crews(given.program)
    if differ:
        print(f"bench: {differ} texts differ")
    return 1 if differ else 0
