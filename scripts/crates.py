"""The crates of crates.txt, and how long their proofs take, by scripts/seconds.txt.

crates measure: writes the processor seconds of the crates that scripts/lanes.py has proved, by its log, to scripts/seconds.txt, and the minutes
of the pages (bench/write-tables). The seconds of tests are written by hand.
crates progress LOG: prints on standard error how long the gate is expected to take here, and then once a minute how much of it is done, by
its LOG. Ends with the gate, or with the process that started this one."""
import contextlib
import math
import os
import re
import sys
import time

from scripts.repository import read, read_bytes, write

FILE, VERDICTS = "scripts/seconds.txt", "build/verdicts.log"
PROCESSORS = len(os.sched_getaffinity(0))
# the seconds of a crate that was not measured
UNMEASURED = 100
# how the gate ends, and what it prints of a crate
VERDICT = re.compile(r"^\d+ passed, \d+ failed$", re.MULTILINE)
PROVED = re.compile(r"^(?:rt: )?(\w+)(: its tests)?(?: are)? (?:proved$|is kept:)", re.MULTILINE)


def crates():
    """Returns each crate of crates.txt with the crates that it depends on, in the order of the file."""
    found = {}
    for line in read("crates.txt").splitlines():
        left, colon, right = line.partition("#")[0].partition(":")
        if colon:
            found[left.split()[0]] = right.split()
    return {name: [it for it in below if it in found] for name, below in found.items()}


def static_libraries():
    """Returns the crates of crates.txt that are static libraries, for C."""
    return set(re.findall(r"^(\w+) staticlib:", read("crates.txt"), re.MULTILINE))


def measured():
    """Returns the measured processor seconds of each crate: of its proof, and of its tests."""
    rows = (line.split() for line in read(FILE).splitlines() if re.match(r"\w", line))
    return {name: (int(proof), int(tests)) for name, proof, tests in rows}


def needed(root, below):
    """Returns the crates that `root` depends on, and `root` as the last."""
    wanted = {root}
    for name in reversed(below):
        if name in wanted:
            wanted |= set(below[name])
    return [it for it in below if it in wanted]


def weights(seconds, below):
    """Returns for each crate the seconds from its start to the end of the last one, if a lane is always free."""
    found = {}
    for name in reversed(seconds):
        found[name] = seconds[name] + max((found[it] for it in found if name in below[it]), default=0)
    return found


def expected(seconds, below, lanes):
    """Returns how many seconds crates take in that many lanes, those on the longest paths first."""
    weight, left, running, clock = weights(seconds, below), dict(seconds), {}, 0
    while left or running:
        free = [it for it in left if not any(low in left or low in running for low in below[it])]
        for name in sorted(free, key=lambda it: -weight[it])[: lanes - len(running)]:
            running[name] = clock + left.pop(name)
        clock = min(running.values())
        running = {name: end for name, end in running.items() if end > clock}
    return clock


class Estimate:
    """How long crates take that are proved in some lanes, by their measured seconds, and how much of that is done."""

    def __init__(self, seconds, below, lanes):
        self.seconds, self.below, self.lanes = seconds, below, lanes
        self.whole, self.begin, self.minutes = expected(seconds, below, lanes), time.monotonic(), 0

    def range(self):
        """Returns as a range of whole minutes, rounded up, how long all take: if no lane is ever free, and if each crate has one lane."""
        first, last = math.ceil(sum(self.seconds.values()) / self.lanes / 60), math.ceil(self.whole / 60)
        return f"{first} to {last} minutes" if first < last else "a minute" if last == 1 else f"{last} minutes"

    def share(self, done):
        """Returns the part of all expected work that is done, which never falls."""
        return f"{100 * sum(self.seconds[it] for it in done) // max(sum(self.seconds.values()), 1)} % of the work"

    def is_due(self):
        """Checks whether a minute has passed since the last one."""
        before, self.minutes = self.minutes, int(time.monotonic() - self.begin) // 60
        return self.minutes > before


def minutes(*roots):
    """Returns how long it takes to prove these crates and all that they depend on, or all crates with their tests, on 4 cores."""
    below, known = crates(), measured()
    those = {it for root in roots for it in needed(root, below)} or set(below)
    return Estimate({it: sum(known.get(it, (UNMEASURED, 0))) for it in below if it in those}, below, 4).range()


def show_progress(path):
    parent, below, known, said = os.getppid(), crates(), measured(), ""
    seconds = {it: known.get(it, (UNMEASURED, 0))[0] for it in below}
    # the tests of a crate depend on it
    for name in [it for it in below if known.get(it, (0, 0))[1]]:
        seconds[f"{name}: its tests"], below[f"{name}: its tests"] = known[name][1], [name]
    estimate = Estimate(seconds, below, PROCESSORS)
    print(f"The gate proves {len(seconds)} crates and tests: that takes {estimate.range()} here.", file=sys.stderr, flush=True)
    while os.getppid() == parent and not VERDICT.search(said):
        time.sleep(1)
        said = read_bytes(os.path.abspath(path)).decode(errors="replace") if os.path.exists(path) else ""
        if estimate.is_due():
            done = {name + tests for name, tests in PROVED.findall(said)} & {*seconds}
            print(f"  after {estimate.minutes} min: {len(done)} of {len(seconds)} proved, {estimate.share(done)}", file=sys.stderr, flush=True)


def measure():
    from bench import tables

    known = measured()
    for name, seconds in re.findall(r"^== (\w+)\nlogic=.*\nseconds=(\d+)$", read(VERDICTS), re.MULTILINE):
        known[name] = int(seconds), known.get(name, (0, 0))[1]
    head = [it for it in read(FILE).splitlines() if it.startswith("#")]
    write(FILE, "".join(f"{it}\n" for it in [*head, *(f"{it} {known[it][0]} {known[it][1]}" for it in crates() if it in known)]))
    tables.command()


def command():
    with contextlib.suppress(KeyboardInterrupt):
        {"measure": measure, "progress": show_progress}[sys.argv[1]](*sys.argv[2:])
