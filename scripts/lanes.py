"""lanes CRATE NAME [CRATE NAME..]: proves the crates that programs or static libraries depend on, builds these, and leaves each at
bin/NAME, for scripts/build-program.
lanes static [--gate BEGAN LOG] CRATE MACHINE..: proves and builds the static library of a crate for x86_64 or aarch64, or both, if it is
older than a source, and keeps it at bin/libCRATE.MACHINE.a: in a copy, over the libraries of the crates below. With --gate
(scripts/proved.py) these are the gate's, for which this waits.
lanes keep FILE CRATE NAME: copies what was built from CRATE to bin/NAME, as old as FILE, which was made before the build began.

Crates that don't depend on each other are proved in parallel, as far as memory goes, those on the longest paths to the programs at a
higher priority. The toolchain locks the folders of a crate and of its dependencies, so one crate is proved in place, and the others in
copies. Prints on standard error how long the proofs are expected to take, what is proved, and how much of the work that is. What the
prover prints goes to build/program.log, and each verdict to a log of build, for scripts/dist."""
import fcntl
import os
import re
import shutil
import signal
import subprocess
import sys
import tempfile
import time

from scripts import refusals
from scripts.crates import PROCESSORS, UNMEASURED, VERDICTS, Estimate, crates, measured, needed, static_libraries, weights
from scripts.proved import Gate, copy_crates, take_back
from scripts.repository import ROOT, SOURCES, files_of, is_newer

LOG = "build/program.log"
DONE_OF = re.compile(r"^(?:checked .*, |so far: )(\d+ of \d+)", re.MULTILINE)
# the KiB of memory that each crate needs which is proved
ROOM_OF_ONE = 4 << 20
# more jobs than this don't prove a crate faster
MOST_JOBS = 4
# a path to a program counts as a longest one from this part of the longest path on
NEARLY = 0.75
# the words of the toolchain that choose a machine
TARGETS = {"x86_64": [], "aarch64": ["--target", "aarch64-unknown-linux-gnu"]}


def memory():
    """Returns the KiB of available memory; enough for all lanes if that isn't known."""
    try:
        with open("/proc/meminfo", encoding="utf-8") as file:
            return int(re.search(r"MemAvailable: *(\d+)", file.read())[1])
    except (OSError, TypeError):
        return ROOM_OF_ONE * PROCESSORS


def is_kept(name, below, kept):
    """Checks whether the proof of a crate is newer than its files, and so is that of each dependency."""
    return all(it in kept for it in below[name]) and is_newer(f"crates/{name}/out/rlib/{name}.rlib", files_of(name, *SOURCES))


def keep(folder, crate, name, began):
    """Copies what was built to bin, with the time at which the build began: a source that was changed since is newer."""
    os.makedirs("bin", exist_ok=True)
    new, built = f"bin/{name}.{os.getpid()}", f"{folder}/out/{crate}"
    shutil.copy(built if os.path.exists(built) else f"{folder}/out/lib{crate}.a", new)
    os.utime(new, (began, began))
    os.replace(new, f"bin/{name}")


def note_verdict(path, name, said, *more):
    with open(path, "a", encoding="utf-8") as log:
        log.write("\n".join([f"== {name}", *re.findall(r"^logic=.*", said, re.MULTILINE)[-1:], *more, ""]))


class Job:
    """A crate that is being proved, in a process group of its own: in place, or in a copy (`is_apart`). Its folder is locked as the
    toolchain does it, so that another run there waits. It has a lower priority unless it is on a longest path (`is_far`)."""

    def __init__(self, name, words, is_far, is_apart):
        self.name, self.path, self.begin = name, f"build/{name}.log", time.monotonic()
        self.copy = tempfile.TemporaryDirectory(prefix=f"{name}-") if is_apart else None
        if self.copy:
            self.lock = os.open(f"crates/{name}", os.O_RDONLY)
            fcntl.flock(self.lock, fcntl.LOCK_EX)
            copy_crates(self.copy.name, of=name)
        with open(self.path, "wb") as log:
            how = {"stdin": subprocess.DEVNULL, "stdout": log, "stderr": log, "start_new_session": True}
            words = words if is_far else ["nice", "-n", "10", *words]
            self.process = subprocess.Popen(words, cwd=f"{self.copy.name if self.copy else '.'}/crates/{name}", **how)

    def take_back(self):
        """Moves what was proved in a copy to the repository, and removes the copy."""
        if self.copy:
            take_back(self.copy.name, self.name)
            os.close(self.lock)
            self.copy.cleanup()
            self.copy = None

    def said(self):
        with open(self.path, encoding="utf-8", errors="replace") as log:
            return log.read()

    def now(self):
        """Returns its progress in words."""
        done = DONE_OF.findall(self.said())
        return f"{self.name} {done[-1]} functions" if done and not done[-1].startswith("0 ") else f"{self.name}'s definitions and lemmas"

    def has_ended(self):
        """Checks whether it has ended, and notes its status and its processor seconds."""
        ended, status, spent = os.wait4(self.process.pid, os.WNOHANG)
        if ended:
            self.process.returncode, self.seconds = os.waitstatus_to_exitcode(status), spent.ru_utime + spent.ru_stime
        return bool(ended)

    def end(self):
        """Ends it, and the processes that it has started."""
        for number in (signal.SIGTERM, signal.SIGKILL):
            try:
                os.killpg(self.process.pid, number)
                self.process.wait(2)
            except (ProcessLookupError, subprocess.TimeoutExpired):
                pass
        self.take_back()


class Lanes:
    """The crates of programs, which are proved in lanes. `roots` has the name of each program by its crate."""

    def __init__(self, roots):
        self.roots, self.below, self.began = roots, crates(), time.time()
        wanted, known, kept = {it for root in roots for it in needed(root, self.below)}, measured(), set()
        self.those = [it for it in self.below if it in wanted]
        for it in self.those:
            if it not in roots and is_kept(it, self.below, kept):
                kept.add(it)
        seconds = {it: 0 if it in kept else known.get(it, (UNMEASURED,))[0] for it in self.those}
        self.lanes = max(min(PROCESSORS, memory() // ROOM_OF_ONE), 1)
        self.estimate, self.weight = Estimate(seconds, self.below, self.lanes), weights(seconds, self.below)
        self.left, self.jobs, self.done, self.is_interrupted = list(self.those), [], set(), False
        self.tell(f"Proving and building {' and '.join(roots.values())}, {len(self.those) - len(kept)} of {len(self.those)} crates: "
                  f"that takes {self.estimate.range()} here.")

    def tell(self, text, end="\n"):
        clear = "\r\033[K" if sys.stderr.isatty() else ""
        sys.stderr.write(f"{clear}{text}{end}")
        sys.stderr.flush()

    def words(self, name, jobs):
        """Returns the command that proves a crate with that many jobs. Of a library the statements alone are kept, so that
        dependent crates have less to read. A program is built by a run on an empty script, or by one that prints its help if it
        needs arguments."""
        if name not in self.roots:
            return ["rt", "lib", "--jobs", str(jobs), "--statements"]
        if name in static_libraries():
            return ["rt", "lib", "--jobs", str(jobs)]
        return ["rt", "run", "--jobs", str(jobs), *(["--", "--help"] if os.path.exists(f"crates/{name}/args") else [])]

    def start(self):
        """Starts crates of which all dependencies are proved."""
        proving = [it.name for it in self.jobs]
        free = [it for it in self.left if not any(low in self.left or low in proving for low in self.below[it])]
        chosen = sorted(free, key=lambda it: -self.weight[it])[: self.lanes - len(proving)]
        longest = max((self.weight[it] for it in [*proving, *chosen]), default=0)
        far = [it for it in [*proving, *chosen] if self.weight[it] >= NEARLY * longest]
        for name in chosen:
            self.left.remove(name)
            jobs = max(min(PROCESSORS // len(far), MOST_JOBS), 1) if name in far else 1
            self.jobs.append(Job(name, self.words(name, jobs), name in far, any(not it.copy for it in self.jobs)))

    def take(self, job):
        """Takes the results of a crate that has ended. Returns whether it was proved."""
        self.jobs.remove(job)
        job.take_back()
        with open(LOG, "a", encoding="utf-8") as log:
            log.write(f"== {job.name}\n{job.said()}")
        if job.process.returncode:
            self.tell("", "")
            refusals.main(job.path)
            return False
        # those of a crate that was proved before say nothing
        note_verdict(VERDICTS, job.name, job.said(), *([f"seconds={job.seconds:.0f}"] if self.estimate.seconds[job.name] else []))
        if job.name in self.roots:
            keep(f"crates/{job.name}", job.name, self.roots[job.name], self.began)
        os.remove(job.path)
        self.done.add(job.name)
        self.tell(f"  {job.name}, crate {len(self.done)} of {len(self.those)}: {time.monotonic() - job.begin:.0f} s")
        return True

    def show(self):
        """Updates the line of a terminal, or prints a line a minute."""
        if not self.jobs or not (sys.stderr.isatty() or self.estimate.is_due()):
            return
        line = f"{len(self.done)} of {len(self.those)} crates proved, {self.estimate.share(self.done)}; under way: {', '.join(it.now() for it in self.jobs)}"
        if sys.stderr.isatty():
            self.tell(f"  {line}"[: shutil.get_terminal_size().columns - 1], "")
        else:
            self.tell(f"  after {self.estimate.minutes} min: {line}")

    def prove(self):
        """Returns whether all crates were proved. Stops at the first that isn't, or if the user interrupts it."""
        while self.left or self.jobs:
            self.start()
            time.sleep(0.2)
            for job in [it for it in self.jobs if it.has_ended()]:
                if not self.take(job):
                    return False
            # between two steps, so that none is left half done
            if self.is_interrupted:
                return False
            self.show()
        return True


def build(roots):
    lanes = Lanes(roots)
    for number in (signal.SIGINT, signal.SIGTERM, signal.SIGHUP):
        signal.signal(number, lambda *_: setattr(lanes, "is_interrupted", True))
    with open(LOG, "w", encoding="utf-8"):
        pass
    if lanes.prove():
        return 0
    for job in lanes.jobs:
        job.end()
    if lanes.is_interrupted:
        lanes.tell("\nInterrupted: no program was built. The same command begins again with the crates that are not proved yet.")
        return 130
    lanes.tell(f"The program could not be built. What the prover printed is in {LOG}.")
    return 1


def has_all_below(gate, those):
    """Waits until the gate has proved these crates, or has ended, and returns whether it has proved them."""
    while True:
        has_ended = gate.has_ended()
        if gate.proved().issuperset(those):
            return True
        if has_ended:
            return False
        time.sleep(2)


def build_static(room, name, machine, began):
    """Builds the static library in a copy, and keeps it. Returns the status of the prover."""
    folder = f"{room}/crates/{name}"
    how = {"stdin": subprocess.DEVNULL, "stdout": subprocess.PIPE, "stderr": subprocess.STDOUT, "errors": "replace"}
    # one job: every further job loads the crates below again
    ran = subprocess.run(["rt", "lib", "--jobs", "1", *TARGETS[machine]], cwd=folder, check=False, **how)
    if ran.returncode:
        sys.stderr.write(ran.stdout[-4000:])
        return ran.returncode
    keep(folder, name, f"lib{name}.{machine}.a", began)
    os.makedirs("build", exist_ok=True)
    note_verdict(f"build/verdicts.{machine}.log", name, ran.stdout)
    return 0


def static(words):
    gate = Gate(*words[1:3]) if words[:1] == ["--gate"] else None
    name, *machines = (words[3:] if gate else words) or [""]
    if not machines or any(it not in TARGETS for it in machines):
        sys.exit(__doc__)
    began, those = gate.began if gate else time.time(), needed(name, crates())
    sources = ["crates.txt", "HANDLES", *(it for crate in those for it in files_of(crate, *SOURCES))]
    machines = [it for it in machines if not is_newer(f"bin/lib{name}.{it}.a", sources)]
    if machines and gate and not has_all_below(gate, those[:-1]):
        print(f"lanes: the gate has not proved each crate below {name}", file=sys.stderr)
        return 1
    with tempfile.TemporaryDirectory(prefix=f"{name}-") as room:
        if machines:
            copy_crates(room, gate, name)
        return next((status for it in machines if (status := build_static(room, name, it, began))), 0)


def command():
    os.chdir(ROOT)
    what, *words = sys.argv[1:]
    if what == "static":
        return static(words)
    if what == "keep":
        return keep(f"crates/{words[1]}", *words[1:], os.path.getmtime(words[0]))
    return build(dict(zip(sys.argv[1::2], sys.argv[2::2])))
