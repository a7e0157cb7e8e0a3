"""check-in-vm FIXCHECK: tests kernel/in-vm, on stand-ins for QEMU (tests/machines.py): texts and statuses are passed on, faults and what
is missing are named, a wrong kernel is refused by conform, and no machine is left. Where there are QEMU, liburing.a and a kernel (the
variable KERNEL, or the newest /boot/vmlinuz-*), a real machine must print what the model prints."""
import glob
import os
import shutil
import signal
import subprocess
import sys
import tempfile
import time

from model.model import play
from scripts.checks import Counted
from scripts.programs import given_time, run
from scripts.repository import ROOT, read_bytes, write

IN_VM = f"{ROOT}/kernel/in-vm"
RULE = "close_empties_its_slot"
# the scripts that a real machine plays
SCRIPTS = "examples/open_read_close.script", "examples/updates_clear_skip_and_replace.script"
# the cases on a stand-in, which needs the programs of the machine, and those on a machine
OF_STAND_INS, OF_MACHINES = 14, 2
# a script of more than two parts
LARGE = b"file a 01\nsparse 4\n" + b"open a at 0\nclose 0\nsubmit\n" * 200
MISSING, ENDED = 77, 4


class Checks(Counted):
    def __init__(self, room):
        super().__init__("in-vm")
        self.room, self.pid_file = room, f"{room}/pid"
        write(f"{room}/kernel", b"")

    def how(self, kind):
        """Returns the environment with a stand-in of that kind in place of QEMU."""
        path = f"{self.room}/{kind}"
        if not os.path.exists(path):
            os.mkdir(path)
            write(f"{path}/qemu-system-x86_64", f"#!/bin/sh\nexec python3 -S -X pycache_prefix='{self.room}' '{ROOT}/scripts/run' tests.machines {kind} \"$@\"\n")
            os.chmod(f"{path}/qemu-system-x86_64", 0o755)
        return {"env": {**os.environ, "PATH": f"{path}:{os.environ['PATH']}", "KERNEL": f"{self.room}/kernel", "PID_FILE": self.pid_file}}

    def has_ended(self):
        """Waits until the last stand-in has ended."""
        with open(self.pid_file, encoding="utf-8") as file:
            path = f"/proc/{file.read()}"
        for _ in range(600):
            if not os.path.exists(path):
                return True
            time.sleep(0.1)
        return False

    def plays(self, kind, script):
        found = run([IN_VM], script, given_time(120), **self.how(kind))
        self.want(found == (0, play(script)[0], "") and self.has_ended(), f"a play of {len(script)} bytes ends with {found[0]} {found[1:]}"[:500])

    def ends(self, kind, words, status, part, how=None):
        found = run([IN_VM, *words], LARGE, given_time(120), **(how or self.how(kind)))
        self.want(found[0] == status and part in found[1] + found[2], f"in-vm {words} on a machine that is {kind}: {found}"[:900])

    def judges(self, kind, fixcheck, status, part):
        words = ["--with", f"{ROOT}/kernel/conform", "--rule", RULE, "--player", IN_VM, "--fixcheck", fixcheck]
        self.ends(kind, words, status, part)
        self.want(self.has_ended(), f"a machine that is {kind} is left")

    def is_killed(self, number):
        """Checks that the machine ends with in-vm, if that gets a signal."""
        begun = subprocess.Popen([IN_VM, "--with", "sleep", "60"], stderr=subprocess.PIPE, **self.how("right"))
        begun.stderr.readline()
        begun.send_signal(number)
        begun.communicate()
        self.want(self.has_ended(), f"a machine is left after signal {number}")


def check_stand_ins(checks, fixcheck):
    checks.plays("right", LARGE)
    checks.plays("right", read_bytes(SCRIPTS[0]))
    twice = f"'{IN_VM}' < {ROOT}/{SCRIPTS[0]} > '{checks.room}/one' & '{IN_VM}' < {ROOT}/{SCRIPTS[1]} > '{checks.room}/other'; wait"
    checks.ends("late", ["--with", "sh", "-c", twice], 0, "kernel 0.0.7, started in ")
    texts = [read_bytes(f"{checks.room}/{it}").decode() for it in ("one", "other")]
    checks.want(texts == [play(read_bytes(it))[0] for it in SCRIPTS], f"two plays at a time print {texts}")
    checks.judges("right", fixcheck, 0, f"ok 1 {RULE}\n")
    checks.judges("wrong", fixcheck, 1, f"not ok 1 {RULE}\n")
    checks.ends("oopses", [], ENDED, "in-vm: QEMU ended\n  BUG: kernel NULL pointer dereference")
    checks.ends("dead", [], ENDED, "in-vm: QEMU ended")
    checks.ends("lacks-io-uring", ["--with", "true"], MISSING, "in-vm: skipped: kernel 0.0.7: there is no io_uring")
    checks.ends("right", ["--with", "sh", "-c", "exit 9"], 9, "kernel 0.0.7")
    for number in signal.SIGTERM, signal.SIGKILL:
        checks.is_killed(number)


def check_missing(checks):
    """Checks what in-vm says if an argument is invalid, and if KERNEL, or a tool, is missing."""
    checks.ends("right", ["--help"], 0, "in-vm [--async]: plays a script")
    for words, part in ((["--record", "1"], "no argument --record"), (["--async", "extra"], "no argument extra"), (["--with"], "no COMMAND follows")):
        checks.ends("right", words, 2, part)
    checks.ends("right", [], MISSING, "in-vm: skipped: KERNEL must be", {"env": {**checks.how("right")["env"], "KERNEL": "/nonexistent"}})
    os.mkdir(f"{checks.room}/bin")
    for it in ("env", "python3"):
        os.symlink(shutil.which(it), f"{checks.room}/bin/{it}")
    how = {"env": {**checks.how("right")["env"], "PATH": f"{checks.room}/bin"}}
    checks.ends("right", [], MISSING, "in-vm: skipped: there is no qemu-system-x86_64", how)


def check_machine(checks):
    """Plays two scripts on a real machine, if there is a kernel."""
    kernels = [it for it in (os.environ.get("KERNEL", ""), *sorted(glob.glob("/boot/vmlinuz-*"), key=os.path.getmtime)[-1:]) if it]
    if not kernels or not shutil.which("qemu-system-x86_64") or not os.access(kernels[0], os.R_OK):
        checks.skip(OF_MACHINES, "kernel image or QEMU")
        return
    paths = [f"{checks.room}/text{nth}" for nth in range(len(SCRIPTS))]
    command = " && ".join(f"'{IN_VM}' < {ROOT}/{script} > '{path}'" for script, path in zip(SCRIPTS, paths))
    found = run([IN_VM, "--with", "sh", "-c", command], b"", given_time(120), env={**os.environ, "KERNEL": kernels[0]})
    for script, path in zip(SCRIPTS, paths):
        text = read_bytes(path).decode() if os.path.exists(path) else ""
        checks.want(text == play(read_bytes(script))[0], f"{script} on {kernels[0]}: {found} {text}"[:900])


def command():
    fixcheck = os.path.abspath(sys.argv[1])
    with tempfile.TemporaryDirectory() as room:
        checks = Checks(room)
        check_missing(checks)
        if run(["cc", "-static", "-o", f"{room}/static", "-x", "c", "-", "-luring"], b"int main(void) { return 0; }\n")[0]:
            checks.skip(OF_STAND_INS + OF_MACHINES, "liburing.a")
        else:
            check_stand_ins(checks, fixcheck)
            check_machine(checks)
        return checks.end()
