"""A virtual machine that plays scripts on a kernel, for kernel/in-vm: its file system, QEMU, and the protocol of kernel/vm/init.c."""
import contextlib
import glob
import os
import queue
import resource
import shutil
import signal
import subprocess
import threading
import time

from scripts.programs import given_time, run
from scripts.repository import BUILD, ROOT

# the sources of each program of the machine below kernel/, and its libraries
PROGRAMS = {
    "init": (["vm/*.c"], []),
    "play": (["*.c"], ["-luring"]),
}
TOOLS = {"qemu-system-x86_64": "qemu-system-x86", "cc": "gcc", "setpriv": "util-linux"}
MEGABYTES = 512
# the bytes after which the machine asks for more
PART = 2048
# the most seconds until the machine speaks
SECONDS = 120
# With QEMU's own processor the clock of the machine counts instructions, and it skips the time in
# which the machine has nothing to do. So no timeout in it depends on the load of the host, and no
# delay costs time. With two processors such a machine doesn't start.
PROCESSORS = {"tcg": ["-smp", "1", "-icount", "shift=5,sleep=off"]}


class Missing(Exception):
    """A tool or a file that is missing."""


class Ended(Exception):
    """The machine has ended, or didn't begin."""


def check(kernel):
    for tool, package in TOOLS.items():
        if not shutil.which(tool):
            raise Missing(f"there is no {tool} (Debian: {package})")
    if not kernel or not os.path.isfile(kernel) or not os.access(kernel, os.R_OK):
        raise Missing("KERNEL must be the path of a kernel image (bzImage or vmlinuz) that can be read")


def built(name):
    """Builds a program of the machine if it is older than a source. It is moved into place, so that two builds at once do no harm."""
    patterns, libraries = PROGRAMS[name]
    path, there = f"{BUILD}/vm/{name}", f"{ROOT}/kernel"
    sources = [source for it in patterns for source in sorted(glob.glob(f"{there}/{it}"))]
    if os.path.exists(path) and all(os.path.getmtime(it) < os.path.getmtime(path) for it in [*sources, *glob.glob(f"{there}/*.h")]):
        return path
    os.makedirs(os.path.dirname(path), exist_ok=True)
    command = ["cc", "-O1", "-Wall", "-Wextra", "-static", "-o", f"{path}.{os.getpid()}", *sources, *libraries]
    status, _, message = run(command)
    if status:
        raise Missing(f"a program can't be linked statically (Debian: liburing-dev libc6-dev): {message.strip().splitlines()[-1]}")
    os.replace(f"{path}.{os.getpid()}", path)
    return path


def archive(programs):
    """Returns the file system of the machine, a cpio archive of the form `newc`."""
    def entry(name, mode, data=b""):
        numbers = (0, mode, 0, 0, 1, 0, len(data), 0, 0, 0, 0, len(name) + 1, 0)
        head = b"070701" + b"".join(b"%08X" % it for it in numbers) + name.encode() + b"\0"
        return head + bytes(-len(head) % 4) + data + bytes(-len(data) % 4)

    entries = [entry("dev", 0o040755)]
    for path in programs:
        with open(path, "rb") as file:
            entries.append(entry(os.path.basename(path), 0o100755, file.read()))
    return b"".join(entries) + entry("TRAILER!!!", 0)


class Machine:
    """A machine that runs `kernel`. Its files are in the folder `room`. Several threads may play at a time. `release` is the kernel's."""

    def __init__(self, kernel, room, accelerator="tcg"):
        check(kernel)
        with open(f"{room}/initrd", "wb") as file:
            file.write(archive([built(it) for it in PROGRAMS]))
        self.room, self.number, self.plays, self.waiting = room, 0, 0, {}
        self.lock, self.sending, self.more, self.ready = threading.Lock(), threading.Lock(), queue.SimpleQueue(), queue.SimpleQueue()
        begin, words = time.monotonic(), ["-append", "console=ttyS0 quiet panic=-1 oops=panic", "-initrd", f"{room}/initrd"]
        ports = ["-serial", f"file:{room}/console", "-serial", "stdio"]
        size = ["-m", str(MEGABYTES), *PROCESSORS.get(accelerator, ["-smp", "2"])]
        look = ["-nodefaults", "-display", "none", "-no-reboot"]
        # QEMU ends with this process, however it ends
        command = ["setpriv", "--pdeathsig", "KILL", "qemu-system-x86_64", "-accel", accelerator, *size, *look, "-kernel", kernel, *words, *ports]
        with open(f"{room}/qemu", "wb") as complaints:
            self.qemu = subprocess.Popen(command, stdin=subprocess.PIPE, stdout=subprocess.PIPE, stderr=complaints, start_new_session=True)
        threading.Thread(target=self.listen, daemon=True).start()
        try:
            self.release = self.answer(self.ready, given_time(SECONDS))
        except Ended:
            self.end()
            raise
        self.seconds = time.monotonic() - begin

    def listen(self):
        """Passes on what the machine writes, until it ends."""
        with contextlib.suppress(ValueError):
            while line := self.qemu.stdout.readline():
                word, *words = line.split()
                if word == b"ready":
                    self.ready.put(words[0].decode())
                elif word == b"more":
                    self.more.put(word)
                else:
                    status, *sizes = map(int, words)
                    self.waiting.pop(int(word)).put((status, *(self.qemu.stdout.read(it) for it in sizes)))
        for it in (self.ready, self.more, *self.waiting.values()):
            it.put(None)

    def answer(self, those, seconds):
        """Returns what comes of the machine in time."""
        try:
            found = those.get(timeout=seconds)
        except queue.Empty:
            raise Ended(f"no answer in {seconds:g} s{self.last_lines()}") from None
        if found is None:
            raise Ended(f"QEMU ended{self.last_lines()}")
        return found

    def last_lines(self):
        """Returns the last lines of QEMU and of the machine's console."""
        lines = []
        for name in ("qemu", "console"):
            with contextlib.suppress(OSError), open(f"{self.room}/{name}", encoding="utf-8", errors="backslashreplace") as file:
                lines += file.read().splitlines()[-8:]
        return "".join(f"\n  {it}" for it in lines)

    def send(self, head, given):
        with self.sending:
            self.qemu.stdin.write(head)
            for at in range(0, len(given), PART):
                part = given[at : at + PART]
                self.qemu.stdin.write(part)
                self.qemu.stdin.flush()
                if len(part) == PART:
                    self.answer(self.more, given_time(SECONDS))
            self.qemu.stdin.flush()

    def count_plays(self, more):
        """Counts the plays. The machine is stopped while there is none: its clock would run on, as fast as it can."""
        with self.lock:
            self.plays += more
            if self.plays == (more > 0):
                self.qemu.send_signal(signal.SIGCONT if self.plays else signal.SIGSTOP)

    def run(self, words, given, seconds):
        """Runs a program of the machine on standard input. Returns its status, text and message."""
        answers, files = queue.SimpleQueue(), resource.getrlimit(resource.RLIMIT_NOFILE)[1]
        with self.lock:
            self.number += 1
            number = self.number
            self.waiting[number] = answers
        self.count_plays(1)
        try:
            if self.qemu.poll() is not None:
                raise Ended(f"QEMU ended{self.last_lines()}")
            self.send(f"{number} {files} {len(given)} {' '.join(words)}\n".encode(), given)
            return self.answer(answers, seconds)
        except OSError:
            raise Ended(f"QEMU ended{self.last_lines()}") from None
        finally:
            self.count_plays(-1)

    def end(self):
        self.qemu.kill()
        self.qemu.wait()
