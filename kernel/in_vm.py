"""in-vm [--async]: plays a script from standard input on the io_uring of another kernel, in a virtual machine, and writes the text to
standard output. KERNEL is the path of the kernel's image (bzImage or vmlinuz), for x86-64.
in-vm --with COMMAND WORD..: starts the machine once and runs COMMAND, whose calls of in-vm play on it. Ends with the status of COMMAND, as
in: in-vm --with kernel/conform --rule NAME --player kernel/in-vm

The machine has 512 MB, and one processor with `tcg`, else two. It needs no rights, and of files our programs alone; and qemu-system-x86_64,
cc and liburing.a (Debian: qemu-system-x86 gcc liburing-dev). ACCEL is QEMU's accelerator, `tcg` by default: the machine's clock counts
instructions, so the load of the host changes no result.

The exit status is that of the player; 2 if an argument is invalid; 77 if a tool, KERNEL or the kernel's io_uring is missing; 4 if the machine doesn't start, or ends
before the answer. Only the QEMU that it started is ended."""
import contextlib
import os
import signal
import socket
import socketserver
import subprocess
import sys
import tempfile

from kernel.vm.machine import Ended, Machine, Missing
from scripts.programs import given_time

MISSING, ENDED, INVALID = 77, 4, 2
# the most seconds of a play on a host that does nothing else
SECONDS = 100
# the variable with the path of the socket of a machine that runs
ROOM = "IN_VM_SOCKET"


class Server(socketserver.ThreadingUnixStreamServer):
    """Plays what the calls of in-vm send, on one machine."""

    daemon_threads, request_queue_size = True, 128

    def __init__(self, path, machine):
        self.machine = machine
        super().__init__(path, Handler)


class Handler(socketserver.StreamRequestHandler):
    def handle(self):
        # a caller may have been ended before its answer
        with contextlib.suppress(OSError):
            words = self.rfile.readline().decode().split()
            status, text, message = played(self.server.machine, words, self.rfile.read())
            self.wfile.write(b"%d %d %d\n" % (status, len(text), len(message)) + text + message)


def played(machine, words, given):
    """Returns the status, the text and the message of a play on a machine."""
    try:
        return machine.run(words, given, given_time(SECONDS))
    except Ended as why:
        return ENDED, b"", f"in-vm: {why}\n".encode()


def played_there(path, words, given):
    """Returns the same of a play on the machine of another in-vm."""
    with socket.socket(socket.AF_UNIX) as peer:
        peer.connect(path)
        peer.sendall(" ".join(words).encode() + b"\n" + given)
        peer.shutdown(socket.SHUT_WR)
        with peer.makefile("rb") as answer:
            status, *sizes = map(int, answer.readline().split())
            return status, *(answer.read(it) for it in sizes)


def started(room):
    """Starts the machine, and tries the kernel's io_uring."""
    machine = Machine(os.environ.get("KERNEL", ""), room, os.environ.get("ACCEL", "tcg"))
    status, _, message = machine.run(["/play"], b"", given_time(SECONDS))
    if status:
        machine.end()
        raise Missing(f"kernel {machine.release}: {message.decode(errors='backslashreplace').strip()}")
    return machine


def run_with(machine, room, command):
    print(f"in-vm: kernel {machine.release}, started in {machine.seconds:.1f} s", file=sys.stderr, flush=True)
    with Server(f"{room}/socket", machine) as server:
        import threading

        threading.Thread(target=server.serve_forever, daemon=True).start()
        try:
            return subprocess.run(command, env={**os.environ, ROOM: f"{room}/socket"}, check=False).returncode
        finally:
            server.shutdown()


def written(status, text, message):
    sys.stdout.buffer.write(text)
    sys.stderr.buffer.write(message)
    return status


def command():
    signal.signal(signal.SIGTERM, lambda *_: sys.exit(143))
    words = sys.argv[1:]
    asked = words[1:] if words[:1] == ["--with"] else None
    if words in (["-h"], ["--help"]):
        print(__doc__)
        return 0
    if asked == [] or asked is None and words not in ([], ["--async"]):
        wrong = "no COMMAND follows --with" if asked == [] else f"there is no argument {words[words[0] == '--async']}"
        print(f"in-vm: {wrong}; it is called as: in-vm [--async] or in-vm --with COMMAND WORD..", file=sys.stderr)
        return INVALID
    program, given = ["/play", *words], sys.stdin.buffer.read() if asked is None else b""
    if asked is None and os.environ.get(ROOM):
        return written(*played_there(os.environ[ROOM], program, given))
    with tempfile.TemporaryDirectory(prefix="in-vm-") as room:
        try:
            machine = started(room)
        except Missing as what:
            print(f"in-vm: skipped: {what}", file=sys.stderr)
            return MISSING
        except Ended as why:
            print(f"in-vm: {why}", file=sys.stderr)
            return ENDED
        try:
            return run_with(machine, room, asked) if asked else written(*played(machine, program, given))
        finally:
            machine.end()
