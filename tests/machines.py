"""machines KIND: speaks as the virtual machine of kernel/in-vm does (kernel/vm/init.c), for tests/check-in-vm. KIND is `right`, which
plays as the model does; `late`, which answers the first play after the second one; or a fault. PID_FILE gets the number of the process."""
import os
import re
import sys

from model.model import play

PART, NO_IO_URING = 2048, 77


def send(data):
    sys.stdout.buffer.write(data)
    sys.stdout.buffer.flush()


def received():
    """Yields the number of each play and its standard input."""
    while line := sys.stdin.buffer.readline():
        number, _, size = map(int, line.split()[:3])
        given = b""
        while len(given) < size:
            part = sys.stdin.buffer.read(min(PART, size - len(given)))
            given += part
            if len(part) == PART:
                send(b"more\n")
        yield number, given


def answer(number, text=b"", status=0, message=b""):
    send(b"%d %d %d %d\n" % (number, status, len(text), len(message)) + text + message)


def text_of(kind, given):
    text = play(given)[0]
    return (re.sub(r"^1\.1\.1 .*", "1.1.1 -77", text, count=1, flags=re.MULTILINE) if kind == "wrong" else text).encode()


def command():
    with open(os.environ["PID_FILE"], "w", encoding="utf-8") as file:
        file.write(str(os.getpid()))
    kind = sys.argv[1]
    if kind == "dead":
        return 1
    send(b"ready 0.0.7\n")
    kept = []
    for number, given in received():
        if not given and kind == "lacks-io-uring":
            answer(number, b"", NO_IO_URING, b"there is no io_uring")
        elif given and kind == "oopses":
            # the first serial port is a file
            with open(next(it for it in sys.argv if it.startswith("file:")).removeprefix("file:"), "a", encoding="utf-8") as console:
                console.write("BUG: kernel NULL pointer dereference\n")
            return 0
        else:
            kept.append((number, text_of(kind, given)))
        if kind != "late" or not given or len(kept) > 1:
            while kept:
                answer(*kept.pop())
    return 0
