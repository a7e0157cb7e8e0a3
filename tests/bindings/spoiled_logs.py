"""spoiled_logs FILE: writes rows of texts (judge_rows.h) for the reader of logs in C: those of tests/log_lines.py, and logs each line of which is
left out, doubled, and changed in a byte or a word. What each text is, the module yachtlines decides, which shares nothing with the reader."""
import random
import re
import sys

import yachtlines
from judge_tables import ANY_MOVES, Log, write
from model import flight_logs, tiny_flights
from tests import log_lines

NOT_A_LOG, KERNEL_LOG, LONGEST = 9, 10, 20_000
HEAD = "file a 61\nfile b 6262\n"
# lines of which each kind of request, answer and file has some
ALL = HEAD + (
    "call 1 sparse 2|done 1.1 0|call 0 open b any link ; read 0 1 2 hardlink ; close 0|call 7 update 0 -2,0,2|"
    "call 5 open missing at 1|call 8 update 1 1|call 4294967295 look 1|done 0.1 0|done 4294967295.1 0 7.1.1|done 7.1 3|done 8.1 1|"
    "done 0.2 2 6f2A|free 4294967295|closed 7.1.1 a|done 5.1 -2|done 0.3 -125|call 9 look 0|done 9.1 0 11.1.0|call 11 open a at 0|"
    "done 11.1 0|closed 9.1.0 a|call 12 look 0|call 13 look 0|done 13.1 0 7.1.2|done 12.1 0 0.1.1|call 14 look 0|done 14.1 0 7.1.3|"
    "call 15 close 0 link ; close 0|done 15.1 -12|done 15.2 -12|settled|"
).replace("|", "\n")
SHOWN = "x'", 'x"', "x'\"", "x\\", 40 * "x", 41 * "x"
BYTES = b" .,;-_0129aflAF'\"\\\r\t\x00\x7f\xe9"
WORDS = b"call done free closed file settled open at any look close read update link hardlink ; 0 1 2 -9 2.1.0 0.0.0 1.1.0 a - 4294967296 00 61 6g".split()


def changed(line, chance):
    """Returns a line with another byte or word, or one more or less."""
    if chance.random() < 0.5:
        at = chance.randrange(len(line) + 1)
        return line[:at] + bytes(chance.sample(BYTES, chance.randrange(2))) + line[at + chance.randrange(2) :]
    words = line.split(b" ")
    at = chance.randrange(len(words))
    words[at : at + chance.randrange(2)] = [chance.choice(WORDS)]
    return b" ".join(words)


def texts():
    """Yields the texts."""
    rows = [it if isinstance(it, bytes) else it.encode() for it, *_ in log_lines.ROWS]
    yield from rows
    yield from (f"{it}\n".encode() for it in SHOWN)
    yield from (f"{HEAD}call 1 sparse 2\ndone 1.1 0\ncall 2 {it}\n".encode() for it in ("link", "close 0 link; close 0", "regupdate 0 0", log_lines.INSTALLS[:-2] + ",-1"))
    yield "\n".join([*flight_logs.Log(100, 4, 3, 1).lines, ""]).encode()
    logs = [ALL, log_lines.OF_PAGE, "\n".join([*flight_logs.Log(25, 4, 3, 1).lines, ""])]
    logs += [HEAD + "\n".join([*it, ""]) for _, it in tiny_flights.logs(1, 8, tiny_flights.PlayOfUpdates)]
    chance = random.Random(1)
    for lines in (it.encode().split(b"\n")[:-1] for it in logs):
        for nth, line in enumerate(lines):
            for those in ([], [line, line], *([changed(line, chance)] for _ in range(10))):
                yield b"".join(it + b"\n" for it in [*lines[:nth], *those, *lines[nth + 1 :]])
        yield b"\n".join(lines)


def row(text, nth):
    """Returns the row of a text, whose judge answers the number `nth` % 3, in an order of its own."""
    kernel = re.search(rb"^(pipe|tag|fed|call .*\bregupdate)\b", text, re.MULTILINE)
    number, line, note, log = nth % 3, 0, b"", [(b"", 0)] * 5
    at = nth % 5 if number == 1 else 0
    if kernel:
        number, line, at, read = KERNEL_LOG, text.count(b"\n", 0, kernel.start()) + 1, 0, None
    try:
        read = yachtlines.Lines(text)
    except yachtlines.BadLog as fault:
        if not kernel or fault.line < line:
            number, line, note, at, kernel = NOT_A_LOG, fault.line, fault.why.encode(), 0, True
    if not kernel:
        lines = text.split(b"\n")
        head = 2 + len(read.names)
        log = Log(b"\n".join([*lines[: head - 2], b""]), b"\n".join(lines[head:]), {it: at for at, it in enumerate(read.chains)})
        log.events = log.events[: read.lacking - head - 1] if read.lacking else log.events
        parts, line = log.parts(), head + 1 + at if number == 1 else read.lacking
        log = [*parts[:4], (parts[4][0], len(log.events))]
    slots, said = (0, number) if kernel else (read.slots, 2 if number != 1 and read.lacking else number)
    return [3, 0, slots, nth, nth, ANY_MOVES - nth, said, number, at, 0, line, 0], [(b"", 0), (text, len(text)), (note, len(note)), (b"", 0), *log]


if __name__ == "__main__":
    found = dict.fromkeys(it for it in texts() if len(it) <= LONGEST)
    write(sys.argv[1], [row(it, nth) for nth, it in enumerate(found)])
