"""judge_tables FILE: writes the rows of bindings/rust_judge/tests/rows.txt, which describes their form, as judge_rows.h reads them: their number,
a struct of each with the places of its parts, and the parts. The structs of a log are made here and nowhere else: no binding is asked."""
import re
import struct
import sys
from pathlib import Path

ROWS = (Path(__file__).resolve().parents[2] / "bindings/rust_judge/tests/rows.txt").read_text().splitlines()
CALL, DONE, LOOK, FOUND, EMPTY, FREE, CLOSED, SETTLED = range(1, 9)
OPEN, OPEN_ANY, OPEN_MISSING, READ, CLOSE, UPDATE = range(1, 7)
# no limit of moves
ANY_MOVES = 2**64 - 1
# the structs of the library and of judge_rows.h: numbers, and where each part is and its length
EVENT, REQUEST, FILE, ROW = struct.Struct("<IIIiIIIIIIB3x"), struct.Struct("<IIIIBB2x"), struct.Struct("<4I"), struct.Struct("<12Q18Q")


def expanded(field):
    """Returns the bytes of a field."""
    field = re.sub(r"\{(\d+):([^}]*)\}", lambda it: int(it[1]) * it[2], field).replace("|", "\n")
    return re.sub(rb"%(..)", lambda it: bytes.fromhex(it[1].decode()), field.encode())


def rows():
    """Yields each row: its kind, whether only a stand-in answers it, the script above it, its limits, its number and its further fields."""
    script, above, is_refused = b"", "", False
    for line in ROWS:
        kind, *fields = line.split("\t")
        is_refused |= kind == "refused"
        if kind == "script":
            script = expanded(fields[0])
        elif kind in ("judge", "list", "log"):
            if kind == "log":
                above = fields[3] = above if fields[3] == "=" else fields[3]
            limits = [int(it) for it in fields[0].split()]
            yield kind, is_refused, script, [*limits, ANY_MOVES] if kind == "log" and len(limits) < 4 else limits, int(fields[1]), fields[2:]


class Log:
    """The structs of the lines of a log. Its calls are numbered from the registration on, 1; or as `numbers` has them, and then files."""

    def __init__(self, script, lines, numbers=None):
        files = re.findall(r"^file (\S+) (\S+)$", script.decode(), re.MULTILINE)
        self.names, self.files, self.bytes = [name for name, _ in files], b"", b""
        self.requests, self.entries, self.calls, self.looks, self.numbers = [], [], {}, set(), numbers
        for name, content in files:
            data = bytes.fromhex(content.replace("-", ""))
            self.files += FILE.pack(len(self.bytes), len(name), len(self.bytes) + len(name), len(data))
            self.bytes += name.encode() + data
        events = [self.event(*line.split(" "), line=line) for line in lines.decode().splitlines()]
        # a look may find the file of a later call
        self.events = [EVENT.pack(*(it if it[0] != FOUND else (*it[:7], *self.mark(it[7]), self.file(it[7]) or 0))) for it in events]

    def number(self, call):
        return call - 1 if self.numbers is None else self.numbers.setdefault(call, len(self.numbers))

    def request(self, kind, slot, *words):
        flags = {"link": 4, "hardlink": 8}.get(words[-1] if words else "", 0)
        if kind == "open":
            file = self.names.index(slot) if slot in self.names else None
            is_any = words[0] == "any"
            return OPEN_MISSING if file is None else OPEN_ANY if is_any else OPEN, 0 if is_any else int(words[1]), 0, 0, flags, file or 0
        if kind == "read":
            return READ, int(slot), int(words[0]), int(words[1]), flags | 1, 0
        if kind == "update":
            first, listed = len(self.entries), [int(it) for it in words[0].split(",")]
            self.entries += listed
            return UPDATE, int(slot), first, len(listed), flags, 0
        return CLOSE, int(slot), 0, 0, flags, 0

    def file(self, mark):
        """Returns the file of a mark, or None if its request installs none."""
        call, member, entry = map(int, mark.split("."))
        its = self.calls.get(call, [])
        kind, _, first, count, _, file = its[member - 1] if 1 <= member <= len(its) else (0,) * 6
        if kind == UPDATE:
            file = self.entries[first + entry] if entry < count else -1
        return file if kind in (OPEN, OPEN_ANY) and not entry or kind == UPDATE and 0 <= file < len(self.names) else None

    def mark(self, mark):
        call, *more = map(int, mark.split("."))
        return self.number(call), *more

    def event(self, word, number="0", *words, line):
        call = int(number.split(".")[0])
        if word == "call" and words[0] == "look":
            self.looks.add(call)
            return LOOK, self.number(call), 0, 0, int(words[1]), *(0,) * 6
        if word == "call":
            first = len(self.requests)
            self.calls[call] = [self.request(*it.split(" ")) for it in line.split(" ", 2)[2].split(" ; ")]
            self.requests += self.calls[call]
            return CALL, self.number(call), 0, 0, 0, first, len(self.calls[call]), *(0,) * 4
        if word == "done" and call in self.looks:
            return FOUND if words[0] == "0" else EMPTY, self.number(call), *(0,) * 5, *(words[1:] or (0,) * 4)
        if word == "done":
            first, got = len(self.bytes), bytes.fromhex(words[1] if len(words) > 1 else "")
            self.bytes += got
            return DONE, self.number(call), int(number.split(".")[1]), int(words[0]), 0, first, len(got), *(0,) * 4
        if word == "closed":
            file = self.file(number)
            is_there = file is not None and self.names[file] == words[0]
            return CLOSED, *(0,) * 6, *(self.mark(number) if is_there else (0,) * 3), file if is_there else 0
        return {"free": FREE, "settled": SETTLED}[word], self.number(call) if word == "free" else 0, *(0,) * 9

    def parts(self):
        requests = b"".join(REQUEST.pack(*it) for it in self.requests)
        packed = self.files, requests, struct.pack(f"<{len(self.entries)}i", *self.entries), self.bytes, b"".join(self.events)
        return list(zip(packed, map(len, (self.names, self.requests, self.entries, self.bytes, self.events))))


def packed(kind, is_refused, script, numbers, number, fields):
    """Returns the numbers of a row, and its parts, each with its length: the script, the text, the note, the lengths of texts, and those of a
    log."""
    slots, states, memory, moves = numbers if kind == "log" else (0, *numbers, 0)
    values = [int(it) for it in fields[0].split()]
    commands, at, submission, line, fault, note, lengths, log = 0, 0, 0, values[-1], 0, b"", [], [(b"", 0)] * 5
    if kind == "judge":
        (commands, at, submission, line), note, text = values, expanded(fields[1]), expanded(fields[2])
    elif kind == "list":
        texts = expanded(fields[1]).split(b"^")[:-1]
        lengths, text = list(map(len, texts)), b"".join(texts)
    else:
        (at, fault), lines = values, expanded(fields[1])
        log = Log(script, lines).parts()
        # a text is read where the module yachtlog reads it, and judged as its events are
        is_log = is_refused or number < 3 and b" -12\n" not in lines and 0 < slots <= 1_048_576
        text = b"%scall 1 sparse %d\ndone 1.1 0\n%s" % (script, slots, lines) if is_log else b""
        line, script = script.count(b"\n") + 3 + at if number == 1 else 0, b""
    head = [("judge", "list", "log").index(kind), is_refused, slots, states, memory, moves, number, commands, at, submission, line, fault]
    return head, [(script, len(script)), (text, len(text)), (note, len(note)), (struct.pack(f"<{len(lengths)}Q", *lengths), len(lengths)), *log]


def write(path, those):
    """Writes rows, each of its numbers and its parts."""
    table, data, at = bytearray(), bytearray(), 8 + ROW.size * len(those)
    for head, parts in those:
        places = []
        for content, length in parts:
            places += [at + len(data), length]
            data += content + bytes(1 + -(len(content) + 1) % 8)
        table += ROW.pack(*head, *places)
    Path(path).write_bytes(struct.pack("<Q", len(those)) + table + data)


if __name__ == "__main__":
    write(sys.argv[1], [packed(*it) for it in rows()])
