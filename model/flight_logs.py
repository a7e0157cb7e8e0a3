"""Long logs of calls in flight (docs/inside/FLIGHT.md), legal ones and spoiled ones: a table of slots is played access by access."""
import random

NAMES = {"v": "61", "w": "6262"}
EBADF, ENFILE = "-9", "-23"


class Call:
    """A call of one request: its number, its kind and slot, and its answer, or None until its access is made."""

    def __init__(self, number, kind, slot):
        self.number, self.kind, self.slot, self.answer = number, kind, slot, None


class Log:
    """A log of `calls` calls, `width` at a time, at `slots` slots. Each call is a single request or a look."""

    def __init__(self, calls, width, slots, seed):
        self.random, self.size = random.Random(seed), slots
        self.slots, self.held, self.removed, self.running = [None] * slots, {}, [], []
        self.lines = [f"file {name} {content}" for name, content in NAMES.items()] + [f"call 1 sparse {slots}", "done 1.1 0"]
        self.next = 2
        while self.next < calls + 2 or self.running:
            if len(self.running) < width and self.next < calls + 2:
                self.begin()
            for _ in range(self.random.randrange(3)):
                self.access()
            self.answer(width)
            if self.random.random() < 0.3:
                self.close(2)

    def begin(self):
        share, slot, name = self.random.random(), self.random.randrange(self.size), "vw"[self.next % 2]
        kind = "look" if share < 0.5 else "open" if share < 0.7 else "any" if share < 0.8 else "close"
        words = {"look": f"look {slot}", "open": f"open {name} at {slot}", "any": f"open {name} any", "close": f"close {slot}"}[kind]
        self.running.append(Call(self.next, kind, slot))
        self.lines.append(f"call {self.next} {words}")
        self.next += 1

    def put(self, slot, file):
        if self.slots[slot]:
            self.removed.append(self.slots[slot])
        self.slots[slot] = file

    def access(self):
        """Makes the access of some call."""
        ready = [it for it in self.running if it.answer is None]
        if not ready:
            return
        call = self.random.choice(ready)
        found, file = self.slots[call.slot], (f"{call.number}.1.0", call.number % 2)
        if call.kind == "look":
            call.answer = f"0 {found[0]}" if found else EBADF
            if found:
                self.held[call.number] = found[0]
        elif call.kind == "open":
            call.answer = "0"
            self.put(call.slot, file)
        elif call.kind == "any":
            free = [at for at, it in enumerate(self.slots) if it is None]
            call.answer = str(self.random.choice(free)) if free else ENFILE
            if free:
                self.slots[int(call.answer)] = file
        else:
            call.answer = "0" if found else EBADF
            self.put(call.slot, None)

    def answer(self, width):
        """Writes the answer of some call whose access is made."""
        for call in self.running:
            if call.answer is None or self.random.random() >= 0.6 and len(self.running) < width:
                continue
            self.lines.append(f"done {call.number}.1 {call.answer}")
            if call.number in self.held:
                self.lines.append(f"free {call.number}")
                del self.held[call.number]
            self.running.remove(call)
            return

    def close(self, most):
        """Writes the closes of some removed files that no look holds."""
        free = [it for it in self.removed if it[0] not in self.held.values()]
        for file in self.random.sample(free, min(most, len(free))):
            self.removed.remove(file)
            self.lines.append(f"closed {file[0]} {'vw'[file[1]]}")


    def settled(self):
        """Returns the lines, then the closes of all removed files, and a wait for them."""
        return [*self.lines, *(f"closed {file} {'vw'[kind]}" for file, kind in self.removed), "settled"]


class Spoiler:
    """Spoils the lines of a log, from a position near a share of its length on. Each kind of fault yields logs. Not each of them is illegal."""

    def __init__(self, lines, share):
        self.lines, self.words = lines, [it.split() for it in lines]
        self.calls = {it[1]: it[2:] for it in self.words if it[0] == "call"}
        self.positions = {it[1]: at for at, it in enumerate(self.words) if it[0] == "call"}
        self.near = range(int(share * len(lines)), len(lines))

    def answers(self, kind, result, near=None):
        """Yields the position and the words of each answer of calls of a kind that begins with this result."""
        for at in near or self.near:
            word, *words = self.words[at]
            if word == "done" and kind in (self.calls[words[0].split(".")[0]][0], self.calls[words[0].split(".")[0]][-1]) and words[1] == result:
                yield at, words

    def but(self, at, answer, *without):
        """Returns the lines with another answer at a position, and without the lines that begin so."""
        lines = [*self.lines[:at], f"done {self.words[at][1]} {answer}", *self.lines[at + 1 :]]
        return [it for it in lines if not it.startswith(without)]

    def slot(self, words):
        return self.calls[words[0].split(".")[0]][1]

    def stale(self):
        """A look answers the file that an earlier look of its slot found."""
        for at, words in self.answers("look", "0"):
            for _, earlier in self.answers("look", "0", range(at - 30, 3, -1)):
                if self.slot(earlier) == self.slot(words) and earlier[2] != words[2]:
                    yield self.but(at, f"0 {earlier[2]}", f"closed {earlier[2]} ")
                    break

    def full(self):
        """An open at any slot answers that all are full. No look finds its file."""
        found = {it[3] for it in self.words if it[0] == "done" and len(it) == 4}
        for slot in range(16):
            for at, words in self.answers("any", str(slot)):
                if f"{words[0]}.0" not in found:
                    yield self.but(at, ENFILE, f"closed {words[0]}.0 ")

    def take(self):
        """A close that found nothing answers that it took a file."""
        return (self.but(at, "0") for at, _ in self.answers("close", EBADF))

    def take2(self):
        """The same while another close of the slot is open, which took a file."""
        for at, words in self.answers("close", EBADF):
            began = range(self.positions[words[0].split(".")[0]], at)
            if any(self.slot(other) == self.slot(words) for _, other in self.answers("close", "0", began)):
                yield self.but(at, "0")

    def untake(self):
        """A close that took a file answers that it found nothing."""
        return (self.but(at, EBADF) for at, _ in self.answers("close", "0"))

    def empty(self):
        """A look that found a file answers that it found nothing."""
        return (self.but(at, EBADF, f"free {words[0].split('.')[0]}") for at, words in self.answers("look", "0"))

    def early(self):
        """The answer of a look comes before the call that opens the file that it found."""
        for at, words in self.answers("look", "0"):
            opened = self.positions[words[2].split(".")[0]]
            if self.positions[words[0].split(".")[0]] < opened:
                yield [*self.lines[:opened], self.lines[at], *self.lines[opened:at], *self.lines[at + 1 :]]

    def bytes(self):
        """A read answers the bytes of a file that was closed long before, and that no other file has."""
        closed = {it[1] for it in self.words[: self.near.start // 2] if it[0] == "closed"}
        call = next(words[0].split(".")[0] for _, words in self.answers("open", "0", range(len(self.lines))) if f"{words[0]}.0" in closed)
        for look, found in self.answers("look", "0"):
            if self.slot(found) == self.calls[call][3]:
                number = found[0].split(".")[0]
                lines = self.but(look, "3 636363", f"free {number}")
                yield ["file x 636363"] + [self.opened_as_x(it, call, number) for it in lines]

    def opened_as_x(self, line, call, look):
        words = line.split()
        if words[:2] == ["call", call]:
            return f"call {call} open x {' '.join(words[4:])}"
        if words[:2] == ["call", look]:
            return f"call {look} read {words[3]} 0 3"
        return f"{' '.join(words[:2])} x" if words[:2] == ["closed", f"{call}.1.0"] else line

    def lost(self):
        """The close of a file is missing."""
        return (self.lines[:at] + self.lines[at + 1 :] for at in self.near if self.words[at][0] == "closed")


FAULTS = "stale", "full", "take", "untake", "take2", "empty", "early", "bytes", "lost"
