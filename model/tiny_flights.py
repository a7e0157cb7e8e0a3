"""Tiny random logs of calls in flight (docs/inside/FLIGHT.md), as they happened and spoiled, and a search of all orders that decides whether one is
legal. Written from docs/inside/FLIGHT.md and docs/inside/MODEL.md alone; tests/check-flights compares the judge with it."""
import random

from model.model import Player, submitted

NAMES = {"a": "61", "b": "6262", "c": "63"}
ENTRIES = list(NAMES)
EBADF, ENFILE, ECANCELED = "-9", "-23", "-125"
NEVER = 10**9


class Table(Player):
    """A table of empty slots. `closed` has the files that left them, in order."""

    def __init__(self, size):
        super().__init__([(name, bytes.fromhex(content)) for name, content in NAMES.items()])
        self.slots, self.range = [None] * size, (0, size)

    def removed(self):
        """Returns the marks and the names of the files that left their slots."""
        return [(mark_of(it), self.names[it[1]]) for it in self.closed]

    def next_entry(self, place, off, entries, done):
        """An update makes an access for each entry that isn't -2; `done` entries are done."""
        refusal, left = self.refusal_of_list(off, entries), [at for at, it in enumerate(entries) if at >= done and it != -2]
        if refusal or not left:
            return [(self, 0, str(refusal or len(entries)))]
        after, at = self.copy(), left[0]
        after.work_off(off + at, [entries[at]], lambda _: submitted(place, at))
        return [(after, at + 1, str(len(entries)) if len(left) == 1 else None)]

    def ways(self, words, place, done):
        """Returns the ways of a request's next access: the table, the entries that are done, and the last one's answer."""
        kind, numbers = words[0], [int(it) for it in words[1:] if it.isdigit()]
        if kind in ("update", "regupdate"):
            return self.next_entry(place, int(words[1]), list(map(int, words[2].split(","))), done)
        if kind == "look":
            file = self.slots[numbers[0]]
            return [(self, 0, f"0 {mark_of(file)}" if file else EBADF)]
        is_any, ways = words[2:3] == ["any"], []
        request = (kind, words[1], None if is_any else numbers[0]) if kind == "open" else (kind, *numbers)
        # an open at any slot may take each free one
        for slot in is_any and self.free_slots() or [None]:
            after = self.copy()
            after.wanted = slot
            res, got = after.perform(place, request)
            ways.append((after, 0, f"{res} {got.hex()}".strip()))
        return ways


def mark_of(file):
    return ".".join(map(str, file[0][1:]))


def severs(words, answer):
    result = int(answer.split()[0])
    return words[-1] == "link" and (result < 0 or (words[0] == "read" and result < int(words[3])))


class Search:
    """A search of all orders of the accesses of a log. With `is_whole` nothing comes between the accesses of an update."""

    def __init__(self, lines, is_whole=False):
        self.is_whole = is_whole
        self.calls, self.done, self.points, self.size = {}, {}, [], 0
        self.found, self.freed = {}, {}
        for at, line in enumerate(lines):
            word, *rest = line.split()
            if word == "call" and rest[1] == "sparse":
                self.size = int(rest[2])
            elif word == "call":
                self.calls[rest[0]] = at, [it.split() for it in line.split(" ", 2)[2].split(" ; ")]
            elif word == "done" and rest[0] != "1.1":
                call, member = rest[0].split(".")
                if int(member) > 1 and f"{call}.{int(member) - 1}" not in self.done:
                    raise KeyError("an answer before that of the member before it")
                self.done[rest[0]] = at, " ".join(rest[1:])
                self.note_hold(at, rest)
            elif word == "free":
                if rest[0] not in self.found:
                    raise KeyError("the end of a hold that isn't there")
                self.freed[rest[0]] = at
            elif word in ("closed", "settled"):
                members = [f"{call}.{nth}" for call, (_, chain) in self.calls.items() for nth in range(1, len(chain) + 1)]
                if word == "settled" and any(it not in self.done for it in members):
                    raise KeyError("a call is open")
                self.points.append((at, word, rest))

    def note_hold(self, at, rest):
        call = rest[0].split(".")[0]
        if self.calls[call][1][0][0] == "look" and len(rest) == 3:
            self.found[call] = at, rest[2]

    def is_held(self, at, mark):
        """Whether a look that was answered this file before the line has not begun to end its hold. No look answers a closed file."""
        return any(mark == it and (at < answered or at < self.freed.get(call, NEVER)) for call, (answered, it) in self.found.items())

    def answered(self, call, member):
        return self.done.get(f"{call}.{member + 1}", (NEVER, None))

    def is_legal(self):
        return self.rest(Table(self.size), {it: (0, 0) for it in self.calls}, 0, frozenset())

    def rest(self, table, places, point, closed):
        """Whether the accesses that are left have an order. `places` has each call's member and the number of its entries done."""
        open_members = [self.answered(call, member)[0] for call, (member, _) in places.items() if member < len(self.calls[call][1])]
        at = self.points[point][0] if point < len(self.points) else NEVER
        # no access of a call that begins after this line may come now
        first = min([at, *open_members])
        if first == NEVER:
            return True
        is_amid = self.is_whole and any(entries for _, entries in places.values())
        if first == at and not is_amid and self.may_come(table, point, closed):
            _, word, words = self.points[point]
            if self.rest(table, places, point + 1, closed | ({words[0]} if word == "closed" else set())):
                return True
        steps = ((call, *place) for call, place in places.items() if place[0] < len(self.calls[call][1]) and self.calls[call][0] < first)
        if is_amid:
            steps = ((call, *place) for call, place in places.items() if place[1])
        return any(self.step(table, places, point, closed, *it) for it in steps)

    def may_come(self, table, point, closed):
        at, word, words = self.points[point]
        removed = {mark for mark, _ in table.removed()}
        if word == "settled":
            return removed == closed
        return words[0] in removed and words[0] not in closed and not self.is_held(at, words[0])

    def step(self, table, places, point, closed, call, member, done):
        requests = self.calls[call][1]
        for after, entries, answer in table.ways(requests[member], (int(call), member + 1), done):
            place = (member, entries)
            if answer is not None:
                if self.answered(call, member)[1] not in (None, answer):
                    continue
                place = (member + 1, 0)
                if severs(requests[member], answer):
                    rest = [self.answered(call, it)[1] for it in range(member + 1, len(requests))]
                    if any(it not in (None, ECANCELED) for it in rest):
                        continue
                    place = (len(requests), 0)
            if self.rest(after, {**places, call: place}, point, closed):
                return True
        return False


def is_legal(lines, is_whole=False):
    return Search(lines, is_whole).is_legal()


def request(rng, size):
    slot, entry = rng.randrange(size + (rng.random() < 0.1)), rng.choice(["-1", "-2", "0", "1", "2"])
    return rng.choice([f"open {rng.choice(ENTRIES)} at {slot}", f"open {rng.choice(ENTRIES)} any", f"read {slot} 0 1", f"read {slot} 0 2",
                       f"close {slot}", f"update 0 {entry},{rng.choice(['-1', '-2', '0'])}", f"regupdate {slot} {entry}"])


class Play:
    """Plays a few random calls in flight, and writes their log."""

    def __init__(self, rng):
        self.rng, self.size = rng, rng.choice([1, 2, 2])
        self.lines, self.table, self.closed = [f"call 1 sparse {self.size}", "done 1.1 0"], Table(self.size), set()
        self.todo = [self.call(str(it)) for it in range(2, 2 + rng.randrange(2, 5))]
        self.running, self.answers, self.held = {}, [], {}

    def call(self, number):
        if self.rng.random() < 0.25:
            return number, [f"look {self.rng.randrange(self.size)}"]
        chain = [request(self.rng, self.size) for _ in range(self.rng.choice([1, 1, 2]))]
        links = [self.rng.choice([" link", " link", " hardlink"]) for _ in chain[1:]] + [""]
        return number, [it + link for it, link in zip(chain, links)]

    def log(self):
        """Makes at most 400 moves, and none after a log that is settled twice: no call is left then."""
        moves = [self.begin, self.access, self.access, self.answer, self.answer, self.answer, self.close]
        for _ in range(400):
            self.rng.choice(moves)()
            if not self.todo and self.lines[-2:] == ["settled"] * 2:
                break
        return self.lines

    def begin(self):
        if self.todo:
            number, requests = self.todo.pop(0)
            self.lines.append(f"call {number} " + " ; ".join(requests))
            self.running[number] = 0, 0, requests

    def access(self):
        open_calls = [it for it, (member, _, requests) in self.running.items() if member < len(requests)]
        if not open_calls:
            return
        call = self.rng.choice(open_calls)
        member, done, requests = self.running[call]
        words = requests[member].split()
        self.table, done, answer = self.rng.choice(self.table.ways(words, (int(call), member + 1), done))
        if answer is not None:
            self.answers.append((call, member + 1, answer))
            member, done = member + 1, 0
            if words[0] == "look" and answer != EBADF:
                self.held[call] = answer.split()[1]
            if severs(words, answer):
                self.answers += [(call, it + 1, ECANCELED) for it in range(member, len(requests))]
                member = len(requests)
        self.running[call] = member, done, requests

    def answer(self):
        firsts = [it for it in self.answers if not any(other[0] == it[0] and other[1] < it[1] for other in self.answers)]
        if firsts:
            call, member, answer = self.rng.choice(firsts)
            self.answers.remove((call, member, answer))
            self.lines.append(f"done {call}.{member} {answer}")
        elif self.held:
            call = self.rng.choice(list(self.held))
            del self.held[call]
            self.lines.append(f"free {call}")

    def close(self):
        late = [it for it in self.table.removed() if it[0] not in self.closed | set(self.held.values())]
        if late:
            mark, name = self.rng.choice(late)
            self.closed.add(mark)
            self.lines.append(f"closed {mark} {name}")
        elif not self.answers and not self.held and all(member == len(it) for member, _, it in self.running.values()) and self.rng.random() < 0.3:
            if {mark for mark, _ in self.table.removed()} == self.closed:
                self.lines.append("settled")


class PlayOfUpdates(Play):
    """The same at two slots, of at most three calls: updates of both slots, and reads and looks."""

    def __init__(self, rng):
        super().__init__(rng)
        self.size, self.lines[0], self.table = 2, "call 1 sparse 2", Table(2)
        self.todo = self.todo[:3]

    def call(self, number):
        entries, slot = [self.rng.choice(["-1", "0", "1", "2"]) for _ in range(2)], self.rng.randrange(2)
        update, reads = f"update 0 {','.join(entries)}", [f"read {slot} 0 1 hardlink", f"read {1 - slot} 0 1"]
        return number, self.rng.choice([[update], [update], [f"look {slot}"], reads])


def move(rng, lines, at, first, end):
    """Moves a line to a place from `first` up to and without `end`."""
    if first < end:
        lines.insert(rng.randrange(first, end), lines.pop(at))


def spoil(rng, lines):
    """Changes an answer, or loses, moves or repeats a line."""
    lines = list(lines)
    kinds = {kind: [at for at, line in enumerate(lines) if at > 1 and line.startswith(kind)] for kind in ("done", "closed", "call", "free")}
    way = rng.randrange(7)
    if way <= 1 and kinds["done"]:
        at = rng.choice(kinds["done"])
        wrong = rng.choice(["0", EBADF, "1 61", "1 62", ENFILE, "1", "2 6262", ECANCELED, "0 2.1.0", "0 3.1.0"])
        lines[at] = f"done {lines[at].split()[1]} {wrong}"
    elif way == 2 and kinds["closed"]:
        del lines[rng.choice(kinds["closed"])]
    elif way == 3 and kinds["closed"]:
        move(rng, lines, rng.choice(kinds["closed"]), 2, len(lines))
    elif way == 4 and kinds["closed"]:
        at = rng.choice(kinds["closed"])
        lines.insert(rng.randrange(at + 1, len(lines) + 1), lines[at])
    elif way == 5 and kinds["free"]:
        move(rng, lines, rng.choice(kinds["free"]), 2, len(lines))
    elif kinds["done"]:
        at = rng.choice(kinds["done"])
        move(rng, lines, at, 2, at + 1)
    return lines


def logs(seed, count, play=Play):
    """Yields random logs: each third one as it happened, and else spoiled one to three times."""
    rng = random.Random(seed)
    for nth in range(count):
        lines = play(rng).log()
        for _ in range(rng.choice([1, 2, 3]) if nth % 3 else 0):
            lines = spoil(rng, lines)
        yield nth % 3 == 0, lines
