"""Reads the lines that `fixcheck --history` prints, for scripts/draw-history: files, events, calls and requests, by rows."""
import collections
import re
from dataclasses import dataclass, field

EVENT = re.compile(r"(Look|Release|Put|Clear|Take|Allocate|Full|Close)(?:\((.*)\))?(?: tag (\d+))?")
ANSWER = re.compile(r"(?:(.*) )?answers (.*)")
REQUEST = re.compile(r"(\d+)\.(\d+)\.(\d+)")
# after so many rows the heads of chains are repeated
ROWS_OF_A_HEAD = 40


class NoHistory(Exception):
    """The lines are not a history, the text is not that of the history, or the history has nothing that is asked for."""


@dataclass
class File:
    """A file from its installation to its close, by rows; `nth` counts the files from 0."""

    mark: str
    name: str
    slot: int
    nth: int
    installed: int
    removed: int = None
    closed: int = None
    # the rows of each look-up and its release
    holds: list = field(default_factory=list)


@dataclass
class Box:
    """A request or a call, by its first and last row. A request has a place."""

    who: str
    words: str
    answer: str
    first: int
    last: int

    def place(self):
        """Returns the submission, the chain and the member of a request, or None for a call."""
        found = REQUEST.fullmatch(self.who)
        return found and tuple(map(int, found.groups()))


@dataclass
class Row:
    """An event, with its slot and its file if it has them."""

    row: int
    who: str
    word: str
    slot: int = None
    file: File = None


@dataclass
class Span:
    """The rows, from `begin` to `end` or the last one, in which there is a table of `size` slots with an allocation range."""

    size: int
    range: tuple
    begin: int
    end: int = None


@dataclass
class Part:
    """Slots, and the chains at them, each by its submission and its number in it."""

    slots: set
    chains: set

    def has(self, who):
        found = REQUEST.fullmatch(who)
        return found is not None and (int(found[1]), int(found[2])) in self.chains


class History:
    """The lines of a history, by rows."""

    def __init__(self, lines):
        self.files, self.boxes, self.events, self.heads, self.spans = {}, [], [], {}, []
        self.rows, self.submission, self.headed, self.begun = 0, None, 0, {}
        if lines[:1] != ["legal"]:
            raise NoHistory("the first line isn't `legal`")
        for nth, line in enumerate(lines[1:], 2):
            if not self.take(line.rpartition(" | ")[0].rstrip()):
                raise NoHistory(f"line {nth} is not a line of a history")
        for who, first in self.begun.items():
            # the end of the script answers nothing
            self.boxes.append(Box(who, who, "", first, self.rows - 1))

    def table(self):
        """Returns the span of the current table, or None."""
        return self.spans[-1] if self.spans and self.spans[-1].end is None else None

    def take(self, line):
        who, _, rest = line.partition(" ")
        place = REQUEST.fullmatch(who)
        if place and (place[1] != self.submission or (not self.begun and self.rows - self.headed >= ROWS_OF_A_HEAD)):
            self.submission = place[1]
            self.headed = self.next_row()
            self.heads[self.headed] = int(place[1])
        if event := EVENT.fullmatch(rest):
            self.take_event(who, *event.groups())
        elif answer := ANSWER.fullmatch(rest):
            self.take_answer(who, place, *answer.groups())
        return event or answer

    def next_row(self):
        self.rows += 1
        return self.rows - 1

    def take_event(self, who, word, words, tag):
        row = self.next_row()
        self.begun.setdefault(who, row)
        if not self.table():
            # a registered list puts its files before it answers
            self.spans.append(Span(0, None, row))
        slot, file, found = self.words_of_event(word, (words or "").split(", "))
        if found:
            self.files[found].removed = row
        if word in ("Put", "Allocate"):
            mark, _, name = file.partition(" ")
            self.files[mark] = File(mark, name, slot, len(self.files), row)
            file = mark
        it = self.files.get(file)
        if word == "Look" and it:
            it.holds.append((row, row))
        elif word == "Release":
            it.holds[-1] = (it.holds[-1][0], row)
        elif word == "Close":
            it.closed = row
        self.events.append(Row(row, who, word + (f", tag {tag}" if tag else ""), it.slot if it else slot, it))

    @staticmethod
    def words_of_event(word, words):
        """Returns the slot of an event, its file, and the file that it removes."""
        some = [None if it == "none" else it for it in words]
        if word == "Full":
            return None, None, None
        slot = None if word in ("Release", "Close") else int(some.pop(0))
        return slot, some[0], some[-1] if word in ("Put", "Clear", "Take") else None

    def take_answer(self, who, place, words, answer):
        first = self.begun.pop(who, None)
        if first is None:
            first = self.next_row()
        words = words or ""
        self.boxes.append(Box(who, words if place else f"{who} {words}".rstrip(), answer, first, self.rows - 1))
        if not place and not answer.startswith("-"):
            self.follow_call(who, words, first)

    def follow_call(self, who, words, first):
        """Applies the changes of an accepted call to the table and its range."""
        table = self.table()
        if who in ("sparse", "register"):
            size = int(words) if who == "sparse" else words.split(" ")[0].count(",") + 1
            if not table:
                table = Span(size, None, first)
                self.spans.append(table)
            table.size, table.range = size, (0, size)
        elif who == "range" and table:
            off, length = map(int, words.split(" "))
            table.end = self.rows - 1
            self.spans.append(Span(table.size, (off, off + length), self.rows - 1))
        elif who == "unregister" and table:
            table.end = self.rows - 1

    def size(self):
        return max((it.size for it in self.spans), default=0)

    def slots(self):
        """Returns the slots that an event concerns, and all of a small allocation range that an allocation found full."""
        some = {it.slot for it in self.events if it.slot is not None}
        if any(it.word == "Full" for it in self.events):
            some |= {slot for span in self.spans if span.range and span.range[1] - span.range[0] <= 8 for slot in range(*span.range)}
        return sorted(some)

    def places(self):
        return [it.place() for it in self.boxes if it.place()]

    def chains(self):
        return max((chain for _, chain, _ in self.places()), default=1)

    def slots_of_event(self, event):
        """Returns the slots on which an event depends: for an open at any slot those of the allocation range."""
        if event.word not in ("Allocate", "Full"):
            return {event.slot} - {None}
        spans = [it for it in self.spans if it.range and it.begin <= event.row]
        return set(range(*spans[-1].range)) if spans else set()

    def parts(self, some):
        """Returns the parts of `some`, of which no two share a slot, in the order of their first chains."""
        slots_of = {chain: set() for chain in sorted(some.chains)}
        for event in self.events:
            place = REQUEST.fullmatch(event.who)
            chain = place and (int(place[1]), int(place[2]))
            if chain in slots_of:
                slots_of[chain] |= self.slots_of_event(event) & some.slots
        parts = []
        for chain, slots in slots_of.items():
            joined = Part(set(slots), {chain})
            for it in [it for it in parts if it.slots & joined.slots]:
                parts.remove(it)
                joined = Part(it.slots | joined.slots, it.chains | joined.chains)
            parts.append(joined)
        # slots that no chain uses, and chains that use no slot, go with the first part
        others = [it for it in parts if not it.slots]
        parts = sorted((it for it in parts if it.slots), key=lambda it: min(it.chains)) or [Part(set(), set())]
        parts[0].chains |= {chain for it in others for chain in it.chains}
        parts[0].slots |= some.slots - {slot for it in parts for slot in it.slots}
        return parts

    def text_lines(self):
        """Returns the lines of the text, without the bytes of reads and `teardown`."""
        lines = [f"{it.who if it.place() else it.who.split(' ')[0]} {it.answer}" for it in self.boxes if it.answer]
        for it in self.events:
            if it.word.startswith("Close"):
                lines.append(f"closed {it.file.mark} {it.file.name}")
                lines += [f"tag {it.word.split(' ')[-1]}"] if "tag" in it.word else []
        return lines

    def want_text(self, text):
        """Raises NoHistory unless the lines of a text are those of the history, and each read has as many bytes as it says."""
        found = collections.Counter()
        for line in text.splitlines():
            words = line.split(" ")
            has_bytes = len(words) == 3 and REQUEST.fullmatch(words[0]) and words[1].isdigit()
            if has_bytes and len(words[2]) != 2 * int(words[1]):
                raise NoHistory(f"the text is not that of the history: {line[:60]!r} has another number of bytes")
            found[" ".join(words[:2]) if has_bytes else line] += line != "teardown"
        wanted = collections.Counter(self.text_lines())
        for differs, what in ((found - wanted, "the text has"), (wanted - found, "the text lacks")):
            if differs:
                raise NoHistory(f"the text is not that of the history: {what} {next(iter(differs))!r}")
