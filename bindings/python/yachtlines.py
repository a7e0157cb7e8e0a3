"""The lines of a log of calls in flight (docs/inside/FLIGHT.md): reads them into calls, answers and events, or names the first line that no log
has there. The module yachtlog judges what is read here."""
from __future__ import annotations

import re
from collections.abc import Iterable, Iterator
from typing import NamedTuple

__all__ = ["Answer", "BadLog", "Event", "Lines", "Mark", "NO_FILE", "Request"]

# the limits of a request, of a chain, of a catalogue and of a table (docs/use/LIMITS.md), and of numbers, which have 32 bits
READ_BYTES, UPDATE_ENTRIES, MEMBERS, INSTALLS = 4_096, 16, 16, 64
FILES, FILE_BYTES, NAME_LENGTH, SLOTS = 256, 4_096, 32, 1_048_576
LARGEST, LARGEST_INT = 2**32 - 1, 2**31 - 1
NUMBER, INTEGER = re.compile(r"0|[1-9][0-9]{0,9}"), re.compile(r"0|-?[1-9][0-9]{0,9}")
NAME, BYTES = re.compile(rf"[A-Za-z0-9._-]{{1,{NAME_LENGTH}}}"), re.compile("([0-9A-Fa-f]{2})+")
EBADF, ENOMEM = -9, -12

# the call, the member and the entry that installed a file; and a mark that no file has
Mark = tuple[int, int, int]
NO_FILE: Mark = (0, 0, 0)


class BadLog(ValueError):
    """The text is not a log. `line` is the first line that no log has there, from 1, and `why` the reason."""

    line: int
    why: str

    def __init__(self, line: int, why: str) -> None:
        super().__init__(f"line {line}: {why}")
        self.line, self.why = line, why


class Request(NamedTuple):
    """A request of a chain, or a look. `slot` is the first one of an update, and None for an open at any slot; `first` and `count` are the
    bytes of a read; `link` is 'link', 'hardlink' or ''."""

    kind: str
    slot: int | None
    name: str = ""
    first: int = 0
    count: int = 0
    entries: tuple[int, ...] = ()
    link: str = ""


class Answer(NamedTuple):
    """An answer: its result, and the bytes of a read in hexadecimal, or the mark of the file that a look found."""

    result: int
    found: str | Mark = ""


class Event(NamedTuple):
    """An event: its line, its word, and the call and the member that it is of, or the mark of the file that was closed."""

    line: int
    word: str
    call: int = 0
    member: int = 0
    mark: Mark = NO_FILE


class _Fault(Exception):
    """Why a line is not one of a log."""


def _want(holds: object, why: str) -> None:
    if not holds:
        raise _Fault(why)


def _shown(word: str) -> str:
    """Returns a word of a line as a fault prints it: in quotes, at most 40 characters of it, without control characters."""
    return ascii(word if len(word) <= 40 else word[:40] + "..")


def _number(word: str, what: str) -> int:
    if NUMBER.fullmatch(word):
        number = int(word)
        if number <= LARGEST:
            return number
    raise _Fault(f"{what} is a number from 0 to {LARGEST}, not {_shown(word)}")


def _integer(word: str, what: str) -> int:
    if INTEGER.fullmatch(word):
        number = int(word)
        if -LARGEST_INT - 1 <= number <= LARGEST_INT:
            return number
    raise _Fault(f"{what} is a number from {-LARGEST_INT - 1} to {LARGEST_INT}, not {_shown(word)}")


def _words(text: str, count: int, form: str) -> list[str]:
    words = text.split(" ")
    _want(len(words) == count and all(words), f"the line has the form `{form}`")
    return words


def _mark(word: str) -> Mark:
    parts = word.split(".")
    _want(len(parts) == 3, f"a file is named by its call, member and entry, such as 2.1.0, not by {_shown(word)}")
    call, member, entry = (_number(it, "each part of a file's name") for it in parts)
    return call, member, entry


def _request(text: str) -> Request:
    """Reads a request."""
    words = text.split(" ")
    link = words.pop() if len(words) > 1 and words[-1] in ("link", "hardlink") else ""
    kind, rest = words[0], words[1:]
    _want(all(rest), f"words are separated by one space: {_shown(text)}")
    if kind == "open" and rest[1:2] == ["any"] and len(rest) == 2:
        return Request(kind, None, name=_name(rest[0]), link=link)
    if kind == "open" and rest[1:2] == ["at"] and len(rest) == 3:
        return Request(kind, _number(rest[2], "a slot"), name=_name(rest[0]), link=link)
    if kind in ("close", "look") and len(rest) == 1:
        return Request(kind, _number(rest[0], "a slot"), link=link)
    if kind == "read" and len(rest) == 3:
        slot, first, count = map(_number, rest, ("a slot", "an offset", "a length"))
        _want(count <= READ_BYTES, f"a read has at most {READ_BYTES} bytes, not {count}")
        return Request(kind, slot, first=first, count=count, link=link)
    if kind in ("update", "regupdate") and len(rest) == 2:
        entries = tuple(_integer(it, "an entry") for it in rest[1].split(","))
        _want(len(entries) <= UPDATE_ENTRIES, f"an update has at most {UPDATE_ENTRIES} entries, not {len(entries)}")
        return Request("update", _number(rest[0], "a slot"), entries=entries, link=link)
    raise _Fault(f"no request has the words {_shown(text)}")


def _written(it: Request) -> str:
    """Returns the words of a request."""
    if it.kind == "open":
        words = ["open", it.name, "any" if it.slot is None else f"at {it.slot}"]
    else:
        numbers = [it.first, it.count] if it.kind == "read" else [",".join(map(str, it.entries))] if it.kind == "update" else []
        words = [it.kind, str(it.slot), *map(str, numbers)]
    return " ".join(filter(None, [*words, it.link]))


def _name(word: str) -> str:
    _want(NAME.fullmatch(word), f"a name has 1 to {NAME_LENGTH} letters, digits, `.`, `_` or `-`: {_shown(word)}")
    return word


def _chain(text: str) -> list[Request]:
    """Reads the requests of a call: a look, or one chain."""
    chain = [_request(it) for it in text.split(" ; ")]
    _want(len(chain) <= MEMBERS, f"a chain has at most {MEMBERS} requests, not {len(chain)}")
    if len(chain) > 1 or chain[0].link:
        _want(all(it.kind != "look" for it in chain), "a look is a call of its own, without a link")
    for nth, it in enumerate(chain[:-1], 1):
        _want(it.link, f"member {nth} has no link, so the requests are not one chain")
    installs = sum(it.kind == "open" or sum(entry >= 0 for entry in it.entries) for it in chain)
    _want(installs <= INSTALLS, f"a chain installs at most {INSTALLS} files, not {installs}")
    return chain


class Pipes:
    """The pipes of a log, and what their reads hold. A pipe is known by a byte that it alone was fed."""

    def __init__(self) -> None:
        self.names: set[str] = set()
        self.reads: set[int] = set()
        # the pipe that was fed a byte, and the marks that each pipe's installations have
        self.fed: dict[str, str] = {}
        self.installed: dict[str, list[Mark]] = {}

    def add_call(self, call: int, chain: list[Request], files: list[str]) -> list[Request]:
        """Notes the pipes that a call installs. Returns its chain, of which a read is a look: it holds its pipe until its answer."""
        for member, it in enumerate(chain, 1):
            for entry, file in enumerate(it.entries):
                if 0 <= file < len(files):
                    self.installed.setdefault(files[file], []).append((call, member, entry))
        if all(it.kind != "read" for it in chain):
            return chain
        _want(len(chain) == 1 and not chain[0].link, "a read of a pipe is a call of its own, without a link")
        self.reads.add(call)
        return [Request("look", chain[0].slot)]

    def answer(self, result: int, content: str) -> Answer:
        """Returns the answer of a read as that of a look. A read that got what no pipe was fed found a file that nobody installed."""
        if result in (EBADF, ENOMEM) and not content:
            return Answer(result)
        name = self.fed.get(content, "") if result == 1 else ""
        marks = self.installed.get(name, [])
        _want(len(marks) <= 1, f"a pipe that is read is installed once, and {name} {len(marks)} times")
        return Answer(0, marks[0] if marks else NO_FILE)


class Lines:
    """What the lines of a log say: the catalogue (`names` with the numbers of the files, and their `contents` in hexadecimal), the number of
    `slots`, the `chains` and the `answers`, and the `events`. `lacking` is the first line with an answer -12, or 0. Raises BadLog for a
    text that is not a log."""

    def __init__(self, text: str | bytes) -> None:
        self.names: dict[str, int] = {}
        self.contents: list[str] = []
        self.slots = 0
        self.chains: dict[int, list[Request]] = {}
        self.answers: dict[tuple[int, int], Answer] = {}
        self.events: list[Event] = []
        self.lacking = 0
        self._is_registered = False
        self._pipes = Pipes()
        # the next member of each call that is open, and the looks that hold a file
        self._open: dict[int, int] = {}
        self._held: set[int] = set()
        # the text
        self.source = text if isinstance(text, str) else text.decode("latin-1")
        self._read(self.source)

    def line(self, number: int) -> str:
        """Returns a line of the text, from 1."""
        return self.source.split("\n")[number - 1]

    def _read(self, text: str) -> None:
        *lines, rest = text.split("\n")
        words = "file pipe call done free closed tag fed settled".split()
        readers = {it: getattr(self, f"_read_{it}") for it in words}
        number = 0
        try:
            for number, line in enumerate(lines, 1):
                word, _, more = line.partition(" ")
                _want(not line.endswith(" "), "the line ends with a space")
                _want(not line.endswith("\r"), "the line ends with a carriage return; a line feed alone ends a line")
                _want(word in readers, f"no line of a log begins with {_shown(word)}")
                _want(self._is_registered or word in words[:4], "the table is not registered yet")
                readers[word](number, more)
            number += 1
            _want(not rest, f"the last line has no end: {_shown(rest)}")
            _want(self.chains, "no call registers the table" if lines else "the log is empty")
        except _Fault as fault:
            raise BadLog(number, str(fault)) from None

    def _read_file(self, number: int, rest: str) -> None:
        name, content = _words(rest, 2, "file NAME BYTES")
        _want(content == "-" or BYTES.fullmatch(content), "the bytes of a file are pairs of hexadecimal digits, or -")
        _want(not self._pipes.names, "a catalogue has files or pipes, not both")
        self._add_file(name, "" if content == "-" else content.lower())

    def _read_pipe(self, number: int, rest: str) -> None:
        (name,) = _words(rest, 1, "pipe NAME")
        _want(len(self._pipes.names) == len(self.names), "a catalogue has files or pipes, not both")
        self._add_file(name, "")
        self._pipes.names.add(name)

    def _add_file(self, name: str, content: str) -> None:
        _want(not self.chains, "the files come before the first call")
        _want(len(self.contents) < FILES, f"a catalogue has at most {FILES} files")
        _want(_name(name) not in self.names, f"two files have the name {name}")
        _want(len(content) <= 2 * FILE_BYTES, f"a file has at most {FILE_BYTES} bytes, not {len(content) // 2}")
        self.names[name] = len(self.contents)
        self.contents.append(content)

    def _read_call(self, number: int, rest: str) -> None:
        name, _, what = rest.partition(" ")
        call = _number(name, "a call")
        _want(call not in self.chains, f"an earlier call has the number {call}")
        if not self.chains:
            self.slots = _slots(what)
            self.chains[call] = []
            return
        _want(self._is_registered, "the registration of the table is not answered yet")
        chain = _chain(what)
        if self._pipes.names:
            chain = self._pipes.add_call(call, chain, list(self.names))
        self.chains[call] = chain
        self._open[call] = 1
        self.events.append(Event(number, "call", call))

    def _read_done(self, number: int, rest: str) -> None:
        place, _, what = rest.partition(" ")
        words, parts = what.split(" "), place.split(".")
        _want(len(parts) == 2, f"an answer is of a call and a member, such as 2.1, not of {_shown(place)}")
        call, member = _number(parts[0], "a call"), _number(parts[1], "a member")
        _want(call in self.chains, f"no call has the number {call}")
        result = _integer(words[0], "a result")
        if not self.chains[call]:
            _want(not self._is_registered, f"call {call} is answered already")
            _want((member, words) == (1, ["0"]), "the first call did not register the table")
            self._is_registered = True
            return
        _want(call in self._open, f"call {call} is answered already")
        _want(self._open[call] == member, f"the next answer of call {call} is that of member {self._open[call]}")
        answer = self._answer(call, self.chains[call][member - 1].kind, result, words[1:])
        if result == ENOMEM and not self.lacking:
            self.lacking = number
        self.answers[call, member] = answer
        self._open[call] = member + 1
        if member == len(self.chains[call]):
            del self._open[call]
        self.events.append(Event(number, "done", call, member))
        if call in self._pipes.reads and answer.found:
            self.events.append(Event(number, "free", call))

    def _answer(self, call: int, kind: str, result: int, more: list[str]) -> Answer:
        """Returns the answer of a request or a look with what follows its result."""
        if kind == "look" and call not in self._pipes.reads:
            _want((result == 0 and len(more) == 1) or (result == EBADF and not more), "a look finds a file, as in 0 2.1.0, or answers -9")
            if not more:
                return Answer(EBADF)
            _want(self.names, "a look finds a file, and the catalogue has none")
            self._held.add(call)
            return Answer(0, _mark(more[0]))
        _want(not more or (len(more) == 1 and BYTES.fullmatch(more[0])), "the bytes of an answer are pairs of hexadecimal digits")
        content = "".join(more).lower()
        return self._pipes.answer(result, content) if kind == "look" else Answer(result, content)

    def _read_free(self, number: int, rest: str) -> None:
        call = _number(rest, "a call")
        _want(call in self._held, f"call {call} holds no file")
        self._held.remove(call)
        self.events.append(Event(number, "free", call))

    def _read_closed(self, number: int, rest: str) -> None:
        mark, name = _words(rest, 2, "closed CALL.MEMBER.ENTRY NAME")
        _want(name in self.names, f"no file has the name {_shown(name)}")
        installed = _mark(mark)
        # a file under another name is none that a call installed
        self.events.append(Event(number, "closed", mark=installed if self.file_of(installed) == self.names[name] else NO_FILE))

    def _read_tag(self, number: int, rest: str) -> None:
        (mark,) = _words(rest, 1, "tag CALL.MEMBER.ENTRY")
        _want(self.names, "a file has a tag, and the catalogue has none")
        self.events.append(Event(number, "tag", mark=_mark(mark)))

    def _read_fed(self, number: int, rest: str) -> None:
        name, byte = _words(rest, 2, "fed PIPE BYTE")
        _want(name in self._pipes.names, f"no pipe has the name {_shown(name)}")
        _want(BYTES.fullmatch(byte) and len(byte) == 2, f"a pipe is fed one byte, not {_shown(byte)}")
        _want(byte.lower() not in self._pipes.fed, f"a pipe was fed the byte {byte} before")
        self._pipes.fed[byte.lower()] = name

    def _read_settled(self, number: int, rest: str) -> None:
        _want(not rest, "nothing follows `settled`")
        _want(not self._open, f"call {min(self._open, default=0)} is not answered")
        self.events.append(Event(number, "settled"))

    def readings(self) -> Iterator[list[Event]]:
        """Yields the events without the tags, and, if there are tags, the events with the tag of each file in place of its close."""
        yield [it for it in self.events if it.word != "tag"]
        tagged = {it.mark for it in self.events if it.word == "tag"}
        if tagged:
            events = (it for it in self.events if it.word != "closed" or it.mark not in tagged)
            yield [it._replace(word="closed") if it.word == "tag" else it for it in events]

    def plain(self, events: Iterable[Event]) -> tuple[str, list[int]]:
        """Returns the text of a log with these events, without the words of the kernel's recorder; and for each of its lines that of its event."""
        registration, names = next(iter(self.chains)), list(self.names)
        lines = [f"file {name} {self.contents[at] or '-'}" for name, at in self.names.items()]
        lines += [f"call {registration} sparse {self.slots}", f"done {registration}.1 0"]
        numbers = [0] * len(lines)
        for it in events:
            words = [it.word, *([str(it.call)] if it.word in ("call", "free") else [])]
            if it.word == "call":
                words.append(" ; ".join(map(_written, self.chains[it.call])))
            elif it.word == "done":
                result, found = self.answers[it.call, it.member]
                words += [f"{it.call}.{it.member}", str(result), found if isinstance(found, str) else ".".join(map(str, found))]
            elif it.word == "closed":
                # of a file that no call installed, under any name
                words += [".".join(map(str, it.mark)), names[max(self.file_of(it.mark), 0)]]
            lines.append(" ".join(filter(None, words)))
            numbers.append(it.line)
        return "".join(f"{it}\n" for it in lines), numbers

    def file_of(self, mark: Mark) -> int:
        """Returns the number in the catalogue of the file that the request of a mark installs, or -1 if it installs none there."""
        call, member, entry = mark
        chain = self.chains.get(call, [])
        if not 1 <= member <= len(chain):
            return -1
        it = chain[member - 1]
        if it.kind == "open":
            return self.names.get(it.name, -1) if entry == 0 else -1
        file = it.entries[entry] if entry < len(it.entries) else -1
        return file if 0 <= file < len(self.contents) else -1


def _slots(what: str) -> int:
    """Reads the first call, and returns the number of slots."""
    kind, _, slots = what.partition(" ")
    _want(kind == "sparse", f"the first call registers the table, as in `sparse 3`, not {_shown(what)}")
    number = int(slots) if NUMBER.fullmatch(slots) else 0
    _want(1 <= number <= SLOTS, f"a table has 1 to {SLOTS} slots, not {_shown(slots)}")
    return number
