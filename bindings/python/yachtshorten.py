"""Shortens a log of calls in flight that is not legal (docs/use/RECORDING.md): drops whole calls, with their answers and the closes of their files,
as long as the same line stays the first wrong one."""
from __future__ import annotations

import time
from collections.abc import Callable, Iterator

from yachtlines import EBADF, Lines, Mark, Request

# no further log is tried after this many seconds
SECONDS = 50
# a table with at most this many slots keeps a file for each, if an open found it full
ENFILE, FULL_SLOTS = -23, 64


def slots_of(it: Request) -> range:
    """Returns the slots that a request names."""
    return range(0) if it.slot is None else range(it.slot, it.slot + max(len(it.entries), 1))


class Shortening:
    """The calls of a log up to its first wrong line. `text` is the log, and `last` that line, from 1."""

    def __init__(self, log: Lines, text: str, last: int) -> None:
        self.log = log
        self.lines = text.split("\n")[:last]
        # the call of each line, a number below 0 for a `settled` line, or None for a line that stays
        self.owners = [self._owner(number, it) for number, it in enumerate(self.lines, 1)]
        self._settled = {it for it in self.owners if it is not None and it < 0}
        self.calls = [it.call for it in log.events if it.word == "call" and it.line <= last]
        self._place = {it.call: it.line for it in log.events if it.word == "call"} | {it: -it for it in self._settled}
        # the last answer of each call that is over
        self._end = {it.call: it.line for it in log.events if it.word == "done" and it.member == len(log.chains[it.call])}
        self._slot = dict(self._installed())
        self._writers: dict[int, list[int]] = {}
        for call in self.calls:
            for slot in self._written(call):
                self._writers.setdefault(slot, []).append(call)
        # a call, and others of which one must stay with it: so a file isn't wrong only since its installation is gone
        self.needs = [*self._needs(), *self._needs_of_last(last)]
        self.kept = {self.owners[-1]} - {None}
        self.kept |= {others[0] for call, others in self.needs if call in self.kept and len(others) == 1}

    def _owner(self, number: int, line: str) -> int | None:
        word, _, rest = line.partition(" ")
        if word == "settled":
            return -number
        if word not in ("call", "done", "free", "closed", "tag"):
            return None
        call = int(rest.replace(".", " ").split(" ")[0])
        return call if self.log.chains.get(call) else None

    def _installed(self) -> Iterator[tuple[Mark, int]]:
        """Yields the files that calls install, each with its slot, if that is known."""
        for call, chain in self.log.chains.items():
            for member, it in enumerate(chain, 1):
                answer = self.log.answers.get((call, member))
                if it.kind == "open":
                    slot = it.slot if it.slot is not None else answer.result if answer else -1
                    if slot >= 0:
                        yield (call, member, 0), slot
                for entry, slot in enumerate(slots_of(it) if it.kind == "update" else ()):
                    if it.entries[entry] >= 0:
                        yield (call, member, entry), slot

    def _written(self, call: int) -> set[int]:
        """Returns the slots that a call may change."""
        written = {slot for it in self.log.chains[call] if it.kind in ("close", "update", "open") for slot in slots_of(it)}
        for member in range(1, len(self.log.chains[call]) + 1):
            written |= {self._slot[call, member, 0]} if (call, member, 0) in self._slot else set()
        return written

    def _needs(self) -> Iterator[tuple[int, list[int]]]:
        for event in self.log.events:
            if event.line > len(self.lines):
                break
            if event.word == "done":
                yield from self._needs_of_answer(event.call, event.member, event.line)
            elif event.word == "closed" and event.mark in self._slot:
                by = event.mark[0]
                begun, writers = self._place[by], self._writers[self._slot[event.mark]]
                removers = [it for it in writers if it != by and self._place[it] < event.line and self._end.get(it, event.line) > begun]
                if removers:
                    yield by, removers

    def _needs_of_answer(self, call: int, member: int, line: int) -> Iterator[tuple[int, list[int]]]:
        it, answer = self.log.chains[call][member - 1], self.log.answers[call, member]
        if it.kind == "look" and not isinstance(answer.found, str):
            if self.log.chains.get(answer.found[0]):
                yield call, [answer.found[0]]
        elif it.kind == "read" and answer.result >= 0 and it.slot is not None:
            writers = [by for by in self._writers.get(it.slot, ()) if by != call and self._place[by] < line]
            if writers:
                yield call, writers
        elif answer.result == ENFILE and self.log.slots <= FULL_SLOTS:
            for writers in ([by for by in self._writers.get(slot, ()) if by != call and self._place[by] < line] for slot in range(self.log.slots)):
                if writers:
                    yield call, writers

    def _found_empty(self, line: int) -> tuple[int, int | None]:
        """Returns the call that a line answers, and the slot that the answer says was empty, or None."""
        event = next((it for it in self.log.events if (it.line, it.word) == (line, "done")), None)
        if event is None:
            return 0, None
        it, answer = self.log.chains[event.call][event.member - 1], self.log.answers[event.call, event.member]
        if it.kind == "open" and it.slot is None and answer.result >= 0:
            return event.call, answer.result
        return event.call, it.slot if it.kind in ("look", "read", "close") and answer.result == EBADF else None

    def _seen(self, mark: Mark) -> int:
        """Returns the line of the call of the last look that found a file: until then the file was at its slot."""
        those = (call for (call, _), answer in self.log.answers.items() if answer.found == mark and call in self._place)
        return max((self._place[it] for it in those), default=self._place[mark[0]])

    def _needs_of_last(self, line: int) -> Iterator[tuple[int, list[int]]]:
        """Yields each call that installed a file at the slot which the wrong line found empty, with those that may have removed the file:
        so the slot isn't full only since they are gone."""
        last, slot = self._found_empty(line)
        for mark in [it for it, its in self._slot.items() if its == slot and it[0] != last and self._place[it[0]] < line]:
            seen = self._seen(mark)
            removers = [it for it in self._writers[slot] if it not in (mark[0], last) and self._place[it] < line and self._end.get(it, line) > seen]
            if removers:
                yield mark[0], removers

    def text(self, calls: set[int]) -> str:
        """Returns the log with some of its calls alone."""
        return "".join(f"{line}\n" for line, owner in zip(self.lines, self.owners) if owner is None or owner in calls)

    def closure(self, calls: set[int]) -> set[int] | None:
        """Returns these calls without those that lack others which they need, or None if one of the kept calls is among them."""
        calls, is_done = set(calls), False
        while not is_done:
            lacking = {call for call, others in self.needs if call in calls and not any(it in calls for it in others)}
            calls -= lacking
            is_done = not lacking
        return calls if self.kept <= calls else None

    def near(self) -> set[int]:
        """Returns the calls that may change the slots of the kept calls, or look at them."""
        slots = {slot for call in self.kept - self._settled for it in self.log.chains[call] for slot in slots_of(it)}
        slots |= {slot for mark, slot in self._slot.items() if mark[0] in self.kept}
        return self.kept | self._settled | {call for call in self.calls if any(slots.intersection(slots_of(it)) for it in self.log.chains[call])
                            or slots & self._written(call)}

    def changing(self) -> set[int]:
        """Returns the kept calls and those that change a slot: any others may go from a log without making a line of it wrong."""
        def is_done(call: int) -> bool:
            answers = [self.log.answers.get((call, member)) for member in range(1, len(self.log.chains[call]) + 1)]
            return any(it is None or it.result >= 0 for it in answers)

        return self.kept | {call for call in self.calls if self._written(call) and is_done(call)}

    def parts(self, calls: set[int]) -> Iterator[list[int]]:
        """Yields parts of the calls that may go, all of them first, and then fewer, down to one: those that are next to each other at a slot."""
        order = {call: (min(self._written(call) or {-1}) if call > 0 else -1, self._place[call]) for call in calls - self.kept}
        rest = sorted(order, key=order.__getitem__)
        size = len(rest)
        while rest:
            step = size if size > 4 else 1
            yield from (rest[first : first + size] for first in range(0, len(rest), step))
            if size == 1:
                break
            size = -(-size // 2)

    def shortest(self, is_wrong: Callable[[str], bool], seconds: float = SECONDS) -> set[int]:
        """Returns calls such that `is_wrong` holds for their log, and for none of those logs with fewer calls that were tried in time."""
        end, calls = time.monotonic() + seconds, {*self.calls, *self._settled}

        def shorter(tried: set[int] | None) -> bool:
            return tried is not None and len(tried) < len(calls) and is_wrong(self.text(tried))

        for first in (self.near, self.changing):
            if shorter(tried := self.closure(calls & first())) and tried is not None:
                calls = tried
        is_shorter = True
        while is_shorter and time.monotonic() < end:
            is_shorter = False
            for part in self.parts(calls):
                if time.monotonic() >= end:
                    break
                if not calls.isdisjoint(part) and shorter(tried := self.closure(calls.difference(part))) and tried is not None:
                    calls, is_shorter = tried, True
        return calls
