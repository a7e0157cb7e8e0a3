"""The reason why a log of calls in flight is not legal, in words (docs/inside/FLIGHT.md): a sentence for each order in time that follows from
others, and at last the orders that contradict each other."""
from __future__ import annotations

from collections.abc import Iterable, Iterator, Sequence
from typing import TYPE_CHECKING

from yachtlines import NO_FILE
from yachtsteps import Point, Step

if TYPE_CHECKING:
    from yachtlines import Event, Lines, Mark, Request


# the result of a request that an earlier one of its chain cancels
CANCELED = -125
# the number of digits of a read's bytes in a sentence
DIGITS = 32


def name_of(mark: Mark) -> str:
    return ".".join(map(str, mark))


def listed(parts: Iterable[str]) -> str:
    """Joins the clauses that say something, each once."""
    *most, last = [it for it in dict.fromkeys(parts) if it] or [""]
    return f"{', '.join(most)} and {last}" if most else last


class Words:
    """The words for the steps of a reason of a log."""

    def __init__(self, log: Lines, events: Sequence[Event], steps: Sequence[Step]) -> None:
        self._log, self._steps = log, steps
        # a read of a pipe ends its hold in the line of its answer
        self._events = {it.line: it for it in reversed(events)}

    def sentences(self) -> list[str]:
        """Returns the sentences of the reason. The last one is the contradiction."""
        return [*map(self._sentence, self._derived()), self._contradiction(len(self._steps) - 1)]

    def orders(self) -> list[Step]:
        """Returns for each sentence the step with its order. That of the contradiction is what the last line shows."""
        return [*self._derived(), self._cycle(len(self._steps) - 1)[0]]

    def _derived(self) -> list[Step]:
        return [it for it in self._steps[:-1] if it.rule != "then" and (it.premises or it.rule in ("suppose", "otherwise") or self._why(it))]

    def _sentence(self, it: Step) -> str:
        if it.rule == "suppose":
            return f"suppose that {self._link(it)}"
        if it.rule == "otherwise":
            return f"{self._contradiction(self._steps.index(it) - 1)}; so {self._link(it)}"
        return f"{self._link(it)}{self._evidence(it)}, since {self._why(it)}"

    def _why(self, step: Step) -> str:
        """Returns the orders that a step follows from, and those by which other files and accesses are excluded."""
        return listed(self._link(it) for nth in [*step.premises, *self._excluding(step)] for it in self._parts(nth))

    def _excluding(self, step: Step) -> Iterator[int]:
        """Yields the numbers of the earlier steps by which other files aren't at a slot, or other accesses don't take a file."""
        excluded = self._absent if step.rule == "holds" else self._passing
        seen = {step.before, step.after, None}
        for nth, it in enumerate(self._steps[: self._steps.index(step)] if step.rule in ("holds", "stays", "takes", "taken-by") else ()):
            point = excluded(step, it)
            if point not in seen:
                seen.add(point)
                yield nth

    def _absent(self, step: Step, it: Step) -> Point | None:
        """Returns a point of a file that by the order of a step isn't the one that an access finds."""
        access, own = Point("access", step.lines[1], step.access), {step.before.file, step.after.file}
        point = it.after if it.before == access else it.before
        is_absent = point.kind == "put" if it.before == access else it.after == access and it.is_strict and (point.kind, point.slot) == ("gone", step.slot)
        return point if is_absent and point.file not in own and self._changes(*point.file[:2], step.slot) else None

    def _passing(self, step: Step, it: Step) -> Point | None:
        """Returns the time of an access, or of its call, that by the order of a step isn't the one at which a file leaves its slot."""
        gone = step.before if step.before.kind == "gone" else step.after
        point = it.after if it.before == gone else it.before
        event = self._events.get(point.line)
        if not it.is_strict or gone not in (it.before, it.after) or point.kind == "gone" or (point.kind == "event" and it.after == gone):
            return None
        call, member = point.file[:2] if point.kind == "put" else (event.call, event.member) if event else (0, 0)
        return point if self._changes(call, member, gone.slot) else None

    def _changes(self, call: int, member: int, slot: int) -> bool:
        """Returns whether a member of a call, or any for 0, may change a slot."""
        def may(it: Request) -> bool:
            return it.kind in ("open", "close", "update") and (it.slot is None or it.slot <= slot < it.slot + max(len(it.entries), 1))

        return any(may(it) for nth, it in enumerate(self._log.chains.get(call, []), 1) if member in (0, nth))

    def _evidence(self, step: Step) -> str:
        """Returns what shows that an access leaves a slot without a file, or that a file isn't closed."""
        if step.rule == "settles":
            return " and it was not closed"
        if step.rule not in ("empties", "precedes"):
            return ""
        event = self._events[step.lines[1]]
        answer = self._log.answers[event.call, event.member]
        if isinstance(answer.found, str):
            return f", which answered {answer.result}"
        return f", which found {name_of(answer.found)}"

    def _cycle(self, last: int) -> list[Step]:
        """Returns the steps up to a last one whose orders contradict each other. The first one is what the last line shows."""
        parts = list(self._parts(last))
        begin = max(range(len(parts)), key=lambda at: (max(parts[at].lines, default=0), parts[at].rule in ("finds", "closes")))
        return parts[begin:] + parts[:begin]

    def _contradiction(self, last: int) -> str:
        cycle = self._cycle(last)
        first, *rest = filter(None, map(self._link, cycle))
        why = self._why(cycle[0]) if cycle[0].rule == "holds" and not rest else ""
        return f"{first}; but {listed(rest)}" if rest else f"{first}, since {why}" if why else first

    def _parts(self, nth: int) -> Iterator[Step]:
        """Yields the steps whose orders make that of a step, one after another."""
        todo = [nth]
        while todo:
            step = self._steps[todo.pop()]
            if step.rule == "then":
                todo += reversed(step.premises)
            else:
                yield step

    def _who(self, line: int) -> str:
        """Returns the member that a line answers, such as 2.1, or the look."""
        event = self._events[line]
        kind = self._log.chains[event.call][event.member - 1].kind
        return f"{kind} {event.call}" if len(self._log.chains[event.call]) == 1 else f"{kind} {event.call}.{event.member}"

    def _link(self, step: Step) -> str:
        """Returns the order of a step in words, or nothing: lines have numbers."""
        if step.rule == "events":
            return ""
        return str(getattr(self, f"_{step.rule.replace('-', '_')}")(step))

    def _begins(self, it: Step) -> str:
        return f"{self._who(it.lines[1])} was called at line {it.lines[0]}"

    def _ends(self, it: Step) -> str:
        return f"{self._who(it.lines[1])} was answered at line {it.lines[1]}"

    def _calls(self, it: Step) -> str:
        return f"the call that installs {name_of(it.after.file)} began at line {it.lines[0]}"

    def _installs(self, it: Step) -> str:
        return f"{self._who(it.lines[1])} had installed {name_of(it.before.file)} at line {it.lines[1]}"

    def _places(self, it: Step) -> str:
        return f"{self._who(it.lines[1])} installed {name_of(it.after.file)} at slot {it.after.slot}"

    def _follows(self, it: Step) -> str:
        return f"{name_of(it.before.file)} was installed before {self._who(it.lines[1])} found it"

    def _finds(self, it: Step) -> str:
        return f"{self._who(it.lines[1])} found {name_of(it.after.file)} at slot {it.after.slot}"

    def _closes(self, it: Step) -> str:
        return f"{name_of(it.before.file)} was closed by line {it.lines[0]}"

    def _settles(self, it: Step) -> str:
        return f"{name_of(it.after.file)} was still at slot {it.after.slot} when all was settled at line {it.lines[0]}"

    def _empties(self, it: Step) -> str:
        return f"{name_of(it.before.file)} was gone from slot {it.before.slot} after {self._who(it.lines[1])}"

    def _precedes(self, it: Step) -> str:
        return f"{name_of(it.after.file)} was installed after {self._who(it.lines[1])}"

    def _displaces(self, it: Step) -> str:
        return f"{name_of(it.before.file)} was gone from slot {it.before.slot} when {name_of(it.after.file)} was installed"

    def _outlives(self, it: Step) -> str:
        return f"{name_of(it.after.file)} was installed after {name_of(it.before.file)}"

    def _finds_closed(self, it: Step) -> str:
        file = name_of(self._events[it.lines[0]].mark)
        return f"{self._who(it.lines[1])} found {file} at line {it.lines[1]}, which was closed by line {it.lines[0]}"

    def _closes_twice(self, it: Step) -> str:
        return f"{name_of(self._events[it.lines[0]].mark)} was closed by line {it.lines[0]}, and again by line {it.lines[1]}"

    def _closes_held(self, it: Step) -> str:
        file = name_of(self._events[it.lines[1]].mark)
        return f"{self._who(it.lines[0])} held {file} from line {it.lines[0]} on, and it was closed by line {it.lines[1]}"

    def _cant_answer(self, it: Step) -> str:
        return f"{self._answered(it.lines[1])}, which such a request never answers"

    def _holds(self, it: Step) -> str:
        who, file = self._who(it.lines[1]), (it.after if it.after.kind == "gone" else it.before).file
        found, what = f"{who} found a file at slot {it.slot} by line {it.lines[1]}", "no file"
        content = self._log.answers[self._events[it.lines[1]].call, self._events[it.lines[1]].member].found
        if content and isinstance(content, str):
            shown = content if len(content) <= DIGITS else f"{content[:DIGITS]}.."
            found, what = f"{who} got {shown} from slot {it.slot} by line {it.lines[1]}", "no file with these bytes"
        return f"{found}, where {what} can have been" if it.before == it.after else f"{found}, which can only have been {name_of(file)}"

    def _lands(self, it: Step) -> str:
        return f"{name_of(it.after.file)} was installed at slot {it.after.slot}"

    def _misses(self, it: Step) -> str:
        return f"no call before can have installed {name_of(it.before.file)} at slot {it.before.slot}"

    def _existed(self, it: Step) -> str:
        return f"{name_of(it.before.file)} was installed before it was closed by line {it.lines[0]}"

    def _answered(self, line: int) -> str:
        """Returns the member that a line answers, and its result."""
        event = self._events[line]
        return f"{self._who(line)} answered {self._log.answers[event.call, event.member].result} at line {line}"

    def _fails(self, it: Step) -> str:
        return f"{self._answered(it.lines[1])}, so it installed nothing"

    def _unknown(self, it: Step) -> str:
        *_, last = self._parts(it.premises[0])
        file = "a file" if it.before.file == NO_FILE else name_of(it.before.file)
        return f"line {last.lines[-1]} says that {file} was installed, and no call before it can have installed that file"

    def _cut(self, it: Step) -> str:
        first, second = map(self._answered, it.lines)
        event = self._events[it.lines[1]]
        is_canceled = self._log.answers[event.call, event.member].result == CANCELED
        return f"{second}, although {first}, which {'does not cancel' if is_canceled else 'cancels'} the next request"

    def _stays(self, it: Step) -> str:
        return f"no call before line {it.lines[0]} can have taken {name_of(it.after.file)} from slot {it.after.slot}"

    def _taker(self, point: Point) -> str:
        """Returns the only access that can have taken a file, by its time."""
        who = f"the installation of {name_of(point.file)}" if point.kind == "put" else self._who(point.line)
        return f"{who}, which alone can have taken it"

    def _takes(self, it: Step) -> str:
        return f"{name_of(it.after.file)} was at slot {it.after.slot} until {self._taker(it.before)}"

    def _taken_by(self, it: Step) -> str:
        return f"{name_of(it.before.file)} was gone from slot {it.before.slot} after {self._taker(it.after)}"

    def _time(self, point: Point) -> str:
        """Returns a point in time."""
        if point.kind == "event":
            return f"line {point.line}"
        if point.kind == "access":
            return f"the access of {self._who(point.line)}"
        return f"the installation of {name_of(point.file)}" if point.kind == "put" else f"the removal of {name_of(point.file)} from slot {point.slot}"

    def _suppose(self, it: Step) -> str:
        return f"{self._time(it.before)} came {'before' if it.is_strict else 'before or with'} {self._time(it.after)}"

    def _otherwise(self, it: Step) -> str:
        return self._suppose(it)

    def _differs(self, it: Step) -> str:
        return "accesses of two calls are not at the same time"
