"""Draws a log of calls in flight as SVG (docs/use/RECORDING.md): rows of calls, as bars from call to answer in the order of the lines, the wrong line,
and the sentences of the reason as numbered arrows."""
from __future__ import annotations

import textwrap
from collections.abc import Sequence
from typing import TYPE_CHECKING, NamedTuple

from yachtcanvas import GREY, INK, LINE, MARGIN, MONO, PALE, RED, Canvas, Point, colour_of
from yachtreason import Words, name_of

if TYPE_CHECKING:
    from yachtjudge import LogVerdict
    from yachtlines import Answer, Lines, Mark, Request
    from yachtsteps import Point as Moment, Step

ERRORS = {-2: "ENOENT", -6: "ENXIO", -9: "EBADF", -12: "ENOMEM", -22: "EINVAL", -23: "ENFILE", -125: "ECANCELED"}
# pixels; and the largest number of lines that are drawn
LETTER, ROW, HEAD, LEFT, LEAST, MOST_LINES = 6.4, 62, 118, 92, 34, 120
NOTES = ("A bar is a call, from its line to that of its answer; a thin one is a hold.",
         "A call takes effect at a point somewhere in its bar, which is not shown.",
         "Calls of one row don't overlap; a log doesn't name threads.")
HALO = f' paint-order="stroke" stroke="{PALE}" stroke-width="3"'


class TooLong(ValueError):
    """The log has more lines than a picture."""


class Bar(NamedTuple):
    """A call, by the lines of its call and of its answer, and of the end of its hold. A line that is missing is the one after the last."""

    call: int
    first: int
    last: int
    free: int


def words_of(log: Lines, it: Request) -> str:
    """Returns a request in words, without the file if there is one file alone."""
    at = "any" if it.slot is None else it.slot
    of = {"open": f"open {it.name + ' ' if len(log.names) > 1 else ''}{'' if it.slot is None else 'at '}{at}",
          "read": f"read {at} {it.first} {it.count}", "update": f"update {at} {','.join(map(str, it.entries))}"}
    return of.get(it.kind, f"{it.kind} {at}")


def answer_of(it: Answer) -> str:
    if isinstance(it.found, tuple):
        return f"found {name_of(it.found)}"
    return f"{it.result} {ERRORS.get(it.result, it.found)}".rstrip()


class Drawing(Canvas):
    """The drawing of a log up to its wrong line, or of all of it."""

    def __init__(self, log: Lines, verdict: LogVerdict) -> None:
        super().__init__()
        self.log, self.verdict = log, verdict
        self.end = (verdict.line or log.source.count("\n")) + 1
        self.events = [it for it in log.events if it.line < self.end]
        if len(self.events) > MOST_LINES:
            raise TooLong(f"{len(self.events)} lines are more than a picture has, {MOST_LINES}")
        # the columns of the lines
        self.columns = {line: nth for nth, line in enumerate(sorted({it.line for it in self.events}))}
        self.columns[self.end] = len(self.columns)
        self.bars, self.rows = self.placed()
        slots = {slot for it in self.bars for slot in self.slots(it)}
        self.colours = {slot: colour_of(nth) for nth, slot in enumerate(sorted(slots))}
        self.step = self.width_of_a_line()
        self.points: dict[tuple[Mark, int], Point] = {}
        self.bottom = HEAD + ROW * (max(self.rows.values(), default=0) + 1)

    def placed(self) -> tuple[list[Bar], dict[int, int]]:
        """Returns the bars, and the row of each call: the first one in which no call is open, or holds a file."""
        bars, rows, until = [], {}, list[int]()
        for it in (it for it in self.events if it.word == "call"):
            lines = {(its.word, its.member): its.line for its in self.events if its.call == it.call}
            last = lines.get(("done", len(self.log.chains[it.call])), self.end)
            answer = self.log.answers.get((it.call, 1)) if last < self.end else None
            free = lines.get(("free", 0), self.end if answer and isinstance(answer.found, tuple) else last)
            bars.append(Bar(it.call, it.line, last, free))
            row = next((nth for nth, line in enumerate(until) if line < it.line), len(until))
            until[row : row + 1] = [free]
            rows[it.call] = row
        return bars, rows

    def label(self, it: Bar) -> tuple[str, str]:
        """Returns the words of a call, and its answers."""
        members = range(1, len(self.log.chains[it.call]) + 1)
        seen = {its.member for its in self.events if (its.word, its.call) == ("done", it.call)}
        answers = [answer_of(self.log.answers[it.call, member]) for member in members if member in seen]
        return f"{it.call}: {'; '.join(words_of(self.log, its) for its in self.log.chains[it.call])}", ", ".join(answers) or "no answer"

    def slots(self, it: Bar) -> list[int]:
        """Returns the slots of a call, those that its answers name too."""
        those = []
        for member, its in enumerate(self.log.chains[it.call], 1):
            answer = self.log.answers.get((it.call, member))
            those += [its.slot] if its.slot is not None else [answer.result] if answer and answer.result >= 0 else []
        return those

    def width_of_a_line(self) -> float:
        """Returns the pixels of a line, so that the words of calls in one row have room."""
        step, after = LEAST, {row: self.end for row in self.rows.values()}
        for it in reversed(self.bars):
            lines = self.columns[after[self.rows[it.call]]] - self.columns[it.first]
            step = max(step, (max(map(len, self.label(it))) * LETTER + 10) / max(lines, 1))
            after[self.rows[it.call]] = it.first
        return step

    def x(self, line: int) -> float:
        return LEFT + self.step * self.columns[line]

    def y(self, call: int) -> float:
        return HEAD + ROW * self.rows[call] + 26

    def draw_bar(self, it: Bar) -> None:
        slots, y, x, end = self.slots(it), self.y(it.call), self.x(it.first), self.x(it.last)
        is_wrong, colour = it.last == self.verdict.line, self.colours[slots[0]] if slots else LINE
        if it.free > it.last:
            self.rect(end, y + 4, self.x(it.free) - end, 6, f' fill="{colour}" fill-opacity="0.45"')
        self.rect(x, y, end - x, 14, f' rx="3" fill="{colour}" stroke="{RED if is_wrong else INK}" stroke-width="{2.6 if is_wrong else 0.8}"')

    def draw_words(self, it: Bar) -> None:
        (words, answer), x, y = self.label(it), self.x(it.first), self.y(it.call)
        self.text(x, y - 5, words, 10.5, INK, MONO + HALO)
        self.text(x, y + 26, answer, 10.5, RED if it.last == self.verdict.line else GREY, MONO + HALO)

    def draw_lines(self) -> None:
        """Draws the numbers of the lines, the `settled` lines and the closes."""
        closes = [it for it in self.events if it.word in ("closed", "tag")]
        for it in self.events:
            is_wrong = it.line == self.verdict.line
            if is_wrong or it.word == "settled":
                style = "" if is_wrong else ' stroke-dasharray="2 3"'
                self.line(((self.x(it.line), HEAD - 8), (self.x(it.line), self.bottom)), RED if is_wrong else GREY, 1.6, style)
            self.text(self.x(it.line), HEAD - 12, str(it.line), 9, RED if is_wrong else GREY, ' text-anchor="middle"')
        for nth, it in enumerate(closes):
            self.line(((self.x(it.line), self.bottom), (self.x(it.line), self.bottom + 10)), RED if it.line == self.verdict.line else INK, 2.2)
            self.text(self.x(it.line), self.bottom + 20 + nth % 2 * 10, name_of(it.mark), 9, INK, ' text-anchor="middle"')
        if closes:
            self.text(MARGIN, self.bottom + 10, "closes", 11, GREY)
            self.bottom += 44

    def middle(self, call: int) -> Point | None:
        return next(((self.x(it.first) / 2 + self.x(it.last) / 2, self.y(call) + 14) for it in self.bars if it.call == call), None)

    def point(self, it: Moment) -> Point | None:
        """Returns the place of a point in time: an event, the middle of a bar for an access or an installation, or the end of a file."""
        if it.kind == "gone":
            return self.points.get((it.file, it.slot))
        if it.kind == "put":
            return self.middle(it.file[0])
        event = next(its for its in self.events if its.line == it.line)
        if it.kind == "access":
            return self.middle(event.call)
        return (self.x(it.line), self.y(event.call) + 14 if event.call else self.bottom - 46)

    def draw_files(self, orders: Sequence[Step]) -> None:
        """Draws a line for each file whose end at a slot is a point of an order, up to the first point that is known to come after its end."""
        ends = {(its.file, its.slot) for it in orders for its in (it.before, it.after) if its.kind == "gone"}
        for file, slot in sorted(ends):
            later = [self.point(it.after) for it in orders if (it.before.file, it.before.slot) == (file, slot) and it.before.kind == "gone"]
            begin = self.middle(file[0]) or (LEFT, 0)
            end = min((it[0] for it in later if it), default=self.x(self.end))
            self.points[file, slot] = end, self.bottom + 8
            self.line(((begin[0], self.bottom + 8), (end, self.bottom + 8)), self.colours.get(slot, GREY), 4)
            self.line(((end, self.bottom), (end, self.bottom + 16)), INK, 2.2)
            self.text(MARGIN, self.bottom + 12, f"{name_of(file)} at {slot}", 10, GREY)
            self.bottom += 30

    def draw_reason(self, orders: Sequence[Step]) -> list[Point]:
        """Draws an arrow from the earlier point to the later one of each order. Returns the place of the number of each sentence."""
        self.draw_files(orders)
        places: list[Point] = []
        for nth, it in enumerate(orders):
            # arrows at one bar are beside each other, and bend to the left and to the right
            aside = min(12, self.step / len(orders)) * (nth - (len(orders) - 1) / 2)
            ends = [(x + (aside if its.kind in ("access", "put") else 0), y) for its in (it.before, it.after) if (at := self.point(its)) for x, y in [at]]
            if len(ends) == 2 and self.point(it.before) != self.point(it.after):
                bend = (16 + 6 * nth) * (1 if (ends[1][0] >= ends[0][0]) == (nth % 2 == 0 or nth == len(orders) - 1) else -1)
                places.append(self.arrow((ends[0], ends[1]), bend, RED if nth == len(orders) - 1 else INK))
            else:
                places.append(ends[0] if ends else (LEFT, self.bottom))
        return places


def picture(log: Lines, verdict: LogVerdict, most: int) -> str:
    """Returns the picture of a log with its verdict, and at most the last `most` sentences of its reason. Raises TooLong."""
    drawing, words = Drawing(log, verdict), Words(log, log.events, verdict.reason)
    sentences, orders = (words.sentences()[-most:], words.orders()[-most:]) if verdict.reason else ([], [])
    width = max(LEFT + drawing.step * len(drawing.columns) + MARGIN, 680)
    for row in range(max(drawing.rows.values(), default=-1) + 1):
        drawing.rect(LEFT - 10, HEAD + ROW * row + 4, width - LEFT - MARGIN + 10, ROW - 8, f' rx="4" fill="{PALE}"')
        drawing.text(MARGIN, HEAD + ROW * row + 37, f"row {row + 1}", 11, GREY)
    drawing.draw_lines()
    for it in drawing.bars:
        drawing.draw_bar(it)
    places = drawing.draw_reason(orders)
    for it in drawing.bars:
        drawing.draw_words(it)
    for nth, place in enumerate(places, 1):
        drawing.ring(place, RED if nth == len(places) else INK, str(nth))
    title = f"{verdict.word}: line {verdict.line}: {log.line(verdict.line)}" if verdict.line else verdict.word
    drawing.text(MARGIN, 22, title, 13, RED if verdict.word == "not legal" else INK, ' font-weight="bold"')
    for nth, note in enumerate(NOTES):
        drawing.text(MARGIN, 40 + 14 * nth, note, 10.5, GREY)
    for nth, (slot, colour) in enumerate(drawing.colours.items()):
        drawing.rect(LEFT + 64 * nth, 78, 10, 10, f' fill="{colour}"')
        drawing.text(LEFT + 64 * nth + 14, 87, f"slot {slot}", 10, GREY)
    drawing.text(MARGIN, HEAD - 12, "line", 9, GREY)
    y = drawing.bottom + 12
    for nth, sentence in enumerate(sentences, 1):
        colour = RED if nth == len(sentences) else INK
        drawing.text(MARGIN, y, f"{nth}", 11, colour, ' font-weight="bold"')
        for line in textwrap.wrap(sentence, int((width - 3 * MARGIN - 20) / 6.7)):
            drawing.text(MARGIN + 20, y, line, 11, colour)
            y += 15
    return drawing.svg(round(width), round(y + 4), "A log of calls in flight")
