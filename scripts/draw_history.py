"""draw-history [--text TEXT] [--slots A-B] [--chains A-B] [FILE]: draws the history that `fixcheck --history` prints, from FILE or standard
input, and writes an SVG to standard output. draw-history(1) describes the options and the picture.

At the left is a lane for each slot, in the middle are the events, a row each, and at the right is a lane for each chain. Chains that
share no slot are drawn side by side. The first colours are those of Okabe and Ito, which colour-blind people can tell apart."""
import argparse
import re
import sys

from scripts.drawn import REQUEST, ROWS_OF_A_HEAD, History, NoHistory, Part
from yachtcanvas import BAR, COLOURS, GREY, INK, MARGIN, MONO, PALE, RED, TAIL, Canvas, colour_of

# pixels
WIDTH, MOST_WIDTH, ROW, LETTER = 600, 1200, 23, 6.65
LEAST_SLOT, LEAST_CHAIN, LEAST_WORD = 92, 120, 82
MOST_SLOTS, MOST_CHAINS, MOST_BYTES = 40, 30, 16
ERRORS = {"-2": "ENOENT", "-6": "ENXIO", "-9": "EBADF", "-11": "EAGAIN", "-12": "ENOMEM", "-16": "EBUSY", "-22": "EINVAL",
          "-23": "ENFILE", "-24": "EMFILE", "-125": "ECANCELED"}
TITLE = "A legal history of a file table: its slots, the events and the requests"
NOT_A_TRACE = "An order of the requests that explains the text, not a trace of the play."
# each sign of the legend, drawn on a canvas at a point, in the order of the legend
SIGNS = {
    "at the slot": lambda it, x, y: it.rect(x, y - 9, BAR, 11, f' fill="{COLOURS[0]}" stroke="{INK}" stroke-width="0.7"'),
    "removed": lambda it, x, y: it.rect(x + 6, y - 9, TAIL, 11, f' fill="{COLOURS[0]}" fill-opacity="0.45"'),
    "closed": lambda it, x, y: it.line(((x + 4, y - 4), (x + 12, y - 4)), INK, 2.2),
    "held by a read": lambda it, x, y: it.rect(x + 4, y - 9, 8, 11, f' rx="4" fill="#FFFFFF" stroke="{INK}" stroke-width="1.4"'),
    "no file found": lambda it, x, y: it.circle(x + 8, y - 4),
    "in the range": lambda it, x, y: it.line(((x + 8, y - 10), (x + 8, y + 3)), GREY, 1.6, ' stroke-dasharray="1 4"'),
    "linked": lambda it, x, y: it.line(((x + 8, y - 10), (x + 8, y + 3)), INK, 1.4),
    "hard-linked": lambda it, x, y: [it.line(((at, y - 10), (at, y + 3)), INK, 1.4) for at in (x + 6, x + 10)],
    "failed": lambda it, x, y: it.text(x, y, "-9", 11, RED, f'{MONO} font-weight="bold"'),
    "canceled": lambda it, x, y: it.rect(x, y - 9, BAR, 11, f' rx="3" fill="#FFFFFF" stroke="{GREY}" stroke-dasharray="3 3"'),
}
SIDE_BY_SIDE = "Chains that share no slot are side by side: between them no order is shown."


def short_names(names):
    """Returns a different short form for each name: long names lose letters of their middle."""
    for kept in (5, 8, 11, 14):
        short = {it: it if len(it) <= 2 * kept + 2 else f"{it[:kept]}..{it[-kept:]}" for it in names}
        if len(set(short.values())) == len(short):
            return short
    return {it: it for it in names}


def bytes_of(text):
    """Returns the bytes of each read of a text, by its place."""
    lines = (line.split(" ") for line in text.splitlines())
    return {words[0]: words[2] for words in lines if len(words) == 3 and REQUEST.fullmatch(words[0])}


def bytes_told(digits):
    """Returns up to 16 bytes, and the number of bytes if there are more."""
    count = len(digits) // 2
    return digits if count <= MOST_BYTES else f"{digits[: 2 * MOST_BYTES]}.. {count} bytes"


class Drawing(Canvas):
    """The drawing of a part of a history. The rows begin below the heads."""

    def __init__(self, history, got, part, width):
        super().__init__()
        self.history, self.got, self.part = history, got, part
        self.slots, self.chains = sorted(part.slots), sorted({chain for _, chain in part.chains}) or [1]
        files = [it for it in history.files.values() if it.slot in part.slots]
        self.names = short_names({it.name for it in files})
        widest = max((max(len(self.names[it.name]), len(it.mark)) for it in files), default=0)
        self.slot = int(max(LEAST_SLOT, widest * LETTER + BAR + 40))
        self.word = int(max([LEAST_WORD, *(len(it.word) * LETTER + 12 for it in history.events)]))
        self.words_at = MARGIN + self.slot * len(self.slots)
        self.chains_at = self.words_at + self.word
        self.boxes = [it for it in history.boxes if not it.place() or part.has(it.who)]
        longest = max((len(self.label(it)) + len(self.answer(it)) + 3 for it in self.boxes), default=0)
        longest = max([longest, *(len(bytes_told(it)) * 0.85 for place, it in got.items() if part.has(place))])
        left = width - MARGIN - self.chains_at
        self.chain = int(max(LEAST_CHAIN, longest * LETTER + 14, left / len(self.chains)))
        self.width = self.chains_at + self.chain * len(self.chains) + MARGIN
        self.top = 40
        self.rows = self.rows_drawn()
        self.bottom = self.top + ROW * len(self.rows)

    def is_drawn(self, event):
        return event.slot in self.slots or self.part.has(event.who)

    def rows_drawn(self):
        """Returns the place of each row that has something to show. The heads of chains are repeated every 40 rows."""
        those = {it.row for it in self.history.events if self.is_drawn(it)} | {it.last for it in self.boxes}
        last, heads = (None, 0), {}
        with_chains = {submission for submission, _ in self.part.chains}
        for row, submission in ((row, it) for row, it in self.history.heads.items() if it in with_chains):
            behind = sum(1 for it in those if it > last[1])
            if submission != last[0] or sum(1 for it in those if last[1] < it < row) >= ROWS_OF_A_HEAD and behind:
                heads[row], last = submission, (submission, row)
        self.heads = heads
        return {row: nth for nth, row in enumerate(sorted(those | set(heads)))}

    def place_of(self, row):
        """Returns the place of a row, or of the next one that is drawn."""
        while row not in self.rows and row < self.history.rows:
            row += 1
        return self.rows.get(row, len(self.rows))

    @staticmethod
    def label(box):
        """Returns a request's words without its link, which is drawn as a line."""
        return re.sub(r" (hard)?link$", "", box.words)

    @staticmethod
    def answer(box):
        return f"{box.answer} {ERRORS[box.answer]}" if box.answer in ERRORS else box.answer

    def y(self, row):
        return self.top + ROW * self.place_of(row) + ROW // 2

    def lane(self, slot):
        return MARGIN + self.slot * self.slots.index(slot) + 10

    def lane_of_chain(self, chain):
        return self.chains_at + self.chain * self.chains.index(chain)

    def draw_heads(self):
        bold = ' font-weight="bold"'
        for slot in self.slots:
            self.text(self.lane(slot) - TAIL, 22, f"slot {slot}", 12, INK, bold)
        self.text(self.words_at + self.word / 2, 22, "events", 12, INK, f'{bold} text-anchor="middle"')
        self.text(self.chains_at, 22, "calls and requests", 12, INK, bold)

    def draw_table(self, span):
        """Draws the lanes while there is a table, and a dotted line at the lanes of its allocation range if that is a part of it."""
        begin = self.y(span.begin) - ROW / 2
        end = self.y(span.end) + ROW / 2 if span.end is not None else self.bottom + 8
        for slot in self.slots:
            if slot >= span.size:
                continue
            x = self.lane(slot)
            self.rect(x - TAIL - 5, begin, self.slot - 8, end - begin, f' rx="4" fill="{PALE}"')
            if span.range and span.range != (0, span.size) and slot in range(*span.range):
                self.signs.add("in the range")
                self.line(((x + self.slot - 20, begin), (x + self.slot - 20, end)), GREY, 1.6, ' stroke-dasharray="1 4"')

    def draw_file(self, file):
        x, begin, colour = self.lane(file.slot), self.y(file.installed), colour_of(file.nth)
        end = self.y(file.closed) if file.closed is not None else self.bottom + 4
        removed = self.y(file.removed) if file.removed is not None else end
        self.signs.add("at the slot")
        self.rect(x, begin, BAR, removed - begin, f' fill="{colour}" stroke="{INK}" stroke-width="0.7"')
        if removed < end:
            self.signs.add("removed")
            self.rect(x - TAIL - 2, removed, TAIL, end - removed, f' fill="{colour}" fill-opacity="0.45"')
            self.line(((x - TAIL - 2, removed), (x, removed)), INK, 0.7)
        if file.closed is not None:
            self.signs.add("closed")
            self.line(((x - TAIL - 5, end), (x + 1, end)), INK, 2.2)

    def draw_name(self, file):
        x, y = self.lane(file.slot) + BAR + 5, self.y(file.installed) + 15
        end = file.removed if file.removed is not None else self.history.rows
        halo = f' paint-order="stroke" stroke="{PALE}" stroke-width="3"'
        self.text(x, y, self.names[file.name], 11, INK, halo)
        if end - file.installed > 1:
            self.text(x, y + ROW, file.mark, 10, GREY, halo)

    def draw_holds(self, file):
        x = self.lane(file.slot)
        for look, release in file.holds:
            self.signs.add("held by a read")
            begin, end = self.y(look) - 4, self.y(release) + 4
            self.rect(x + 4, begin, BAR - 8, end - begin, f' rx="4" fill="#FFFFFF" stroke="{INK}" stroke-width="1.4"')

    def lane_of(self, who):
        """Returns where the boxes of a request begin, or those of calls; None for a chain of another part."""
        if not REQUEST.fullmatch(who):
            return self.chains_at
        return self.lane_of_chain(int(who.split(".")[1])) if self.part.has(who) else None

    def draw_event(self, event):
        y, middle = self.y(event.row), self.words_at + self.word / 2
        half = len(event.word) * 3.3 + 4
        colour = colour_of(event.file.nth) if event.file else GREY
        if event.slot in self.slots:
            x = self.lane(event.slot)
            from_x = x - TAIL - 2 if event.word.startswith("Close") else x + BAR
            self.line(((from_x, y), (middle - half, y)), colour, 1.6)
            if event.file is None:
                self.signs.add("no file found")
                self.circle(x + BAR / 2, y)
        to = self.lane_of(event.who)
        if to is not None:
            self.line(((middle + half, y), (to, y)), colour, 1.6)
        self.text(middle, y + 4, event.word, 11, INK, ' text-anchor="middle"')

    def draw_box(self, box):
        place = box.place()
        x = self.lane_of(box.who)
        width = (self.chain if place else self.width - MARGIN - self.chains_at) - 8
        top = self.y(box.first) - ROW / 2 + 2
        height = self.y(box.last) - self.y(box.first) + ROW - 4
        failed, canceled = box.answer.startswith(("-", "refused")), box.answer == "-125"
        self.signs |= {name for name, occurs in (("failed", failed), ("canceled", canceled)) if occurs}
        dashes = ' stroke-dasharray="3 3"' if canceled else ""
        fill, stroke = "#FFFFFF" if place else "#EDEDEA", GREY if canceled else INK
        self.rect(x, top, width, height, f' rx="3" fill="{fill}" stroke="{stroke}" stroke-width="1"{dashes}')
        self.text(x + 6, top + 14, self.label(box), 11, GREY if canceled else INK, MONO)
        bold = f'{MONO} font-weight="bold" text-anchor="end"'
        self.text(x + width - 6, top + 14, self.answer(box), 11, RED if failed else INK, bold)
        if box.who in self.got and box.last > box.first:
            self.text(x + 6, top + 11 + ROW, bytes_told(self.got[box.who]), 9, GREY, MONO)

    def draw_links(self):
        """Draws a line from each request to the one that it is linked to, and two lines for a hard link."""
        before = {}
        for box in (it for it in self.boxes if it.place()):
            chain = box.place()[:2]
            last = before.get(chain)
            before[chain] = box
            if last and last.words.endswith("link"):
                is_hard = last.words.endswith("hardlink")
                self.signs.add("hard-linked" if is_hard else "linked")
                x = self.lane_of(box.who) + 14
                for at in (x - 2, x + 2) if is_hard else (x,):
                    self.line(((at, self.y(last.last) + ROW / 2 - 2), (at, self.y(box.first) - ROW / 2 + 2)), INK, 1.4)

    def draw(self):
        """Draws all of it. Returns its height."""
        self.draw_heads()
        for span in self.history.spans:
            self.draw_table(span)
        for event in filter(self.is_drawn, self.history.events):
            self.draw_event(event)
        files = [it for it in self.history.files.values() if it.slot in self.slots]
        for draw in (self.draw_file, self.draw_holds, self.draw_name):
            for file in files:
                draw(file)
        for row, submission in self.heads.items():
            for chain in sorted(chain for it, chain in self.part.chains if it == submission):
                self.text(self.lane_of_chain(chain), self.y(row) + 5, f"chain {submission}.{chain}", 11, GREY, ' font-weight="bold"')
        self.draw_links()
        for box in self.boxes:
            self.draw_box(box)
        return self.bottom + 12


def chosen(those, asked, most, what, notes):
    """Returns those that are drawn: the ones that are asked for, or the first of too many, with a note. One that is asked for must exist."""
    those = list(those)
    some = [it for it in those if asked[0] <= it <= asked[1]] if asked else those[:most]
    if asked and not some:
        raise NoHistory(f"the history has none of the {what} {asked[0]} to {asked[1]}")
    if len(some) < len(those):
        notes.append(f"Drawn: {len(some)} of {len(those)} {what} (--{what} A-B draws others)")
    return some


def picture(history, got, slots=None, chains=None):
    """Returns the picture of a history: its parts side by side, in as many lines as they need."""
    notes, touched = [NOT_A_TRACE], history.slots()
    some = Part(set(chosen(touched, slots, MOST_SLOTS, "slots", notes)), set())
    those = chosen(range(1, history.chains() + 1), chains, MOST_CHAINS, "chains", notes)
    some.chains |= {place[:2] for place in history.places() if place[1] in those}
    if len(touched) < history.size():
        notes.append(f"Drawn: of {history.size()} slots those that an event concerns")
    parts = history.parts(some)
    if len(parts) > 1:
        notes.insert(1, SIDE_BY_SIDE)
    canvas, x, y, high, width = Canvas(), 0, 12 + 15 * len(notes), 0, WIDTH
    for nth, note in enumerate(notes):
        canvas.text(MARGIN, 20 + 15 * nth, note, 11, GREY if nth else INK)
    for part in parts:
        drawing = Drawing(history, got, part, WIDTH if len(parts) == 1 else 0)
        height = drawing.draw()
        if x and x + drawing.width > MOST_WIDTH:
            x, y, high = 0, y + high, 0
        canvas.place(drawing, x, y)
        x, high = x + drawing.width, max(high, height)
        width = max(width, x)
    end = canvas.draw_legend(SIGNS, width, y + high + 16)
    return canvas.svg(width, end + 16, TITLE)


def span(words):
    found = re.fullmatch(r"(\d+)-(\d+)", words)
    if not found:
        raise argparse.ArgumentTypeError(f"'{words}' is not a span such as 0-7")
    first, last = int(found[1]), int(found[2])
    if last < first:
        raise argparse.ArgumentTypeError(f"the span {words} is empty: its first number is larger than its last")
    return first, last


def read(path):
    with open(path, encoding="utf-8") if path else sys.stdin as file:
        return file.read()


def command():
    parser = argparse.ArgumentParser(usage=__doc__)
    parser.add_argument("--text")
    parser.add_argument("--slots", type=span)
    parser.add_argument("--chains", type=span)
    parser.add_argument("file", nargs="?")
    asked = parser.parse_args()
    try:
        history = History(read(asked.file).splitlines())
        text = read(asked.text) if asked.text else None
        if text is not None:
            history.want_text(text)
        print(picture(history, bytes_of(text or ""), asked.slots, asked.chains), end="")
    except NoHistory as wrong:
        print(f"draw-history: {wrong}", file=sys.stderr)
        return 1
    except UnicodeDecodeError:
        print("draw-history: a file is not text", file=sys.stderr)
        return 1
    except OSError as wrong:
        print(f"draw-history: {wrong.filename} can't be read: {wrong.strerror}", file=sys.stderr)
        return 1
    return 0
