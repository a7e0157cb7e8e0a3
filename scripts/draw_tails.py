"""draw-tails: draws bench/tails.txt as SVG: for each call and each table the times below which half, 99 % and 99.99 % of the calls were,
in the median of three runs, on a logarithmic axis. Beside a call of the crate is how often the last one is that of another table: what the
crate wins, and in red what it loses. It writes the picture to standard output."""
import math
import re
import statistics
import sys

from scripts.repository import read
from yachtcanvas import COLOURS, GREY, INK, LINE, RED, Canvas

FILE, TITLE = "bench/tails.txt", "Time of a single call beside three threads that look up"
NOTES = ("The dots of a row: half of the calls, 99 % and 99.99 % took at most this time. The number is that of 99.99 %.",
         "Beside it for the Rust crate: its time divided by that of another table with as many handles; in red, the crate takes longer.")
CALLS = {"look and release": "look up", "insert": "insert (arc-swap: replace)", "remove": "remove (arc-swap: replace by none)"}
CRATE, AXIS = "Rust crate", "nanoseconds of a call, logarithmic"
# nanoseconds at the ends of the axis, and pixels
FROM, TO = 30, 40_000
LEFT, WIDTH, ROW, TOP, MORE = 240, 480, 22, 76, 330
ROW_OF = re.compile(r"^busy: (.+), (\d+) writing: (.+): p50 (.+); p99 (.+); p99\.99 (.+)$", re.MULTILINE)


def place(nanoseconds):
    return LEFT + WIDTH * math.log(nanoseconds / FROM) / math.log(TO / FROM)


def axis(canvas, top, bottom):
    for time in (100, 1_000, 10_000):
        canvas.line(((place(time), top), (place(time), bottom)), LINE)
        canvas.text(place(time), bottom + 14, f"{time:,}", 11, GREY, ' text-anchor="middle"')
    canvas.text(LEFT + WIDTH, bottom + 14, AXIS, 11, GREY)


def row(canvas, y, name, handles, times, colour):
    handles = "1 handle" if handles == "1" else f"{handles} handles"
    canvas.text(LEFT - 10, y + 4, f"{name}, one thread, {handles}", 11, INK, ' text-anchor="end"')
    canvas.line(((place(times[0]), y), (place(times[-1]), y)), colour, 3)
    for time, radius in zip(times, (3, 4, 5)):
        canvas.parts.append(f'<circle cx="{place(time):.1f}" cy="{y:g}" r="{radius}" fill="{colour}"/>')
    canvas.text(place(times[-1]) + 9, y + 4, f"{times[-1]:,} ns", 10, GREY)


def ratios(canvas, y, most, others):
    """Writes how often the time of the crate is that of each other table."""
    for nth, (name, other) in enumerate(others.items()):
        loses = most > other
        canvas.text(LEFT + WIDTH + 60 + 135 * nth, y + 4, f"{most / other:.2f} of {name}", 10, RED if loses else INK, ' font-weight="bold"' if loses else "")


def command():
    found = [it for it in ROW_OF.findall(read(FILE)) if it[2] in CALLS]
    tables = list(dict.fromkeys(it[0] for it in found))
    canvas, y = Canvas(), TOP
    canvas.text(14, 22, TITLE, 13)
    for nth, note in enumerate(NOTES):
        canvas.text(14, 40 + 15 * nth, note, 11, GREY)
    for call, words in CALLS.items():
        canvas.text(14, y + 8, words, 12, INK, ' font-weight="bold"')
        rows = [(name, handles, [statistics.median(map(int, it.split())) for it in times]) for name, handles, its, *times in found if its == call]
        axis(canvas, y + 12, y + 16 + ROW * len(rows))
        for nth, (name, handles, times) in enumerate(rows):
            row(canvas, y + 26 + ROW * nth, name.removesuffix(" load"), handles, times, COLOURS[tables.index(name)])
            if name == CRATE:
                ratios(canvas, y + 26 + ROW * nth, times[-1], {it.removesuffix(" load"): its[-1] for it, same, its in rows if same == handles and it != CRATE})
        y += 54 + ROW * len(rows)
    sys.stdout.write(canvas.svg(LEFT + WIDTH + MORE, y - 10, TITLE))
