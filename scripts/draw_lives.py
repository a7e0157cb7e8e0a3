"""draw-lives: draws the phases of a slot of docs/use/DIRECT.md as SVG, with the calls that lead from one to another. It writes the picture to
standard output."""
import sys

from yachtcanvas import COLOURS, GREY, INK, PALE, Canvas

TITLE = "The phases of a slot, and the calls that lead from one to another"
WIDE, HIGH = 96, 40
# the places of the boxes' centres
PHASES = {"free": (80, 150), "opening": (280, 150), "live": (480, 150), "ending": (680, 150), "closing": (880, 150), "chained": (480, 310)}
MAIN, CHAIN, OVER = COLOURS[5], COLOURS[2], GREY
# the ways: the points of each, its colour, and its words with their place
WAYS = (
    ([(128, 150), (228, 150)], MAIN, [(134, 142, "reserve")]),
    ([(328, 150), (428, 150)], MAIN, [(334, 142, "opened: 0 or more")]),
    ([(528, 150), (628, 150)], MAIN, [(534, 142, "end: some are left")]),
    ([(728, 150), (828, 150)], MAIN, [(734, 126, "the last finish"), (734, 142, "or release: CLOSE")]),
    ([(510, 130), (510, 92), (850, 92), (850, 126)], MAIN, [(560, 86, "end, if no request and no user is left: CLOSE")]),
    ([(450, 130), (450, 92), (400, 92), (400, 122), (428, 134)], MAIN, [(330, 70, "start, finish,"), (330, 86, "hold, release")]),
    ([(910, 130), (910, 92), (960, 92), (960, 140), (934, 146)], MAIN, [(884, 86, "close_failed: CLOSE")]),
    ([(880, 130), (880, 34), (60, 34), (60, 126)], OVER, [(420, 28, "closed")]),
    ([(260, 130), (260, 60), (100, 60), (100, 126)], OVER, [(130, 54, "opened: negative")]),
    ([(110, 170), (110, 232), (452, 232), (452, 176)], MAIN, [(124, 226, "adopt")]),
    ([(304, 170), (304, 204), (856, 204), (856, 176)], MAIN, [(560, 198, "opened: 0 or more, after stop: CLOSE")]),
    ([(268, 170), (268, 310), (428, 310)], CHAIN, [(276, 302, "chain")]),
    ([(480, 290), (480, 176)], CHAIN, [(488, 240, "chained: the open succeeded,"), (488, 256, "and the chain has no close")]),
    ([(532, 310), (880, 310), (880, 176)], CHAIN, [(560, 302, "chained, the last one: the close left the file: CLOSE")]),
    ([(480, 330), (480, 366), (80, 366), (80, 176)], OVER, [(96, 358, "chained, the last one: the open failed, or the close took the file")]),
)


def arrow(canvas, points, colour):
    for ends in zip(points, points[1:]):
        canvas.line(ends, colour, 1.6)
    (from_x, from_y), (x, y) = points[-2:]
    length = ((x - from_x) ** 2 + (y - from_y) ** 2) ** 0.5
    along, aside = ((x - from_x) / length, (y - from_y) / length), ((from_y - y) / length, (x - from_x) / length)
    corners = [(x - 8 * along[0] + side * aside[0], y - 8 * along[1] + side * aside[1]) for side in (-4, 4)]
    tip = " L ".join(f"{it[0]:.1f} {it[1]:.1f}" for it in [*corners, (x, y)])
    canvas.parts.append(f'<path d="M {tip} z" fill="{colour}"/>')


def command():
    canvas = Canvas()
    for points, colour, words in WAYS:
        arrow(canvas, points, colour)
        for x, y, text in words:
            canvas.text(x, y, text, 11, INK)
    for name, (x, y) in PHASES.items():
        canvas.rect(x - WIDE / 2, y - HIGH / 2, WIDE, HIGH, f' rx="5" fill="{PALE}" stroke="{INK}"')
        canvas.text(x, y + 5, name, 14, INK, ' text-anchor="middle" font-weight="bold"')
    sys.stdout.write(canvas.svg(1020, 386, TITLE))
