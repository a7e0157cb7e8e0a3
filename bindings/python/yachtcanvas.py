"""Draws a picture as SVG: shapes, arrows, and a legend of signs."""
from __future__ import annotations

from collections.abc import Callable, Mapping
from html import escape
from typing import Any

COLOURS = ("#E69F00", "#56B4E9", "#009E73", "#CC79A7", "#D55E00", "#0072B2", "#F0E442")
INK, GREY, PALE, LINE, RED = "#1A1A1A", "#595959", "#F5F5F3", "#D9D9D6", "#A63C00"
# pixels
MARGIN, BAR, TAIL = 14, 16, 5
MONO = ' font-family="ui-monospace, Menlo, Consolas, monospace"'
Point = tuple[float, float]


def colour_of(nth: int) -> str:
    """Returns a colour for the nth thing, from 0. The first ones are those of Okabe and Ito, which colour-blind people can tell apart; after
    them hues are a golden angle apart, so that none occurs twice."""
    return COLOURS[nth] if nth < len(COLOURS) else f"hsl({nth * 137.508 % 360:.1f}, {55 + nth % 3 * 15}%, {42 + nth % 4 * 8}%)"


class Canvas:
    """Shapes as lines of SVG. `signs` has the signs that occur."""

    def __init__(self) -> None:
        self.parts: list[str] = []
        self.signs: set[str] = set()

    def text(self, x: float, y: float, words: str, size: float = 11, fill: str = INK, more: str = "") -> None:
        self.parts.append(f'<text x="{x:g}" y="{y:g}" font-size="{size}" fill="{fill}"{more}>{escape(words)}</text>')

    def line(self, ends: tuple[Point, Point], stroke: str, width: float = 1, more: str = "") -> None:
        (x, y), (to_x, to_y) = ends
        self.parts.append(f'<line x1="{x:g}" y1="{y:g}" x2="{to_x:g}" y2="{to_y:g}" stroke="{stroke}" stroke-width="{width}"{more}/>')

    def rect(self, x: float, y: float, width: float, height: float, more: str) -> None:
        self.parts.append(f'<rect x="{x:g}" y="{y:g}" width="{width:g}" height="{height:g}"{more}/>')

    def circle(self, x: float, y: float, radius: float = 4, stroke: str = GREY) -> None:
        self.parts.append(f'<circle cx="{x:g}" cy="{y:g}" r="{radius:g}" fill="#FFFFFF" stroke="{stroke}" stroke-width="1.4"/>')

    def ring(self, place: Point, stroke: str, words: str) -> None:
        """Draws words in a ring."""
        self.circle(*place, 4 + 3.2 * len(words), stroke)
        self.text(place[0], place[1] + 3.6, words, 10, stroke, ' text-anchor="middle" font-weight="bold"')

    def arrow(self, ends: tuple[Point, Point], bend: float, stroke: str) -> Point:
        """Draws a bent arrow. `bend` is how far its middle is from the straight line, in pixels. Returns the middle."""
        (x, y), (to_x, to_y) = ends
        along, down = to_x - x, to_y - y
        length = max((along**2 + down**2) ** 0.5, 1)
        turn_x, turn_y = (x + to_x) / 2 - 2 * bend * down / length, (y + to_y) / 2 + 2 * bend * along / length
        # the head points along the end of the curve
        end_x, end_y = to_x - turn_x, to_y - turn_y
        end = max((end_x**2 + end_y**2) ** 0.5, 1)
        end_x, end_y = 8 * end_x / end, 8 * end_y / end
        head = " ".join(f"{to_x - end_x + side * end_y:.1f},{to_y - end_y - side * end_x:.1f}" for side in (-0.45, 0.45))
        self.parts.append(f'<path d="M {x:.1f} {y:.1f} Q {turn_x:.1f} {turn_y:.1f} {to_x:.1f} {to_y:.1f}" fill="none" stroke="{stroke}" stroke-width="1.6"/>')
        self.parts.append(f'<polygon points="{to_x:.1f},{to_y:.1f} {head}" fill="{stroke}"/>')
        return round((x + 2 * turn_x + to_x) / 4, 1), round((y + 2 * turn_y + to_y) / 4, 1)

    def place(self, other: Canvas, x: float, y: float) -> None:
        """Draws another canvas at a point."""
        self.parts += [f'<g transform="translate({x:g} {y:g})">', *other.parts, "</g>"]
        self.signs |= other.signs

    def draw_legend(self, signs: Mapping[str, Callable[[Any, float, float], object]], width: float, y: float) -> float:
        """Draws the signs that occur, each by its function, in lines of at most that width from y on. Returns the place of the last line."""
        x = MARGIN + 4
        for name in (it for it in signs if it in self.signs):
            wide = 36 + len(name) * 6
            if x + wide > width - MARGIN:
                x, y = MARGIN + 4, y + 18
            signs[name](self, x, y)
            self.text(x + 22, y, name, 11, GREY)
            x += wide
        return y

    def svg(self, width: float, height: float, title: str) -> str:
        """Returns the picture, on white, so that it can be read on a dark page too."""
        head = (f'<svg xmlns="http://www.w3.org/2000/svg" width="{width:g}" height="{height:g}" '
                f'viewBox="0 0 {width:g} {height:g}" font-family="Helvetica, Arial, sans-serif">')
        back = f'<rect width="{width:g}" height="{height:g}" fill="#FFFFFF" stroke="{LINE}"/>'
        return "\n".join([head, f"<title>{escape(title)}</title>", back, *self.parts, "</svg>", ""])
