"""The steps of the reason why a log of calls in flight is not legal, as the verified judge writes them (include/yachtjudge.h): the structs
that C fills, and what they say in the lines and the marks of the log."""
from __future__ import annotations

import ctypes
from collections.abc import Callable
from typing import Any, NamedTuple

from yachtlines import NO_FILE, Mark

# the rules and the kinds of points, in the order of their numbers from 1
RULES = ["events", "begins", "ends", "calls", "installs", "places", "follows", "finds", "closes", "settles", "empties", "precedes", "displaces",
         "outlives", "then", "finds-closed", "closes-twice", "closes-held", "cant-answer", "holds", "differs", "stays", "takes",
         "taken-by", "lands", "misses", "existed", "fails", "unknown", "cut", "suppose", "otherwise"]
POINTS = ["event", "access", "put", "gone"]
# for each rule the number of its events, whether it names an access, and the number of its premises
SHAPES = {
    "events": (2, False, 0), "begins": (2, True, 0), "ends": (2, True, 0), "calls": (1, False, 0), "installs": (2, True, 0),
    "places": (2, True, 0), "follows": (2, False, 0), "finds": (2, False, 0), "closes": (1, False, 0), "settles": (1, False, 2),
    "empties": (2, True, 1), "precedes": (2, True, 1), "displaces": (0, False, 2), "outlives": (0, False, 2), "then": (0, False, 2),
    "finds-closed": (2, False, 0), "closes-twice": (2, False, 0), "closes-held": (2, False, 0),
    "cant-answer": (2, False, 0), "holds": (2, True, 0), "differs": (2, False, 1),
    "stays": (1, False, 1), "takes": (0, False, 2), "taken-by": (0, False, 2), "lands": (0, False, 1),
    "misses": (0, False, 1), "existed": (1, False, 0), "fails": (2, False, 0), "unknown": (0, False, 1), "cut": (2, False, 0),
    "suppose": (0, False, 0), "otherwise": (0, False, 0),
}


def fields(**kinds: Any) -> list[tuple[str, Any]]:
    """Returns the members of a struct, of each type those with these names, in order."""
    return [(name, getattr(ctypes, f"c_{kind}")) for kind, names in kinds.items() for name in names.split()]


class Point(NamedTuple):
    """A point in time of a flight. `kind` is 'event', the event of `line`; 'access', the access with the number `access` of what `line`
    answers; 'put', the installation of `file`, or the end of the flight; or 'gone', the last time at which `file` is at `slot`."""

    kind: str
    line: int = 0
    access: int = 0
    file: Mark = NO_FILE
    slot: int = 0


class Step(NamedTuple):
    """A step of a reason: by its `rule`, `before` comes before `after` in each flight, or, unless `is_strict`, at the same time. `lines` are
    those of the events that the rule is applied to, mostly of a call and its answer, `access` is the number of the access among those of its
    member, and `premises` are the numbers of earlier steps, from 0. `slot` is the one at which an access finds a file."""

    rule: str
    lines: tuple[int, ...]
    access: int
    premises: tuple[int, ...]
    before: Point
    after: Point
    is_strict: bool
    slot: int = 0


class _Point(ctypes.Structure):
    _fields_ = fields(uint32="kind slot", uint64="at access") + fields(uint32="by_call by_member by_entry", uint8="file")


class _Step(ctypes.Structure):
    _fields_ = [*fields(uint32="rule is_strict", uint64="first second access premise other slot"), ("from", _Point), ("to", _Point)]


def _point(it: _Point, line_of: Callable[[int], int]) -> Point:
    kind = POINTS[it.kind - 1]
    if kind in ("event", "access"):
        return Point(kind, line_of(it.at), it.access)
    return Point(kind, file=(it.by_call, it.by_member, it.by_entry), slot=it.slot)


def step_of(it: _Step, line_of: Callable[[int], int]) -> Step:
    """Returns what a struct says of a text, whose lines are those of another one by `line_of`."""
    rule = RULES[it.rule - 1]
    events, is_of_access, premises = SHAPES[rule]
    lines = tuple(line_of(at) for at in (it.first, it.second)[:events])
    before, after = _point(getattr(it, "from"), line_of), _point(it.to, line_of)
    access = it.access if is_of_access else 0
    return Step(rule, lines, access, (it.premise, it.other)[:premises], before, after, bool(it.is_strict), it.slot)
