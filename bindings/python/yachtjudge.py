"""The verified judge of io_uring's registered file table: judge(script, text), outcomes(script) and judge_log(text).

A script is what fixfiles plays. A text is what fixfiles, or a kernel, prints for it. A log is the text of calls in flight. All are str or
bytes. The library libyachtjudge.so.6 is looked for in the folder YACHTBANYAN_LIB_DIR if that is set, else beside
this file and in the folders lib above it; and at last where the system finds libraries.

    >>> import yachtjudge
    >>> script = "file a.txt 68656c6c6f\\nsparse 2\\nopen a.txt at 0\\nsubmit\\n"
    >>> yachtjudge.judge(script, "sparse 0\\n1.1.1 0\\nteardown\\nclosed 1.1.1.0 a.txt\\n")
    Verdict(word='legal', ...)
    >>> yachtjudge.judge_log("file a 61\\ncall 1 sparse 1\\ndone 1.1 0\\ncall 2 open a at 0\\ndone 2.1 0\\nsettled\\n")
    LogVerdict(word='legal', line=0)
"""
from __future__ import annotations

import ctypes
import operator
import os
from collections.abc import Iterable, Iterator, Sequence
from ctypes import POINTER, byref, c_size_t, c_uint8, c_uint32, c_uint64
from dataclasses import dataclass, field
from pathlib import Path
from typing import Any, Literal, Union

from yachtlines import BadLog, Event, Lines
from yachtsteps import Point, Step, _Step, fields, step_of

__all__ = ["BadLog", "BadScript", "LogVerdict", "NoMemory", "Outcomes", "Point", "Step", "Verdict", "judge", "judge_events", "judge_log", "outcomes"]
__version__ = "6.0.0"

# what a script or a text may be
Words = Union[str, bytes, bytearray, memoryview]

LEGAL, NOT_LEGAL, UNDECIDED, BAD_SCRIPT, NO_MEMORY = range(5)
NOT_A_LOG, KERNEL_LOG, LONG_LOG = range(9, 12)
ALL, SOME, NO_ROOM = range(3)

# fixcheck's own defaults, and the largest number of each; and the largest number of moves, which is no limit
STATES = 1_000_000
MEMORY = 1_024
MOST = 2**32 - 1
MOVES = 2**64 - 1
# the largest number of steps of a reason that the judge has room for at first, and room for the fault of a line
ROOM, FAULT_ROOM = 4_096, 400


class BadScript(ValueError):
    """The bytes are not a script. `line` has the first fault, from 1, or 0 if there are too many bytes; `fault` is its name."""

    line: int
    fault: str

    def __init__(self, line: int, fault: str) -> None:
        super().__init__(f"line {line}: {fault}")
        self.line, self.fault = line, fault


class NoMemory(MemoryError):
    """An allocation of the judge failed."""


@dataclass(frozen=True)
class Verdict:
    """A verdict: `word` is 'legal', 'not legal' or 'undecided'. It is true if it is 'legal'.

    Of a text that is not legal, `commands` is the number of commands that may have printed its first `at` bytes; no play prints a
    beginning of the text with one command more, unless a `closed` or `tag` line follows it. `expected` is advice: the likeliest text
    there, or a line in words. If the text should end there, or no order of a submission's requests explains its lines, it is the reason that
    `fixcheck` prints. Of an undecided text, `submission` was not decided within the limits, counted from 1."""

    word: Literal["legal", "not legal", "undecided"]
    commands: int = 0
    at: int = 0
    submission: int = 0
    expected: str = ""

    def __bool__(self) -> bool:
        return self.word == "legal"


@dataclass(frozen=True)
class Outcomes:
    """The texts that a script may print if no allocation fails, each once. If `are_all` is False, there may be more."""

    texts: tuple[bytes, ...]
    are_all: bool

    def __iter__(self) -> Iterator[bytes]:
        return iter(self.texts)

    def __len__(self) -> int:
        return len(self.texts)


@dataclass(frozen=True)
class LogVerdict:
    """A verdict on a log: `word` is 'legal', 'not legal' or 'undecided'. It is true if it is 'legal'.

    Up to and with the line `line`, from 1, a log that is not legal has no flight in which each request finds memory, or none by whole updates
    if they were required. `reason` has the steps of the reason, or none if no reason is found: each follows from the log and from steps before
    it, and the last one has a point in time before itself. Verdicts are equal whatever their reasons are. The line of an undecided log is
    that of its first answer -12, or 0."""

    word: Literal["legal", "not legal", "undecided"]
    line: int = 0
    reason: tuple[Step, ...] = field(default=(), compare=False, repr=False)

    def __bool__(self) -> bool:
        return self.word == "legal"


class _Verdict(ctypes.Structure):
    _fields_ = fields(uint64="commands at note", uint32="submission line")


class _Texts(ctypes.Structure):
    _fields_ = fields(uint64="count bytes", uint32="line")


class _Reading(ctypes.Structure):
    _fields_ = fields(uint64="line steps note")


def _paths() -> Iterator[Path]:
    """Yields where the library may be, but for the folders of the system."""
    name = "libyachtjudge.so.6"
    given = os.environ.get("YACHTBANYAN_LIB_DIR")
    if given:
        yield Path(given) / name
        return
    here = Path(__file__).resolve().parent
    yield here / name
    for above in here.parents:
        yield above / "lib" / name


def _version(library: ctypes.CDLL) -> str:
    """Returns the version that a library has, or that it has none."""
    try:
        version = library.yacht_judge_version
    except AttributeError:
        return "no version"
    version.restype = ctypes.c_char_p
    return f"the version {(version() or b'').decode(errors='replace')}"


def _load() -> ctypes.CDLL:
    paths = list(_paths())
    there = next((str(it) for it in paths if it.exists()), "")
    # a folder that was given is the only one, and else the system looks in its own
    found = there or (str(paths[0]) if os.environ.get("YACHTBANYAN_LIB_DIR") else paths[0].name)
    try:
        library = ctypes.CDLL(found)
    except OSError as fault:
        why = f"can't be loaded: {fault}" if there else "was not found"
        raise ImportError(f"The library {found} {why}. Set YACHTBANYAN_LIB_DIR to the folder that has it.") from fault
    version, major = _version(library), __version__.split(".")[0]
    if not version.startswith(f"the version {major}."):
        raise ImportError(f"The library {found} has {version}, and this module needs {major}. Set YACHTBANYAN_LIB_DIR to the folder that has it.")
    return library


_library = _load()
# bytes, the limits, and the steps of a reason
_BYTES = POINTER(c_uint8), c_size_t
_LIMITS = c_uint32, c_uint32
_REASON = POINTER(_Step), c_size_t
for _function, _given in (
    (_library.yacht_judge_6, (*_BYTES, *_BYTES, *_LIMITS, *_BYTES, POINTER(_Verdict))),
    (_library.yacht_outcomes_6, (*_BYTES, *_LIMITS, *_BYTES, POINTER(c_uint64), c_size_t, POINTER(_Texts))),
    (_library.yacht_judge_log_6, (*_BYTES, c_uint32, *_LIMITS, c_uint64, *_BYTES, *_REASON, POINTER(_Reading))),
):
    _function.restype, _function.argtypes = c_uint32, _given


def _bytes(of: Words, name: str) -> tuple[Any, int]:
    """Returns bytes that C may read, and their number."""
    if not isinstance(of, (str, bytes, bytearray, memoryview)):
        raise TypeError(f"{name} must be str or bytes, not {type(of).__name__}")
    data = of.encode() if isinstance(of, str) else bytes(of)
    return ctypes.cast(ctypes.c_char_p(data), POINTER(c_uint8)), len(data)


def _limits(**limits: int) -> list[int]:
    """Checks that each limit is a number from 0 to MOST, or to MOVES."""
    numbers = [operator.index(it) for it in limits.values()]
    for name, number in zip(limits, numbers):
        most = MOVES if name == "moves" else MOST
        if not 0 <= number <= most:
            raise ValueError(f"{name} must be from 0 to {most}, not {number}")
    return numbers


def judge(script: Words, text: Words, states: int = STATES, memory: int = MEMORY) -> Verdict:
    """Decides whether a script may print a text, by a search of at most `states` states and `memory` MiB for each part of a submission that
    has slots of its own.

    Raises BadScript if `script` is not a script, NoMemory if an allocation fails, TypeError if an argument has another type, and
    ValueError if a limit is negative or above 2**32 - 1."""
    given, printed, limits = _bytes(script, "script"), _bytes(text, "text"), _limits(states=states, memory=memory)
    verdict, room = _Verdict(), 65_536
    while True:
        note = (c_uint8 * room)()
        code = _library.yacht_judge_6(*given, *printed, *limits, note, room, byref(verdict))
        if verdict.note <= room:
            break
        room = verdict.note
    words = bytes(note[: verdict.note]).decode(errors="replace")
    if code == BAD_SCRIPT:
        raise BadScript(verdict.line, words)
    if code == NO_MEMORY:
        raise NoMemory("an allocation of the judge failed")
    word: Literal["legal", "not legal", "undecided"] = "legal" if code == LEGAL else "not legal" if code == NOT_LEGAL else "undecided"
    return Verdict(word, verdict.commands, verdict.at, verdict.submission, words)


def outcomes(script: Words, states: int = STATES, memory: int = MEMORY) -> Outcomes:
    """Returns the texts, as bytes, that a script may print if no allocation fails, by searches of at most `states` states and `memory` MiB
    in all.

    Raises what `judge` raises."""
    given, limits = _bytes(script, "script"), _limits(states=states, memory=memory)
    found, room, count = _Texts(), 1 << 20, 4_096
    while True:
        texts, lengths = (c_uint8 * room)(), (c_uint64 * count)()
        code = _library.yacht_outcomes_6(*given, *limits, texts, room, lengths, count, byref(found))
        if code != NO_ROOM:
            break
        room, count = max(found.bytes, 1), max(found.count, 1)
    if code == BAD_SCRIPT:
        # the judge names the fault
        judge(script, b"", 0, 0)
        raise BadScript(found.line, "")
    if code == NO_MEMORY:
        raise NoMemory("an allocation of the judge failed")
    joined, listed, at = bytes(texts[: found.bytes]), [], 0
    for length in lengths[: found.count]:
        listed.append(joined[at : at + length])
        at += length
    return Outcomes(tuple(listed), code == ALL)


def read_log(text: Words, states: int = STATES, memory: int = MEMORY, moves: int = MOVES, whole_updates: bool = False,
             lines: Sequence[int] = ()) -> LogVerdict | None:
    """Returns what `judge_log` returns, or None if the log has lines of the kernel's recorder. With `lines` each line of the text is one of
    another text."""
    given, limits = _bytes(text, "text"), _limits(states=states, memory=memory, moves=moves)
    reading, note = _Reading(), (c_uint8 * FAULT_ROOM)()

    def line_of(number: int) -> int:
        return lines[number - 1] if number and lines else number

    # a short log has a short reason
    room = min(64 + given[1] // 16, ROOM)
    while True:
        steps = (_Step * room)()
        code = _library.yacht_judge_log_6(*given, whole_updates, *limits, note, FAULT_ROOM, steps, room, byref(reading))
        if reading.steps <= room:
            break
        room = reading.steps
    if code == NO_MEMORY:
        raise NoMemory("an allocation of the judge failed")
    if code == NOT_A_LOG:
        raise BadLog(line_of(reading.line), bytes(note[: reading.note]).decode())
    if code == LONG_LOG:
        raise ValueError("the text has 2**32 bytes or more")
    if code == NOT_LEGAL:
        return LogVerdict("not legal", line_of(reading.line), tuple(step_of(it, line_of) for it in steps[: reading.steps]))
    return None if code == KERNEL_LOG else LogVerdict(_WORDS[code], line_of(reading.line))


_WORDS: dict[int, Literal["legal", "undecided"]] = {LEGAL: "legal", UNDECIDED: "undecided"}


def judge_log(text: Words, states: int = STATES, memory: int = MEMORY, moves: int = MOVES, *, whole_updates: bool = False) -> LogVerdict:
    """Decides whether the text of a log of calls in flight is legal, by searches of at most `states` states and `memory` MiB, and of at most
    `moves` moves together: states that a search tries or follows, the same one perhaps more than once. If they need more, the log is
    undecided, and else the verdict is that of a judgement without this limit. The search for the reason makes no move; 2**64 - 1 moves are no
    limit. With `whole_updates` each update is one step, not one for each entry. Of a log with an answer -12 only what comes before may be
    refused.

    Raises BadLog if the text is not a log, NoMemory if an allocation fails, and TypeError or ValueError if a limit is none or the text is too
    long."""
    verdict = read_log(text, states, memory, moves, whole_updates)
    if verdict is not None:
        return verdict
    from yachtlog import Log

    return Log(text if isinstance(text, str) else bytes(text)).judge(states, memory, moves, whole_updates=whole_updates)


def judge_events(log: Lines, events: Iterable[Event] | None = None, states: int = STATES, memory: int = MEMORY, moves: int = MOVES, *,
                 whole_updates: bool = False) -> LogVerdict:
    """Decides by `judge_log` whether a log that yachtlog has read is legal: the events of the log, without its tags, or others of the same
    calls. The lines of the verdict are those of the events."""
    text, lines = log.plain((it for it in log.events if it.word != "tag") if events is None else events)
    verdict = read_log(text, states, memory, moves, whole_updates, lines)
    assert verdict is not None
    return verdict
