"""Rows for yachtjudge and yachtlog, each derived by hand: those of bindings/rust_judge/tests/rows.txt, which describes their form, with each
field, the command's line and its status; and those of Python alone: types of arguments, limits, faults that are raised, and hints. The
variable JUDGE_ROWS, which names the file to a stand-in for the library, adds the rows that only that answers."""
import contextlib
import io
import os
import re
import sys
import tempfile
import typing
from pathlib import Path

import yachtjudge
import yachtlog
from judge_tables import ROWS, expanded
from judge_tables import rows as all_rows
from rows import end, raised, raises, want
from yachtjudge import BadScript, LogVerdict, NoMemory, Outcomes, Verdict, judge, judge_events, judge_log, outcomes

ROOT = Path(__file__).resolve().parents[2]

WORDS = ["legal", "not legal", "undecided"]
is_stand_in = "JUDGE_ROWS" in os.environ


def rows():
    """Returns the rows, without those that only a stand-in answers unless this is one."""
    return [it for it in all_rows() if is_stand_in or not it[1]]


def result(call):
    """Returns what a call returns, or what it raises: the kind, and the words."""
    try:
        return call()
    except (ValueError, MemoryError) as fault:
        return type(fault), str(fault)


def bad_script(script):
    """Returns what a bad script raises, by the row that has its fault."""
    return next((BadScript, f"line {more[0].split()[3]}: {expanded(more[1]).decode()}") for kind, _, it, _, number, more in rows()
                if kind == "judge" and it == script and number == 3)


NONE = NoMemory, "an allocation of the judge failed"


def judged(_, script, limits, number, fields, note, text):
    commands, at, submission, _ = map(int, fields.split())
    expected = expanded(note).decode(errors="replace")
    wanted = Verdict(WORDS[number], commands, at, submission, expected) if number < 3 else bad_script(script) if number == 3 else NONE
    found = result(lambda: judge(script, expanded(text), *limits))
    want(found == wanted and (number > 2 or bool(found) == (number == 0)), f"{found} in place of {wanted}")


def listed(_, script, limits, number, line, texts):
    found = result(lambda: outcomes(script, *limits))
    wanted = tuple(expanded(texts).split(b"^")[:-1])
    if number > 2:
        want(found == (bad_script(script) if number == 3 else NONE), f"{found} of a list with the number {number}")
        return
    is_subset = number == 1 and not is_stand_in and set(found.texts) <= set(wanted)
    want(is_subset or sorted(found.texts) == sorted(wanted), f"there are other texts of {script}: {found.texts[:4]}")
    want(found.are_all == (number == 0) and len(found) == len(found.texts) == len(list(found)), f"there may be more texts: {found.are_all}")


def judged_log(is_refused, script, limits, number, fields, lines):
    """Judges a log by the module and by the command. What the module doesn't read as a log isn't one, at the same line."""
    slots, *limits = limits
    at, _ = map(int, fields.split())
    files = script.count(b"\n")
    line = files + 3 + at
    text = script.decode() + f"call 1 sparse {slots}\ndone 1.1 0\n" + expanded(lines).decode()
    bad_line = at + 1 if number == 8 and not is_refused else files + 1 if not 0 < slots <= 1_048_576 else line if number == 5 and not is_refused else 0
    if bad_line:
        fault = raised(lambda: yachtlog.Log(text))
        want(type(fault) is yachtlog.BadLog and fault.line == bad_line, f"{fault!r} of what is not a log at line {bad_line}: {lines}")
        return
    # a text that is read has no fault for the judge
    log = yachtlog.Log(text)
    if number > 4 or is_stand_in and log.lacking:
        return
    wanted = {0: LogVerdict("legal"), 1: LogVerdict("not legal", line), 2: LogVerdict("undecided"), 4: NONE}.get(number)
    if log.lacking and number == 2:
        wanted = LogVerdict("undecided", log.lacking)
    for call in (lambda: judge_events(log, None, *limits), lambda: judge_log(text, *limits), lambda: log.judge(*limits)):
        want(result(call) == wanted, f"{result(call)} in place of {wanted}: {lines}")
    if not log.lacking:
        want(command(text, limits) == said(text, number, line), f"the command prints something else: {command(text, limits)}, {lines}")


def command(text, limits):
    """Returns what the command prints of a log, without the reason, which log_rows.py looks at; and its status."""
    with tempfile.TemporaryDirectory() as room, contextlib.redirect_stdout(io.StringIO()) as printed, contextlib.redirect_stderr(printed):
        Path(room, "log").write_text(text)
        sys.argv[1:], given = ["--states", str(limits[0]), "--memory", str(limits[1]), "--moves", str(limits[2]), f"{room}/log"], sys.argv[1:]
        status = yachtlog.main()
        sys.argv[1:] = given
        return re.sub(r"^ {4}.*\n", "", printed.getvalue().replace(f"{room}/", ""), flags=re.MULTILINE), status


def said(text, number, line):
    """Returns what the command should print of a log, and its status."""
    status, words = next(it.split("\t")[2:] for it in ROWS if it.startswith(f"status\t{number}\t"))
    return words.replace("LINE", str(line)).replace("TEXT", text.splitlines()[line - 1] if number == 1 else "") + "\n", int(status)


for kind, *row, more in rows():
    {"judge": judged, "list": listed, "log": judged_log}[kind](*row, *more)
if is_stand_in:
    end()

# a text for bytes, and bytes of each kind
script, text = "file a.txt 68656c6c6f\nsparse 1\nopen a.txt at 0\nsubmit\n", "sparse 0\n1.1.1 0\nteardown\nclosed 1.1.1.0 a.txt\n"
for kind in (str, str.encode, lambda it: bytearray(it.encode()), lambda it: memoryview(it.encode())):
    want(judge(kind(script), kind(text)) == Verdict("legal", 0, 0, 0, ""), f"{kind} is judged otherwise")
want(isinstance(outcomes(script), Outcomes) and set(outcomes(script.encode())) == {text.encode()}, "there are other texts")

# faults
for call in (lambda: judge("sparse 1\nsparse\n", ""), lambda: outcomes("sparse 1\nsparse\n")):
    fault = raised(call)
    want(isinstance(fault, ValueError) and (fault.line, fault.fault) == (2, "word-count"), f"a bad script raises {fault!r}")
raises(TypeError, "script must be str or bytes, not int", lambda: judge(5, ""))
raises(TypeError, "text must be str or bytes, not int", lambda: judge("", 5))
raises(TypeError, f"script must be str or bytes, not {type(Path()).__name__}", lambda: judge(Path("x"), ""))
raises(TypeError, "script must be str or bytes, not list", lambda: outcomes([115]))
raises(TypeError, "script must be str or bytes, not NoneType", lambda: outcomes(None))
raises(TypeError, "str", lambda: judge("", "", states="5"))
raises(TypeError, "float", lambda: judge("", "", memory=1.0))
log = yachtlog.Log("file a 61\ncall 1 sparse 1\ndone 1.1 0\n")
for call in (lambda **limit: judge("", "", **limit), lambda **limit: outcomes("", **limit), lambda **limit: judge_events(log, **limit)):
    raises(ValueError, "states must be from 0 to 4294967295, not -1", lambda call=call: call(states=-1))
    raises(ValueError, "states must be from 0 to 4294967295, not 4294968296", lambda call=call: call(states=2**32 + 1000))
    raises(ValueError, "memory must be from 0 to 4294967295, not -1", lambda call=call: call(memory=-1))
    raises(ValueError, "memory must be from 0 to 4294967295, not 4294967296", lambda call=call: call(memory=2**32))
raises(ValueError, "moves must be from 0 to 18446744073709551615, not -1", lambda: judge_events(log, moves=-1))
raises(ValueError, "moves must be from 0 to 18446744073709551615, not 18446744073709551616", lambda: judge_log(log.source, moves=2**64))
raises(TypeError, "str", lambda: judge_log(log.source, moves="5"))

# hints, and the version
for function in (judge, outcomes):
    hints = typing.get_type_hints(function)
    want({"script", "states", "memory", "return"} <= set(hints), f"{function.__name__} has no hint for an argument or its result")
want(typing.get_type_hints(judge)["return"] is yachtjudge.Verdict, "judge has another hint for its result")
want(typing.get_type_hints(outcomes)["return"] is yachtjudge.Outcomes, "outcomes has another hint for its result")
version = Path(__file__).resolve().parents[2] / "VERSION"
want(yachtjudge.__version__ == version.read_text().strip(), f"the module's version is {yachtjudge.__version__}")
# over all examples: the text is legal, and without its last line it isn't
examples = {it: it.with_suffix(".text").read_bytes().splitlines(True) for it in (ROOT / "examples").glob("*.script")}
words = {it.name: [judge(it.read_bytes(), b"".join(those)).word for those in (lines, lines[:-1])] for it, lines in examples.items()}
wrong = {name: it for name, it in words.items() if it != WORDS[:2]}
want(len(words) >= 33 and not wrong, f"of {len(words)} examples these are judged otherwise: {wrong}")
# the longest row is the last one, so that a wrong module is found sooner
reads = "".join(f"read {it} 0 1\nopen b at {it}\n" for it in range(12))
many = outcomes(f"file a 61\nfile b 62\nregister {','.join('0' * 12)}\n{reads}submit\n", memory=4096)
want(len(many) == len(set(many)) == 2**12 and many.are_all, f"4,096 texts, more than a MiB, are {len(many)}")
end()
