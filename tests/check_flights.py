"""check-flights [COUNT [SEED]]: compares the verified judge of logs with a search of all orders (model/tiny_flights.py) on COUNT tiny
random logs, as they happened and spoiled, and on a third as many by whole updates. tests/reasons.py checks the reasons. The rows of
tests/reason_rows.py and tests/log_lines.py must hold. This machine's kernel must keep the rules of calls in flight, on LOGS logs of
each. Wrong judges, modules and recorders must each be noticed."""
import collections
import os
import re
import tempfile
from unittest import mock

from scripts.checks import Counted, arguments
from model import tiny_flights
from kernel import conform, flights
from kernel.kernels import NO_KERNEL, built_player
from tests import log_lines, reason_rows, reasons
from scripts.programs import given_time, in_parallel, run
from scripts.repository import ROOT, copy_changed, write
import yachtlog

HEAD = "".join(f"file {name} {content}\n" for name, content in tiny_flights.NAMES.items())
# every so many logs that aren't legal, the line is compared too
LINE_OF = 5
LEGAL, NOT_LEGAL, REFUSED, NOT_DECIDED = "legal", "not legal", "refused", "undecided"
COUNT, SEED = 10_000, 1
# the least number of tiny logs of updates, in 1,000, that are legal, and not by whole updates
SPLIT = 8
# the least share of the tiny logs that are not legal that must have a reason, in percent
CERTIFIED = 97
# the number of logs of each rule, and of each wrong recorder but the rarely wrong one
LOGS, WRONG_LOGS = 1_000, 20
# the order of lines with the same time, and of each so many logs one is tried
AT_ONE_TIME, TIMED = ["call", "done", "free", "closed", "settled"], 10
# the number of cases that need a kernel with io_uring
OF_KERNEL = 15
# a log that is legal, but not if each update is one step
BETWEEN = """file a 61
call 1 sparse 2
done 1.1 0
call 2 update 0 0,0
call 3 read 0 0 1
done 3.1 1 61
call 4 read 1 0 1
done 4.1 -9
done 2.1 2
settled
call 5 regupdate 0 -1,-1
done 5.1 2
closed 2.1.0 a
closed 2.1.1 a
settled
"""
CUT = BETWEEN[: BETWEEN.index("call 5")]
# rows for conform: the rule, a log, the recorder's status, whether it passes; and wrong changes
CHAINS, WHOLE = "chains_in_flight_are_requests_one_at_a_time", "updates_in_flight_are_one_step"
CONFORM_ROWS = (CHAINS, BETWEEN, 0, True), (CHAINS, BETWEEN, 3, False), (CHAINS, CUT, 0, False), (WHOLE, BETWEEN, 0, False)
WRONG_CONFORM = {
    "takes the log of a recorder that failed": {"recorded": lambda program, words, seed: (run([program])[1], "")},
    "takes a log that is cut off": {"SETTLED": 1},
    **{f"{words} asks for whole updates": {"RULES": {it: those._replace(is_whole=is_asked) for it, those in flights.RULES.items()}}
       for words, is_asked in (("never", False), ("always", True))},
}
# changes of kernel/flight, each with the arguments of the recorder
SPOILS_ONE = f"spoils one of {LOGS} logs"
WRONG_RECORDERS = {
    "loses a close": ([], "links.c", "\t\tappend_close(of,", "\t\tstatic int is_lost;\n\t\tif (is_lost++)\n\t\t\tappend_close(of,"),
    "closes twice": ([], "links.c", "\t\tremove_link(link);", '\t\tappend_close(of, "closed %.*s %s", (int)(name - link), link, name + 1);'),
    "answers that a file is missing": ([], "record.c", "\tif (res < 0)\n", "\tif (it->is_read)\n\t\tres = -9;\n\tif (res < 0)\n"),
    "closes a file that a read waits for": (["--pipes", "--chains", "20"], "links.c", "\treap();\n", "\tstatic int turn;\n\tif (turn++ % 2)\n\t\treap();\n"),
    SPOILS_ONE: ([], "record.c", "\twrite_log();", f'\tif (seed % {LOGS} == {LOGS // 2})\n\t\tappend("closed 2.1.0 a");\n\twrite_log();'),
}


def without(pattern, lines):
    return [it for it in lines if not re.match(pattern, it)]


# what a wrong judge makes of a log before it searches
WRONG = {
    "sees no closes": lambda lines: without("closed|settled", lines),
    "doesn't wait at settled": lambda lines: without("settled", lines),
    "ends a hold with its answer": lambda lines: "\n".join(
        re.sub(r"^(done (\S+)\.1 0 \S+)$", r"\1\nfree \2", it) for it in without("free", lines)).split("\n"),
    "lets closes come early": lambda lines: without("closed|settled", lines) + [it for it in lines if it.startswith("closed")],
    "calls everything at once": lambda lines: lines[:2] + [it for it in lines[2:] if it.startswith("call")] + without("call", lines[2:]),
}


# what a wrong judge makes of a verdict and its line
WRONG_VERDICTS = {
    "finds every log legal": lambda word, line: (LEGAL, 0),
    "finds no log legal": lambda word, line: (NOT_LEGAL if word == LEGAL else word, line),
    "names the line before": lambda word, line: (word, line - 1),
    "names the line after": lambda word, line: (word, line + 1),
}


def verdict_of(lines, is_whole=False):
    """What the verified judge says, perhaps by whole updates, and the line."""
    try:
        verdict = yachtlog.Log(text_of(lines, len(lines))).judge(whole_updates=is_whole)
    except ValueError:
        return REFUSED, 0
    return verdict.word, verdict.line - HEAD.count("\n")


def is_right(word, line, lines, legal, wants_line=True, is_whole=False):
    """Whether a verdict on a log is that of all orders."""
    if word != NOT_LEGAL or not wants_line:
        return (word == LEGAL) == legal
    return not legal and is_legal(lines[: line - 1], is_whole) and not is_legal(lines[:line], is_whole)


def facts_of(lines):
    """Returns the reason of the verdict on a log, as tests/reasons.py reads it, or nothing."""
    return reasons.facts_of(yachtlog.Log(text_of(lines, len(lines))).judge().reason)


def text_of(lines, last):
    return HEAD + "".join(f"{it}\n" for it in lines[:last])


def without_step(facts, nth):
    """Returns a reason without one of its steps and those of the same order. What follows from these follows from none."""
    gone = [at for at, it in enumerate(facts) if it[4:] == facts[nth][4:]]
    return [(rule, lines, access, tuple(-1 if it in gone else it - sum(at < it for at in gone) for it in premises), *order)
            for at, (rule, lines, access, premises, *order) in enumerate(facts) if at not in gone]


def complaint_of_reason(lines, line, facts):
    """Returns what is wrong with a reason, or that it stands without a step, or for the lines before the last one."""
    text = text_of(lines, line)
    if why := reasons.complaint(text, facts):
        return why
    kept = [nth for nth in range(len(facts)) if not reasons.complaint(text, without_step(facts, nth))]
    if kept:
        return f"the reason is not refused without its step {kept[0]}"
    return "" if reasons.complaint(text_of(lines, line - 1), facts) else "the reason is not refused for the lines before the last one"


def at_equal_times(lines, words):
    """Returns a log by a clock that moves on after each fourth line, and around `settled`. Equal times are in order of words."""
    def key(nth):
        line = lines[nth]
        return lines[: nth + 1].count("settled"), line != "settled", nth // 4, words.index(line.split()[0]) if nth > 1 else -1

    return [lines[nth] for nth in sorted(range(len(lines)), key=key)]


def is_legal(lines, is_whole=False):
    try:
        return tiny_flights.is_legal(lines, is_whole)
    except KeyError:
        return False


def conform_rows():
    """Returns for each row of kernel/conform whether it holds."""
    with tempfile.TemporaryDirectory() as room, mock.patch.object(conform, "BUILD", room):
        found = []
        for nth, (rule, log, status, passes) in enumerate(CONFORM_ROWS):
            program = os.path.join(room, f"recorder{nth}")
            write(program, f"#!/bin/sh\ncat << 'END'\n{log}END\nexit {status}\n")
            os.chmod(program, 0o755)
            outcome, _ = conform.of_log(yachtlog, program, flights.RULES[rule], rule, 1)
            found.append(outcome.is_ok == passes and not outcome.skipped)
    return found


def changed_recorder(room, file, old, new):
    """Builds the recorder with a change. Returns the program's path."""
    sources = os.path.join(room, "kernel")
    copy_changed("kernel", sources, f"flight/{file}", old, new)
    return flights.built_recorder(sources, os.path.join(room, "record"))


def overlapping(program):
    return sum(flights.overlaps(flights.recorded(program, [], seed)[0]) for seed in range(1, WRONG_LOGS + 1))


def wrong_rows(folder):
    """Returns the number of rows that are wrong for the modules of a folder, and what is printed. A traceback counts as none."""
    _, said, fault = run([f"{ROOT}/scripts/run", "tests.log_lines"], env={**os.environ, "PYTHONPATH": folder, "YACHTBANYAN_LIB_DIR": f"{ROOT}/lib"})
    last = re.search(r"^log_lines: (\d+) looked at, (\d+) wrong\n$", said, re.MULTILINE)
    return int(last[2]) if last and int(last[1]) == log_lines.count() else -1, said[-2000:] + fault[-500:]


def wrong_rows_of(change):
    """The same for modules with a wrong change."""
    name, old, new = change
    with tempfile.TemporaryDirectory() as room:
        folder = os.path.join(room, "python")
        copy_changed("bindings/python", folder, f"{name}.py", old, new)
        return wrong_rows(folder)


class Checks(Counted):
    def compare(self, count, seed):
        """Compares the verdicts on random logs. Returns the logs, with the judge's verdict and that of all orders."""
        found, tally = [], collections.Counter()
        for happened, lines in tiny_flights.logs(seed, count):
            legal, (word, line) = is_legal(lines), verdict_of(lines)
            holds = is_right(word, line, lines, legal, tally[NOT_LEGAL] % LINE_OF == 0) and (legal or not happened)
            self.want(holds, f"the judge says {word} {line}, and all orders {legal}:\n" + "\n".join(lines))
            tally[word] += 1
            found.append((lines, (word, line), legal))
        # enough logs are legal, and enough are not
        for kind, share in ((LEGAL, 3), (NOT_LEGAL, 7)):
            self.want(tally[kind] * share >= count, f"only {tally[kind]} of {count} logs are {kind}")
        self.want(NOT_DECIDED not in tally, "the judge leaves a tiny log undecided")
        return found

    def whole_updates(self, count, seed):
        """Compares the verdicts by whole updates on random logs of updates."""
        split, differs = 0, False
        for _, lines in tiny_flights.logs(seed, count, tiny_flights.PlayOfUpdates):
            whole, (word, line) = is_legal(lines, True), verdict_of(lines, is_whole=True)
            split += is_legal(lines) and not whole
            self.want(is_right(word, line, lines, whole, is_whole=True),
                      f"by whole updates the judge says {word} {line}, and all orders {whole}:\n" + "\n".join(lines))
            differs |= not is_right(*verdict_of(lines), lines, whole, wants_line=False)
        print(f"# {split} of {count} tiny logs of updates are legal, and not by whole updates")
        self.want(split * 1_000 >= count * SPLIT, f"only {split} of {count} tiny logs of updates are legal, and not by whole updates")
        self.want(differs, "the judge differs on no log if it is asked for no whole updates")

    def lines(self):
        """Checks the rows of tests/log_lines.py, and that each wrong module fails on one."""
        wrong, said = wrong_rows(f"{ROOT}/bindings/python")
        self.seen += log_lines.count() - 1
        self.want(wrong == 0, f"rows of tests/log_lines.py are wrong:\n{said}")
        for (name, old, new), found in zip(log_lines.WRONG, in_parallel(wrong_rows_of, log_lines.WRONG)):
            self.want(found[0] > 0, f"{name}.py with {new!r} in place of {old!r} fails on no row: {found[1]}")

    def reasons(self, found):
        """Checks the reasons of the logs that are not legal, and their share."""
        for last, why in reason_rows.wrong_rows():
            self.want(False, f"reasons.py says of {last}: {why or 'nothing'}")
        self.seen += reason_rows.count()
        those = [(lines, line, facts_of(lines)) for lines, (word, line), _ in found if word == NOT_LEGAL]
        for lines, line, facts in those:
            why = complaint_of_reason(lines, line, facts) if facts else ""
            self.want(not why, f"the reason of a log: {why}\n" + "\n".join(lines[:line]))
        certified = sum(bool(facts) for *_, facts in those)
        print(f"# {certified} of {len(those)} tiny logs that are not legal have a reason")
        self.want(certified * 100 >= len(those) * CERTIFIED, f"only {certified} of {len(those)} logs that are not legal have a reason")

    def equal_times(self, found):
        """Checks that legal logs stay legal by a coarse clock, and that some don't if answers or closes come first."""
        those = [lines for lines, _, legal in found[::TIMED] if legal]
        self.want(all(is_legal(at_equal_times(it, AT_ONE_TIME)) for it in those), "a legal log isn't legal by a coarse clock")
        for first in "done", "closed":
            words = sorted(AT_ONE_TIME, key=first.__ne__)
            self.want(not all(is_legal(at_equal_times(it, words)) for it in those), f"each log stays legal if {first} comes first")

    def wrong_judges(self, found):
        """Checks that each wrong judge takes some log for legal that is not, and that no wrong verdict agrees with all orders."""
        wrong = [lines for lines, _, legal in found if not legal]
        for what, change in WRONG.items():
            self.want(any(is_legal(change(it)) for it in wrong), f"a judge that {what} is wrong on no log")
        for what, other in WRONG_VERDICTS.items():
            differs = any(not is_right(*other(*verdict), lines, legal) for lines, verdict, legal in found)
            self.want(differs, f"a verified judge that {what} differs on no log")

    def conform(self):
        """Checks the rows of kernel/conform on recorders that print a log, and that each change of kernel/flights.py is wrong on a row."""
        self.want(all(conform_rows()), f"kernel/conform judges logs of a recorder otherwise: {conform_rows()}")
        for what, those in WRONG_CONFORM.items():
            with mock.patch.multiple(flights, **those):
                self.want(not all(conform_rows()), f"a kernel/conform that {what} is wrong on no row")

    def kernel(self):
        """Checks this machine's kernel."""
        status, missing = built_player()
        if status == NO_KERNEL:
            self.skip(OF_KERNEL, "io_uring", missing)
            return
        for rule, those in flights.RULES.items():
            command = [f"{ROOT}/kernel/conform", "--scripts", str(round(LOGS / those.share)), "--rule", rule]
            status, text, message = run(command, seconds=given_time(300))
            passes = re.findall(rf"^  ok \d+ {rule}_\d+$", text, re.MULTILINE)
            self.want(status == 0 and len(passes) == LOGS, f"{rule}: {len(passes)} logs are legal: {text[-500:]}{message}")
            overlaps = re.search(rf"^# {rule}: (\d+) of {LOGS} logs", text, re.MULTILINE)
            self.want(overlaps and int(overlaps[1]) * 2 > LOGS, f"{rule}: few logs have calls that overlap: {text[:300]}")
        for rule in flights.RULES:
            self.want(self.skips(rule), f"{rule} is judged without the library, or isn't skipped by name")
        with tempfile.TemporaryDirectory() as room:
            one_at_a_time = changed_recorder(room, "record.c", "in_flight < MOST_OPEN", "!in_flight && updater_has_ended")
            self.want(overlapping(one_at_a_time) * 2 < WRONG_LOGS, "a recorder whose calls don't overlap is not noticed")
            for what, (words, *change) in WRONG_RECORDERS.items():
                count = LOGS if what == SPOILS_ONE else WRONG_LOGS
                self.want(self.is_found(changed_recorder(room, *change), words, count), f"a recorder that {what} is not noticed")

    def skips(self, rule):
        """Returns whether kernel/conform skips a rule without the library, and names it."""
        command = [f"{ROOT}/kernel/conform", "--scripts", "10", "--rule", rule]
        status, text, _ = run(command, env={**os.environ, "YACHTBANYAN_LIB_DIR": ROOT})
        return status == 0 and f"  ok 1 {rule} # SKIP The library {ROOT}/libyachtjudge.so.6 was not found." in text

    def is_found(self, program, words, count):
        logs = in_parallel(lambda seed: flights.recorded(program, words, seed)[0], range(1, count + 1))
        return any(flights.complaint_of(yachtlog, it)[0] for it in logs)


def command():
    given = arguments(__doc__, numbers={"count": COUNT, "seed": SEED})
    checks = Checks("flights")
    checks.lines()
    found = checks.compare(given.count, given.seed)
    checks.whole_updates(given.count // 3, given.seed)
    checks.reasons(found)
    checks.equal_times(found)
    checks.wrong_judges(found)
    checks.conform()
    checks.kernel()
    return checks.end()
