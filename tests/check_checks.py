"""check-checks FIXFILES FIXCHECK: tests the test scripts. Each runs with few cases on tests/spoil.c, which replaces a program and
changes what it prints, its status, memory or arguments: it must find cases wrong, and none on an unchanged program. What judges
histories, orders, outcomes and verdicts gets wrong ones, by kinds: each answer must be judged as it should, and their number is kept."""
import contextlib
import io
import os
import re
import shutil
import subprocess

from kernel import kernels
from kernel.kernels import AGREES
from model import contradictions
from model.model import Script, play
from model.replay import Illegal, replayed
from model.told_history import complaint_of
from scripts import checks as shared
from scripts.checks import Counted, arguments
from scripts.examples import text_beside
from scripts.programs import BUILD, LEGAL, NOT_LEGAL, UNDECIDED, built, run, verdict
from scripts.repository import ROOT, read, read_bytes
from tests.check_allocation_failures import NO_MEMORY, Outcomes
from tests.check_verdicts import verdicts_of
from tests.spoiled_lines import Spoiled

SPOIL = os.path.join(BUILD, "spoil")
CHANGES = "byte line status message"
LAST = re.compile(r"[^:]+: (\d+) [^,]+, (\d+) wrong$")
# numbers of cases, and checks with these claims: the status, and the lines but the last
KEPT = {"exact": ("", 2), "least": ("at least", 2), "about": ("about", 20), "none": ("", 0)}
FEW, MANY, ALL, LEFT = "# exact: 1 cases were ", "# exact: 3 cases were ", "1..2\nok 1\nok 2\n", "# exact: 1 cases are left out: there is no cc\n"
COUNTED = (
    ("exact", (True, True), 0, 0, ALL), ("exact", (True, False), 0, 1, "# exact: said\n1..2\nnot ok 1\nok 2\n"), ("exact", (True,), 0, 1, f"1..2\nok 1\n{FEW}"),
    ("exact", (True, True, True), 0, 1, f"{ALL}ok 3\n{MANY}"), ("least", (True, True, True), 0, 0, "1..3\nok 1\nok 2\nok 3 - 1 further cases\n"),
    ("least", (True,), 0, 1, "1..3\nok 1\n# least: 1 cases were "), ("least", (True, False, False, False), 0, 1, "# least: said\n"),
    ("exact", (True,), 1, 0, f"{LEFT}1..2\nok 1\nok 2 # SKIP no cc\n"), ("least", (), 1, 1, "# least: 1 cases are left out"),
    ("least", (True, True), 1, 0, "# least: 1 cases are left out"), ("exact", (True, True), 1, 1, LEFT), ("unknown", (True,), 0, 1, "1..9"),
    ("none", (), 0, 1, "1..0\n# none: 0 cases were "), ("about", (True,) * 21, 0, 0, "1..21\nok 1\n"), ("about", (True,) * 19, 0, 1, "1..21\nok 1\n"),
    ("about", (True,) * 22, 0, 1, "1..21\nok 1\n"),
)
# programs in bash, and whether prove(1) passes them
PROVED = (("echo 1..1; echo ok 1", True), ("echo ok 1", False), ("echo 1..2; echo ok 1", False), ("echo 1..1; echo ok 1; echo ok 2", False),
          ("echo 1..1; echo not ok 1", False), ("echo 1..1; echo ok 1; exit 1", False), ("echo 1..1; echo 'ok 1 # SKIP no cc'", True), ("", False))
# what is replaced, a check, the wrong cases (a number, a share, or all but some), the changes
SPOILED = (
    ("FIXFILES", "tests/check-examples SPOIL --few", 0, CHANGES),
    ("FIXFILES", "tests/compare SPOIL 20 --few", 0, CHANGES),
    # the samples that fixfiles plays; others are left out if there is no library
    ("FIXFILES", "tests/check-page SPOIL", 18, CHANGES),
    ("FIXFILES", "tests/check-limits SPOIL --few", 0, CHANGES),
    # a text without its last line may be one that a lack of memory leaves
    ("FIXFILES", "tests/check-allocation-failures SPOIL --few", 1 / 2, CHANGES),
    # a changed byte may make another text that is legal
    ("FIXFILES", "tests/check-meetings SPOIL FIXCHECK 20 --few", 1 / 2, CHANGES),
    # an expected line of a message may be there beside others
    ("FIXFILES", "tests/check-mistakes --spoiled SPOIL", 15, "byte line status"),
    # a script of the largest submissions, where a message is said of another
    ("FIXFILES", "tests/compare SPOIL --large", 0, "byte line status"),
    # what is read, and the heaviest submission; the longest text has room
    ("FIXFILES", "tests/check-limits SPOIL --memory", -1, "memory"),
    # half are texts, and half numbers of threads, which one worker has too; and a table's bytes
    ("FIXFILES", "tests/check-workers SPOIL --few", 1 / 4, "byte line status words"),
    # texts of another program aren't legal; a byte less may be legal too
    ("FIXFILES", "tests/check-fixcheck FIXCHECK SPOIL 2 --few", 1, "line byte"),
    # the pictures of histories; the others are drawn of a kept run, of logs and of the crates
    ("FIXCHECK", "tests/check-pictures SPOIL", 10, CHANGES),
    # a few of the cases count verdicts, or look at a part of the help or of a message
    ("FIXCHECK", "tests/check-verdicts SPOIL --few", 3 / 4, CHANGES),
    # a spoiled text may be undecided, and a text that isn't legal has another status anyhow
    ("FIXCHECK", "tests/check-fixcheck SPOIL FIXFILES 2 --few", 1 / 4, CHANGES),
    # what isn't asked of fixcheck is right; the status alone is looked at
    ("FIXCHECK", "tests/check-outcomes SPOIL 100 --few", 1 / 4, "status"),
    # the first part is the program's own, and is right
    ("FIXCHECK", "tests/check-allocation-failures FIXFILES SPOIL --few", 1 / 3, "byte"),
)
# the program that is replaced, the change, a command, its status, and what a line of it has
LITMUS = "kernel/litmus examples/replaced_between_two_members.script 20"
SAID = (
    ("FIXFILES", "end", "tests/check-limits SPOIL --few --seconds 2", 1, r"^# check-limits: .* didn't end within 2 s$"),
    ("FIXFILES", "nothing", "tests/check-meetings SPOIL FIXCHECK 50 --few --turn 0", 1, "the threads don't meet$"),
    ("FIXFILES", "nothing", f"{LITMUS} --fixfiles SPOIL --fixcheck FIXCHECK", 0, ""),
    ("FIXFILES", "byte", f"{LITMUS} --fixfiles SPOIL --fixcheck FIXCHECK", 1, "NOT ALLOWED: "),
    ("FIXCHECK", "status", f"{LITMUS} --fixfiles FIXFILES --fixcheck SPOIL", 1, "litmus: fixcheck --all ended with status "),
    ("FIXFILES", "nothing", f"{LITMUS} --fixfiles /bin/false --fixcheck FIXCHECK", 0, "16 workers is left out: false ended with status 1"),
)
# examples whose histories have each event and each call, and tags
TOLD = ("open_read_close", "tagged_files_leave_in_each_way", "replaced_between_two_members", "unregister_closes_every_file",
        "allocation_fills_its_range", "ring_update_clears_skips_and_replaces", "tag_at_the_teardown")
# an example whose second submission has updates of two and three entries, its orders, and lines
# that are wrong in place of the last one: no order, of another submission, with another step, with
# steps exchanged, too few or too many
UPDATES, FIRST_ORDER, LAST_ORDER = "updates_clear_skip_and_replace", "order 1: 1.1.1", "order 2: 2.1.1.0 2.1.2.0 2.1.2.1 2.1.2.2"
NO_ORDERS = ("", "order 2 2.1.1.0 2.1.2.0 2.1.2.1 2.1.2.2", "order 1: 1.1.1", "order 2: 2.1.x", "order 2: 2.1.1.0.0", "order 2: 2.1.1 2.1.2.0 2.1.2.1 2.1.2.2",
             "order 2: 2.1.1.0 2.1.2.1 2.1.2.0 2.1.2.2", "order 2: 2.1.1.0 2.1.2.0 2.1.2.1", "order 2: 2.1.1.0 2.1.2.0 2.1.2.1 2.1.2.2 2.1.2.3", "order 2: 2.1.1.0 2.2.1")
# kept texts with lines that have no order, each of which is needed for that
UNORDERED = "examples/judged/submissions.judged"


def ran(programs, spoiled, change, line):
    """Returns the status and the lines of a command that plays a program with a change; no status if it doesn't end."""
    name, *words = [{**programs, "SPOIL": SPOIL}.get(it, it) for it in line.split()]
    names = [name] if os.path.exists(f"{ROOT}/{name}") else ["scripts/run", name.replace("/", ".").replace("-", "_")]
    variables = {**os.environ, "SPOILED": programs[spoiled], "SPOIL": change}
    how = {"stdin": subprocess.DEVNULL, "stdout": subprocess.PIPE, "stderr": subprocess.STDOUT, "timeout": 300, "cwd": ROOT}
    try:
        it = subprocess.run([*names, *words], env=variables, text=True, check=False, **how)
    except subprocess.TimeoutExpired as hang:
        return None, [f"no end within {hang.timeout:g} s"]
    return it.returncode, it.stdout.splitlines() or [""]


def is_counted(name, claims, left_out, wanted, lines):
    """Checks the class by which all checks count: what it prints, and its status."""
    counted, said = Counted(name), io.StringIO()
    with contextlib.redirect_stdout(said):
        for it in claims:
            counted.want(it, "said")
        if left_out:
            counted.skip(left_out, "cc")
        status = counted.end()
    also = f" and {left_out} left out" if left_out else ""
    return status == wanted and said.getvalue().startswith(lines) and said.getvalue().endswith(f"# {name}: {len(claims)} looked at{also}, {claims.count(False)} wrong\n")


def is_proved(program):
    return subprocess.run(["prove", "-Q", "--exec", "bash -c", program], stdin=subprocess.DEVNULL, capture_output=True, check=False).returncode == 0


def wrong_counts():
    """Returns the rows of COUNTED and PROVED that don't hold."""
    kept, shared.kept_numbers = shared.kept_numbers, lambda: KEPT
    wrong = [it for it in COUNTED if not is_counted(*it)]
    shared.kept_numbers = kept
    return wrong + [it for it in PROVED if is_proved(it[0]) != it[1]]


def check_spoiled(checks, programs, spoiled, line, least, changes):
    """Without a change nothing is wrong, and with each change enough cases."""
    for change in ("nothing", *changes.split()):
        status, lines = ran(programs, spoiled, change, line)
        counts = LAST.search(lines[-1])
        cases, wrong = map(int, counts.groups()) if counts else (0, 0)
        most = cases + least if least <= 0 else least if isinstance(least, int) else int(cases * least)
        holds = (status, wrong) == (0, 0) and cases > 0 if change == "nothing" else wrong >= most > 0 and status == 1
        checks.want(holds, f"{line} with {change} changed ended with status {status} and said: {lines[-1]}")


def check_said(checks, programs, spoiled, change, line, wanted, pattern):
    status, lines = ran(programs, spoiled, change, line)
    holds = status == wanted and any(re.search(pattern, it) for it in lines)
    checks.want(holds, f"{line} with {change} changed ended with status {status} and said: {lines[-1]}")
    if line.startswith(LITMUS):
        # each player has given a text in each of its plays
        counts = [re.findall(r"[\d-]+(?= )", it[4:]) for it in lines if re.match(r" +(\d+|!)  +[-\d]", it)]
        sums = [sum(int(it.replace("-", "0")) for it in column) for column in zip(*counts)]
        players = next((len(re.findall(r"kernel|async|\d+ workers|stepped", it)) for it in lines if "lines that differ" in it), 0)
        checks.want(wanted == 1 or sums[:players] == [20] * players, f"{line} shows {sums} plays of {players} players")


def kinds(fixcheck):
    """Yields the name of each kind of answers, how many there are, and the answers: what each is, and whether it is judged as it should."""
    yield "histories, and lines of them changed", 447, histories(fixcheck)
    yield "orders, and steps of them changed", 58, orders(fixcheck)
    yield "lines that aren't an order", 11, no_orders()
    yield "outcomes of a failing allocation", 12, outcomes()
    yield "verdicts", 9, verdicts()
    yield "names in verdicts", 7, names_told()
    yield "lines that have no order", 88, unordered(fixcheck)


def examples():
    for name in TOLD:
        yield name, read_bytes(f"examples/{name}.script"), text_beside(f"examples/{name}.script")


def said(fixcheck, name, *options):
    return run([fixcheck, *options, f"examples/{name}.script", f"examples/{name}.text"], cwd=ROOT)[1].splitlines()


def changed_lines(lines, at):
    """The lines with one of them left out, doubled, with another state, and with another answer or mark."""
    line = lines[at]
    told, bar, state = line.rpartition(" | ")
    others = [[], [line, line], [f"{told}{bar}{state} held"]]
    number = re.search(r"\d+(?=\D*$)", told)
    if number:
        others.append([f"{told[: number.start()]}{int(number[0]) + 1}{told[number.end() :]}{bar}{state}"])
    for other in others:
        yield [*lines[:at], *other, *lines[at + 1 :]]


def histories(fixcheck):
    """The histories, and each line of them changed."""
    for name, script, text in examples():
        lines = said(fixcheck, name, "--history")
        yield f"{name}: the history", complaint_of(script, text, lines) is None
        for it in (it for at in range(1, len(lines)) for it in changed_lines(lines, at)):
            yield f"{name}: {it}", complaint_of(script, text, it) is not None


def is_taken(script, text, lines):
    try:
        return replayed(Script(script), text, lines) == text
    except Illegal:
        return False


def orders(fixcheck):
    """Each step of the orders left out or doubled, and two of a chain exchanged; and each order left out."""
    for name, script, text in examples():
        lines = said(fixcheck, name)[1:]
        yield f"{name}: the orders", is_taken(script, text, lines)
        for at, line in enumerate(lines):
            word, steps = line.split(": ")[0], line.split(": ")[1].split(" ") if ": " in line else []
            wrong = [steps[:nth] + steps[nth + 1 :] for nth in range(len(steps))]
            wrong += [steps[: nth + 1] + steps[nth:] for nth in range(len(steps))]
            wrong += [[*steps[:nth], later, one, *steps[nth + 2 :]] for nth, (one, later) in enumerate(zip(steps, steps[1:]))
                      if one.split(".")[:2] == later.split(".")[:2]]
            for its in [[" ".join([f"{word}:", *it])] for it in wrong] + [[]]:
                it = [*lines[:at], *its, *lines[at + 1 :]]
                yield f"{name}: {it}", not is_taken(script, text, it)


def no_orders():
    """Lines that are no order of a submission with updates, or none of its steps, are complained of and nothing else comes."""
    script, text = (read_bytes(f"examples/{UPDATES}.script"), text_beside(f"examples/{UPDATES}.script"))
    for it in (LAST_ORDER, *NO_ORDERS):
        yield it, is_taken(script, text, [FIRST_ORDER, it]) == (it == LAST_ORDER)


def outcomes():
    """Texts that may not come out if an allocation fails."""
    those = Outcomes(read("examples/open_read_close.script"))
    text = those.text
    refused = text.replace("1.1.2 5 68656c6c6f", "1.1.2 -12")
    rows = [
        (0, text, "", True), (0, "sparse -12\n1.1.1 -6\n1.1.2 -125\n1.1.3 -125\n", "", True), (5, "sparse 0\n", NO_MEMORY, True),
        (0, refused.replace("1.1.3 0\nclosed 1.1.1.0 a.txt\n", "1.1.3 -125\nteardown\nclosed 1.1.1.0 a.txt\n"), "", True),
        (0, refused, "", False), (0, text.replace("1.1.3 0", "1.1.3 -12"), "", False), (0, text[:-1], "", False), (0, text, "more", False),
        (5, text[:20], NO_MEMORY, False), (5, "sparse 0\n", "", False), (4, text, "", False), (1, "", NO_MEMORY, False),
    ]
    for status, text, message, may_be in rows:
        yield f"status {status} with {text!r}", (those.kind(status, text, message) is not None) == may_be


def verdicts():
    """What kernel/conform makes of texts with verdicts of fixcheck."""
    names = kernels.listed()[0]
    script = read_bytes("examples/replaced_between_two_members.script")
    same = play(script)[0]
    other = same.replace("1.1.2 5 68656c6c6f", "1.1.2 2 6869")
    refused, opened = b"file a.txt 61\nsparse 1\nopen a.txt at 1\nsubmit\n", "sparse 0\n1.1.1 -22\nclosed 1.1.1.0 a.txt\n"
    large, larger = b"file a 61\nsparse 257\nopen a at 256\nsubmit\n", frozenset({"larger_table"})
    rows = [
        (script, same, LEGAL, AGREES), (script, same, NOT_LEGAL, None), (script, other, NOT_LEGAL, None), (script, other, UNDECIDED, AGREES),
        (script, same[:-2], NOT_LEGAL, None), (refused, opened, NOT_LEGAL, frozenset({"refused_open_opens_its_file"})),
        (large, "sparse 0\n1.1.1 0\nteardown\nclosed 1.1.1.0 a\n", NOT_LEGAL, larger), (large, "sparse 0\n1.1.1 -22\n", NOT_LEGAL, None),
        (b"sparse 1048577\n", "sparse 0\n", NOT_LEGAL, None),
    ]
    for text, written, status, wanted in rows:
        yield f"{written!r} with verdict {status}", kernels.found(status, "", text, written, names).standing == wanted


def names_told():
    """Whether verdicts name the second of three commands, or its line 3 of the text, where a closed file is lost."""
    wrong = Spoiled([], [3], 2, 3, ("1.1.1.0 a",))
    at = "not legal: command {}, line {} of the script; "
    rows = [
        (at.format(2, 6) + "line 3 of the text: expected x, found y", (True, True)), (at.format(2, 3) + "submission 1: no order", (True, False)),
        (at.format(1, 3) + "line 4 of the text: expected x, found y", (False, False)),
        (at.format(3, 9) + "lines 2, 3 and 13 of the text: x", (True, True)), (at.format(3, 9) + "lines 2, 13 and 30 of the text: x", (False, False)),
        (at.format(2, 9) + "lines 1, 2, 3, 4 and 5 of the text: x", (True, False)),
        ("not legal: the end of the script; line 4 of the text: expected x, found y; 1.1.1.0 a is at slot 0", (True, True)),
    ]
    for said, wanted in rows:
        yield f"{said!r}", wrong.is_named(said) == wanted


def unordered(fixcheck):
    """Lines that have no order, with one left out and with another; if no other file is closed, an order gives the others."""
    for script, text, *_ in verdicts_of(os.path.join(ROOT, UNORDERED)):
        text = text.decode()
        said = verdict(fixcheck, script, text)[1]
        if contradictions.CLOSES_NO_OTHER in said[0] and contradictions.CANCELS not in said[0] and len(said) > 2:
            for line in said[1:]:
                yield f"{said} without {line}", bool(contradictions.order_of_named(Script(script), text, [it for it in said if it != line]))
        if contradictions.SAYS not in said[0] or contradictions.FEWER.search(said[0]):
            continue
        yield f"{said}", contradictions.complaint_of(Script(script), text, said) is None
        for named in (f"  {nth}: {line}" for nth, line in enumerate(text.splitlines(), 1)):
            # an open at any slot may be named without a try
            if not named.endswith(" -23") or named in said:
                wrong = [it for it in said if it != named] if named in said else [*said, named]
                yield f"{wrong}", contradictions.complaint_of(Script(script), text, wrong) is not None


def command():
    given = arguments(__doc__, "fixfiles fixcheck")
    programs = {"FIXFILES": given.fixfiles, "FIXCHECK": given.fixcheck}
    # what counts the cases of this check too
    for it in wrong_counts():
        print(f"checks: this is counted otherwise: {it}")
        return 1
    if shutil.which("cc") is None:
        print("checks: there is no C compiler cc here, which builds what stands for a wrong program")
        return 1
    built("spoil.c")
    checks = Counted("checks")
    checks.seen += len(COUNTED) + len(PROVED)
    for row in SPOILED:
        check_spoiled(checks, programs, *row)
    for row in SAID:
        check_said(checks, programs, *row)
    for name, count, answers in kinds(given.fixcheck):
        found = list(answers)
        missed = [what for what, holds in found if not holds]
        checks.want(len(found) == count and not missed, f"of {name} {len(found)} were shown, and not {count}, and judged otherwise: {missed[:5]}"[:2500])
    return checks.end()
