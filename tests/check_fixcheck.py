"""check-fixcheck PROGRAM FIXFILES [COUNT [SEED]] [--few]: tests the verdicts of fixcheck, the PROGRAM: on the examples, on texts at the
limits, of the sizes between them and of parts, on what FIXFILES prints for COUNT random scripts on several workers and over both tables,
and on these texts with a spoiled line of each kind of tests/spoiled_lines.py. The model judges what fixcheck prints. At most one text of
five hundred is undecided. With --few it runs the parts and a few of the others. tests/check-verdicts tests how a verdict is printed."""
import collections
import functools
import random
import re
import zlib

from scripts.checks import Counted, arguments
from model import contradictions, orders
from tests import spoiled_lines
from tests.limits import limits, lines
from model.model import Player
from model.orders import TooManyOrders, ending_of
from scripts.programs import LEGAL, NOT_LEGAL, UNDECIDED, in_parallel, in_processes, run, verdict
from model.random_scripts import random_scripts
from model.replay import Illegal, replayed
from scripts.examples import examples
from scripts.repository import keep
from tests.spoiled_lines import parsed
from tests.sweeps import sweeps
from model.told_history import complaint_of

# the answer of a lack of memory: a checker accepts it, and the model never returns it
NO_MEMORY = re.compile(r"^\S+ -12$", re.MULTILINE)
# fixcheck may leave one of this many texts undecided: it claims nothing that isn't proved
DECIDED_OF = 500
# how many states the exhaustive search looks at
LARGEST_SEARCH = 2_000
# and one in which all but the named lines are free
LARGEST_FREE_SEARCH = 1_000
# of how many spoiled texts of a script a refusal is read, and the least refused texts of each kind
NAMED_EACH, LEAST_OF_A_KIND = 8, 3
# submissions of chains of four at four slots, played by one worker, and the states that decide each
CONTENDED, CONTENDING_CHAINS, CONTENDED_STATES = 20, 16, 1_000
# played in turns: workers, slots, chains, most members, a seed; and the states for each text
PLAYED, PLAYED_STATES = ((16, 4, 40, 3, 4), (4, 12, 60, 4, 7), (4, 2, 60, 4, 8)), 200_000
# of ten verdicts on a spoiled line the number that name it, and the states of each
NAMED_OF_TEN, NAMED_STATES = 9, 20_000
# one of this many may name a later command
LATER_OF = 100
# for each hundred scripts the least verdicts that name such lines, and texts with several breaks
LEAST_OF_100 = {"unordered": 2, "contradicting": 20, "broken": 10}
# with --few: how many examples
FEW = 8
# of limits two are bad scripts
LEGAL_SIZES = 493
# how many rows of parts there are
PARTS = 6
# too few states for the part of two slots, an order of which goes through eleven
FEW_STATES = 10
# and this many for five slots, if the opens at the first one can be done in any order
FIVE_STATES, OPENS = 60, 7


class Counts(Counted):
    """What was looked at, of one script or of all. `of` counts texts by what they are, verdicts by LEGAL or NOT_LEGAL and the kind
    of the spoiled line, and the `refused` ones, those that name it, and those that name a `later` command."""

    def add(self, other):
        self.seen, self.wrong, self.of = self.seen + other.seen, self.wrong + other.wrong, self.of + other.of

    def total(self, what):
        return sum(count for it, count in self.of.items() if it[0] == what)

    def note_undecided(self):
        self.of["undecided"] += 1
        self.seen += 1

    def leaves_undecided(self, status, lines, message):
        """Returns whether fixcheck reports that it decides neither."""
        undecided = status == UNDECIDED and len(lines) == 1 and lines[0].startswith("undecided: submission ") and message == ""
        if undecided:
            self.note_undecided()
        return undecided

    def want(self, holds, what, script=b"", text=""):
        """A script and a text that are wrong are kept."""
        super().want(holds, what)
        if script and not holds:
            print(f"fixcheck: {' and '.join(keep(f'fixcheck-{zlib.crc32(script + text.encode())}', script, text))}", flush=True)


def is_legal(fixcheck, counts, script, text, what):
    """A text of fixfiles is legal, and its orders and its history give it."""
    status, lines, message = verdict(fixcheck, script, text)
    if counts.leaves_undecided(status, lines, message):
        return
    if (status, message, lines[:1]) != (LEGAL, "", ["legal"]):
        counts.want(False, f"{what}: status {status}, {lines[:1]}, {message!r}", script, text)
        return
    try:
        same = replayed(parsed(script), text, lines[1:]) == text
        counts.want(same, f"{what}: the orders give another text", script, text)
    except Illegal as wrong:
        counts.want(False, f"{what}: {wrong}", script, text)
    status, lines, message = verdict(fixcheck, script, text, "--history")
    complaint = complaint_of(script, text, lines)
    counts.want((status, message, complaint) == (LEGAL, "", None), f"{what}, its history: status {status}, {complaint}", script, text)


def is_legal_within(states, fixcheck, counts, script, text, what):
    status, _, message = verdict(fixcheck, script, text, "--states", str(states))
    counts.want((status, message) == (LEGAL, ""), f"{what}, with {states} states: status {status}, {message!r}", script, text)


def check_examples(fixcheck, counts, is_few):
    for it in list(examples("examples"))[:: FEW if is_few else 1]:
        if not it.fault:
            is_legal(fixcheck, counts, it.script, it.text, it.name)
            continue
        holds = verdict(fixcheck, it.script, it.text) == (it.status, [], f"fixcheck: script: {it.fault}\n")
        counts.want(holds, f"{it.name} isn't refused for {it.fault}")


def texts_of(fixfiles, script):
    """The different texts on some numbers of workers over both tables."""
    texts = set()
    for workers in (1, 2, 3, 16):
        for table in ("words", "baton"):
            status, text, _ = run([fixfiles, "--workers", str(workers), "--table", table], script)
            assert status == 0, status
            texts.add(text)
    return sorted(texts)


def good_scripts(count, seed):
    """Half of them have much that is odd."""
    scripts = zip(random_scripts("random", seed, count), random_scripts("odd", seed, count))
    return (both[nth % 2][1] for nth, both in enumerate(scripts))


def check_spoiled(fixcheck, counts, script, text):
    """The verdict on texts with a spoiled line, and what a refusal of some of them names."""
    for nth, (kind, wrong) in enumerate(spoiled_lines.some_of(random.Random(script), script, text, len(spoiled_lines.KINDS))):
        # a checker accepts an answer of a lack of memory
        if NO_MEMORY.search(wrong.text):
            continue
        check_verdict(fixcheck, counts, script, kind, wrong.text)
        if nth < NAMED_EACH:
            check_named(fixcheck, counts, script, kind, wrong)


def check_verdict(fixcheck, counts, script, kind, wrong):
    """A spoiled text is legal exactly if an exhaustive search finds an order."""
    try:
        wanted = LEGAL if ending_of(parsed(script), wrong, splits=True) else NOT_LEGAL
    except TooManyOrders:
        counts.of["left out"] += 1
        return
    status, lines, message = verdict(fixcheck, script, wrong)
    if not counts.leaves_undecided(status, lines, message):
        counts.of[wanted, kind] += 1
        counts.want((status, message) == (wanted, ""), f"{kind}: status {status} and {lines[:1]}, and not {wanted}", script, wrong)


def complaint_of_search(script, text, lines):
    """What is wrong with the lines that a search found to have no order, if a verdict names such lines: an order, or one needn't be named."""
    return (contradictions.complaint_of(script, text, lines) or "") if contradictions.SAYS in "".join(lines[:1]) else None


def complaint_of_names(script, text, lines):
    """The same of any named lines, by themselves: an order, whatever the other requests answer and whichever are canceled."""
    has_order = contradictions.order_of_named(script, text, lines, LARGEST_FREE_SEARCH)
    return has_order if has_order is None else "an order gives these lines" * has_order


def check_conflict(counts, kind, script, text, lines, complaint_of):
    """Lines that are named, if any, have no order."""
    try:
        complaint = complaint_of(parsed(script), text, lines)
    except TooManyOrders:
        return
    except (LookupError, TypeError, ValueError, StopIteration) as wrong:
        complaint = f"it names what the text hasn't: {wrong!r}"
    if complaint is not None:
        counts.of[kind] += 1
        counts.want(not complaint, f"{lines}: {complaint}", script, text)


def check_named(fixcheck, counts, script, kind, wrong):
    """What a refusal of a text with a spoiled line names."""
    status, lines, _ = verdict(fixcheck, script, wrong.text, "--states", str(NAMED_STATES))
    if status == NOT_LEGAL:
        said = "".join(lines[:1])
        has_command, has_line = wrong.is_named(said)
        counts.of["refused", kind] += 1
        counts.of["named", kind] += has_line
        is_later = not has_command and min(spoiled_lines.named_of(said)[0], default=0) > wrong.command
        counts.of["later", kind] += is_later
        counts.want(has_command or is_later, f"{kind} in command {wrong.command}, line {wrong.at}: {said}", script, wrong.text)
        check_conflict(counts, "unordered", script, wrong.text, lines, complaint_of_search)
        check_conflict(counts, "contradicting", script, wrong.text, lines, complaint_of_names)


def absent(files, count):
    """So many bytes, all of them the same, that no file has."""
    return next(it for it in (bytes([n]) * count for n in range(256)) if not any(it in content for content in files))


def check_breaks(fixcheck, counts, script, text):
    """Each submission in which a read has other bytes is a break, and the rest is legal: a read leaves the slots as they are."""
    lines, those = text.split("\n")[:-1], parsed(script)
    owners, wrong = spoiled_lines.owners_of(those, lines), {}
    for at in spoiled_lines.places(lines, spoiled_lines.READ):
        wrong.setdefault(owners[at], at)
    if len(wrong) < 2:
        return
    for at in wrong.values():
        place, res, _ = lines[at].split(" ")
        lines[at] = f"{place} {res} {absent([content for _, content in those.files], int(res)).hex()}"
    text = "".join(f"{it}\n" for it in lines)
    status, told, message = verdict(fixcheck, script, text, "--keep-going", "--states", str(NAMED_STATES))
    if told[-1:] and told[-1].startswith("undecided after"):
        counts.note_undecided()
        return
    found = [int(it.split(" ")[3].rstrip(",")) for it in told if it.startswith("not legal: command ")]
    wanted = NOT_LEGAL, "", sorted(wrong), f"legal after command {max(wrong)}"
    counts.of["broken"] += 1
    counts.want((status, message, found, told[-1]) == wanted, f"{told[:4]}, and not breaks at {sorted(wrong)}", script, text)


def counts_of(fixcheck, fixfiles, script):
    counts, texts = Counts("fixcheck", of=collections.Counter()), texts_of(fixfiles, script)
    counts.of["texts"] = len(texts)
    for text in texts:
        is_legal(fixcheck, counts, script, text, "a text of fixfiles")
    check_spoiled(fixcheck, counts, script, texts[0])
    check_breaks(fixcheck, counts, script, texts[0])
    return counts


def sizes():
    """Scripts at the limits and between them with their texts, all of them legal."""
    for name, script, text, *fault in [*limits(), *sweeps()]:
        if not any(fault):
            yield name, script.encode(), text


def contending(chains):
    """Returns the requests and completions of `chains` chains, each of which puts a file at slot 0 and one at slot 1, and of a chain
    that reads what the first chain put at slot 1 and then what it put at slot 0; and the files that were closed, and those that are
    left."""
    requests, answers, closed, left = [], [], [], []
    for nth in range(1, chains + 1):
        names = "ab"[nth % 2], "x" if nth == 1 else "ab"[(nth + 1) % 2]
        requests += [f"open {names[0]} at 0 link", f"open {names[1]} at 1"]
        answers += [f"1.{nth}.1 0", f"1.{nth}.2 0"]
        (left if nth == chains else closed).extend([f"closed 1.{nth}.1.0 {names[0]}", f"closed 1.{nth}.2.0 {names[1]}"])
    return [*requests, "read 1 0 1 link", "read 0 0 1"], [*answers, f"1.{chains + 1}.1 1 78", f"1.{chains + 1}.2 1 62"], closed, left


def parts():
    """Parts with too many states: the name, the script, the text, the states, the status and what the verdict says."""
    requests, answers, closed, left = contending(4)
    head = ["file a 61", "file b 62", "file c 63", "file x 78", "register 2,2,2,2,2,2,2"]
    rest = [f"closed r1.{it} c" for it in (2, 3, 4)]
    both = [f"closed r1.{it} c" for it in (5, 6)]

    def case(more, told, gone, stay, last):
        text = ["register 0", *answers, *told, "closed r1.0 c", "closed r1.1 c", *gone, *closed, "teardown", *stay, *left, *last]
        return lines(*head, *requests, *more, "submit").encode(), lines(*text), FEW_STATES

    yield "the part alone", *case([], [], [], [*rest, *both], []), UNDECIDED, "undecided: submission 1"
    yield "a slot by itself", *case(["read 5 0 1"], ["1.6.1 1 61"], [], [*rest, *both], []), NOT_LEGAL, "which can't be at slot 5 then"
    # each of two chains puts a file, and then reads what was at the other's slot before
    crossed = ["open a at 5 link", "read 6 0 1", "open b at 6 link", "read 5 0 1"]
    told = ["1.6.1 0", "1.6.2 1 63", "1.7.1 0", "1.7.2 1 63"]
    opened = ["closed 1.6.1.0 a", "closed 1.7.1.0 b"]
    yield "a later part", *case(crossed, told, both, rest, opened), NOT_LEGAL, "lines 13 and 15 of the text: no order of the requests gives all of these"
    yield "the fifth slot of a part", *fifth_slot(), NOT_LEGAL, "lines 6 and 7 of the text: no order of the requests gives all of these, which concern slot 4"
    yield from range_without_slots()


def fifth_slot():
    """A chain that reads at five slots, the last one twice, where it finds the new file and then the old one."""
    reads = [f"read {slot} 0 1 link" for slot in range(5)] + ["read 4 0 1"]
    opens = ["open a at 0"] * OPENS
    answers = [f"1.1.{member} 1 {'62' if member == 5 else '63'}" for member in range(1, 7)] + [f"1.{nth}.1 0" for nth in range(2, OPENS + 3)]
    closed = ["closed r1.0 c", "closed r1.4 c", *(f"closed 1.{nth}.1.0 a" for nth in range(3, OPENS + 2))]
    left = [*(f"closed r1.{slot} c" for slot in (1, 2, 3)), "closed 1.2.1.0 b", f"closed 1.{OPENS + 2}.1.0 a"]
    script = lines("file a 61", "file b 62", "file c 63", "register 2,2,2,2,2", *reads, "open b at 4", *opens, "submit")
    return script.encode(), lines("register 0", *answers, *closed, "teardown", *left), FIVE_STATES


def range_without_slots():
    """Chains of two slots, whose open at any slot finds a range of no slots full: the chain is of one part all the same."""
    head = ["file a 61", "file b 62", "register 0,0", "range 2 0", "read 1 0 1 hardlink", "open a any hardlink", "open b at 0"]
    text = ["register 0", "range 0", "1.1.1 1 61", "1.1.2 -23", "1.1.3 0", "closed r1.0 a", "teardown", "closed r1.1 a", "closed 1.1.3.0 b"]
    yield "a range without slots", lines(*head, "submit").encode(), lines(*text), FEW_STATES, LEGAL, "legal"
    others = ["read 0 0 1 hardlink", "open a any hardlink", "open b at 1"]
    text = [
        "register 0", "range 0", "1.1.1 1 62", "1.1.2 -23", "1.1.3 0", "1.2.1 1 62", "1.2.2 -23", "1.2.3 0", "closed r1.0 a", "closed r1.1 a",
        "teardown", "closed 1.1.3.0 b", "closed 1.2.3.0 b",
    ]
    said = "lines 3 and 6 of the text: no order of the requests gives all of these"
    yield "a range without slots, crossed", lines(*head, *others, "submit").encode(), lines(*text), FEW_STATES, NOT_LEGAL, said


def check_parts(fixcheck, counts):
    rows = list(parts())
    for name, script, text, states, wanted, said in rows:
        status, lines, message = verdict(fixcheck, script, text, "--states", str(states))
        counts.want((status, message) == (wanted, "") and said in "".join(lines[:1]), f"{name}: status {status}, {lines[:1]}, and not {wanted}", script, text)
    counts.want(len(rows) == PARTS, f"{len(rows)} texts of parts were looked at, and not {PARTS}")


def check_sizes(fixcheck, counts):
    """Texts of each size are legal."""
    cases = list(sizes())
    for (name, *_), (status, _, message) in zip(cases, in_parallel(lambda it: verdict(fixcheck, it[1], it[2]), cases)):
        counts.want((status, message) == (LEGAL, ""), f"{name}: status {status} and {message!r}")
    counts.want(len(cases) == LEGAL_SIZES, f"{len(cases)} texts of sizes were looked at, and not {LEGAL_SIZES}")


class InTurns(Player):
    """The model, whose chains are played by some workers, a request of one of them at a time."""

    def __init__(self, files, workers, rng):
        super().__init__(files)
        self.workers, self.rng = workers, rng

    def lines_of(self, chains):
        left, lines = [self.completions(nth, it) for nth, it in enumerate(chains, 1)], []
        while left:
            one = self.rng.choice(left[: self.workers])
            line = next(one, None)
            if line:
                lines.append(line)
            else:
                left.remove(one)
        return sorted(lines, key=lambda it: [int(part) for part in it.split(" ")[0].split(".")])


def check_played(fixcheck, counts):
    """Texts that workers wrote in turns are legal, with few states."""
    for workers, slots, chains, members, seed in PLAYED:
        [(_, script)] = random_scripts("busy", seed, 1, slots=(slots,), chains=(chains,), members=range(1, members + 1))
        text, what = InTurns(parsed(script).files, workers, random.Random(seed)).play(parsed(script).commands), f"chains of {workers} workers at {slots} slots"
        is_legal(fixcheck, counts, script, text, what)
        is_legal_within(PLAYED_STATES, fixcheck, counts, script, text, what)


def check_contended(fixcheck, counts, fixfiles):
    for _, script in random_scripts("busy", 1, CONTENDED, chains=(CONTENDING_CHAINS,)):
        _, text, _ = run([fixfiles, "--workers", "1"], script)
        is_legal_within(CONTENDED_STATES, fixcheck, counts, script, text, "chains that contend, by one worker")


def want_named(counts, is_few):
    """Of all texts with a spoiled line nine in ten name it, and there are some of each kind, which are printed."""
    refused, named, later = map(counts.total, ("refused", "named", "later"))
    counts.want(10 * named >= NAMED_OF_TEN * refused, f"of {refused} texts with a spoiled line {named} name it, which are few")
    counts.want(LATER_OF * later <= refused, f"of {refused} texts with a spoiled line {later} name a later command, which are many")
    for kind in () if is_few else spoiled_lines.KINDS:
        refused, wrong = counts.of["refused", kind], counts.of[NOT_LEGAL, kind]
        counts.want(min(refused, wrong) >= LEAST_OF_A_KIND, f"of texts with {kind} {wrong} aren't legal, and of {refused} the names were looked at, which are few")


def want_enough(counts, count, is_few):
    """There are some texts of each kind."""
    of, least, legal, others = counts.of, count // 40, counts.total(LEGAL), counts.total(NOT_LEGAL)
    for what, number in () if is_few else LEAST_OF_100.items():
        counts.want(100 * of[what] >= number * count, f"{of[what]} texts of {count} scripts are {what}, which are few")
    counts.want(of["texts"] >= count, f"{of['texts']} texts of {count} scripts are few")
    counts.want(legal >= least and others >= 10 * least, f"of the spoiled texts {legal} are legal and {others} aren't, which are few")
    counts.want(of["undecided"] * DECIDED_OF <= counts.seen, f"{of['undecided']} of {counts.seen} are undecided, which are many")


def command():
    given = arguments(__doc__, "program fixfiles", "few", {"count": 500, "seed": 1})
    orders.LARGEST_SEARCH = LARGEST_SEARCH
    fixcheck, fixfiles, count, is_few = given.program, given.fixfiles, given.count, given.few
    counts = Counts("fixcheck", of=collections.Counter())
    check_parts(fixcheck, counts)
    check_examples(fixcheck, counts, is_few)
    if not is_few:
        check_sizes(fixcheck, counts)
        check_played(fixcheck, counts)
        check_contended(fixcheck, counts, fixfiles)
    for those in in_processes(functools.partial(counts_of, fixcheck, fixfiles), good_scripts(count, given.seed), 4):
        counts.add(those)
    want_named(counts, is_few)
    want_enough(counts, count, is_few)
    return counts.end()
