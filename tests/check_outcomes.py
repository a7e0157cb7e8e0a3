"""check-outcomes FIXCHECK [COUNT [SEED]] [--few]: checks that `fixcheck --all` lists every text that the rules allow, and no other, and
`fixcheck --may` each answer: of COUNT tiny random scripts, which model/interleavings.py plays in every order, of the examples and of the
questions of examples/questions. Wrong lists are reported. With --few it asks about few requests."""
import collections
import contextlib
import functools
import itertools
import os
import re

from scripts.checks import Counted, arguments
from model.interleavings import Interleavings, TooManyOrders, texts_of_all_orders
from scripts import listing
from model.model import Player, Script
from scripts.programs import in_parallel, in_processes, kept_script, run
from model.random_scripts import random_scripts
from model.replay import Illegal, replayed
from scripts.examples import text_beside
from scripts.repository import ROOT, scripts_of

# a script with more orders is replaced by another one; the most of a hundred that may be left out
MOST_ORDERS, LEFT_OUT_OF_100 = 400, 12
# more than a third of the scripts must have several texts
SEVERAL_OF = 3
# the numbers of tiny and of contending scripts of whose requests fixcheck is asked
ASKED, CONTENDING = 150, 20
# the same with --few
FEW, FEW_CONTENDING = 30, 2
# at least one of this many contending scripts has a list
LISTED_OF = 4
# those with more states or more texts aren't asked of
STATES, TEXTS = 20_000, 20_000
# with so few states a list says what it lacks
FEW_STATES = ("1", "4", "20")
QUESTIONS = 8
# what `fixcheck --may` says last of a whole list, and of another; places that no request has
ALL = "these are all, if no allocation fails"
AT_LEAST = "at least these, if no allocation fails: not shown to be all within {} states and 1024 MiB"
NOWHERE = ("0.1.1", "1.0.1", "1.1.0", "1.1.9", "1.9.1", "9.1.1")
NO_PLACES = ("", "1", "1.1", "1.1.1.1", "1.1.x", "-1.1.1", "1..1")


def list_of(fixcheck, script, *options):
    """The list that fixcheck prints, or one whose text is its message."""
    try:
        return listing.asked(fixcheck, script, TEXTS, *options)
    except (listing.Failed, ValueError) as failed:
        return listing.Listing(-1, False, [(str(failed), [])])


def complaint_of_orders(script, those):
    """Of texts with their orders."""
    for text, orders in those:
        try:
            if replayed(Script(script), text, orders) != text:
                return f"the orders {orders} give another text than {text!r}"
        except Illegal as wrong:
            return f"{orders} aren't orders: {wrong}"
    return None


def complaint_of_few(fixcheck, script, texts):
    """Of lists for which few states are looked at."""
    for states in FEW_STATES:
        found = list_of(fixcheck, script, "--states", states)
        few = found.alone()
        if not set(few) <= texts or len(set(few)) != len(few) or found.count != len(few) or found.are_all and len(few) != len(texts):
            return f"with {states} states it lists {few}, and are_all is {found.are_all}"
    return None


def compared(fixcheck, case):
    """What is wrong with a tiny script's list, and how many texts and orders there are. None where it has too many orders."""
    name, script = case
    try:
        every = Interleavings(script, MOST_ORDERS)
    except TooManyOrders:
        return None
    found = list_of(fixcheck, script)
    listed = found.alone()
    wrong = found.complaint(every.texts) or complaint_of_orders(script, found.texts) or complaint_of_few(fixcheck, script, every.texts)
    if not found.are_all:
        wrong = "it says that there may be more"
    # spoiled lists: with a text left out, with one too many, with one twice
    for spoiled in (listed[1:], [*listed, listed[0].replace("\n", " 1\n", 1) or "1\n"], listed + listed[:1]):
        if listing.Listing(len(spoiled), True, [(it, []) for it in spoiled]).complaint(every.texts) is None:
            wrong = wrong or f"nothing complains of the list {spoiled!r}"
    return wrong and f"{name}: {wrong}", len(listed), every.orders


def answers_in(texts):
    """The lines that each request has in the texts, by its place."""
    answers = collections.defaultdict(set)
    for text in texts:
        for line in text.split("\n"):
            if re.match(r"\d+\.\d+\.\d+ ", line):
                answers[line.split(" ")[0]].add(line)
    return answers


def is_given(script, line, orders, texts):
    """Whether the first submissions, done in these orders, give the line; opens at any slot take those of one of the texts."""
    submission = int(line.split(".")[0])
    for text in texts:
        cut = Script(script)
        if line in text.split("\n"):
            cut.commands = front_of(cut, submission)
            with contextlib.suppress(Illegal):
                if line in replayed(cut, text, orders).split("\n"):
                    return True
    return False


def front_of(script, submission):
    """The commands up to the accepted submission with this number."""
    player, count = Player(script.files), 0
    for nth, command in enumerate(script.commands):
        count += command[0] == "submit" and not player.refusal_of_submission(command[1])
        if count == submission:
            return script.commands[: nth + 1]
    raise ValueError(f"there is no submission {submission}")


def complaint_of_answers(script, said, wanted, texts):
    """What is wrong with what `fixcheck --may` said, of a status and lines, where these are all answers."""
    status, lines = said
    told = [it for it in lines[:-1] if not it.startswith("  ")]
    if (status, lines[-1:]) != (0, [ALL]):
        return f"it ends with status {status} and {lines[-1:]}"
    if sorted(told) != sorted(wanted):
        return f"it says {told}, and not {sorted(wanted)}"
    for nth, line in enumerate(told):
        first = lines.index(line) + 1
        orders = [it.strip() for it in itertools.takewhile(lambda it: it.startswith("  "), lines[first:])]
        if not is_given(script, line, orders, texts):
            return f"the orders {orders} don't give {line}"
    return None


class Checks(Counted):
    def tiny(self, count, seed):
        cases = random_scripts("tiny", seed, count + count * LEFT_OUT_OF_100 // 100)
        done = [it for it in in_processes(functools.partial(compared, self.fixcheck), cases, 20) if it is not None][:count]
        for wrong, *_ in done:
            self.want(wrong is None, wrong)
        texts, orders, several = sum(it[1] for it in done), sum(it[2] for it in done), sum(it[1] > 1 for it in done)
        self.want(len(done) == count, f"of {count} tiny scripts only {len(done)} have {MOST_ORDERS} orders or fewer")
        self.want(several * SEVERAL_OF >= count, f"only {several} tiny scripts have several texts")
        print(f"outcomes: {len(done)} tiny scripts were played in all {orders} orders, which give {texts} texts; {several} have several")

    def listed(self, seed, is_few):
        """Yields tiny scripts, and larger ones whose chains contend, each with the list of its texts. Enough of them have one."""
        tiny, contending = (FEW, FEW_CONTENDING) if is_few else (ASKED, CONTENDING)
        for shape, count, least in (("tiny", tiny, tiny), ("contending", contending, contending // LISTED_OF)):
            listed = 0
            for name, script in random_scripts(shape, seed, count):
                found = list_of(self.fixcheck, script, "--states", str(STATES))
                if found.are_all and found.count <= TEXTS:
                    listed += 1
                    yield name, script, found.alone()
            self.want(listed >= least, f"{listed} of {count} {shape} scripts have a list, and at least {least} are expected")

    def may(self, path, place, *options):
        status, lines, message = run([self.fixcheck, "--may", *options, "--", path, place])
        return status, (lines or message).split("\n")[:-1]

    def questioned(self, case):
        """What is wrong with what is said of each request of a script, and how many answers there are."""
        name, script, texts = case
        answers, wrong = answers_in(texts), []
        with kept_script(script) as path:
            for place, wanted in answers.items():
                said = self.may(path, place)
                complaint = complaint_of_answers(script, said, wanted, texts)
                if complaint is None and complaint_of_answers(script, (0, said[1][1:]), wanted, texts) is None:
                    complaint = "nothing complains of a list of which the first line is dropped"
                wrong.append(complaint and f"{name}: {place}: {complaint}")
                status, lines = self.may(path, place, "--states", "1")
                few = {it for it in lines[:-1] if not it.startswith("  ")}
                if not (few <= wanted and (status, lines[-1]) in ((0, ALL), (6, AT_LEAST.format(1))) and (status == 6 or few == wanted)):
                    wrong.append(f"{name}: {place}: with one state it says {lines} with status {status}")
            for place in NOWHERE:
                if place not in answers:
                    said = self.may(path, place)
                    if said != (2, [f"fixcheck: no accepted submission of the script has a request {place}"]):
                        wrong.append(f"{name}: {place}: it says {said}")
        return wrong, sum(len(it) for it in answers.values()), sum(len(it) > 1 for it in answers.values())

    def ask_of_requests(self, those):
        """Of each request of scripts with their texts, what it may answer."""
        done = in_parallel(self.questioned, those)
        for wrong, *_ in done:
            for it in wrong:
                self.want(it is None, it)
        path = os.path.join(ROOT, "examples/replaced_between_two_members.script")
        for word in NO_PLACES:
            said = self.may(path, word)
            self.want(said == (2, [f"fixcheck: {word} is not the place of a request, as 1.1.2"]), f"of the place {word!r} it says {said}")
        answers, several = (sum(it[nth] for it in done) for nth in (1, 2))
        self.want(len(done) == len(those) and answers >= len(those), f"--may is asked about {len(done)} of {len(those)} scripts, and lists {answers} answers")
        self.want(several > 0, "no request has several answers")
        print(f"outcomes: of {len(done)} scripts fixcheck --may lists the {answers} answers of the texts; {several} requests have several")

    def questions(self):
        those = list(scripts_of("examples/questions"))
        self.want(len(those) == QUESTIONS, f"{len(those)} questions are there, and not {QUESTIONS}")
        for name, script in those:
            kept, found = listing.kept(name.removesuffix("script") + "texts"), list_of(self.fixcheck, script)
            for way, texts in (("fixcheck --all", set(found.alone())), ("all orders", texts_of_all_orders(script))):
                wrong = kept.complaint(texts)
                self.want(wrong is None and found.are_all and found.count == kept.count, f"{name}: of the kept texts, by {way}: {wrong}")
            for it in (kept, found):
                wrong = complaint_of_orders(script, it.texts)
                self.want(wrong is None, f"{name}: {wrong}")

    def limits(self):
        """Checks that of three texts as many are listed as requested, and that the count is that of all."""
        path = os.path.join(ROOT, "examples/replaced_between_two_members.script")
        for most in range(5):
            status, said, _ = run([self.fixcheck, f"--all={most}", path])
            head = "3 texts, if no allocation fails" + (f"; the first {most}:" if most < 3 else "")
            holds = (status, said.count("\ntext "), said.split("\n")[0]) == (0, min(most, 3), head)
            self.want(holds, f"of 3 texts {most} are requested, and it ends with status {status} and says {said[:60]!r}")

    def examples(self):
        """The kept text of each example is listed, and most have no other."""
        alone, those = 0, list(scripts_of("examples"))
        for path, script in those:
            text = text_beside(path)
            found = list_of(self.fixcheck, script)
            self.want(found.are_all and text in found.alone(), f"{path}: its text isn't among {found.count} listed ones")
            alone += found.alone() == [text]
        self.want(alone * 2 > len(those), f"of {len(those)} examples only {alone} have one text")
        print(f"outcomes: of {len(those)} examples the kept text is listed, and {alone} have no other")


def command():
    given = arguments(__doc__, "fixcheck", "few", {"count": 2000, "seed": 1})
    checks, seed = Checks("outcomes", fixcheck=given.fixcheck), given.seed
    checks.tiny(given.count, seed)
    checks.limits()
    checks.examples()
    checks.questions()
    checks.ask_of_requests(list(checks.listed(f"{seed} asked", given.few)))
    return checks.end()
