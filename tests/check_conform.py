"""check-conform FIXCHECK: tests kernel/conform and kernel/litmus. conform passes correct players, among them this
kernel, which must show each difference that docs/use/LINUX.md lists. Of wrong players (tests/players.py, changes of kernel/*.c) it must
report the rule, the script and the line, in valid KTAP."""
import os
import platform
import re
import subprocess
import sys
import tempfile
from collections import Counter

from kernel import litmus
from scripts.checks import Counted
from kernel.conform import RULES, SCHEDULE, kept_scripts
from kernel.kernels import AGREES, NO_KERNEL, PLAYER, UNSAID, built_player, found_of_kernel, listed, of_older_kernels
from model.model import SLOTS, Script
from tests.players import RANDOM
from scripts.listing import Listing, kept
from scripts.programs import given_time, run, run_bytes
from scripts.examples import rows
from scripts.repository import ROOT, copy_changed, read, read_bytes, write
from kernel.rules import Linux

# changes of kernel/*.c
WRONG_SOURCES = {
    "loses a tag": ("files.c", "\ttold[told_count++] =", "\tstatic int is_lost;\n\tif (!is_lost++)\n\t\treturn;\n\ttold[told_count++] ="),
    "ignores that a link is hard": ("play.c", "IOSQE_IO_HARDLINK", "IOSQE_IO_LINK"),
    "takes tags for the next numbers": ("files.c", "= cqe->user_data;", "= cqe->user_data + 1;"),
}
# a difference of Linux 6.1, and the text of its script there
LEFT = "file_left_in_the_table_posts_no_tag"
TEXT_OF_LEFT = """register 0
regupdate 1
closed r1.0 a.txt
tag 1
unregister 0
closed r1.1 a.txt
register 0
teardown
closed r3.0 a.txt
"""
# the number of random scripts of this kernel
RANDOM_OF_KERNEL = 2_500
# the number of cases that need a kernel with io_uring
OF_KERNEL = 51
RESULT = r"(ok|not ok) (\d+) (\S+)(?: # (XFAIL|SKIP) (.*))?\n"
HEAD, SCRIPT = re.compile(r"KTAP version 1\n(?:# .*\n)*1\.\.(\d+)\n"), re.compile(rf"((?:  # .*\n)*)  {RESULT}")
# a rule with its scripts
RULE = re.compile(rf"((?:# .*\n)*)  KTAP version 1\n  # Subtest: \S+\n  1\.\.(\d+)\n((?:{SCRIPT.pattern})*)((?:# .*\n)*){RESULT}")
# litmus: lists of texts, and lines that players gave
QUESTION = "examples/questions/open_any_beside_a_close"
SHARED = "register 0; 1.1.1 close 0: 0; closed r1.0 old.txt"
FULL, FREE = (text for text, _ in kept(f"{QUESTION}.texts").texts)
ORDER = ["order 1: 1.2.1 1.1.1"], ["order 1: 1.1.1 1.2.1"]
BOTH = Listing(2, True, [(FULL, ORDER[0]), (FREE, ORDER[1])])
ANSWERS = ("1.2.1 open new.txt any: -23 ENFILE", "1.2.1 open new.txt any: 0; at the end closed 1.2.1.0 new.txt")
# an open at any slot never answers -22
ILLEGAL = FULL.replace("1.2.1 -23", "1.2.1 -22")
WRONG = "1.2.1 open new.txt any: -22 EINVAL"
LITMUS_HEAD = "          kernel  16 workers   lines that differ"
REFUSED = b"file a.txt 61\nsparse 1\nopen a.txt at 1\nsubmit\n"
ANSWERED = "sparse 0\n1.1.1 -22\n"
OPENED = ANSWERED + "closed 1.1.1.0 a.txt\n"
READS = b"file a.txt 6869\nregister 0\nread 0 0 2 link\nread 0 2 1\nsubmit\n"
READ = "register 0\n1.1.1 2 6869\n1.1.2 0\nteardown\nclosed r1.0 a.txt\n"


class Report:
    """A report of conform. `results` has for each name whether it passed, its directive with what follows, and the comments before it;
    `subtests` the number of scripts of each rule; `shown` the differences that
    explain a script; and `faults` what is not KTAP, or does not add up."""

    def __init__(self, lines):
        self.results, self.subtests, self.shown, self.faults, self.text = {}, {}, set(), [], "\n".join(lines)
        text, self.kinds, rules = f"{self.text}\n", {0: [], 2: []}, 0
        head = HEAD.match(text)
        at = head.end() if head else 0
        while found := RULE.match(text, at):
            rules, at, scripts = rules + 1, found.end(), list(SCRIPT.finditer(found[3]))
            for nth, it in enumerate(scripts, 1):
                self.take(2, nth, *it.groups())
            self.take(0, rules, found[10], *found.groups()[10:])
            self.subtests[found[13]] = len(scripts)
            if len(scripts) != int(found[2]):
                self.faults.append(f"fewer scripts than planned: {found[13]}")
        if not head or int(head[1]) != rules or not rules:
            self.faults.append("it doesn't begin as KTAP, or has fewer rules than planned")
        totals = (" ".join(f"{kind}:{self.kinds[of].count(kind)}" for kind in ("pass", "fail", "xfail", "skip")) for of in (2, 0))
        wanted = "# scripts: {}\n# Totals: {}\n".format(*totals)
        if text[at:] != wanted:
            self.faults.append(f"the end is {text[at:][:200]!r}, and not {wanted!r}")

    def take(self, of, turn, comments, result, nth, name, directive, words):
        """Takes the result of a script or a rule."""
        if int(nth) != turn or directive and result != "ok":
            self.faults.append(f"a result out of turn, or both expected and not ok: {name}")
        self.kinds[of].append({"XFAIL": "xfail", "SKIP": "skip"}.get(directive, "pass" if result == "ok" else "fail"))
        if directive == "XFAIL":
            self.shown |= set(words.split(", "))
        self.results[name] = result == "ok", directive or "", [it.strip()[2:] for it in comments.splitlines()]

    def wrong(self):
        return {name for name, (is_ok, *_) in self.results.items() if not is_ok}

    def known(self):
        return {name for name, (_, directive, _) in self.results.items() if directive == "XFAIL"}


class Checks(Counted):
    def rules(self):
        """Checks that docs/inside/MODEL.md has the words of each rule in its section."""
        page = read("docs/inside/MODEL.md")
        sections = {it.split("\n")[0].split(":")[0]: " ".join(it.split()) for it in page.split("\n## ")}
        missing = [words for section, rules in RULES.items() for words, _ in rules.values() if words not in sections.get(section, "")]
        self.want(not missing, f"docs/inside/MODEL.md doesn't say {missing}")
        ends = re.search(r"enum \{ BAD_SCRIPT = (\d+), NO_IO_URING = (\d+), UNSAID = (\d+)", read("kernel/play.c"))
        listed_ends = re.findall(r"^\.It (\d+)$", read("man/play-on-kernel.1"), re.MULTILINE)
        self.want(ends and {*ends.groups()} <= {*listed_ends}, f"man/play-on-kernel.1 has the exit statuses {listed_ends}")
        for count, met in (SLOTS, set()), (SLOTS + 1, {"larger_table"}):
            model = Linux([], {"larger_table"})
            self.want((model.refusal_of_table(count), model.met) == (0, met), f"a table of {count} slots meets {set(model.met)}")
        script = Script(read_bytes(f"kernel/differences/{LEFT}.script"))
        text = Linux(script.files, {LEFT}).play(script.commands)
        self.want(text == TEXT_OF_LEFT, f"Linux 6.1 prints {text!r} of {LEFT}")

    def report(self, player, what, *words):
        """Runs conform on a player. Its report has each script of each rule, or of the one that is asked for, and all random scripts."""
        count = RANDOM_OF_KERNEL if player == PLAYER else RANDOM
        command = [f"{ROOT}/kernel/conform", "--scripts", str(count), "--fixcheck", self.fixcheck, *words]
        status, text, message = run([*command, "--player", player], seconds=given_time(300))
        report = Report(text.splitlines())
        self.want(not report.faults and not message, f"of a player that {what}: {report.faults[:3]} {message[-500:]}")
        wanted = {rule: len(scripts.split()) for rules in RULES.values() for rule, (_, scripts) in rules.items()} | {"random_scripts": count}
        if "--rule" in words:
            wanted = {words[words.index("--rule") + 1]: 1}
        fewer = [rule for rule, count in wanted.items() if report.subtests.get(rule, 0) < count]
        self.want(not fewer, f"of a player that {what} some scripts have no result: {fewer}")
        is_kernel = player == PLAYER
        head = report.text.split("\n")[:2]
        self.want(("# kernel " in head[-1]) == is_kernel and (player in head[-1]) != is_kernel, f"the head names another player: {head}")
        return status, report

    def passes(self, player, what, may_differ):
        status, report = self.report(player, what)
        holds = status == 0 and not report.wrong() and (may_differ or not report.known())
        self.want(holds, f"a player that {what} ends with status {status}: {report.wrong()} {report.known()}")
        return report

    def of_kernel(self, report, mistaken):
        """Checks what else the kernel must do. `mistaken` is a player that takes tags for the next numbers."""
        missing = missing_differences(report.shown, platform.release())
        self.want(not missing, f"no script shows {', '.join(sorted(missing))}, which docs/use/LINUX.md lists")
        most = re.search(r"^# at most (\d+) texts", report.text, re.MULTILINE)
        self.want(most and int(most[1]) > 1, "the kernel gave a single text for each contending script: its chains do not run concurrently")
        for it in rows():
            if it.fault:
                found = found_of_kernel(PLAYER, self.fixcheck, it.script, frozenset())
                self.want(found.standing in (AGREES, UNSAID), f"the kernel's player takes {it.name}, or refuses it for another line")
        for player, tag in ((PLAYER, b"tag 4\n"), (mistaken, b"tag 5\n")):
            # a mistaken completion shows as a tag of no closed file
            text = run_bytes([player], read_bytes("examples/tag_at_the_teardown.script"))[1]
            self.want(text == b"register 0\nteardown\nclosed r1.0 a.txt\n" + tag, f"the player {player} wrote {text!r}")

    def fails(self, player, what, rule, words, *options):
        """Checks that the rule fails, and that a script of it has its paths and words of the break."""
        status, report = self.report(player, what, "--rule", rule, *options)
        told_of = [comments for name in report.wrong() for comments in [report.results[name][2]] if any(words in it for it in comments)]
        paths = [re.fullmatch(r"script (\S+), text (\S+)", it) for those in told_of for it in those[-5:]]
        are_there = [os.path.exists(os.path.join(ROOT, path)) for it in paths if it for path in it.groups()]
        holds = status == 1 and rule in report.wrong() and are_there and all(are_there)
        self.want(holds, f"a player that {what} ends with status {status}, wrong {sorted(report.wrong())}, with {words!r} {len(told_of)}")

    def refuses(self, words, complaint):
        """Checks that arguments are refused with a named error, before anything is played."""
        status, text, message = run([f"{ROOT}/kernel/conform", "--fixcheck", self.fixcheck, *words])
        last = message.splitlines()[-1] if message else ""
        self.want((status, text) == (2, "") and complaint in last, f"the arguments {words} end with status {status} and {last!r}")


def check_time(checks):
    """Checks that a play has more time if processes wait for each processor, and never less."""
    for load, wanted in ((0, 120), (os.cpu_count(), 120), (5 * os.cpu_count(), 600)):
        kept, os.getloadavg = os.getloadavg, lambda load=load: (load, 0, 0)
        checks.want(given_time(120) == wanted, f"at a load of {load} a play has {given_time(120)} s, and not {wanted}")
        os.getloadavg = kept


def missing_differences(shown, release):
    """Returns the listed differences that no script has shown, if the kernel has the version that docs/use/LINUX.md names, or shows none."""
    names, version = listed()
    return names - shown if not shown or re.match(r"\d+\.\d+", release)[0] == version else frozenset()


def check_differences(checks):
    """Checks that each listed difference has a script of its name, and that a difference which isn't shown is missed."""
    names, version = listed()
    scripts = {name.split("/")[-1] for name, _ in kept_scripts()[0]}
    missing = (names | of_older_kernels()) - scripts
    checks.want(not missing and of_older_kernels(), f"docs/use/LINUX.md lists {', '.join(sorted(missing))}, without a script")
    some = names - {min(names)}
    for shown, release, wanted in ((frozenset(), "0.1", names), (some, f"{version}.7", names - some), (some, "0.1", frozenset())):
        missing = missing_differences(shown, release)
        checks.want(missing == wanted, f"of kernel {release} {sorted(missing)} are missed, and not {sorted(wanted)}")


def changed_player(room, name, change):
    """Builds kernel/*.c with a change. Returns the program's path."""
    sources = os.path.join(room, f"{name}.sources")
    copy_changed("kernel", sources, *change)
    files = [os.path.join(sources, it) for it in os.listdir(sources) if it.endswith(".c")]
    subprocess.run(["cc", "-O1", "-o", os.path.join(room, name), *files, "-luring"], check=True)
    return os.path.join(room, name)


def check_arguments(checks):
    for words in (["--scripts", "-3"], ["--scripts", "abc"], ["--seconds", "0"], ["--rule", "no_rule"]):
        checks.refuses(words, words[1])
    for path, complaint in (("/nonexistent", "No such file or directory"), (ROOT, "Permission denied")):
        checks.refuses(["--player", path], f"the player {path} can't be run: {complaint}")


def check_players(checks, room):
    def player(name):
        """Makes a program that plays as tests/players.py does by this name. Returns its path."""
        path = os.path.join(room, name)
        write(path, f"#!/bin/sh\nexec python3 -S -X 'pycache_prefix={room}' '{ROOT}/scripts/run' tests.players {name} \"$@\"\n")
        os.chmod(path, 0o755)
        return path

    checks.passes(player("model"), "prints what the model prints", False)
    checks.passes(player("concurrent"), "holds what it reads", False)
    checks.fails(player("closes-at-removal"), "closes at removal", SCHEDULE, "found 1.")
    checks.fails(player("fails"), "fails", "unregistering_closes_every_file", "status 7")
    checks.fails(player("hangs"), "hangs", "tag_comes_when_its_file_is_closed", "did not end within ", "--seconds", "5")
    checks.fails(player("endless"), "prints for ever", "tag_comes_when_its_file_is_closed", "it printed more than 67,108,864 bytes")
    checks.fails(player("wrong-async"), "is wrong with --async", SCHEDULE, "not legal")
    checks.fails(player("wrong-contending"), "is wrong where chains contend", SCHEDULE, "not legal")
    checks.fails(player("wrong-random"), "is wrong on one random script", "random_scripts", "not legal")


def check_kernel(checks, room):
    """Runs conform on this machine's kernel, and on wrong ones."""
    status, missing = built_player()
    if status == NO_KERNEL:
        checks.skip(OF_KERNEL, "io_uring", missing)
        return
    mistaken = changed_player(room, "mistaken", WRONG_SOURCES["takes tags for the next numbers"])
    checks.of_kernel(checks.passes(PLAYER, "asks this kernel", True), mistaken)
    rows = ("loses a tag", "tag_comes_when_its_file_is_closed", "tag "), ("ignores that a link is hard", "hard_link_goes_on_after_a_failure", "-125")
    for nth, (what, rule, words) in enumerate(rows):
        checks.fails(changed_player(room, f"player{nth}", WRONG_SOURCES[what]), what, rule, words)


def litmus_rows():
    """Yields rows: the script, the list, the plays of both players, the lines of every text, of each, the sums, and whether it is
    wrong."""
    question = read_bytes(f"{QUESTION}.script")
    yield "a text that nobody gave", question, BOTH, {FREE: 10}, {FREE: 10}, SHARED, [
        f"   1           -           -   {ANSWERS[0]}",
        "                               order 1: 1.2.1 1.1.1",
        f"   2          10          10   {ANSWERS[1]}"], ("1 of 2, never 1", "1 of 2, never 1"), False
    yield "texts that both gave", question, BOTH, {FREE: 7, FULL: 3}, {FREE: 10}, SHARED, [
        f"   1           3           -   {ANSWERS[0]}",
        f"   2           7          10   {ANSWERS[1]}"], ("2 of 2", "1 of 2, never 1"), False
    yield "a text that isn't allowed", question, BOTH, {FREE: 8, ILLEGAL: 2}, {FREE: 9, FULL: 1}, SHARED, [
        f"   1           -           1   {ANSWERS[0]}",
        f"   2           8           9   {ANSWERS[1]}",
        f"   !           2           -   NOT ALLOWED: {WRONG}"], ("1 of 2, never 1; 2 plays gave a text that isn't listed", "2 of 2"), True
    yield "a listed text that isn't legal", question, Listing(3, True, [*BOTH.texts, (ILLEGAL, [])]), {FREE: 10}, {FULL: 10}, SHARED, [
        f"   1           -          10   {ANSWERS[0]}",
        f"   2          10           -   {ANSWERS[1]}",
        f"   3           -           -   LISTED, BUT fixcheck ENDS WITH STATUS 1: {WRONG}"], ("1 of 3, never 1, 3", "1 of 3, never 2, 3"), True
    yield "a legal text that isn't listed", question, Listing(1, True, BOTH.texts[1:]), {FREE: 10}, {FULL: 4, FREE: 6}, SHARED, [
        f"   1          10           6   {ANSWERS[1]}",
        f"   !           -           4   LEGAL BY fixcheck, BUT NOT LISTED: {ANSWERS[0]}"], ("1 of 1", "1 of 1; 4 plays gave a text that isn't listed"), True
    yield "a difference of Linux", REFUSED, Listing(1, True, [(ANSWERED, ["order 1:"])]), {OPENED: 10}, {ANSWERED: 10}, "sparse 0; 1.1.1 open a.txt at 1: -22 EINVAL", [
        "   1           -          10   ",
        "   !          10           -   not allowed; explained by refused_open_opens_its_file: closed 1.1.1.0 a.txt",
    ], ("0 of 1, never 1; 10 plays gave a text that isn't listed", "1 of 1"), False
    less = {READ.replace("2 6869", "-12").replace("1.1.2 0", "1.1.2 -125"): 1, READ: 9}
    yield "a failed allocation", READS, Listing(1, True, [(READ, ["order 1: 1.1.1 1.1.2"])]), {READ: 10}, less, "register 0; at the end closed r1.0 a.txt", [
        '   1          10           9   1.1.1 read 0 0 2: 2 6869 "hi"; 1.1.2 read 0 2 1: 0',
        "   !           -           1   allowed if an allocation fails: 1.1.1 read 0 0 2: -12 ENOMEM; 1.1.2 read 0 2 1: -125 ECANCELED",
    ], ("1 of 1", "1 of 1; 1 play gave a text that isn't listed"), False
    # lists that aren't whole: of the second memory alone cut some off, and their number is known
    for what, those, number in (("a list that isn't whole", Listing(1, False, BOTH.texts[1:]), "them"), ("a list that only memory cut short", Listing(2, True, BOTH.texts[1:]), "2")):
        yield what, question, those, {FREE: 10}, {FULL: 4, FREE: 6}, SHARED, [
            f"   1          10           6   {ANSWERS[1]}",
            f"   2           -           4   {ANSWERS[0]}"], (f"1 of {number}", f"2 of {number}"), False


def complaints_of_players(litmus):
    """Yields whether plays in turns differ by their number, missing players are named, and each plays as often as is asked."""
    asked = []
    kept = litmus.programs.in_turns, litmus.programs.built, litmus.kernels.built_player
    litmus.programs.in_turns = lambda fixfiles, script, seed, turn, *words: asked.append((seed, turn, *words)) or (0, "", "")
    for nth in range(30):
        litmus.in_turns("", b"", nth)
    wanted = [(nth, litmus.TURNS[nth % 3], "--workers", str(2 + nth % 15)) for nth in range(30)]
    yield asked == wanted and len(set(litmus.TURNS)) == 3, f"litmus plays in turns by {asked}"
    litmus.programs.built, litmus.kernels.built_player = lambda source: litmus.os.stat("/no/cc"), lambda: (77, "no io_uring")
    those, left_out = litmus.players("/bin/true")
    words = ["The kernel is left out: no io_uring.", "The plays in turns are left out: there is no C compiler cc for x86-64 here."]
    yield (list(those), left_out) == (["4 workers", "16 workers"], words), f"litmus has players {list(those)} and says {left_out}"
    litmus.programs.in_turns, litmus.programs.built, litmus.kernels.built_player = kept
    counts, left_out = litmus.counted({"well": lambda script, nth: str(nth % 2), "badly": litmus.player_of("/bin/false")}, b"", 40)
    yield counts == {"well": {"0": 20, "1": 20}} and left_out == ["badly is left out: false ended with status 1 and printed: ."], f"{counts}, {left_out}"


def complaints_of_litmus(fixcheck):
    """Yields for each row whether litmus reports it so, and a complaint."""
    yield from complaints_of_players(litmus)
    for what, script, found, kernel, workers, shared, texts, sums, is_wrong in litmus_rows():
        counts = {"kernel": Counter(kernel), "16 workers": Counter(workers)}
        wanted = [f"in every text: {shared}", "", LITMUS_HEAD, *texts, "", *(f"{name} gave {it}" for name, it in zip(counts, sums))]
        lines, *told = litmus.report(litmus.Judge(fixcheck, script), found, counts)
        differs = [f"{one!r}, not {other!r}" for one, other in zip([*lines, ""], [*wanted, ""]) if one != other]
        yield (lines, told) == (wanted, [is_wrong]), f"litmus reports {what} otherwise: {differs or told}"


def command():
    fixcheck = os.path.abspath(sys.argv[1])
    checks = Checks("conform", fixcheck=fixcheck)
    checks.rules()
    check_differences(checks)
    check_arguments(checks)
    check_time(checks)
    for holds, complaint in complaints_of_litmus(fixcheck):
        checks.want(holds, complaint)
    with tempfile.TemporaryDirectory() as room:
        check_players(checks, room)
        check_kernel(checks, room)
    return checks.end()
