"""check-allocation-failures PROGRAM [FIXCHECK [CALLS]] [--few]: plays scripts on the program with each of its allocations failing in
turn (tests/counts.py). Allowed are the whole text; the text with one answer -12, as model/model.py writes it; and status 5 and the whole
texts of the first commands. The order of chains changes no text of these scripts. FIXCHECK judges texts in the same way. CALLS, the
program bench_tables, makes calls: by the call's documentation it prints its answer, and what the same call answers after a refusal. With
--few it plays one short script."""
import functools
import os
import re

from scripts.checks import arguments
from scripts.repository import ROOT, read, read_bytes
from tests.counts import Failures
from tests.limits import CHAINS, ENTRIES, MEMBERS, full_catalogue, linked, lines
from model.model import Player, Script, chains_of

NAME = "allocation failures"
# how many allocations of a run fail at most: of a program, and of a call
MOST, MOST_OF_A_CALL = 150, 300
# what the program is played with
OPTIONS = [["--workers", workers, "--table", table] for workers in ("1", "2") for table in ("words", "baton")]
# what must come out of a script on one worker for some failing allocation
WANTED = {
    "open_read_close": ("sparse answers -12", "a read answers -12"),
    "hard_links": ("a read answers -12", "a read by a hard link answers -12"),
    "registrations": tuple(f"{it} answers -12" for it in ("register", "unregister", "sparse", "regupdate")),
    "tags": ("register answers -12", "regupdate answers -12"),
}
# examples with legal texts, which without their last line are not; one has tags
JUDGED = ("open_read_close", "tagged_files_leave_in_each_way", "replaced_between_two_members")
VERDICTS = {0: "legal", 1: "not legal"}
ENOMEM = 12
NO_MEMORY = "fixfiles: out of memory\n"
COMMANDS = ("sparse", "register", "unregister", "regupdate")
TABLES = ("words", "baton")
# the closed files of a ring: the one that is there at first, and the one that a request opens
FIRST = "Closed { mark: Registered { k: 1, i: 0 }, entry: 0, tag: 7 }"
OPENED = "Closed { mark: Submitted { submission: 1, chain: 2, member: 1, entry: 0 }, entry: 1, tag: 0 }"


def full_chains():
    """1,023 full chains: 256 each replace the file of a slot of their own; an open that finds no file ends each."""
    slots = range(0, 256, ENTRIES)
    script = ["file a.txt 68656c6c6f", "sparse 256", *(f"update {it} {','.join(['0'] * ENTRIES)}" for it in slots), "submit"]
    for nth in range(CHAINS):
        slot = nth % 256
        middle = f"update {slot} 0" if nth < 256 else f"update {slot} -2"
        reads = [f"read {slot} {it % 5} {1 - it % 2}" for it in range(MEMBERS - 2)]
        script += linked(*reads[:7], middle, *reads[7:], f"open nothing at {slot}")
    return lines(*script, "submit")


def updates():
    """16 chains of 16 updates of 16 entries, each chain on slots of its own: it installs four times, and empties between."""
    install, empty, keep = (",".join([it] * ENTRIES) for it in ("0", "-1", "-2"))
    script = ["file a.txt 68656c6c6f", "sparse 256"]
    for slot in range(0, 256, ENTRIES):
        members = [install, keep, empty, keep] * 3 + [install, keep, keep, keep]
        script += linked(*(f"update {slot} {it}" for it in members))
    return lines(*script, "submit")


def hard_links():
    """Reads by hard links in a chain that goes on whatever they answer, and in one that a soft link severs."""
    script = ["file a.txt 68656c6c6f", "sparse 2", "open a.txt at 0 link", "read 0 0 5 hardlink", "read 0 1 4 hardlink"]
    script += ["read 0 0 9 hardlink", "close 0", "open a.txt at 1 hardlink", "read 1 0 5 hardlink", "read 1 0 4 link", "close 1"]
    return lines(*script, "submit")


def tags():
    """Tagged files that are closed, replaced and left. No text has a tag without its file. A call that is refused is made again."""
    script = ["file a.txt 68656c6c6f", *["register 0,0 7,0"] * 2, "update 0 -1,-1", "submit", *["regupdate 0 0,0 8,9"] * 2, "regupdate 1 0 10"]
    return lines(*script)


def registrations():
    """Each call between submissions, and a request among them. A call that is refused is made again."""
    script = ["file a.txt 68656c6c6f", "file b.txt -", *["register 0,-1,1"] * 2, "range 1 2", "open a.txt any", "submit"]
    script += [*["regupdate 0 1,-2,0"] * 2, *["unregister"] * 2, *["sparse 2"] * 2, "regupdate 1 0", "read 1 0 4", "submit"]
    return lines(*script, "unregister", "register 1,1")


def small_submissions():
    """Submissions for which one table stays open, one that needs more numbers, others, and some after an update of the ring."""
    small = ["open a.txt at 0", "submit", "read 0 0 5", "submit"]
    heavy = [*linked(*["open a.txt at 1"] * 8), "submit"]
    return lines("file a.txt 68656c6c6f", "sparse 2", *small, *heavy, *small, "regupdate 0 0", *small)


def scripts(open_read_close):
    """Each script by its name."""
    yield "open_read_close", open_read_close
    yield "full_catalogue", full_catalogue()[0]
    for made in (hard_links, registrations, tags, full_chains, updates, small_submissions):
        yield made.__name__, made()


class Refusing(Player):
    """The model, where one answer is -12: that of a command, by its place in the script, or that of a read, by its own."""

    def __init__(self, files, refused=None):
        super().__init__(files)
        self.refused, self.nth, self.is_met = refused, 0, False

    def command(self, command, *words):
        self.nth += 1
        if self.nth - 1 == self.refused and command in COMMANDS and " -" not in Player.command(self.copy(), command, *words)[0]:
            self.is_met = True
            return [f"{command} -{ENOMEM}"]
        return super().command(command, *words)

    def refusal_of_submission(self, requests):
        """None: these submissions are accepted, and looking again takes its time."""
        return None

    def perform(self, place, request):
        if place == self.refused and request[0] == "read" and request[1] < len(self.slots) and request[3] > 0:
            self.is_met = True
            return -ENOMEM, b""
        return super().perform(place, request)


class Outcomes:
    """What may come out of a script."""

    def __init__(self, script):
        self.script = Script(script.encode())
        player = Player(self.script.files)
        parts = [player.command(*it) for it in self.script.commands] + [player.end()]
        self.texts = ["".join(f"{line}\n" for line in part) for part in parts]
        self.text = "".join(self.texts)
        self.known_answer = functools.cache(self.answer)

    def kind(self, status, text, message):
        """The name of an outcome, or None where it may not be."""
        if (status, message) == (5, NO_MEMORY):
            return self.beginning(text)
        if (status, message) != (0, ""):
            return None
        return "the whole text" if text == self.text else self.known_answer(text)

    def beginning(self, text):
        """Status 5: the text of no command, of the first ones, or of all."""
        written = ""
        for part in self.texts:
            if written == text:
                break
            written += part
        if written != text:
            return None
        return "status 5 with " + ("no text" if not text else "all of it" if text == self.text else "a part of it")

    def answer(self, text):
        """Status 0: a text with one -12 is the model's with that answer."""
        for line in re.findall(rf"^.* -{ENOMEM}$", text, re.MULTILINE)[:1]:
            word = line.split(" ")[0]
            places = [tuple(map(int, word.split(".")))] if "." in word else range(len(self.script.commands))
            for place in places:
                player = Refusing(self.script.files, place)
                if player.play(self.script.commands) == text and player.is_met:
                    return f"{self.read_at(*place)} answers -12" if "." in word else f"{word} answers -12"
        return None

    def read_at(self, submission, chain, member):
        """What the read at a place is called: that of a hard link has a name of its own."""
        submissions = [words[0] for command, *words in self.script.commands if command == "submit"]
        linked_by = chains_of(submissions[submission - 1])[chain - 1][member - 1][1]
        return "a read by a hard link" if linked_by == "hardlink" else "a read"


def completion(chain, member, res, got=b""):
    place = f"Place {{ submission: 1, chain: {chain}, member: {member} }}"
    return f"Completion {{ place: {place}, res: {res}, got: {list(got)} }}"


class Call:
    """A call on some setting: what it prints if it succeeds. With `fails` an allocation of it may fail, which is printed before, with
    the lines `before`. `others` are further answers, by their names; `torn` is what a tear-down at the end prints."""

    def __init__(self, words, answer, fails=True, before=(), torn=None, others=None):
        self.words = words
        self.outcomes = {"done": answer + (torn or [])}
        if fails:
            self.outcomes["no memory"] = [f"{words.split(' ')[0]}: NoMemory", *before, *self.outcomes["done"]]
        if torn is not None:
            self.outcomes["after the call"] = [*answer, "tear_down: NoMemory", *torn]
        self.outcomes.update(others or {})
        # the outcomes that must each come at some allocation
        self.wanted = {*self.outcomes} - {"done"}

    def name(self):
        return self.words.replace(" -", "").removesuffix(" 0")

    def kind(self, ended, _whole):
        """The name of an outcome, or None. The last allocation comes after the call."""
        status, text, message = ended
        *lines, end = text.splitlines() or [""]
        if (status, message, text[-1:]) != (0, "", "\n") or end not in ("end", "end: refused"):
            return None
        if lines == ["no setting"]:
            return "no setting" if end == "end" else None
        kind = next((it for it, wanted in self.outcomes.items() if wanted == lines), None)
        return kind if end == "end" else "after all" if kind == "done" else None


def told_tags():
    """The tag of a closed file. The list asks again where its first allocation fails, so the call need not end."""
    call = Call("tags - 0", ["tags: [TagCompletion { user_data: 7, res: 0, flags: 0 }]", FIRST])
    call.wanted = set()
    return call


def submitted(table, workers, verb="submit"):
    """A chain that reads and closes the file of slot 0, and one that opens another at slot 1. A refused submission isn't counted,
    and none of its requests has started. With `submit_open` the ring's table is open: opening it may fail, or the submission."""
    whole = [f"{verb}: done", completion(1, 1, 5, b"hello"), completion(1, 2, 0), completion(2, 1, 1), FIRST]
    cut = [f"{verb}: done", completion(1, 1, -12), completion(1, 2, -125), completion(2, 1, 1)]
    others = {"a read answers -12": [*cut, FIRST, OPENED]}
    if verb == "submit_open":
        others["no memory to submit"] = [f"{verb}: NoMemory", "open ring: 2 slots", *whole, OPENED]
    call = Call(f"{verb} {table} {workers}", whole, True, ["gate: 0 calls"] * (verb == "submit"), [OPENED], others)
    # on several workers the allocation of the read may be another one each time
    call.wanted -= {"a read answers -12"} if workers > 1 else set()
    return call


def calls():
    """Each call, as the program is asked for it."""
    yield from (Call(f"add - {count}", ["add: done"]) for count in (0, 1, 4))
    # a table that was prepared for eight numbers needs no memory for fewer
    yield from (Call(f"prepare - {numbers}", ["prepare: done"], numbers > 8) for numbers in (5, 9, 300))
    yield from (Call(f"open {table} {passes}", ["open: done"]) for table in TABLES for passes in (1, 16))
    yield told_tags()
    yield from (submitted(table, workers) for table in TABLES for workers in (1, 2))
    yield from (submitted(table, 1, "submit_open") for table in TABLES)


def check_script(checks, name, script, program, many):
    outcomes = Outcomes(script)
    for options in many:
        wanted = () if "2" in options else WANTED.get(name, ())
        played = " ".join([name, *options])
        checks.fail(played, [program, *options], script, lambda ended, _: outcomes.kind(*ended), "the whole text", wanted)


def verdict_kind(ended, whole):
    """The whole verdict, or its first lines and status 5."""
    status, text, message = ended
    if ended == whole:
        verdict = VERDICTS.get(status)
        return verdict if verdict and text.startswith(verdict) and not message else None
    is_begun = whole[1].startswith(text) and text[-1:] in ("", "\n")
    return "status 5" if is_begun and (status, message) == (5, "fixcheck: out of memory\n") else None


def check_verdict(checks, fixcheck, name, options, is_whole):
    """A text of an example, of which fixcheck is asked."""
    script, text = (os.path.join(ROOT, f"examples/{name}.{it}") for it in ("script", "text"))
    given = read_bytes(text) if is_whole else b"".join(read_bytes(text).splitlines(True)[:-1])
    asked = " ".join(["fixcheck of", name, *options, *([] if is_whole else ["without its last line"])])
    checks.fail(asked, [fixcheck, *options, script, "-"], given, verdict_kind, VERDICTS[not is_whole], ["status 5"])


def command():
    given = arguments(__doc__, "program fixcheck? calls?", "few")
    checks, open_read_close = Failures(NAME, most=MOST), read("examples/open_read_close.script")
    if not checks.can_fail():
        return 1
    for name, script in [("open_read_close", open_read_close)] if given.few else scripts(open_read_close):
        check_script(checks, name, script, given.program, [[]] if given.few else OPTIONS)
    for name in JUDGED[:1] if given.few else JUDGED:
        for options in [[], ["--history"]] if given.fixcheck else []:
            for is_whole in (True, False):
                check_verdict(checks, given.fixcheck, name, options, is_whole)
    checks.most = MOST_OF_A_CALL
    for call in calls() if given.calls else ():
        checks.fail(call.name(), [given.calls], f"{call.words}\n", call.kind, "done", call.wanted)
    return checks.end("failed")
