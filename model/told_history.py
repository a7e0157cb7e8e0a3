"""Checks that the output of `fixcheck --history` is a legal history of docs/inside/MODEL.md, "Steps", that results in a text: each event is
allowed when it comes and belongs to its request, each line ends with the state after it, and the answers and closes are those of the
text. The number of bytes of a read is checked, and the bytes aren't, since a history doesn't have them."""
import re

from model.model import Script, chains_of
from model.replay import Illegal, want

EVENT = re.compile(r"(Look|Release|Put|Clear|Take|Allocate|Full|Close)(?:\(([^)]*)\))?(?: tag (\d+))?")


class Table:
    """What the events lead to: the file at each slot, the one that is held and by whom, and what was removed."""

    def __init__(self):
        self.size, self.at, self.held, self.removed, self.names = 0, {}, None, None, {}

    def state(self):
        if not self.size:
            return "no table"
        held = self.held and self.held[1]
        files = ", ".join(f"{slot} {it}{' held' if it == held else ''}" for slot, it in sorted(self.at.items()))
        return (files or "empty") + (f", removed {self.removed}" if self.removed else "")

    def found(self, slot, mark):
        want(0 <= slot < self.size, f"there is no slot {slot}")
        want(self.at.get(slot, "none") == mark, f"{mark} isn't at slot {slot}")

    def install(self, slot, file):
        mark, name = file.split(" ")
        want(mark not in self.names, f"{mark} is installed twice")
        self.names[mark] = name
        self.at[slot] = mark

    def remove(self, slot, mark):
        self.found(slot, mark)
        want(self.removed is None, f"{self.removed} isn't closed yet")
        if mark != "none":
            self.removed = self.at.pop(slot)

    def take(self, who, word, words, tag):
        """Takes an event. Returns the name and the tag of a file that is closed."""
        want(self.held is None or (word, who, words[0]) == ("Release", *self.held), f"{self.held} has a hold, and {word} comes")
        if word == "Look":
            self.found(int(words[0]), words[1])
            self.held = None if words[1] == "none" else (who, words[1])
        elif word == "Release":
            want(self.held, f"{who} releases {words[0]}, and has no hold")
            self.held = None
        elif word == "Put":
            self.remove(int(words[0]), words[2])
            self.install(int(words[0]), words[1])
        elif word in ("Clear", "Take"):
            self.remove(int(words[0]), words[1])
        elif word == "Allocate":
            self.found(int(words[0]), "none")
            self.install(int(words[0]), words[1])
        elif word == "Close":
            want(self.removed == words[0], f"{words[0]} is closed, and wasn't removed")
            self.removed = None
            return words[0], int(tag or 0)


def key_of(mark):
    """Marks in their order: those with an `r` first."""
    return not mark.startswith("r"), *map(int, mark.lstrip("r").split("."))


def events_of(request, res, size):
    """What a request does at a table of that size that answered so: each event but a release and a close, with its slot."""
    kind, *words = request
    if kind == "update":
        those = [("Clear" if it == -1 else "Put", words[0] + nth) for nth, it in enumerate(words[1]) if it != -2]
        return those if res >= 0 else []
    if kind == "open" and words[1] is None:
        return [("Allocate", res)] if res >= 0 else [("Full", None)] if res == -23 and size else []
    if kind == "open":
        return [("Put", words[1])] if res >= 0 else []
    came = res >= 0 or res == -9 and words[0] < size
    return [("Look" if kind == "read" else "Take", words[0])] if came else []


def events_of_call(command, res):
    """The same of a call, but for those that empty the table."""
    if command[0] == "register" and res >= 0:
        return [("Put", nth) for nth, it in enumerate(command[1]) if it >= 0]
    return events_of(("update", *command[1:3]), res, 0) if command[0] == "regupdate" else []


class Reader:
    """The lines of a history, those of its script that aren't files, and the text that they give."""

    def __init__(self, lines, script):
        self.lines, self.table, self.closed = lines, Table(), []
        self.asked = [it for it in script.decode().split("\n") if it and not it.startswith(("#", "file "))]
        # what each has done that hasn't answered: events but releases and closes, with slots
        self.made = {}

    def line(self):
        """Returns the next line: whose it is, and the rest. An event is taken."""
        want(self.lines, "the lines end too early")
        line, *self.lines = self.lines
        told, bar, state = line.rpartition(" | ")
        who, _, what = told.rstrip().partition(" ")
        event = EVENT.fullmatch(what)
        if event:
            self.take(who, event[1], (event[2] or "").split(", "), event[3])
        elif who == "unregister" and what == "answers 0":
            self.table.size = 0
        want(bar and state == self.table.state(), f"{line!r}: the state is {self.table.state()}")
        return who, None if event else what

    def take(self, who, word, words, tag):
        closed = self.table.take(who, word, words, tag)
        self.closed += [closed] if closed else []
        if word not in ("Release", "Close"):
            self.made.setdefault(who, []).append((word, None if word == "Full" else int(words[0])))
        elif word == "Close":
            last, _ = self.made.get(who, [("", None)])[-1]
            want(last in ("Put", "Clear", "Take"), f"{who} closes a file that it didn't remove")

    def closes(self):
        """The lines of the files that were closed since the last call."""
        files = sorted(self.closed, key=lambda it: key_of(it[0]))
        self.closed = []
        return [f"closed {mark} {self.table.names[mark]}" for mark, _ in files] + [f"tag {tag}" for _, tag in files if tag]

    def answer(self):
        """Returns the next answer, whose it is and to what, with the events before it."""
        while True:
            who, what = self.line()
            if what is not None:
                words, is_answer, res = what.rpartition("answers ")
                want(is_answer, f"{what} isn't an answer")
                return who, words, res

    def call(self, command):
        word, *words = command
        if word in ("sparse", "register") and not (self.lines and " answers -" in self.lines[0]):
            self.table.size = words[0] if word == "sparse" else len(words[0])
        who, words, res = self.answer()
        asked, *self.asked = self.asked
        want(f"{who} {words}".strip() == asked, f"{who} {words} answers, and not {asked}")
        made, wanted = self.made.pop(who, []), events_of_call(command, int(res.split(" ")[0])) if word != "submit" else []
        is_right = all(it == "Clear" for it, _ in made) if word == "unregister" else made == wanted
        want(is_right and not self.made, f"{who} did {made}, and not {wanted}")
        return [f"{who} {res}", *self.closes()]

    def submission(self, requests):
        answers, chains, asked = {}, chains_of(requests), self.asked[: len(requests)]
        self.asked = self.asked[len(requests) + 1 :]
        while len(answers) < len(requests):
            who, words, res = self.answer()
            if who == "submit":
                return [f"submit {res}"]
            want(who not in answers, f"{who} answers twice")
            answers[who] = res
            _, chain, member = map(int, who.split("."))
            want(words.strip() == asked[sum(map(len, chains[: chain - 1])) + member - 1], f"{who} {words} answers")
            made, wanted = self.made.pop(who, []), events_of(chains[chain - 1][member - 1][0], int(res), self.table.size)
            want(made == wanted, f"{who} did {made}, and not {wanted}")
        want(not self.made, f"{self.made} have no answer")
        places = sorted(answers, key=key_of)
        return [*(f"{it} {answers[it]}" for it in places), *self.closes()]

    def text(self, commands):
        given = []
        for command in commands:
            given += self.submission(command[1]) if command[0] == "submit" else self.call(command)
        while self.lines:
            who, what = self.line()
            want((who, what) == ("teardown", None), f"{who} is at the end")
        closes = self.closes()
        want(not self.table.at, "files are left")
        return given + (["teardown", *closes] if closes else [])


def complaint_of(script, text, lines):
    """Returns why the lines aren't a history that results in the text, or None."""
    try:
        want(lines[:1] == ["legal"], "the first line isn't `legal`")
        given = Reader(lines[1:], script).text(Script(script).commands)
    except (Illegal, ValueError, IndexError) as wrong:
        return str(wrong)
    wanted = [re.sub(r"^(\d+\.\d+\.\d+ \S+) .*$", r"\1", it) for it in text.split("\n")[:-1]]
    return None if given == wanted else f"the history results in {given}, and not {wanted}"
