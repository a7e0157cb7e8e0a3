"""players KIND [--async]: plays a script as the model does, or with a fault, for tests/check-conform. It imports little, to start
quickly."""
import re
import sys
import time

from model.model import ECANCELED, EBADF, Player, Script, completion_line, play, severs
from scripts.repository import read_bytes

# the number of random scripts
RANDOM = 20
# the examples for which a player hangs or fails
HANGS, FAILS = "tag_at_the_teardown", "unregister_closes_every_file"
# what a player prints that never ends by itself
ENDLESS = "closed 1.1.1.0 a\n" * 4_096


class Concurrent(Player):
    """The model, but chains take turns, and reads look up their files first; then `closes_at_removal` may find none."""

    closes_at_removal = False

    def found(self, request):
        return self.slots[request[1]] if request[0] == "read" and request[1] < len(self.slots) else None

    def read_found(self, request, file):
        is_gone = self.closes_at_removal and file not in self.slots
        if file is None or is_gone:
            return -EBADF, b""
        got = self.contents[file[1]][request[2] : request[2] + request[3]]
        return len(got), got

    def members(self, chains, severed, nth):
        """Returns the results of the members at that place, by their chains."""
        those = {at: chain[nth][0] for at, chain in enumerate(chains) if len(chain) > nth and at not in severed}
        files = {at: self.found(it) for at, it in those.items() if it[0] == "read"}
        results = {at: self.perform((self.submissions, at + 1, nth + 1), it) for at, it in those.items() if at not in files}
        return results | {at: self.read_found(those[at], file) for at, file in files.items()}

    def lines_of(self, chains):
        severed, lines = set(), {}
        for nth in range(max(map(len, chains), default=0)):
            results = self.members(chains, severed, nth)
            for at, chain in enumerate(chains):
                if len(chain) > nth:
                    res, got = results.get(at, (-ECANCELED, b""))
                    lines[at, nth] = completion_line((self.submissions, at + 1, nth + 1), res, got)
                    severed |= {at} if severs(*chain[nth], res) else set()
        return [lines[it] for it in sorted(lines)]


def example(name):
    return read_bytes(f"examples/{name}.script")


def drawn(shape):
    from model.random_scripts import random_scripts

    return [script for _, script in random_scripts(shape, 1, RANDOM)]


def is_wrong_on(what, script, is_async):
    """Whether a player of that kind gives another result of 1.1.1: on one random script, where chains contend, or with --async."""
    if what == "wrong-random":
        return script == next(it for it in drawn("random") if "\n1.1.1 " in play(it)[0])
    return what == "wrong-async" and is_async or what == "wrong-contending" and script in drawn("contending")


def play_as(what, is_async):
    """Plays the script. Returns the exit status."""
    script = sys.stdin.buffer.read()
    text = play(script)[0]
    if what in ("concurrent", "closes-at-removal"):
        Concurrent.closes_at_removal = what == "closes-at-removal"
        text = Concurrent(Script(script).files).play(Script(script).commands)
    elif what == "fails" and script == example(FAILS):
        return 7
    elif what == "hangs" and script == example(HANGS):
        # until conform ends it
        time.sleep(600)
    elif what == "endless" and script == example(HANGS):
        while True:
            (sys.stderr if is_async else sys.stdout).write(ENDLESS)
    elif is_wrong_on(what, script, is_async):
        text = re.sub(r"^1\.1\.1 .*", "1.1.1 -77", text, count=1, flags=re.MULTILINE)
    sys.stdout.write(text)
    return 0


def command():
    return play_as(sys.argv[1], "--async" in sys.argv[2:])
