#!/usr/bin/env python3
"""Plays a script from standard input, as fixfiles does: a second fixfiles, slow, and written from docs/inside/MODEL.md and docs/use/SCRIPT.md alone.

tests/compare compares the program with it, also on scripts whose texts were derived by hand, and kernel/conform the kernel.
model/orders.py decides whether this model prints a text in another order of chains.
"""
import re
import sys

LARGEST, LARGEST_TAG = 2_147_483_647, 18_446_744_073_709_551_615
LONGEST_SCRIPT, LONGEST_LINE = 4_194_304, 10_000
ENTRIES, FILE_BYTES, SLOTS = 256, 4_096, 256
CHAINS, MEMBERS, READ_BYTES, UPDATE_ENTRIES, INSTALLS = 1_023, 16, 4_096, 16, 64
SUBMISSIONS, REGISTRATIONS = 65_535, 65_535
TEXT, NUMBER = re.compile(rb"[ -~]*"), re.compile(rb"0|[1-9][0-9]{0,9}")
ENOENT, ENXIO, EBADF, EAGAIN, EBUSY, EINVAL, ENFILE, EMFILE, ECANCELED = 2, 6, 9, 11, 16, 22, 23, 24, 125


class Fault(Exception):
    """Why a script isn't one: the fault's name, and the line where it is."""

    def __init__(self, name):
        super().__init__(name)
        self.name, self.line = name, 0


def want(holds, fault):
    if not holds:
        raise Fault(fault)


def is_number(word):
    return NUMBER.fullmatch(word) is not None and int(word) <= LARGEST


def number(word):
    want(is_number(word), "bad-number")
    return int(word)


def entry(word):
    is_negative = word[:1] == b"-"
    digits = word[1:] if is_negative else word
    want(is_number(digits) and (digits != b"0" or not is_negative), "bad-entry")
    return int(word)


def entries(word):
    return [entry(it) for it in word.split(b",")]


def tags(word):
    listed = word.split(b",")
    want(all(re.fullmatch(rb"0|[1-9][0-9]{0,19}", it) and int(it) <= LARGEST_TAG for it in listed), "bad-tag")
    return [int(it) for it in listed]


def name(word):
    want(re.fullmatch(rb"[A-Za-z0-9._-]{1,32}", word), "bad-name")
    return word


def link(word):
    want(word in (b"link", b"hardlink"), "bad-word")
    return word.decode()


def constant(_):
    """A word that was looked at before."""
    return None


# the words of each command, one more that it may have, and those of requests, which may be linked
COMMANDS = {
    b"sparse": [number],
    b"register": [entries],
    b"unregister": [],
    b"range": [number, number],
    b"regupdate": [number, entries],
    b"submit": [],
}
MAY_HAVE = {b"register": [tags], b"regupdate": [tags]}
REQUESTS = {
    b"read": [number, number, number],
    b"close": [number],
    b"update": [number, entries],
}
OPENS = {
    b"at": [name, constant, number],
    b"any": [name, constant],
}


class Script:
    """The files, each a name and its bytes, and the commands. A submit has its requests, each with its last word."""

    def __init__(self, text):
        self.files, self.commands, self.requests = [], [], []
        self.has_begun, self.first_request = False, 0
        want(len(text) <= LONGEST_SCRIPT, "long-script")
        lines = text.split(b"\n")
        for nth, line in enumerate(lines[:-1] if lines[-1] == b"" else lines, 1):
            try:
                self.take(nth, line)
            except Fault as fault:
                fault.line = nth
                raise
        if self.requests:
            fault = Fault("unsubmitted")
            fault.line = self.first_request
            raise fault

    def take(self, nth, line):
        want(len(line) <= LONGEST_LINE, "long-line")
        want(TEXT.fullmatch(line), "not-text")
        if line == b"" or line[:1] == b"#":
            return
        command, *words = line.split(b" ")
        if command == b"file":
            want(not self.has_begun, "late-file")
            want(len(words) == 2, "word-count")
            return self.add(*words)
        if command in COMMANDS:
            self.command(command, words)
        elif command in REQUESTS or command == b"open":
            self.request(nth, command, words)
        else:
            raise Fault("unknown-command")
        self.has_begun = True

    def add(self, file, content):
        want(content == b"-" or re.fullmatch(rb"([0-9a-fA-F]{2})+", content), "bad-hex")
        content = b"" if content == b"-" else bytes.fromhex(content.decode())
        want(len(self.files) < ENTRIES, "catalogue-full")
        name(file)
        want(all(it != file for it, _ in self.files), "same-name")
        want(len(content) <= FILE_BYTES, "long-file")
        self.files.append((file, content))

    def command(self, command, words):
        kinds, more = COMMANDS[command], MAY_HAVE.get(command, [])
        want(len(kinds) <= len(words) <= len(kinds + more), "word-count")
        values = [kind(word) for kind, word in zip(kinds + more, words)]
        if command == b"submit":
            values, self.requests = [self.requests], []
        self.commands.append((command.decode(), *values))

    def request(self, nth, command, words):
        if command == b"open":
            want(len(words) >= 2, "word-count")
            want(words[1] in OPENS, "bad-word")
        kinds = OPENS[words[1]] if command == b"open" else REQUESTS[command]
        want(len(words) in (len(kinds), len(kinds) + 1), "word-count")
        values = [kind(word) for kind, word in zip([*kinds, link], words)]
        linked_by = values[len(kinds)] if len(words) > len(kinds) else None
        if command == b"open":
            values = [values[0], values[2] if words[1] == b"at" else None]
        else:
            values = values[: len(kinds)]
        if not self.requests:
            self.first_request = nth
        self.requests.append(((command.decode(), *values), linked_by))


def chains_of(requests):
    """The chains, each a list of requests with their last words."""
    chains, is_open = [], False
    for request, linked_by in requests:
        if not is_open:
            chains.append([])
        chains[-1].append((request, linked_by))
        is_open = linked_by is not None
    return chains


def installs(request):
    if request[0] == "update":
        return sum(it >= 0 for it in request[2])
    return int(request[0] == "open")


def fault_of(requests):
    """The name and the place of the first fault of a submission, or None."""
    at = 0
    for nth, chain in enumerate(chains_of(requests), 1):
        for member, (request, _) in enumerate(chain, 1):
            at += 1
            if request[0] == "read" and request[3] > READ_BYTES:
                return "long-read", at
            if request[0] == "update" and len(request[2]) > UPDATE_ENTRIES:
                return "long-update", at
            if member > MEMBERS:
                return "chain-too-long", at
            if sum(installs(it) for it, _ in chain[:member]) > INSTALLS:
                return "too-many-files", at
            if nth > CHAINS:
                return "too-many-chains", at
    return None


def requests_of(script):
    """Yields the place of each request of an accepted submission, the request, and its last word."""
    submission = 0
    for command, *words in script.commands:
        if command == "submit" and fault_of(words[0]) is None:
            submission += 1
            for nth, chain in enumerate(chains_of(words[0]), 1):
                for member, (request, linked_by) in enumerate(chain, 1):
                    yield (submission, nth, member), request, linked_by


def has_failed(request, res):
    return res < 0 or request[0] == "read" and res < request[3]


def severs(request, linked_by, res):
    return has_failed(request, res) and linked_by != "hardlink"


def registered(call, place):
    """A mark of a registered file. Marks are ordered: registered files come first."""
    return 0, call, place


def submitted(place, nth):
    return (1, *place, nth)


def has_bad_tags(listed, tags):
    """There are more tags than numbers, or fewer, or one of a number that opens no file."""
    return tags is not None and (len(tags) != len(listed) or any(it < 0 and tag for it, tag in zip(listed, tags)))


def text_of_mark(mark):
    return ("r{}.{}" if mark[0] == 0 else "{}.{}.{}.{}").format(*mark[1:])


class Player:
    def __init__(self, files):
        self.names = [it for it, _ in files]
        self.contents = [it for _, it in files]
        # a slot is None, or the mark, the entry and the tag of its file, 0 for none
        self.slots, self.range = [], (0, 0)
        self.submissions, self.registrations = 0, 0
        self.closed = []
        # the slot that the next open at any slot takes, where it is free; else it takes the lowest
        self.wanted = None

    def copy(self):
        # copy.copy takes five times as long, and model/orders.py copies a player for each step
        other = object.__new__(type(self))
        other.__dict__.update(self.__dict__)
        other.slots, other.closed = self.slots[:], self.closed[:]
        return other

    def put(self, slot, file):
        if self.slots[slot]:
            self.closed.append(self.slots[slot])
        self.slots[slot] = file

    # between submissions

    def refusal_of_table(self, count, is_bad=False):
        if self.slots:
            return -EBUSY
        if count == 0 or is_bad:
            return -EINVAL
        return -EMFILE if count > SLOTS else 0

    def sparse(self, count):
        refusal = self.refusal_of_table(count)
        if not refusal:
            self.slots, self.range = [None] * count, (0, count)
        return refusal

    def has_counted_all(self):
        """Whether no registration is counted any more."""
        return self.registrations == REGISTRATIONS

    def register(self, listed, tags=None):
        refusal = self.refusal_of_table(len(listed), has_bad_tags(listed, tags))
        if refusal:
            return refusal
        if any(it < -1 or it >= len(self.names) for it in listed):
            return -EBADF
        if self.has_counted_all():
            return -EAGAIN
        self.registrations += 1
        call = self.registrations
        tags = tags or [0] * len(listed)
        self.slots = [None if it == -1 else (registered(call, nth), it, tags[nth]) for nth, it in enumerate(listed)]
        self.range = 0, len(listed)
        return 0

    def unregister(self):
        if not self.slots:
            return -ENXIO
        self.closed += [it for it in self.slots if it]
        self.slots, self.range = [], (0, 0)
        return 0

    def set_range(self, off, length):
        if off + length > len(self.slots):
            return -EINVAL
        self.range = (off, length)
        return 0

    def refusal_of_list(self, off, listed, tags=None):
        if not self.slots:
            return -ENXIO
        if off + len(listed) > len(self.slots) or has_bad_tags(listed, tags):
            return -EINVAL
        if any(it < -2 or it >= len(self.names) for it in listed):
            return -EBADF
        return 0

    def work_off(self, off, listed, mark_of, tags=None):
        for nth, it in enumerate(listed):
            if it != -2:
                self.put(off + nth, None if it == -1 else (mark_of(nth), it, tags[nth] if tags else 0))
        return len(listed)

    def regupdate(self, off, listed, tags=None):
        refusal = self.refusal_of_list(off, listed, tags)
        if refusal:
            return refusal
        if self.has_counted_all():
            return -EAGAIN
        self.registrations += 1
        return self.work_off(off, listed, lambda nth: registered(self.registrations, nth), tags)

    # requests

    def refusal(self, slot):
        return -ENXIO if not self.slots else -EINVAL if slot >= len(self.slots) else 0

    def free_slots(self):
        first, length = self.range
        return [it for it in range(first, first + length) if not self.slots[it]]

    def open(self, place, file, slot):
        if file not in self.names:
            return -ENOENT
        opened = submitted(place, 0), self.names.index(file), 0
        if slot is None:
            free = self.free_slots()
            if not free:
                return -ENFILE
            # any free slot is right
            taken = self.wanted if self.wanted in free else free[0]
            self.put(taken, opened)
            return taken
        if not self.refusal(slot):
            self.put(slot, opened)
        return self.refusal(slot)

    def read(self, slot, off, length):
        """The result, and the bytes."""
        if slot >= len(self.slots) or not self.slots[slot]:
            return -EBADF, b""
        got = self.contents[self.slots[slot][1]][off : off + length]
        return len(got), got

    def close(self, slot):
        if self.refusal(slot):
            return self.refusal(slot)
        if not self.slots[slot]:
            return -EBADF
        self.put(slot, None)
        return 0

    def update(self, place, off, listed, first=0):
        """`first` is the place of the list's first entry, where a list is applied in parts."""
        return self.refusal_of_list(off, listed) or self.work_off(off, listed, lambda nth: submitted(place, first + nth))

    def perform(self, place, request):
        """The result, and the bytes of a read."""
        kind, *words = request
        if kind == "read":
            return self.read(*words)
        if kind == "close":
            return self.close(*words), b""
        return (self.open if kind == "open" else self.update)(place, *words), b""

    def comes_to_the_table(self, request):
        """Whether a request does, where it is done now: its numbers or its name may refuse it, and an update may leave every slot."""
        kind, *words = request
        if kind == "open":
            return words[0] in self.names and bool(self.slots) and (words[1] is None or words[1] < len(self.slots))
        if kind in ("read", "close"):
            return words[0] < len(self.slots)
        return not self.refusal_of_list(*words) and any(it != -2 for it in words[1])

    # commands, each with its lines

    def refusal_of_submission(self, requests):
        """Returns the words after `submit refused`, or None."""
        fault = fault_of(requests)
        if fault:
            return "{} {}".format(*fault)
        return "too-many-submissions" if self.submissions == SUBMISSIONS else None

    def submit(self, requests):
        refusal = self.refusal_of_submission(requests)
        if refusal:
            return [f"submit refused {refusal}"]
        self.submissions += 1
        return self.lines_of(chains_of(requests)) + self.closed_lines()

    def completions(self, nth, chain):
        """Yields the completion of each request of the nth chain, once it is done."""
        is_severed = False
        for member, (request, linked_by) in enumerate(chain, 1):
            place = self.submissions, nth, member
            res, got = (-ECANCELED, b"") if is_severed else self.perform(place, request)
            is_severed |= severs(request, linked_by, res)
            yield completion_line(place, res, got)

    def lines_of(self, chains):
        """The completions of a submission's chains, which are played in their order."""
        return [line for nth, chain in enumerate(chains, 1) for line in self.completions(nth, chain)]

    def closed_lines(self):
        """A line for each file that was closed since the last lines, in order of mark, and then one for each of their tags."""
        closed, self.closed = sorted(self.closed), []
        lines = [f"closed {text_of_mark(mark)} {self.names[file].decode()}" for mark, file, _ in closed]
        return lines + [f"tag {tag}" for *_, tag in closed if tag]

    def command(self, command, *words):
        if command == "submit":
            return self.submit(*words)
        calls = {"sparse": self.sparse, "range": self.set_range, "register": self.register}
        calls |= {"unregister": self.unregister, "regupdate": self.regupdate}
        return [f"{command} {calls[command](*words)}", *self.closed_lines()]

    def end(self):
        self.closed = [it for it in self.slots if it]
        return ["teardown", *self.closed_lines()] if self.closed else []

    def play(self, commands):
        """The text of all commands and of the end, the chains in their order."""
        lines = [line for it in commands for line in self.command(*it)] + self.end()
        return "".join(f"{it}\n" for it in lines)


def completion_line(place, res, got):
    return "{}.{}.{} {}".format(*place, res) + (f" {got.hex()}" if got else "")


def play(text):
    """The text that a script writes, its status, and its fault, which is None where it has none."""
    try:
        script = Script(text)
    except Fault as fault:
        return "", 3, fault
    return Player(script.files).play(script.commands), 0, None


if __name__ == "__main__":
    if len(sys.argv) > 1:
        print(f"model.py: there is no argument {sys.argv[1]}; the script is read from standard input, as in: model.py < SCRIPT", file=sys.stderr)
        sys.exit(2)
    written, status, fault = play(sys.stdin.buffer.read())
    sys.stdout.write(written)
    if fault:
        print(f"fixfiles: line {fault.line}: {fault.name}", file=sys.stderr)
    sys.exit(status)
