"""check-verdicts PROGRAM [--few]: checks that fixcheck, the PROGRAM, prints what examples/judged has for each script and text; its
arguments, and what it can't read or write; and texts that are too long or too odd to be kept as lines. --few leaves out what tests/spoil.c
can't replace: failing writes.

A file NAME.judged has indented lines under the headings `script`, `text` and `fixcheck OPTIONS, status N`: for the script and text
above, fixcheck, or with `judge-linux` kernel/judge-linux, prints these lines, and nothing on standard error. `#` begins a comment."""
import contextlib
import errno
import glob
import math
import os
import pty
import re
import tempfile

from scripts.checks import Counted, arguments
from tests.limits import BYTES, lines
from scripts.programs import limited, run_bytes
from scripts.repository import ROOT, read, read_bytes, write

# with this many reads of 4,096 bytes a submission has a text of more than 2,000,000 bytes
READS = 256
# so many opens at one slot have states, of 2 bytes a chain and 256 more, of more than 1 MiB
OPENS = 1_000
# opens at one slot beside a conflict: with the second number a set of lines isn't looked for
FEW_OPENS, MANY_OPENS = 8, 14
# chains at slots of their own; reads beside an update of their slot, or opens at one slot
OWN, BESIDE = 64, 10
# reads beside an update, twice; submissions of one; and memory for 8 MiB of their texts
TWICE, OFTEN, LIST_MIB = 8, 60, 64
# so many opens at any of as many slots leave a ring for each way to choose the slots; then so many
# submissions, each of so many long reads: 8 MB of text. A program that makes a text for each of the
# 120 rings has no room for them in so many MiB
ANY, AFTER, LONG, ANY_MIB = 5, 100, 10, 128
# opens at one slot with more states than so many MiB hold, and what the program needs besides
HELD, HELD_MIB, BESIDE_MIB = 100, 192, 32
# the states of the searches before the last one, on a terminal: quarters of the limit
TRIED = {15_625, 62_500, 250_000}
# how much memory a program may have that reads a file without an end
ENDLESS_MIB = 64
SCRIPT, TEXT = (os.path.join(ROOT, f"examples/open_read_close.{it}") for it in ("script", "text"))
# what the system says of a path that leads to nothing, and of a folder
NO_FILE, A_FOLDER = (f"{os.strerror(it)} (os error {it})" for it in (errno.ENOENT, errno.EISDIR))
LEGAL = b"legal\norder 1: 1.1.1 1.1.2 1.1.3\n"
# the list of its script's texts
INDENTED = "".join(f"    {it}" for it in read(TEXT).splitlines(True))
ONE_TEXT = f"1 text, if no allocation fails\n\ntext 1\n{INDENTED}order 1: 1.1.1 1.1.2 1.1.3\n".encode()


def often(count):
    """So many submissions, each with a read that finds the file that was there, or the one that replaces it."""
    return [line for it in range(count) for line in ("read 0 0 1", f"update 0 {1 - it % 2}", "submit")]


def blocks_of(path):
    """The headings of a file, each with its lines."""
    found = []
    for line in read(path).splitlines(True):
        if line.startswith("    "):
            found[-1][1].append(line[4:])
        elif line.strip() and not line.startswith("#"):
            found.append((line.strip(), []))
    return [(heading, "".join(lines).encode()) for heading, lines in found]


def verdicts_of(path):
    """Yields each script, text, options, status and verdict of a file, and whether kernel/judge-linux is asked."""
    script = text = None
    for heading, block in blocks_of(path):
        asked = re.fullmatch(r"(fixcheck|judge-linux)((?: \S+)*), status (\d+)", heading)
        if asked:
            yield script, text, asked[2].split(), int(asked[3]), block, asked[1] == "judge-linux"
        elif heading == "script":
            script = block
        elif heading == "text":
            text = block
        else:
            raise ValueError(f"{path}: {heading} isn't a heading")


class Verdicts(Counted):
    def path(self, name, contents):
        path = os.path.join(self.folder, name)
        write(path, contents)
        return path

    def run(self, words, given=b"", **how):
        return run_bytes([self.program, *words], given, **how)

    def want_told(self, what, words, wanted, given=b"", **how):
        found = self.run(words, given, **how)
        self.want(found == wanted, f"{what}: {found}, and not {wanted}"[:2000])

    def file(self, path):
        """A kept file, each verdict by two paths, and with its script or its text from standard input."""
        for count, (script, text, options, status, verdict, is_linux) in enumerate(verdicts_of(path), 1):
            what, wanted = f"{os.path.basename(path)}, verdict {count}", (status, verdict, b"")
            script_path, text_path = self.path("script", script), self.path("text", text)
            if is_linux:
                words = [f"{ROOT}/kernel/judge-linux", "--fixcheck", self.program, *options, script_path]
                found = [run_bytes([*words, text_path]), run_bytes([*words, "-"], text)]
                self.want(found == [wanted, wanted], f"{what}: {found}, and not {wanted}"[:2000])
                continue
            self.want_told(what, [*options, script_path, text_path], wanted)
            self.want_told(f"{what}, its script from standard input", [*options, "-", text_path], wanted, script)
            self.want_told(f"{what}, its text from standard input", [*options, script_path, "-"], wanted, text)

    def files(self):
        for path in sorted(glob.glob(os.path.join(ROOT, "examples/judged/*"))):
            self.file(path)

    def odd_lines(self):
        """Lines that no text file of examples/judged can have: of a script, a text, the place, the expected line, and the one found."""
        ends = " without a line end; the text ends within this line"
        opens, closes = b"file a 61\nsparse 1\nopen a at 0\nclose 0\nsubmit\n", b"file a.txt 6a\nregister 0\nunregister\n"
        reads, sparse = b"file a 6a\nregister 0\nread 0 0 1\nsubmit\n", b"sparse 1\n"
        for script, text, place, wanted, found in [
            *((sparse, text, (1, 1, 1), "sparse 0", found) for text, found in (
                (b"", "nothing"), (b"\n", "nothing"), (b"sparse 0", "sparse 0 without a line end"), (b"sparse 0\r\n", "sparse 0\\x0d"), (b"sparse 0 \n", "sparse 0\\x20"),
                (b"a\xff\t\n", "a\\xff\\x09"), (b"\x00\x1f ~\x7f\x80", "\\x00\\x1f ~\\x7f\\x80 without a line end"))),
            (opens, b"sparse 0\n1.1.1 -", (2, 5, 2), "1.1.1 with 0", f"1.1.1 -{ends}"),
            (opens, b"sparse 0\n1.1.1 0\n1.2.1 0\nclosed 1.1.1.0 a", (2, 5, 4), "a whole line", f"closed 1.1.1.0 a{ends}"),
            (closes, b"register 0\nunregister 0\nclosed r1.0 a", (2, 3, 3), "closed r1.0 a.txt", f"closed r1.0 a{ends}"),
            (reads, b"register 0\n1.1.1 OK\n", (2, 4, 2), "1.1.1 with 1 6a of a or -12", "1.1.1 OK; its result can't be read"),
            (reads, b"register 0\n1.1.1 1 6A\n", (2, 4, 2), "1.1.1 with 1 6a of a or -12", "1.1.1 1 6A; bytes are printed in lower case"),
            # the last line of a script may have no end
            (b"sparse 1\nunregister", b"sparse 0\n", (2, 2, 2), "unregister 0", "nothing"),
        ]:
            said = "not legal: command {}, line {} of the script; line {} of the text: expected ".format(*place) + f"{wanted}, found {found}\n"
            self.want_told(f"the text {text} of {script}", [self.path("odd", script), "-"], (1, said.encode(), b""), text)

    def arguments(self):
        missing = os.path.join(self.folder, "none")
        for words in [
            [SCRIPT, TEXT], ["--states", "4294967295", SCRIPT, TEXT], [SCRIPT, TEXT, "--states=1000"], ["--states=1000", SCRIPT, TEXT],
            ["--memory=1", SCRIPT, TEXT], [SCRIPT, TEXT, "--memory", "1048576"], ["--keep-going", SCRIPT, TEXT],
        ]:
            self.want_told(f"{words}", words, (0, LEGAL, b""))
        for words in [[SCRIPT, TEXT, "--history"], ["--history", SCRIPT, TEXT]]:
            status, written, message = self.run(words)
            self.want((status, written[:14], message) == (0, b"legal\nsparse 2", b""), f"{words} ended with status {status}: {written[:100]}")
        for words in [
            [], [SCRIPT], [SCRIPT, TEXT, TEXT], ["--history=x", SCRIPT, TEXT], ["--states", "x", SCRIPT, TEXT], ["--states=-1", SCRIPT, TEXT],
            ["--states", "4294967296", SCRIPT, TEXT], ["--none", SCRIPT, TEXT], [SCRIPT, TEXT, "--states"],
            ["--memory", "0", SCRIPT, TEXT], ["--memory=1048577", SCRIPT, TEXT], ["--memory=1MiB", SCRIPT, TEXT],
            ["--history", SCRIPT, "--all"], ["--all"], ["--all=x", SCRIPT],
            ["--all=4294967296", SCRIPT], ["--all=-1", SCRIPT], ["--all", "--keep-going", SCRIPT], ["--keep-going", "--may", SCRIPT, "1.1.1"],
            ["--history", "--may", SCRIPT, "1.1.1"],
        ]:
            status, written, message = self.run(words)
            self.want((status, written, message[:7]) == (2, b"", b"error: "), f"{words} ended with status {status} and said {message}")
        for words in [["--all", SCRIPT], [SCRIPT, "--all"], ["--all=1", SCRIPT], ["--all=4294967295", "--states", "100", SCRIPT]]:
            self.want_told(f"{words}", words, (0, ONE_TEXT, b""))
        self.want_told("--all of standard input", ["--all", "-"], (0, ONE_TEXT, b""), read_bytes(SCRIPT))
        for word in ("--help", "-h"):
            status, written, message = self.run([word])
            holds = (status, message) == (0, b"") and all(it in written for it in (b"--states <N>", b"--memory <MIB>", b"--all[=<N>]"))
            self.want(holds, f"{word} ended with status {status}")
        for words, wanted in [
            (["-", "-"], (2, b"", b"fixcheck: the script and the text can't both be standard input\n")),
            ([b"\xff", TEXT], (2, b"", b"fixcheck: an argument is no text\n")),
            ([SCRIPT, TEXT, b"\xff"], (2, b"", b"fixcheck: an argument is no text\n")),
            (["--all", SCRIPT, TEXT], (2, b"", b"fixcheck: --all takes no TEXT\n")),
            (["--all", "3", SCRIPT], (2, b"", b"fixcheck: --all takes no TEXT; its number is written as --all=3\n")),
            (["--all", "--may", SCRIPT], (2, b"", b"fixcheck: --all and --may are two questions: give one of them\n")),
            (["--may", SCRIPT], (2, b"", b"fixcheck: --may needs the place of a request after SCRIPT, as 1.1.2\n")),
            (["--may", SCRIPT, "01.1.1"], (2, b"", b"fixcheck: 01.1.1 is not the place of a request, as 1.1.2\n")),
            (["--may", SCRIPT, "+1.1.1"], (2, b"", b"fixcheck: +1.1.1 is not the place of a request, as 1.1.2\n")),
            ([TEXT, SCRIPT], (3, b"", f"fixcheck: {TEXT}: line 2: unknown-command; {SCRIPT} is a script, and SCRIPT comes before TEXT\n".encode())),
            ([TEXT, TEXT], (3, b"", f"fixcheck: {TEXT}: line 2: unknown-command\n".encode())),
            ([self.path("returns", b"sparse 1\r\n"), TEXT], (3, b"", f"fixcheck: {self.folder}/returns: line 1: not-text; the line has a carriage return\n".encode())),
            ([missing, TEXT], (4, b"", f"fixcheck: {missing} can't be read: {NO_FILE}\n".encode())),
            ([SCRIPT, missing], (4, b"", f"fixcheck: {missing} can't be read: {NO_FILE}\n".encode())),
            ([SCRIPT, self.folder], (4, b"", f"fixcheck: {self.folder} can't be read: {A_FOLDER}\n".encode())),
        ]:
            self.want_told(f"{words}", words, wanted)
        script = self.path("script", b"file a 61\nsparse 1\n")
        place = b"not legal: command 1, line 2 of the script; line 1 of the text: expected sparse 0, found file a 61\n"
        self.want_told("a script given as the text", [script, script], (1, place, f"fixcheck: {script} is a script, and not what a script printed\n".encode()))
        self.want_told("a bad script on standard input", ["-", TEXT], (3, b"", b"fixcheck: standard input: line 1: unknown-command\n"), b"x\n")

    def endless(self):
        """A script is read no further than shows that it is too long, and a text no further than the memory that it may have."""
        how = limited(ENDLESS_MIB * 1024)
        self.want_told("a script without an end", ["/dev/zero", TEXT], (3, b"", b"fixcheck: /dev/zero: line 0: long-script\n"), **how)
        told = b"fixcheck: /dev/zero can't be read: it has more than 2 MiB; --memory gives another limit\n"
        self.want_told("a text without an end", ["--memory=2", SCRIPT, "/dev/zero"], (4, b"", told), **how)

    def writes(self):
        """A verdict, a history, lists, help and the version that can't be written."""
        asked = [SCRIPT, TEXT], ["--history", SCRIPT, TEXT], ["--may", SCRIPT, "1.1.1"], ["--all", SCRIPT], ["--help"], ["--version"]
        for words in asked:
            with open("/dev/full", "wb") as full:
                self.want_told(f"{words} to a full device", words, (4, None, b"fixcheck: write failed\n"), stdout=full)

    def long_text(self):
        """A text of more than 2,000,000 bytes, by its path. It is read to its end: with another last line it isn't legal."""
        script = lines(f"file a {'6a' * BYTES}", "register 0", *[f"read 0 0 {BYTES}"] * READS, "submit").encode()
        reads = [f"1.{it + 1}.1 {BYTES} {'6a' * BYTES}" for it in range(READS)]
        text = lines("register 0", *reads, "teardown", "closed r1.0 a").encode()
        order = b"".join(b" 1.%d.1" % (it + 1) for it in range(READS))
        self.want(len(text) > 2_000_000, f"the long text has {len(text)} bytes")
        words = [self.path("script", script), self.path("text", text)]
        self.want_told("a text of 2,000,000 bytes", words, (0, b"legal\norder 1:" + order + b"\n", b""))
        self.path("text", text[:-2] + b"b\n")
        place = f"not legal: the end of the script; line {READS + 3} of the text: expected closed r1.0 a, found closed r1.0 b; r1.0 is at slot 0\n"
        self.want_told("a text of 2,000,000 bytes with a wrong end", words, (1, place.encode(), b""))

    def many_states(self):
        """A part that is legal has more states than a MiB holds."""
        script = lines("file a 61", "sparse 1", *["open a at 0"] * OPENS, "submit").encode()
        opens = [f"1.{it}.1" for it in range(1, OPENS + 1)]
        closed = [f"closed {it}.0 a" for it in opens]
        text = lines("sparse 0", *(f"{it} 0" for it in opens), *closed[:-1], "teardown", closed[-1]).encode()
        paths = [self.path("script", script), self.path("text", text)]
        undecided = b"undecided: submission 1 has more states than 1 MiB hold\n"
        self.want_told("more states than a MiB holds", ["--memory=1", *paths], (6, undecided, b""))
        legal = lines("legal", f"order 1: {' '.join(opens)}").encode()
        self.want_told("states that 4 MiB hold", ["--memory=4", *paths], (0, legal, b""))

    def fewer_lines(self):
        """A file that is at a slot no more isn't read again; of many files that isn't seen in time, and all lines are named."""
        for opens in (FEW_OPENS, MANY_OPENS):
            script = lines("file a 61", "file b 62", "sparse 1", "open b at 0 link", "read 0 0 1 link", "read 0 0 1", *["open a at 0"] * opens, "submit")
            closed = ["closed 1.1.1.0 b", *(f"closed 1.{it + 2}.1.0 a" for it in range(opens))]
            text = ["sparse 0", "1.1.1 0", "1.1.2 1 61", "1.1.3 1 62", *(f"1.{it + 2}.1 0" for it in range(opens)), *closed[:-1], "teardown", closed[-1]]
            named = [3, 4] if opens == FEW_OPENS else [3, 4, *(opens + 5 + it for it in range(opens))]
            numbers = f"lines {', '.join(map(str, named[:-1]))} and {named[-1]}"
            more = "" if opens == FEW_OPENS else ", and closes no other file; fewer of them may contradict each other"
            why = f"no order of the requests gives all of these, which concern slot 0{more}"
            wanted = lines(f"not legal: command 2, line {opens + 7} of the script; {numbers} of the text: {why}", *(f"  {it}: {text[it - 1]}" for it in named))
            words = [self.path("script", script.encode()), self.path("text", lines(*text).encode())]
            self.want_told(f"the lines that contradict each other beside {opens} opens", words, (1, wanted.encode(), b""))

    def on_terminal(self, words):
        """The status, what is written, and what a terminal shows of standard error."""
        shown, terminal = pty.openpty()
        status, written, _ = self.run(words, stderr=terminal)
        os.close(terminal)
        message = b""
        with contextlib.suppress(OSError):
            while part := os.read(shown, 65_536):
                message += part
        os.close(shown)
        return status, written, message.replace(b"\r\n", b"\n")

    def progress(self):
        """On a terminal a verdict is the same. A quick one shows nothing there, and a long one may show how many states were too few."""
        self.want(self.on_terminal([SCRIPT, TEXT]) == (0, LEGAL, b""), "a quick verdict shows something on a terminal")
        # the last text of fewer_lines
        words = [os.path.join(self.folder, it) for it in ("script", "text")]
        status, written, message = self.on_terminal(words)
        line = rb"fixcheck: submission 1 has more than (\d+) states; the limit is 1000000\n"
        told = [int(it) for it in re.findall(line, message)]
        whole = re.fullmatch(b"(%s)*" % line, message) and told == sorted(set(told)) and set(told) <= TRIED
        self.want(whole, f"a terminal shows {message}")
        self.want((status, written, b"") == self.run(words), f"on a terminal a verdict is {written}, with status {status}")

    def lists(self):
        """Chains at slots of their own are played one after another; reads that aren't asked for are left alone."""
        own = [f"{request}{link}" for it in range(OWN) for request, link in ((f"open a at {it}", " link"), (f"read {it} 0 1", " link"), (f"close {it}", ""))]
        path = self.path("own", lines("file a 61", f"sparse {OWN}", *own, "submit").encode())
        states = 3 * OWN + 1
        all_of, some = "if no allocation fails", f"if no allocation fails: not shown to be all within {states - 1} states and 1024 MiB"
        self.want_list("all answers of a chain at its own slot", [f"--states={states}", "--may", path, "1.1.2"], 0, -1, f"these are all, {all_of}")
        self.want_list("all texts of such chains", [f"--states={states}", "--all=1", path], 0, 0, f"1 text, {all_of}")
        self.want_list("answers within one state less", [f"--states={states - 1}", "--may", path, "1.1.2"], 6, -1, f"at least these, {some}")
        self.want_list("texts within one state less", [f"--states={states - 1}", "--all=1", path], 6, 0, f"at least 0 texts, {some}")
        behind = self.path("behind", lines("file a 61", f"sparse {OWN}", *own, "submit", "close 0", "submit").encode())
        self.want_list("answers after such chains", [f"--states={states}", "--may", behind, "2.1.1"], 0, -1, f"these are all, {all_of}")
        self.want_list("answers after them within one state less", [f"--states={states - 1}", "--may", behind, "2.1.1"], 6, -1, f"at least these, {some}")
        path = self.path("beside", lines("file a 61", "file b 62", "register 0", *["read 0 0 1"] * BESIDE, "update 0 1", "submit").encode())
        some = "not shown to be all within 1000000 states and 1 MiB"
        self.want_list("texts that a MiB doesn't hold", ["--memory=1", "--all=0", path], 6, 0, rf"at least \d+ texts?, {all_of}: {some}(; the first 0:)?")
        self.want_list("answers beside reads", ["--states=4", "--may", path, "1.1.1"], 0, -1, f"these are all, {all_of}")
        opens = self.path("opens", lines("file a 61", "sparse 1", *["open a at 0"] * BESIDE, "submit").encode())
        self.want_list("answers that a MiB doesn't hold", ["--memory=1", "--may", opens, "1.1.1"], 6, -1, f"at least these, {all_of}: {some}")
        self.want_list("answers that 16 MiB hold", ["--memory=16", "--may", opens, "1.1.1"], 0, -1, f"these are all, {all_of}")
        # a state for each set of reads before the update, and then for each number of reads
        states = 2 ** BESIDE * (BESIDE // 2 + 2)
        self.want_list("all texts of reads beside an update", [f"--states={states}", "--all=0", path], 0, 0, f"{2 ** BESIDE} texts, {all_of}; the first 0:")
        some = f"if no allocation fails: not shown to be all within {states - 1} states and 1024 MiB"
        self.want_list("such texts within one state less", [f"--states={states - 1}", "--all=0", path], 6, 0, rf"at least \d+ texts?, {some}; the first 0:")
        self.whole_scripts(own)

    def whole_scripts(self, own):
        """The limits of a list hold over the whole script: chains are searched for at each ring before them, once."""
        all_of, states = "if no allocation fails", 5 + 2 * (3 * OWN + 1)
        two = self.path("two", lines("file a 61", "file b 62", f"sparse {OWN + 1}", f"open a at {OWN}", f"open b at {OWN}", "submit", *own, "submit").encode())
        self.want_list("all texts from two rings", [f"--states={states}", "--all=1", two], 0, 0, f"2 texts, {all_of}; the first 1:")
        some = f"not shown to be all within {states - 1} states and 1024 MiB"
        self.want_list("texts from two rings within one state less", [f"--states={states - 1}", "--all=1", two], 6, 0, f"at least 1 text, {all_of}: {some}")
        reads = ["read 0 0 1"] * TWICE
        twice = self.path("twice", lines("file a 61", "file b 62", "register 0", *reads, "update 0 1", "submit", *reads, "update 0 0", "submit").encode())
        self.want_list("all texts of reads, twice", ["--all=0", twice], 0, 0, f"{4 ** TWICE} texts, {all_of}; the first 0:")
        self.want_list("the first text of reads, twice", ["--all=1", twice], 0, 0, f"{4 ** TWICE} texts, {all_of}; the first 1:")
        path = self.path("often", lines("file a 61", "file b 62", "register 0", *often(OFTEN)).encode())
        self.want_list("the first of many texts", ["--all=1", path], 0, 0, f"{2 ** OFTEN} texts, {all_of}; the first 1:", **limited(LIST_MIB * 1024))
        self.first_of_rings()
        path = self.path("too often", lines("file a 61", "file b 62", "register 0", *often(64)).encode())
        self.want_list("texts that aren't counted", ["--all=1", path], 6, 0, rf"at least {2 ** 64 - 1} texts, {all_of}; the first 1:")
        head = rf"{4 ** TWICE} texts, {all_of}; the first [1-9]\d{{3,4}}:"
        self.want_list("texts of reads, twice, that 8 MiB don't hold", ["--memory=8", f"--all={4 ** TWICE}", twice], 0, 0, head, **limited(LIST_MIB * 1024))

    def first_of_rings(self):
        """The first text alone is made where each of many rings has one."""
        opens, reads = ["open a any"] * ANY, [f"read 0 0 {BYTES}"] * LONG
        after = ["register 0", *[*reads, "submit"] * AFTER]
        path = self.path("rings", lines(f"file a {'6a' * BYTES}", f"sparse {ANY}", *opens, "submit", "unregister", *after).encode())
        head = f"{math.factorial(ANY)} texts, if no allocation fails; the first 1:"
        self.want_list("the first text of many rings", ["--memory=32", "--all=1", path], 0, 0, head, **limited(ANY_MIB * 1024))
        path = self.path("held", lines("file a 61", "sparse 1", *["open a at 0"] * HELD, "submit").encode())
        head = f"at least \\d+ texts, if no allocation fails: not shown to be all within 1000000 states and {HELD_MIB} MiB; the first 1:"
        how = limited((HELD_MIB + BESIDE_MIB) * 1024)
        self.want_list("texts within their memory", [f"--memory={HELD_MIB}", "--all=1", path], 6, 0, head, **how)

    def want_list(self, what, words, status, nth, line, **how):
        ended, written, message = self.run(words, **how)
        told = written.decode().splitlines() or [""]
        self.want((ended, message) == (status, b"") and re.fullmatch(line, told[nth]), f"{what}: status {ended}, {told[nth]!r}, {message}")


def command():
    given = arguments(__doc__, "program", "few")
    with tempfile.TemporaryDirectory() as folder:
        verdicts = Verdicts("verdicts", program=given.program, folder=folder)
        verdicts.files()
        verdicts.odd_lines()
        verdicts.arguments()
        verdicts.endless()
        verdicts.long_text()
        verdicts.many_states()
        verdicts.fewer_lines()
        verdicts.progress()
        verdicts.lists()
        if not given.few:
            verdicts.writes()
    return verdicts.end()
