"""check-examples PROGRAM [--few]: plays every example, and the rows of examples/faults.txt, over both tables and on 1, 2, 3 and 16
workers, and compares text, status and standard error. One is played with standard input and output that fail at each byte, or transfer
few bytes at a time (tests/watch.c). With --few it plays two."""
import errno
import os
import shutil
import subprocess
import tempfile

from scripts.checks import Counted, arguments
from scripts.examples import examples, text_beside
from scripts.programs import built, difference, preloaded, run
from scripts.repository import ROOT, read_bytes

TABLES = "words", "baton"
FEW = "faults/bad_two_spaces", "examples/open_read_close.script"
# their texts are those of one worker: a chain's answer depends on what another one has done
IN_ORDER = [f"examples/{it}.script" for it in (
    "allocation_fills_its_range", "read_of_nothing_wants_a_file", "replaced_between_two_members")]
OPEN_READ_CLOSE = "examples/open_read_close.script"
# standard input, output or error that can't be read or written, with the status and what is said
STREAMS = [
    ("a folder for standard input", "< .", 4, "fixfiles: read failed\n"),
    ("closed standard input", "<&-", 4, "fixfiles: read failed\n"),
    ("a write to a full device", f"< {OPEN_READ_CLOSE} > /dev/full", 4, "fixfiles: write failed\n"),
    ("closed standard output", f"< {OPEN_READ_CLOSE} >&-", 4, "fixfiles: write failed\n"),
    ("nothing to write", ">&- << end\nsubmit\nend\n", 0, ""),
    ("closed standard error", "2>&- << end\nsparse  2\nend\n", 3, ""),
]
# how often standard input is read before that fails, and with which errors a read fails
MOST_READS = 8_388_608
READ_ERRORS = errno.EIO, errno.ECONNRESET, errno.EINTR
# a script with a text for each of its four commands that print, and the bytes printed by each
FOUR_TEXTS = "file a.txt 68656c6c6f\nsparse 1\nopen a.txt at 0\nsubmit\nread 0 0 5\nsubmit\nread 0 0 1\nsubmit\n"
TEXTS, WHOLE = "sparse 0\n1.1.1 0\n2.1.1 5 68656c6c6f\n3.1.1 1 68\n", (0, 9, 17, 36)
REFUSED = ("--workers 0", "--workers=0", "--workers=-1", "--workers 17", "--workers x", "--workers",
           "--table plain", "--table=plain", "--table", "script", "--version")


class Examples(Counted):
    def compare(self, what, found, wanted):
        differs = difference(found, wanted)
        self.want(not differs, f"{what} {differs}")

    def play(self, name, workers, script, text, status=0, fault=""):
        """Over each table the program writes that text and ends with that status, for that fault."""
        for table in TABLES:
            found = run([self.program, "--workers", str(workers), "--table", table], script)
            wanted = status, text, f"fixfiles: {fault}\n" if fault else ""
            self.compare(f"{name} on {workers} workers over {table}", found, wanted)

    def examples(self, is_few):
        for it in examples("examples"):
            if is_few and it.name not in FEW:
                continue
            for workers in (1,) if it.name in IN_ORDER else (1, 2, 3, 16):
                self.play(it.name, workers, it.script, it.text, it.status, it.fault)

    def run(self, streams, *arguments):
        """Runs a shell's command in the folder of the repository, with redirected streams."""
        return run(["sh", "-c", f'exec "$@" {streams}', "sh", self.program, *arguments], cwd=ROOT)

    def streams(self):
        for name, streams, status, message in STREAMS:
            self.compare(name, self.run(streams), (status, "", message))
        self.compare("help to a full device", self.run("> /dev/full", "--help"), (4, "", "fixfiles: write failed\n"))

    def narrow(self, what, script, wanted, **variables):
        """A run whose reads and writes get less than they ask for, or fail."""
        how = preloaded("watch", **{name: str(it) for name, it in variables.items()})
        self.compare(f"{what}, {variables}", run([self.program], script, **how), wanted)

    def readers(self):
        """Standard input gives some bytes at a time, and each read fails in its turn, also that of the end."""
        script, text = read_bytes(OPEN_READ_CLOSE), text_beside(OPEN_READ_CLOSE)
        for step in range(1, len(script) + 1):
            self.narrow("standard input by few bytes", script, (0, text, ""), READ_BYTES=step)
        for given, ended in ((script, (0, text, "")), (b"bogus\n", (3, "", "fixfiles: line 1: unknown-command\n"))):
            reads = -(-len(given) // 7) + 1
            for error in READ_ERRORS:
                for nth in range(1, reads + 2):
                    wanted = (4, "", "fixfiles: read failed\n") if nth <= reads else ended
                    self.narrow(f"{reads} reads", given, wanted, READ_BYTES=7, FAILING_READ=nth, READ_ERROR=error)

    def long_readers(self):
        """Empty lines are read to the last one: if the end is the last read that is made, they are too many bytes."""
        for lines, status, message in ((MOST_READS - 1, 3, "line 0: long-script"), (MOST_READS, 4, "read failed")):
            with tempfile.TemporaryFile() as file:
                file.write(b"\n" * lines)
                file.seek(0)
                how = {**preloaded("watch", READ_BYTES="1"), "stdin": file, "capture_output": True, "text": True, "timeout": 120}
                ran = subprocess.run([self.program], check=False, **how)
                found = ran.returncode, ran.stdout, ran.stderr
                self.compare(f"{lines} empty lines by one byte", found, (status, "", f"fixfiles: {message}\n"))
                read = os.lseek(file.fileno(), 0, os.SEEK_CUR)
                self.want(read == lines, f"of {lines} empty lines {read} were read")

    def writers(self):
        """Standard output takes a byte at a time, as far as it has room; or whole texts."""
        script, text = read_bytes(OPEN_READ_CLOSE), text_beside(OPEN_READ_CLOSE)
        for room in range(len(text) + 1):
            wanted = (4, text[:room], "fixfiles: write failed\n") if room < len(text) else (0, text, "")
            self.narrow("standard output by one byte", script, wanted, WRITE_BYTES=1, ROOM=room)
        for whole in WHOLE:
            for more in (0, 1):
                self.narrow("whole texts", FOUR_TEXTS, (4, TEXTS[:whole], "fixfiles: write failed\n"), ROOM=whole + more)
        self.narrow("standard output that takes nothing", script, (4, "", "fixfiles: write failed\n"), WRITE_BYTES=0)
        self.narrow("a bad script", "sparse 2\nbogus\n", (3, "", "fixfiles: line 2: unknown-command\n"), ROOM=0)

    def refuse(self, *arguments, hint=""):
        """That is a usage fault, found before standard input is read."""
        status, text, message = self.run("< .", *arguments)
        holds = (status, text) == (2, "") and message.startswith("error: ") and hint in message
        said = f"status {status}, and said {message[:300]!r}"
        self.want(holds, f"the arguments {arguments} ended with {said}")

    def arguments(self):
        for it in REFUSED:
            self.refuse(*it.split())
        no_text = 2, "", "fixfiles: an argument is no text\n"
        self.compare("an argument that is no text", self.run("< .", "--workers", b"1\xff"), no_text)
        # who names a script is told how a script is given
        tip = f"tip: the script is read from standard input, as in 'fixfiles < {OPEN_READ_CLOSE}'\n\nUsage: fixfiles [OPTIONS] < SCRIPT"
        self.refuse(OPEN_READ_CLOSE, hint=tip)
        # an option that there isn't is no script
        said = self.run("< .", "--version")[2]
        self.want("tip:" not in said, f"the argument --version is refused with {said}")
        wanted = 0, text_beside(OPEN_READ_CLOSE), ""
        for workers in range(1, 17):
            for table in TABLES:
                found = self.run(f"< {OPEN_READ_CLOSE}", f"--table={table}", f"--workers={workers}")
                self.compare(f"joined arguments for {workers} workers over {table}", found, wanted)

    def help(self):
        """Each word for it, and the script that it shows."""
        for word in ("-h", "--help"):
            status, text, message = self.run("< .", word)
            holds = (status, message) == (0, "") and "--workers <N>" in text
            self.want(holds, f"{word} ended with status {status}")
        shown = text.partition("This is a script:")[2].split("\n")
        script = "".join(f"{it[4:]}\n" for it in shown if it.startswith("    "))
        self.play("the script of help", 1, script, text_beside(OPEN_READ_CLOSE))


def command():
    given = arguments(__doc__, "program", "few")
    examples = Examples("examples", program=given.program)
    examples.examples(given.few)
    if not given.few:
        examples.streams()
        if shutil.which("cc") is None:
            examples.want(False, "there is no C compiler cc here, which builds what has reads and writes fail")
        else:
            built("watch.c")
            examples.readers()
            examples.long_readers()
            examples.writers()
        examples.arguments()
        examples.help()
    return examples.end("played")
