"""log_lines: rows for the module yachtlog, which is found in PYTHONPATH first: what is a log, the faults of a text, arguments and exit statuses.
Each row was derived by hand from docs/inside/FLIGHT.md. Prints each wrong row, and their number. tests/check-flights runs it on the modules and
on wrong ones (WRONG), each of which must fail."""
import contextlib
import io
import os
import re
import signal
import subprocess
import sys
import tempfile
from unittest import mock

ROOT = os.path.dirname(os.path.dirname(os.path.abspath(__file__)))
LEGAL, NOT_LEGAL, USAGE, NOT_A_LOG, MISSING, UNDECIDED = 0, 1, 2, 3, 4, 6
TABLE = "call 1 sparse 2\ndone 1.1 0\n"
# the first line after it has the number 5
HEAD = f"file a 61\nfile b 6262\n{TABLE}"
# the first line after it has the number 4
PIPE = f"pipe p\n{TABLE}"
OPENED = f"{HEAD}call 2 open a at 0\ndone 2.1 0\n"
LOOKED = f"{OPENED}call 3 look 0\ndone 3.1 0 2.1.0\n"
FED = f"{PIPE}call 2 update 0 0\ndone 2.1 1\ncall 3 read 0 0 1\nfed p 41\n"
# the log of the page, without what it says of each line
with open(f"{ROOT}/docs/inside/FLIGHT.md", encoding="utf-8") as page:
    BLOCK = re.search(r"\n## A log\n(?:(?!    ).*\n)*((?:    .*\n)+)", page.read())[1]
OF_PAGE = "".join(re.split(" {2,}", it.strip())[0] + "\n" for it in BLOCK.splitlines())
INSTALLS = " link ; ".join(["update 0 0,0,0,0,0,0,0,0,0,0,0,0,0"] * 5)
# a text, the status, and a pattern of what is printed after the path
ROWS = [
    ("", NOT_A_LOG, "not a log: line 1: the log is empty"),
    ("\n", NOT_A_LOG, "line 1: no line of a log begins with ''"),
    ("file a 61\n", NOT_A_LOG, "line 2: no call registers the table"),
    (TABLE, LEGAL, "legal$"),
    (OF_PAGE, LEGAL, "legal$"),
    ("call 1 sparse 2\n", LEGAL, "legal$"),
    (b"\x00\xff\x80\n", NOT_A_LOG, r"line 1: no line of a log begins with '\\x00\\xff\\x80'"),
    (b"file \xe9 61\n", NOT_A_LOG, "line 1: a name has 1 to 32 letters"),
    (HEAD.encode() + b"settled\xe9\n", NOT_A_LOG, "line 5: no line"),
    (f"{HEAD}\u2028settled\n", NOT_A_LOG, "line 5: no line"),
    (f"{HEAD}settled\x0csettled\n", NOT_A_LOG, "line 5: no line"),
    (f"{HEAD}settled\r\n", NOT_A_LOG, "line 5: the line ends with a carriage return"),
    (f"{HEAD}settled", NOT_A_LOG, "line 5: the last line has no end: 'settled'"),
    (f"{HEAD}settled \n", NOT_A_LOG, "line 5: the line ends with a space"),
    (f"{HEAD}settled 3\n", NOT_A_LOG, "line 5: nothing follows"),
    # the catalogue
    ("file a\n", NOT_A_LOG, "line 1: the line has the form `file NAME BYTES`"),
    ("file a 6\n", NOT_A_LOG, "line 1: the bytes of a file are pairs"),
    ("file a 6g\n", NOT_A_LOG, "line 1: the bytes of a file are pairs"),
    ("file a/b -\n", NOT_A_LOG, "line 1: a name has 1 to 32"),
    (f"file {33 * 'n'} -\n", NOT_A_LOG, "line 1: a name has 1 to 32"),
    ("file a 61\nfile a 62\n", NOT_A_LOG, "line 2: two files have the name a"),
    (f"file a {4097 * '61'}\n", NOT_A_LOG, "line 1: a file has at most 4096 bytes, not 4097"),
    (f"file a {4096 * '61'}\n{TABLE}", LEGAL, "legal"),
    ("".join(f"file n{it} -\n" for it in range(257)), NOT_A_LOG, "line 257: a catalogue has at most 256 files"),
    (f"{TABLE}file a 61\n", NOT_A_LOG, "line 3: the files come before the first call"),
    ("file a 61\npipe p\n", NOT_A_LOG, "line 2: a catalogue has files or pipes"),
    ("pipe p\nfile a 61\n", NOT_A_LOG, "line 2: a catalogue has files or pipes"),
    # the first call
    ("call 1 sparse 99999999999\n", NOT_A_LOG, "line 1: a table has 1 to 1048576 slots, not '99999999999'"),
    ("call 1 sparse 1048577\n", NOT_A_LOG, "line 1: a table has 1 to 1048576 slots, not '1048577'"),
    ("call 1 sparse 1048576\ndone 1.1 0\n", LEGAL, "legal"),
    ("call 1 sparse 0\ndone 1.1 -22\n", NOT_A_LOG, "line 1: a table has 1 to 1048576 slots, not '0'"),
    ("call 1 sparse\n", NOT_A_LOG, "line 1: a table has 1 to 1048576 slots, not ''"),
    ("call 1 sparse abc\n", NOT_A_LOG, "line 1: a table has 1 to 1048576 slots, not 'abc'"),
    ("call 1 sparse 2\ndone 1.1 -12\n", NOT_A_LOG, "line 2: the first call did not register the table"),
    ("call 1 sparse 2\ncall 2 close 0\n", NOT_A_LOG, "line 2: the registration of the table is not answered yet"),
    ("call 1 sparse 2\nsettled\n", NOT_A_LOG, "line 2: the table is not registered yet"),
    (f"{TABLE}done 1.1 0\n", NOT_A_LOG, "line 3: call 1 is answered already"),
    ("call 1 close 0\n", NOT_A_LOG, "line 1: the first call registers the table"),
    (f"{TABLE}call 2 sparse 2\n", NOT_A_LOG, "line 3: no request has the words 'sparse 2'"),
    # requests
    (f"{HEAD}call 2\n", NOT_A_LOG, "line 5: no request has the words ''"),
    (f"{HEAD}call x close 0\n", NOT_A_LOG, "line 5: a call is a number from 0 to 4294967295, not 'x'"),
    (f"{HEAD}call 1 close 0\n", NOT_A_LOG, "line 5: an earlier call has the number 1"),
    (f"{HEAD}call 2 close -1\n", NOT_A_LOG, "line 5: a slot is a number from 0 to 4294967295, not '-1'"),
    (f"{HEAD}call 2 look -1\n", NOT_A_LOG, "line 5: a slot is"),
    (f"{HEAD}call 2 close 00\n", NOT_A_LOG, "line 5: a slot is"),
    (f"{HEAD}call 2 close 4294967296\n", NOT_A_LOG, "line 5: a slot is"),
    (f"{HEAD}call 2 close 4294967295\ndone 2.1 -22\n", LEGAL, "legal"),
    (f"{HEAD}call 2 close  0\n", NOT_A_LOG, "line 5: words are separated by one space"),
    (f"{HEAD}call 2 close 0 1\n", NOT_A_LOG, "line 5: no request"),
    (f"{HEAD}call 2 open a on 0\n", NOT_A_LOG, "line 5: no request"),
    (f"{HEAD}call 2 open a any 0\n", NOT_A_LOG, "line 5: no request"),
    (f"{HEAD}call 2 open a\n", NOT_A_LOG, "line 5: no request"),
    (f"{HEAD}call 2 open a/b any\n", NOT_A_LOG, "line 5: a name has"),
    (f"{HEAD}call 2 read 0 0 4097\n", NOT_A_LOG, "line 5: a read has at most 4096 bytes, not 4097"),
    (f"{HEAD}call 2 read 0 0 4096\ndone 2.1 -9\n", LEGAL, "legal"),
    (f"{HEAD}call 2 update 0 \n", NOT_A_LOG, "line 5: the line ends with a space"),
    (f"{HEAD}call 2 update 0\n", NOT_A_LOG, "line 5: no request"),
    (f"{HEAD}call 2 update 0 0,\n", NOT_A_LOG, "line 5: an entry is a number from -2147483648 to 2147483647, not ''"),
    (f"{HEAD}call 2 update 0 -0\n", NOT_A_LOG, "line 5: an entry is"),
    (f"{HEAD}call 2 update 0 -2147483649\n", NOT_A_LOG, "line 5: an entry is"),
    (f"{HEAD}call 2 update 0 -2147483648\ndone 2.1 -9\n", LEGAL, "legal"),
    (f"{HEAD}call 2 update 0 {','.join(['-2'] * 17)}\n", NOT_A_LOG, "line 5: an update has at most 16 entries, not 17"),
    (f"{HEAD}call 2 update 0 {','.join(['-2'] * 16)}\ndone 2.1 -22\n", LEGAL, "legal"),
    (f"{HEAD}call 2 close 0 ; close 1\n", NOT_A_LOG, "line 5: member 1 has no link"),
    (f"{HEAD}call 2 close 0 link ; close 1 ; close 0\n", NOT_A_LOG, "line 5: member 2 has no link"),
    (f"{HEAD}call 2 close 0 link\ndone 2.1 -9\n", LEGAL, "legal"),
    (f"{HEAD}call 2 {' hardlink ; '.join(['close 0'] * 17)}\n", NOT_A_LOG, "line 5: a chain has at most 16 requests, not 17"),
    (f"{HEAD}call 2 {' hardlink ; '.join(['close 0'] * 16)}\ndone 2.1 -9\n", LEGAL, "legal"),
    (f"{HEAD}call 2 {INSTALLS}\n", NOT_A_LOG, "line 5: a chain installs at most 64 files, not 65"),
    (f"{HEAD}call 2 {INSTALLS[:-2]}\ndone 2.1 -22\n", LEGAL, "legal"),
    (f"{HEAD}call 2 look 0 link\n", NOT_A_LOG, "line 5: a look is a call of its own"),
    (f"{HEAD}call 2 close 0 link ; look 0\n", NOT_A_LOG, "line 5: a look is a call of its own"),
    # answers
    (f"{HEAD}done 2.1 0\n", NOT_A_LOG, "line 5: no call has the number 2"),
    (f"{HEAD}done 31\n", NOT_A_LOG, "line 5: an answer is of a call and a member, such as 2.1, not of '31'"),
    (f"{OPENED}done 2.1 0\n", NOT_A_LOG, "line 7: call 2 is answered already"),
    (f"{HEAD}call 2 close 0 link ; close 1\ndone 2.2 -125\n", NOT_A_LOG, "line 6: the next answer of call 2 is that of member 1"),
    (f"{HEAD}call 2 close 0\ndone 2.1\n", NOT_A_LOG, "line 6: a result is a number from -2147483648 to 2147483647, not ''"),
    (f"{HEAD}call 2 close 0\ndone 2.1 2147483648\n", NOT_A_LOG, "line 6: a result is"),
    (f"{HEAD}call 2 close 0\ndone 2.1 -0\n", NOT_A_LOG, "line 6: a result is"),
    (f"{HEAD}call 2 close 0\ndone 2.1 0 2.1.0\n", NOT_A_LOG, "line 6: the bytes of an answer are pairs of hexadecimal digits"),
    (f"{OPENED}call 3 read 0 0 1\ndone 3.1 1 6\n", NOT_A_LOG, "line 8: the bytes of an answer are pairs"),
    (f"{OPENED}call 3 read 0 0 1\ndone 3.1 1 61\n", LEGAL, "legal"),
    (f"{OPENED}call 3 read 0 0 1\ndone 3.1 1 62\n", NOT_LEGAL, "not legal: line 8: done 3.1 1 62"),
    (f"{OPENED}call 3 look 0\ndone 3.1 0\n", NOT_A_LOG, "line 8: a look finds a file, as in 0 2.1.0, or answers -9"),
    (f"{OPENED}call 3 look 0\ndone 3.1 -9 2.1.0\n", NOT_A_LOG, "line 8: a look finds a file"),
    (f"{OPENED}call 3 look 0\ndone 3.1 0 2.1\n", NOT_A_LOG, "line 8: a file is named by its call, member and entry, such as 2.1.0, not by '2.1'"),
    (f"{TABLE}call 3 look 0\ndone 3.1 0 2.1.0\n", NOT_A_LOG, "line 4: a look finds a file, and the catalogue has none"),
    (f"{OPENED}call 3 look 0\ndone 3.1 0 9.1.0\n", NOT_LEGAL, "not legal: line 8"),
    # holds and closes
    (f"{LOOKED}free 3\ncall 4 close 0\ndone 4.1 0\nclosed 2.1.0 a\nsettled\n", LEGAL, "legal"),
    (f"{LOOKED}free 3\nfree 3\n", NOT_A_LOG, "line 10: call 3 holds no file"),
    (f"{HEAD}call 2 look 0\ndone 2.1 -9\nfree 2\n", NOT_A_LOG, "line 7: call 2 holds no file"),
    (f"{HEAD}call 2 look 0\nfree 2\n", NOT_A_LOG, "line 6: call 2 holds no file"),
    (f"{OPENED}free 2\n", NOT_A_LOG, "line 7: call 2 holds no file"),
    (f"{HEAD}free\n", NOT_A_LOG, "line 5: a call is a number"),
    (f"{OPENED}closed 2.1.0\n", NOT_A_LOG, "line 7: the line has the form `closed CALL.MEMBER.ENTRY NAME`"),
    (f"{OPENED}closed 2.1.0 c\n", NOT_A_LOG, "line 7: no file has the name 'c'"),
    (f"{OPENED}closed r1.0 a\n", NOT_A_LOG, "line 7: a file is named by"),
    (f"{OPENED}call 3 close 0\ndone 3.1 0\nclosed 2.1.0 b\n", NOT_LEGAL, "not legal: line 9: closed 2.1.0 b"),
    (f"{HEAD}closed 2.1.0 a\n", NOT_LEGAL, "not legal: line 5"),
    (f"{OPENED}call 3 close 0\nsettled\n", NOT_A_LOG, "line 8: call 3 is not answered"),
    (f"{TABLE}tag 2.1.0\n", NOT_A_LOG, "line 3: a file has a tag, and the catalogue has none"),
    # pipes
    (f"{FED}done 3.1 1 41\n", LEGAL, "legal"),
    (f"{FED}done 3.1 1 42\n", NOT_LEGAL, "not legal: line 8"),
    (f"{FED}done 3.1 0\n", NOT_LEGAL, "not legal: line 8"),
    (f"{FED}fed p 41\n", NOT_A_LOG, "line 8: a pipe was fed the byte 41 before"),
    (f"{FED}fed q 42\n", NOT_A_LOG, "line 8: no pipe has the name 'q'"),
    (f"{FED}fed p 4142\n", NOT_A_LOG, "line 8: a pipe is fed one byte, not '4142'"),
    (f"{FED}free 3\n", NOT_A_LOG, "line 8: call 3 holds no file"),
    (f"{FED}call 4 update 1 0\ndone 3.1 1 41\n", NOT_A_LOG, "line 9: a pipe that is read is installed once, and p 2 times"),
    (f"{PIPE}call 2 read 0 0 1 link ; close 0\n", NOT_A_LOG, "line 4: a read of a pipe is a call of its own"),
]
# after an answer -12 the judge decides nothing, but refuses what comes before
NO_MEMORY = f"{OPENED}call 3 read 0 0 1 link ; close 0\ndone 3.1 -12\n"
ROWS += [
    (f"{NO_MEMORY}done 3.2 -125\n", UNDECIDED, "undecided: line 8: done 3.1 -12"),
    (f"{NO_MEMORY}done 3.2 0\n", UNDECIDED, "undecided: line 8"),
    (f"{OPENED}settled\nclosed 2.1.0 a\ncall 3 read 1 0 1\ndone 3.1 -12\n", NOT_LEGAL, "not legal: line 8"),
    (f"{FED}done 3.1 -12\n", UNDECIDED, "undecided: line 8"),
]
# arguments, in which these words are paths; the status; and a pattern of what is printed
# a look that finds a file which left its slot: the other calls and what follows may go
STALE = f"{OPENED}call 3 close 0\ndone 3.1 0\ncall 5 look 0\ndone 5.1 0 2.1.0\n"
MORE = "call 7 open b at 1\ndone 7.1 0\ncall 4 look 0\ndone 4.1 0 2.1.0\nfree 4\ncall 3"
# a close while a look holds the file: one of the calls that may have removed it stays, and an
# earlier file goes
EARLIER = "call 8 open b at 0\ndone 8.1 0\ncall 9 close 0\ndone 9.1 0\nclosed 8.1.0 b\nsettled\n"
HELD = "call 2 open a at 0\ndone 2.1 0\ncall 3 look 0\ndone 3.1 0 2.1.0\n"
# a slot that was emptied, and filled again before an answer says that it is empty: the file that
# filled it stays, and the first one goes
EMPTIED = "call 2 open a at 0\ndone 2.1 0\ncall 3 close 0\ndone 3.1 0\n"
REFILLED = "call 5 open b at 0\ndone 5.1 0\n"
FINDS_EMPTY = "call 6 open a any\ndone 6.1 0\n", "call 6 look 0\ndone 6.1 -9\n", "call 6 close 0\ndone 6.1 -9\n"
# the same, but the close may remove either file, and a look after it finds the second one
SEEN = "call 2 open a at 0\ndone 2.1 0\ncall 3 close 0\ncall 5 open b at 0\ndone 5.1 0\nclosed 2.1.0 a\ndone 3.1 0\ncall 4 look 0\ndone 4.1 0 5.1.0\nfree 4\n"
REMOVERS = ["call 4 close 0\ndone 4.1 0\n", "call 5 open b at 0\ndone 5.1 0\n"]
WHY_STALE = """    2.1.0 was gone from slot 0 after close 3, which answered 0, since open 2 had installed 2.1.0 at line 6 and close 3 was called at line 7
    look 5 found 2.1.0 at slot 0; but 2.1.0 was gone from slot 0 after close 3, close 3 was answered at line 8 and look 5 was called at line 9
"""
WHY_WRONG = "    open 2 answered 7 at line 6, which such a request never answers\n"
WHY_EARLY = "    look 3 held 2.1.0 from line 8 on, and it was closed by line 11\n"
WHY_GONE = "since close 2.2 found a file at slot 0 by line 7, which can only have been 2.1.0\n"
# an update as one step: a read of its first slot finds its file, a later one of its second none
BETWEEN = f"{HEAD}call 2 update 0 0,0\ncall 3 read 0 0 1\ndone 3.1 1 61\ncall 4 read 1 0 1\ndone 4.1 -9\n"
FILES = {"between": BETWEEN.replace("call 2", "call 6 close 1\ndone 6.1 -9\ncall 2"), "beside": BETWEEN.replace("call 4", "call 5 close 1\ncall 4"),
         "right": OPENED, "wrong": OPENED.replace("done 2.1 0", "done 2.1 7"), "none": "x\n", "stale": f"{STALE}free 5\nsettled\n".replace("call 3", MORE),
         "early": f"{HEAD}{EARLIER}{HELD}{''.join(REMOVERS)}closed 2.1.0 a\nfree 3\n",
         "gone": f"{HEAD}call 2 open b any link ; close 0\ndone 2.1 0\ndone 2.2 0\ncall 3 read 0 0 1\ndone 3.1 1 62\n"}
FILES |= {f"emptied{nth}": f"{HEAD}{EMPTIED}{REFILLED}{it}" for nth, it in enumerate(FINDS_EMPTY)} | {"seen": f"{HEAD}{SEEN}{FINDS_EMPTY[0]}"}
ARGUMENTS = [
    ([], USAGE, "usage: yachtlog.py"),
    (["--help"], LEGAL, "usage: yachtlog.py"),
    (["right", "--bad"], USAGE, "unrecognized arguments: --bad"),
    (["right", "--states", "100"], LEGAL, "right: legal"),
    (["--states", "0", "right"], UNDECIDED, "right: undecided$"),
    (["--memory", "0", "right"], UNDECIDED, "right: undecided$"),
    (["--moves", "0", "right"], UNDECIDED, "right: undecided$"),
    (["--moves", "18446744073709551615", "right"], LEGAL, "right: legal"),
    (["--moves", "18446744073709551616", "right"], USAGE, "a limit is a number from 0 to 18446744073709551615, not 18446744073709551616"),
    (["--moves", "1", "--shorten", "wrong"], UNDECIDED, "wrong: undecided$"),
    (["--states", "-1", "right"], USAGE, "a limit is a number from 0 to 4294967295, not -1"),
    (["--memory", "x", "right"], USAGE, "a limit is a number from 0 to 4294967295, not x"),
    (["--shorten", "right", "wrong"], USAGE, "--shorten takes one log"),
    (["--shorten", "right"], LEGAL, "right: legal"),
    (["--shorten", "wrong"], NOT_LEGAL, f"^{HEAD}call 2 open a at 0\ndone 2.1 7\n.*wrong: not legal: line 6: done 2.1 7\n{WHY_WRONG}$"),
    (["--shorten", "stale"], NOT_LEGAL, f"^{STALE}.*stale: not legal: line 10: done 5.1 0 2.1.0\n{WHY_STALE}$"),
    (["--full-reason", "--shorten", "stale"], NOT_LEGAL, f"^{STALE}.*stale: not legal: line 10: done 5.1 0 2.1.0\n{WHY_STALE}$"),
    (["--shorten", "early"], NOT_LEGAL, f"^{HEAD}{HELD}({'|'.join(REMOVERS)})closed 2.1.0 a\n.*early: not legal: line 11: closed 2.1.0 a\n{WHY_EARLY}$"),
    *((["--shorten", f"emptied{nth}"], NOT_LEGAL, f"^{HEAD}{REFILLED}{it}.*: not legal: line 8: ") for nth, it in enumerate(FINDS_EMPTY)),
    (["--shorten", "seen"], NOT_LEGAL, f"^{HEAD}{REFILLED}{FINDS_EMPTY[0]}.*: not legal: line 8: "),
    (["--full-reason", "gone"], NOT_LEGAL, f"gone: not legal: line 9: done 3.1 1 62\n.*{WHY_GONE}"),
    (["--shorten", "none"], NOT_A_LOG, "not a log: line 1"),
    (["between"], LEGAL, "between: legal\n$"),
    (["--whole-updates", "right", "between"], NOT_LEGAL, "right: legal\n.*between: not legal: line 11: done 4.1 -9\n$"),
    (["--whole-updates", "--shorten", "between"], NOT_LEGAL, f"^{BETWEEN}.*between: not legal: line 9: done 4.1 -9\n$"),
    (["--whole-updates", "beside"], LEGAL, "beside: legal\n$"),
    (["right", "right"], LEGAL, "right: legal\n.*right: legal\n$"),
    (["right", "wrong", "none", "/nonexistent"], NOT_LEGAL, "right: legal\n.*wrong: not legal: line 6: done 2.1 7\n.*none: not a log: line 1: "),
    (["none", "/nonexistent", "wrong"], NOT_LEGAL, "not legal"),
    (["/nonexistent", "right"], MISSING, "/nonexistent can't be read: No such file or directory\n"),
    (["none", "/nonexistent"], MISSING, "not a log"),
    (["none", "right"], NOT_A_LOG, "legal"),
    ([ROOT], MISSING, "can't be read: Is a directory"),
]
# calls of the judge that find no memory, with arguments; the status is 5 then
LACKING = [
    ("judge_log", ["right"]),
    ("judge_log", ["--shorten", "stale"]),
]
# a judge that takes minutes, and doesn't return for a signal
SLOW = """import hashlib, sys, yachtjudge, yachtlog
def judge_log(*_, **__):
    print("judging", flush=True)
    hashlib.pbkdf2_hmac("sha256", b"", b"", 10**9)
yachtjudge.judge_log = judge_log
sys.exit(yachtlog.command())"""
# no library, and a log that takes longer to read than the judge may take
LATE = """import sys, time, yachtlog
def content_of(path):
    print("reading", flush=True)
    time.sleep(1.5)
    return open(path, "rb").read()
sys.modules["yachtjudge"], yachtlog.content_of = None, content_of
sys.exit(yachtlog.command())"""
# wrong changes of the modules, of each kind of row
WRONG = [
    ("yachtreason", '(it.after if it.after.kind == "gone" else it.before).file', "it.after.file"),
    ("yachtlines", '_want(self.chains, "no call registers', '_want(True, "no call registers'),
    ("yachtlines", 'text.split("\\n")', "[*text.splitlines(), '']"),
    ("yachtlines", 'NUMBER.fullmatch(word)', 'INTEGER.fullmatch(word)'),
    ("yachtlines", 're.compile(r"0|[1-9]', 're.compile(r"[0-9]'),
    ("yachtlines", "chain[:-1], 1)", "chain, 1)"),
    ("yachtlines", "        self._held.remove(call)\n", ""),
    ("yachtlines", "mark=installed if self.file_of(installed) == self.names[name] else NO_FILE", "mark=installed"),
    ("yachtlines", 'if result == 1 else ""', 'or "p"'),
    ("yachtlines", "if result == ENOMEM and not self.lacking", "if False"),
    ("yachtlog", "if it.line < self.lacking", "if True"),
    ("yachtlog", 'return yachtjudge.LogVerdict("undecided", self.lacking)', 'return yachtjudge.LogVerdict("legal")'),
    ("yachtlog", "judge_log(content, *limits, ", "judge_log(content, "),
    ("yachtlog", "*limits, whole_updates=options.whole_updates)\n    lines", "*limits)\n    lines"),
    ("yachtlog", "return limit(word, MOVES)", "return limit(word)"),
    ("yachtlog", "Log(text).judge(states, memory, moves, whole_updates=whole_updates)", "Log(text).judge(states, memory, moves)"),
    ("yachtlog", "log.shortened(verdict, *limits, whole_updates=options.whole_updates)", "log.shortened(verdict, *limits)"),
    ("yachtlog", "whole_updates=options.whole_updates))\n            verdict = log", "whole_updates=options.whole_updates))\n            _ = log"),
    ("yachtlog", "    except MemoryError:", "    except ZeroDivisionError:"),
    ("yachtshorten", "yield call, [answer.found[0]]", "return"),
    ("yachtshorten", ", *self._needs_of_last(last)]", "]"),
    ("yachtshorten", 'it.kind == "open" and it.slot is None and answer.result >= 0', "False"),
    ("yachtshorten", 'it.kind in ("look", "read", "close") and answer', 'it.kind == "look" and answer'),
    ("yachtshorten", "self._end.get(it, line) > seen", "True"),
    ("yachtshorten", "return calls if self.kept <= calls else None", "return calls | self.kept"),
    ("yachtlog", "[*lines[: verdict.line], b", "[*lines[: verdict.line - 1], b"),
    ("yachtshorten", "is_shorter = True\n        while", "is_shorter = False\n        while"),
    ("yachtlog", "signal.signal(signal.SIGINT, signal.SIG_DFL)", "pass"),
    ("yachtlog", "ITIMER_REAL, options.seconds", "ITIMER_REAL, 0"),
    ("yachtlog", "found = {status_within(it, options) for it in options.logs}\n    return next((it for it in ORDER if it in found), 0)",
     "return max(status_of(it, options) for it in options.logs)"),
    ("yachtlog", "NO_MEMORY, MISSING, NOT_A_LOG = 5, 4, 3", "NO_MEMORY, MISSING, NOT_A_LOG = 5, 1, 3"),
    ("yachtlog", "except OSError as fault", "except ZeroDivisionError as fault"),
    ("yachtlog", "shown(log.reason(verdict) if log else []", "shown([]"),
    ("yachtlog", 'nargs="+"', 'nargs="*"'),
    ("yachtlog", "except BadLog as fault:\n        print", "except BadLog as fault:\n        return 0\n        print"),
]


def ran(yachtlog, words):
    """Runs the command in this process. Returns its status, or None if it raised something, and all that it printed."""
    written, sys.argv = io.StringIO(), ["yachtlog.py", *words]
    with contextlib.redirect_stdout(written), contextlib.redirect_stderr(written):
        try:
            status = yachtlog.main()
        except SystemExit as ended:
            status = ended.code
        except Exception as fault:
            status = None
            written.write(repr(fault))
    return status, written.getvalue()


def judged(yachtlog, room, text):
    """Runs the command on a text. Returns its status, and what it prints after the path."""
    path = os.path.join(room, "log")
    with open(path, "wb") as file:
        file.write(text.encode() if isinstance(text, str) else text)
    status, written = ran(yachtlog, [path])
    return status, written.replace(f"{path}: ", "")


def read(yachtlog, text):
    """Has the module read a text, in place of the library. Returns the same."""
    from yachtjudge import judge_events

    try:
        log = yachtlog.Log(text)
    except yachtlog.BadLog as fault:
        return NOT_A_LOG, f"not a log: {fault}"
    try:
        verdict = judge_events(log)
    except Exception as fault:
        # the library refuses what the module should have refused
        return None, repr(fault)
    line = text.split("\n")[verdict.line - 1]
    return yachtlog.STATUSES[verdict.word], f"{verdict.word}: line {verdict.line}: {line}" if verdict.line else verdict.word


def ended(program, is_stopped, words):
    """Runs the command with a slow judge or a slow log, and may stop it as Ctrl-C does. Returns its status, and what it prints after that."""
    env = {**os.environ, "PYTHONPATH": ":".join(sys.path), "PYTHONUNBUFFERED": "1"}
    how = {"stdout": subprocess.PIPE, "stderr": subprocess.STDOUT, "env": env, "text": True, "start_new_session": True}
    with subprocess.Popen([sys.executable, "-c", program, *words], **how) as process:
        process.stdout.readline()
        if is_stopped:
            process.send_signal(signal.SIGINT)
        try:
            written, _ = process.communicate(timeout=10)
        except subprocess.TimeoutExpired:
            os.killpg(process.pid, signal.SIGKILL)
            return None, ""
        return process.returncode, written


def wrong_rows(yachtlog, room):
    """Yields the rows that are wrong: what they are, the status and what is printed."""
    import yachtjudge

    for text, wanted, pattern in ROWS:
        found, written = judged(yachtlog, room, text)
        if found != wanted or not re.match(f"(not a log: )?{pattern}", written):
            yield text[-80:], found, written
        found, written = read(yachtlog, text)
        if wanted != UNDECIDED and (found != wanted or not re.match(f"(not a log: )?{pattern}", written)):
            yield "by the module", text[-80:], found, written
    for name, text in FILES.items():
        with open(os.path.join(room, name), "w", encoding="ascii") as file:
            file.write(text)
    for words, wanted, pattern in ARGUMENTS:
        found, written = ran(yachtlog, [os.path.join(room, it) if it in FILES else it for it in words])
        if found != wanted or not re.search(pattern, written, re.DOTALL):
            yield words, found, written
    path = os.path.join(room, "right")
    within = ["--seconds", "1", path]
    for program, is_stopped, words, wanted in (
        (SLOW, True, [path], (-signal.SIGINT, "")),
        (SLOW, False, within, (UNDECIDED, f"{path}: undecided\n")),
        (LATE, False, ["--draw", "svg", *within],
         (MISSING, f"{path}: a log, not judged\nyachtlog: import of yachtjudge halted; None in sys.modules\nyachtlog: svg is not drawn\n")),
    ):
        found = ended(program, is_stopped, words)
        if found != wanted:
            yield words, found
    for name, words in LACKING:
        with mock.patch.object(yachtjudge, name, side_effect=yachtjudge.NoMemory):
            found, written = ran(yachtlog, [os.path.join(room, it) if it in FILES else it for it in words])
        if found != 5 or not re.fullmatch("yachtlog: .*: there is no memory to judge it\n", written):
            yield name, words, found, written


def count():
    return len(ROWS) + len(ARGUMENTS) + len(LACKING) + 3


def command():
    import yachtlog

    with tempfile.TemporaryDirectory() as room:
        wrong = list(wrong_rows(yachtlog, room))
    for it in wrong:
        print(*map(repr, it))
    print(f"log_lines: {count()} looked at, {len(wrong)} wrong")
