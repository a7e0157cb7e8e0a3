"""faults SCRIPT: if a script is invalid, prints the fault, its line and column and what is expected there, and exits with status 3."""
import re
import sys

from model.model import COMMANDS, ENTRIES, FILE_BYTES, LARGEST, LARGEST_TAG, LONGEST_LINE, LONGEST_SCRIPT, MAY_HAVE, OPENS, REQUESTS
from model.model import Fault, Script, entry, link, tags
from scripts.repository import read

BAD_SCRIPT = 3
PAGE = "docs/use/SCRIPT.md"
# how much of a long line is shown
SHOWN = 76
# what each fault means, and what is expected instead
FAULTS = {
    "long-script": ("the script is too long", f"at most {LONGEST_SCRIPT:,} bytes"),
    "long-line": ("the line is too long", f"at most {LONGEST_LINE:,} bytes"),
    "not-text": ("the line has a byte that is not text", "printable ASCII, bytes 32 to 126, and a line feed alone at its end"),
    "unknown-command": ("there is no such command", f"one of file, {', '.join(it.decode() for it in [*COMMANDS, b'open', *REQUESTS])}"),
    "late-file": ("a `file` line follows another line", "all `file` lines before the other lines"),
    "word-count": ("the line has too few words, or too many", ""),
    "bad-word": ("the word is none of those that may be here", ""),
    "bad-hex": ("these are not the bytes of a file", "two hexadecimal digits for each byte, or `-` for no bytes"),
    "catalogue-full": ("there are too many files", f"at most {ENTRIES} `file` lines"),
    "bad-name": ("the name is invalid", "1 to 32 letters, digits, `.`, `_` or `-`"),
    "same-name": ("an earlier file has this name", "another name"),
    "long-file": ("the file is too long", f"at most {FILE_BYTES:,} bytes"),
    "bad-number": ("the number is invalid", f"a decimal number from 0 to {LARGEST:,}, without a leading zero"),
    "bad-entry": ("the list has an invalid entry", f"numbers from -{LARGEST:,} to {LARGEST:,}, without leading zeros or `-0`, with single commas between them"),
    "bad-tag": ("the list has an invalid tag", f"numbers from 0 to {LARGEST_TAG:,}, without leading zeros, with single commas between them"),
    "unsubmitted": ("the requests from here on are not submitted", "a line `submit` after the last request"),
}


def kinds_of(words):
    """Returns what reads each word of a line after the command."""
    command = words[0]
    if command in COMMANDS:
        return [*COMMANDS[command], *MAY_HAVE.get(command, [])]
    if command == b"open":
        return [*OPENS.get(words[2] if len(words) > 2 else b"", OPENS[b"at"]), link]
    return [*REQUESTS.get(command, [str, str]), *([link] if command in REQUESTS else [])]


def is_refused(kind, word):
    try:
        kind(word)
    except Fault:
        return True
    return False


def start_in(word, kind):
    """Returns where the first bad entry or tag of a list begins; 0 in other words."""
    at = 0
    for it in word.split(b",") if kind == tags or kind.__name__ == "entries" else ():
        if is_refused(tags if kind == tags else entry, it):
            return at
        at += len(it) + 1
    return 0


def word_of(name, words):
    """Returns the place of the bad word, from 0, or of the missing one, and of the first bad byte in it."""
    kinds = kinds_of(words)
    if name == "word-count":
        return (words.index(b"") if b"" in words else min(len(words), len(kinds) + 1)), 0
    if name in ("bad-hex", "long-file"):
        return 2, 0
    if name == "bad-word" and words[0] == b"open" and words[2] not in OPENS:
        return 2, 0
    for nth, (kind, word) in enumerate(zip(kinds, words[1:]), 1):
        if is_refused(kind, word):
            return nth, start_in(word, kind)
    return 1, 0


def column_of(name, line):
    """Returns the column of a fault in its line, from 1."""
    if name == "long-line":
        return LONGEST_LINE + 1
    if name == "not-text":
        return next(nth for nth, byte in enumerate(line, 1) if not 32 <= byte <= 126)
    if name in ("unknown-command", "late-file", "catalogue-full", "unsubmitted"):
        return 1
    words = line.split(b" ")
    nth, within = word_of(name, words)
    return min(sum(len(it) + 1 for it in words[:nth]) + within, len(line)) + 1


def forms_of(command):
    """Returns the forms of a line, as docs/use/SCRIPT.md writes them."""
    found = re.findall(rf"^    ({command}\b.*?) {{2,}}", read(PAGE), re.MULTILINE)
    return " or ".join(f"`{it}`" for it in found)


def expected(name, line):
    """Returns what is expected in place of a fault."""
    words = line.split(b" ")
    if name == "not-text" and column_of(name, line) == len(line) and line.endswith(b"\r"):
        return r"no carriage return: sed -i 's/\r$//' SCRIPT removes them"
    if name == "word-count":
        more = ", and at its end `link`, `hardlink` or nothing" if words[0] in (b"open", *REQUESTS) else ""
        return forms_of(words[0].decode()) + more + "; single spaces separate words"
    if name == "bad-word":
        is_link = words[0] != b"open" or words[2] in OPENS
        return "`link`, `hardlink` or nothing at the end" if is_link else "`at` and a slot, or `any`"
    return FAULTS[name][1]


def pointer(line, column):
    """Returns a part of a line that has the column, and below it a mark at the column."""
    first = max(0, column - SHOWN // 2) if len(line) > SHOWN else 0
    part = line[first : first + SHOWN].decode(errors="replace")
    part = "".join(it if it.isprintable() else "?" for it in part)
    at = len(line[first : column - 1].decode(errors="replace"))
    return f"    {part}\n    {' ' * at}^"


def explanation(path, script, fault):
    """Returns the lines that explain why a script is invalid."""
    meaning, instead = FAULTS[fault.name]
    if not fault.line:
        return f"{path}: {fault.name}: {meaning}\n    expected: {instead}"
    line = script.split(b"\n")[fault.line - 1]
    column = column_of(fault.name, line)
    where = f"{path}: line {fault.line}, column {column}: {fault.name}: {meaning}"
    return f"{where}\n{pointer(line, column)}\n    expected: {expected(fault.name, line)}"


def fault_of_script(script):
    """Returns the first fault of a script, or None."""
    try:
        Script(script)
    except Fault as fault:
        return fault
    return None


def command():
    path = sys.argv[1]
    with open(path, "rb") as file:
        script = file.read(LONGEST_SCRIPT + 1)
    fault = fault_of_script(script)
    if fault is None:
        return 0
    print(f"{explanation(path, script, fault)}\nNothing was played. {PAGE} describes the language and its faults.", file=sys.stderr)
    return BAD_SCRIPT
