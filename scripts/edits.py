"""Reads the wrong bodies of the crates. An edit has a line 'file: src/NAME.rt', and then pairs of lines 'old: TEXT' and 'new: TEXT'.

Each edit that the gate tries has a file in a crate's must-fail/. The others are in its file wrong-bodies.txt, each after a line with its
name in brackets. A line '# src/NAME.rt' names the file of the edits after it that have no line 'file:'."""
import os
import re

from scripts.repository import files_of, read

FILE = "wrong-bodies.txt"


def parts(text):
    """Returns the edits of a file wrong-bodies.txt, as pairs of a name and the edit's lines."""
    found, file = [], ""
    for path, name, lines in re.findall(r"^(?:# (\S+)\n|\[(\w+)\]\n((?:(?![\[#]).*\n)*))", text, flags=re.MULTILINE):
        file = path or file
        if name:
            found.append((name, lines if lines.startswith("file: ") else f"file: {file}\n{lines}"))
    return found


def edits(kind, crate="*"):
    """Returns the edits of a crate, or of all: the crate, the name and the lines. `kind` is 'must-fail' or 'wrong-bodies'."""
    if kind == "must-fail":
        return [(it.split("/")[1], os.path.basename(it)[:-5], read(it)) for it in files_of(crate, kind)]
    files = [it for it in files_of(crate) if os.path.basename(it) == FILE]
    return [(it.split("/")[1], *edit) for it in files for edit in parts(read(it))]


def names(*kinds, crate="*"):
    return {name for kind in kinds for _, name, _ in edits(kind, crate)}
