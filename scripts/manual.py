"""manual: writes fixfiles-script(5), made of docs/use/SCRIPT.md. What the page says about the program is left to fixfiles(1)."""
import re
import sys
import textwrap

from scripts.declare_core import dated
from scripts.repository import read

HEAD = """.Dd the date of the newest version
.Dt FIXFILES-SCRIPT 5
.Os
.Sh NAME
.Nm fixfiles-script
.Nd scripts of requests on fixed files, and the text that is their answer
.Sh DESCRIPTION
A script is what
.Xr fixfiles 1
plays, and what
.Xr fixcheck 1
judges a text for."""
TAIL = """.Sh SEE ALSO
.Xr fixcheck 1 ,
.Xr fixfiles 1 ,
.Xr io_uring_enter 2 ,
.Xr io_uring_register 2"""


def plain(line):
    """A line that is no macro."""
    line = line.replace("\\", "\\e").replace("-", "\\-")
    line = re.sub(r"[^ -~]", lambda it: f"\\[u{ord(it[0]):04X}]", line)
    return f"\\&{line}" if line[:1] in (".", "'") else line


def marked(text):
    """Words with their links and marks, as lines: each sentence begins one."""
    text = re.sub(r"\[([^]]*)\]\([^)]*\)", r"\1", re.sub(r"\s+", " ", text))
    parts = re.split(r"`([^`]*)`", text)
    text = "".join(f"\\fB{plain(it).replace(' ', chr(0))}\\fR" if nth % 2 else it.replace("\\", "\\e") for nth, it in enumerate(parts))
    for sentence in re.split(r"(?<=[.:;]) (?=[A-Z\\])", text):
        for line in textwrap.wrap(sentence, 78, break_long_words=False, break_on_hyphens=False):
            yield ("\\&" if line[0] in ".'" else "") + line.replace(chr(0), " ")


def items(rows, kind="-tag -width Ds"):
    yield f".Bl {kind}"
    for head, body in rows:
        yield f".It Li {plain(head)}" if head else ".It"
        yield from marked(body)
    yield ".El"


def block(lines):
    """Indented lines: two columns under the heads `line` and `meaning` are a list, and others stay as they are."""
    if lines[0].split() == ["line", "meaning"]:
        return items(re.split(r"\s{2,}", it, maxsplit=1) for it in lines[1:])
    return [".Bd -literal -offset indent", *map(plain, lines), ".Ed"]


def piece(text):
    """A paragraph, a list, a table or an indented block."""
    if text.startswith("    "):
        yield from block([it[4:] for it in text.split("\n")])
    elif text.startswith("- "):
        yield from items((("", it) for it in re.split(r"^- ", text, flags=re.MULTILINE)[1:]), "-bullet")
    elif text.startswith("|"):
        cells = [[cell.strip() for cell in it.strip("|").split(" | ")] for it in text.split("\n")[2:]]
        yield from items((name.strip(" `"), f"{what}. As in: {sample}") for name, what, sample in cells)
    else:
        yield from marked(text)


def page(text):
    yield dated(HEAD)
    for section in text.split("\n## ")[1:]:
        title, *pieces = re.split(r"\n\n+", section.strip("\n"))
        if title == "Exit status":
            continue
        yield f".Ss {title}"
        for nth, it in enumerate(pieces):
            if nth and it[:1] not in "-| ":
                yield ".Pp"
            yield from piece(it)
    yield TAIL


def command():
    sys.stdout.write("".join(f"{line}\n" for line in page(read("docs/use/SCRIPT.md"))))
