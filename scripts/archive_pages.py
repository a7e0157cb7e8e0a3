"""archive_pages [--arm] FOLDER: writes the pages of the archive (scripts/dist), or of that for ARM64, into a folder. They name the archive's
commands in place of those of make, and links to files that the archive doesn't have become plain words."""
import os
import re
import sys

from scripts.pages import anchors
from scripts.repository import ROOT, read, write

PAGES = {"docs/use/ARCHIVE.md": "README.md"} | {
    it: it for it in (*(f"docs/{name}.md" for name in ("use/BAD_ENTRY", "use/BINDINGS", "use/C", "use/CHECKING", "use/CHOOSING", "use/DIRECT", "inside/FLIGHT", "use/GLOSSARY", "use/KERNEL", "use/LIMITS", "use/LINUX", "inside/MODEL", "use/PYTHON", "use/RECORDING", "use/RUST", "use/SCRIPT")), "examples/README.md")}
# the first page of the other archive is the section of the first one
ARM_PAGES = {"docs/use/ARCHIVE.md": "README.md"} | {it: it for it in (f"docs/use/{name}.md" for name in ("BINDINGS", "C", "CHOOSING", "DIRECT", "GLOSSARY", "PYTHON", "RUST"))}
# what the archives have beside pages and scripts
FOLDERS = ("LICENSE", "c", "completions", "docs/pictures", "examples", "kernel", "man")
ARM_FOLDERS = ("LICENSE", "c", "examples", "man")
# what is typed in the archive for a command of make, with the variables of the command
COMMANDS = {
    "run": lambda given: f"bin/fixfiles < {given['SCRIPT']}" if given else "bin/fixfiles",
    "check": lambda given: " ".join(["bin/fixcheck", *given.values()]),
    "kernel": lambda given: " ".join(["./play-on-kernel", *given.values()]),
    "litmus": lambda given: " ".join(["./litmus", *given.values()]),
    "conform": lambda given: " ".join(["./conform", *(f"--scripts {it}" for it in given.values())]),
}
# a command of make with its variables, up to the end of the code or a comment
MAKE = re.compile(r"\bmake ([a-z][a-z-]*)((?: [A-Z]+=[^ `\n]+)*)")
ELSEWHERE = " (in the repository)"


def command_of(name, variables):
    """Returns what is typed in the archive, or None if it has no such command."""
    given = dict(it.split("=", 1) for it in variables.split())
    return COMMANDS[name](given) if name in COMMANDS else None


def aligned(line, new):
    """Returns a new line of code with its comment where that of the line is."""
    code, mark, comment = new.partition("  # ")
    return code.rstrip().ljust(line.find("  # ")) + mark + comment if mark else new


def with_commands(text):
    """Replaces the commands of make. A line of code without one in the archive is left out; a sentence says where it is."""
    lines = []
    for line in text.split("\n"):
        found = MAKE.search(line) if line.startswith("    make ") else None
        if found and command_of(*found.groups()) is None:
            continue
        lines.append(aligned(line, MAKE.sub(lambda it: command_of(*it.groups()) or it[0], line)) if found else line)
    text = "\n".join(lines)

    def replaced(found):
        name, variables = MAKE.fullmatch(found[1]).groups()
        command = command_of(name, variables)
        return f"`{command}`" if command else found[0] + ELSEWHERE

    return re.sub(rf"`({MAKE.pattern})`", replaced, text)


def is_kept(path, anchor, is_arm):
    """Checks whether the archive has what a link leads to, by the path from the top."""
    if path in (ARM_PAGES if is_arm else PAGES).values() and path != "README.md":
        return not anchor or anchor in anchors(read(path))
    is_inside = any(path == it or path.startswith(f"{it}/") for it in (ARM_FOLDERS if is_arm else FOLDERS))
    is_script = not is_arm and path in read("scripts/archived.txt").split()
    return os.path.exists(os.path.join(ROOT, path)) and (is_inside or is_script)


def with_links(text, source, page, is_arm=False):
    """Turns each link of a page to a file that the archive doesn't have into its words, and leaves such a picture out. The others lead from
    the page's new place."""
    def replaced(found):
        mark, words, target = found.groups()
        path, hash_, anchor = target.partition("#")
        if re.match(r"\w+:", target) or not path and anchor in anchors(text):
            return found[0]
        path = os.path.normpath(os.path.join(os.path.dirname(source), path))
        if not is_kept(path, anchor, is_arm):
            return "" if mark else words
        return f"{mark}[{words}]({os.path.relpath(path, os.path.dirname(page) or '.')}{hash_}{anchor})"

    return re.sub(r"(!?)\[([^][]*)\]\(([^)\s]+)\)", replaced, text)


def command():
    folder, is_arm = sys.argv[-1], "--arm" in sys.argv[1:-1]
    for source, page in (ARM_PAGES if is_arm else PAGES).items():
        text = read(source)
        if is_arm and page == "README.md":
            text = "# Yachtbanyan for ARM64\n" + text.split("## For ARM64\n")[1]
        text = with_links(with_commands(text), source, page, is_arm)
        # the archive has these folders at its top, and no runs; its crate has the library inside
        text = re.sub(r"\bbindings/(?=(c|recorder|python)\b)|YACHTBANYAN_LIB_DIR=\.\./\.\./lib | \(the run\)|; the run(?=\))", "", text)
        write(os.path.join(os.path.abspath(folder), page), text)
    return 0
