"""Copies crates with what the gate has proved, and runs the prover on the copies."""
import os
import re
import shutil
import subprocess
import sys

from scripts.crates import VERDICT, crates, needed
from scripts.repository import ROOT, SOURCES, files_of, read, write

PARTS = (*SOURCES, "out")


class Gate:
    """The gate that runs beside this, or has run: a file that was made before it began, and what it writes."""

    def __init__(self, began, log):
        self.began, self.log = os.stat(began).st_mtime, log

    def said(self):
        try:
            return read(self.log)
        except OSError:
            return ""

    def proved(self):
        """Returns the crates that it has proved, in this run or in an earlier one on this machine."""
        return set(re.findall(r"^rt: (\w+) (?:proved$|is kept:)", self.said(), re.MULTILINE))

    def has_proved(self, crate):
        return crate in self.proved()

    def has_ended(self):
        return bool(VERDICT.search(self.said()))

    def is_newer(self):
        """Whether each source was last written before the gate began."""
        return all(os.stat(f"{ROOT}/{it}").st_mtime < self.began for it in files_of("*", *SOURCES))


def link_or_copy(one, other):
    """Links or copies a file. The toolchain makes files of out/ anew, and never writes into one."""
    try:
        os.link(one, other)
    except OSError:
        shutil.copy2(one, other)


def copy_part(room, name, part):
    how = link_or_copy if part.startswith("out") else shutil.copy2
    if os.path.isdir(f"{ROOT}/crates/{name}/{part}"):
        shutil.copytree(f"{ROOT}/crates/{name}/{part}", f"{room}/crates/{name}/{part}", symlinks=True, copy_function=how)


def copy_crates(room, gate=None, of=None):
    """Copies the crates into a folder, with what earlier checks kept of them, or with the gate's libraries. If `of` is a crate, only
    this one is copied, with the crates below it and their libraries, and no other crate is listed there."""
    those = needed(of, crates()) if of else os.listdir(f"{ROOT}/crates")
    shutil.copy(f"{ROOT}/HANDLES", room)
    lines = read("crates.txt").splitlines(keepends=True)
    write(f"{room}/crates.txt", "".join(it for it in lines if not of or re.match(r"\w*", it)[0] in those))
    for it in those:
        for part in PARTS:
            if part != "out":
                copy_part(room, it, part)
            elif not gate or gate.has_proved(it):
                copy_part(room, it, "out/rlib" if gate or of not in (None, it) else "out")
    if gate and gate.is_newer():
        mark_libraries(room, gate)


def prove(folder, paths=(), jobs=()):
    """What the prover says of a crate, or of functions of it, and its status; of the crate if it knows one by another name."""
    how = {"stdin": subprocess.DEVNULL, "stdout": subprocess.PIPE, "stderr": subprocess.STDOUT, "errors": "replace"}
    ran = subprocess.run(["rt", "check", *jobs, *(word for it in paths for word in ("--only", it))], cwd=folder, check=False, **how)
    return prove(folder, (), jobs) if paths and ran.returncode == 2 else (ran.stdout, ran.returncode)


def take_back(room, name):
    """Moves what was proved of a crate in such a copy to the repository."""
    made, kept = f"{room}/crates/{name}/out", f"{ROOT}/crates/{name}/out"
    if os.path.isdir(made):
        shutil.rmtree(kept, ignore_errors=True)
        shutil.move(made, kept)


def mark_libraries(room, gate):
    """Gives the gate's libraries the mark of their sources that `rt lib` leaves, so that `rt` doesn't prove them again."""
    sys.path.insert(0, os.path.dirname(os.path.realpath(shutil.which("rt"))))
    try:
        import rtlib

        for crate in rtlib.crates_below(f"{room}/crates"):
            library = f"{crate.folder}/out/rlib"
            if os.path.isdir(library) and gate.has_proved(crate.name):
                if os.path.exists(f"{library}/stamp"):
                    os.remove(f"{library}/stamp")
                write(f"{library}/stamp", crate.stamp())
    except (ImportError, AttributeError) as fault:
        print(f"proved: the libraries are proved once more: {fault}", flush=True)
