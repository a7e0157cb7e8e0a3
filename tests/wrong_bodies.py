"""wrong-bodies [--named] [--beside N] [--gate BEGAN LOG] [NAME..]: tries the edits of crates/*/wrong-bodies.txt (scripts/edits.py), for
which the gate has no time: all, those of a crate, or CRATE/EDIT; N crates at a time. With --named it tries those of the first table of
crates/WRONG_BODIES.md that nothing but the prover refuses, as `make test` does. wrong-bodies --fit only checks that each edit can be
applied, also those of must-fail/. With --gate (scripts/proved.py) a crate's edits are tried once the gate has proved the crates below, over
those libraries and by one job.

A caller knows only the contract of a function, so edits of different functions are tried in one check, in a copy of the crates. An edit
that its function doesn't refuse is tried again alone, in a check of the whole crate, where a refusal anywhere counts: a body without a
contract is refused at its caller. build/wrong-bodies/ has the prover's output."""
import argparse
import collections
import concurrent.futures
import os
import re
import shutil
import subprocess
import tempfile
import threading
import time

from scripts import edits
from scripts.checks import last_line
from scripts.crates import crates
from scripts.proved import Gate, copy_crates, prove
from scripts.refusals import refused_functions, unknown_lines
from scripts.repository import ROOT, read, write

KEPT = f"{ROOT}/build/wrong-bodies"

# how the prover ends where it refuses a crate, and where it refuses what it was asked for alone
NOT_PROVED = re.compile(r"logic=not-proved|only=\d+ proved=\d+$")


class Edit:
    """An edit, with the functions that it is in, each as (module, type, name), and what the prover is likely to call each."""

    def __init__(self, crate, name, text):
        self.crate, self.name = crate, f"{crate}/{name}"
        self.steps, self.wrong, self.functions, self.paths = [], "", set(), set()
        file = old = None
        for line in text.split("\n"):
            if line.startswith("file: "):
                file = line[6:].strip()
            elif line.startswith("old: "):
                old = line[5:]
            elif line.startswith("new:") and file and old:
                self.steps.append((file, old, line[4:].removeprefix(" ")))
                old = None
        if not self.steps:
            self.wrong = "it has no 'file:', 'old:' and 'new:' lines"
            return
        self.wrong = self.apply(lambda file: read(f"{ROOT}/crates/{crate}/{file}"))[1]

    def apply(self, text_of):
        """The texts of the edited files by their names, or why it can't be done. It notes the functions on the way."""
        texts = {}
        for file, old, new in self.steps:
            try:
                text = texts[file] if file in texts else text_of(file)
            except OSError:
                return {}, f"there is no {file}"
            if text.count(old) != 1:
                return {}, f"an 'old:' text is in {file} {text.count(old)} times, and not once"
            trait, kind, function = function_at(text, text.index(old))
            self.functions.add((module_of(file), kind, function))
            # a method is reported under its type's own module, and so by the end of its name alone
            self.paths.add("::".join(it for it in (kind + trait or module_of(file), function) if it))
            texts[file] = text.replace(old, new)
        return texts, ""


def module_of(file):
    """src/a/b.rt is the module a::b, and src/lib.rt the crate itself."""
    name = re.sub(r"^src/|\.rt$", "", file).replace("/", "::")
    return "" if name in ("lib", "main") else name


def function_at(text, place):
    """The trait and the type of the impl and the name of the function at this place of a source, or ''."""
    depth, name, kind, trait = 0, "", "", ""
    for line in text[: text.index("\n", place)].split("\n"):
        begins = re.match(r"( *)(?:pub(?:\([a-z]+\))? )?(?:const |unsafe )*fn (\w+)", line)
        ends = re.match(r"( *)}$", line)
        if begins:
            depth, name = len(begins[1]), begins[2]
        elif ends and name and len(ends[1]) <= depth and "{" not in line:
            name = ""
        elif re.match(r"(?:pub(?:\([a-z]+\))? )?(?:const|static|struct|enum|impl|trait)\b", line):
            inside = re.match(r"impl(?:<.*?>)? (?:(\w+).* for )?(\w+)", line)
            name, trait, kind = "", (inside[1] or "" if inside else ""), inside[2] if inside else ""
        if line == "}":
            trait = kind = ""
    return trait, kind, name


class Verdict:
    """What the prover says of a crate: `how` is 'proved', 'refused' or what kept the crate from the prover."""

    def __init__(self, said, status, seconds=0.0):
        lines = said.split("\n")
        self.seconds, self.refused = seconds, refused_functions(lines)
        told = unknown_lines(lines) or [it for it in lines if "error" in it] or [it for it in lines if it]
        if status == 0:
            self.how = "proved"
        elif any(NOT_PROVED.match(it) for it in lines) and not unknown_lines(lines):
            self.how = "refused"
        else:
            self.how = f"the prover was not reached: {told[0][:200] if told else 'nothing was said'}"

    def refuses(self, edit):
        return any(is_function(edit.crate, name, *at) for name in self.refused for at in edit.functions if at[2])

    def place(self, crate):
        names = [it.removeprefix(f"{crate}::") for it in self.refused]
        return ", ".join(names[:3]) + (f" and {len(names) - 3} more" if len(names) > 3 else "") or "no function of its own"


def is_function(crate, name, module, kind, function):
    """Whether the prover's name is that of the function. Methods may be reported under the module of their type."""
    path = name.removeprefix(f"{crate}::").split("::")
    within = module.split("::") if module else []
    inside = path[len(within) :]
    is_deeper = bool(inside) and os.path.exists(f"{ROOT}/crates/{crate}/src/{'/'.join([*within, inside[0]])}.rt")
    is_of_type = kind and (kind, function) in zip(path, path[1:])
    return is_of_type or path[: len(within)] == within and function in inside and not is_deeper


class Copy:
    """A copy of the crates in which a crate is edited and checked."""

    def __init__(self, room, gate, crate):
        self.room, self.checks = room, 0
        copy_crates(room, gate)
        # whether the gate proves the crate unchanged
        self.is_proved = bool(gate) and gate.is_newer()
        self.jobs = ("--jobs", "1") if gate else ()

    def folder(self, crate):
        return f"{self.room}/crates/{crate}"

    def texts_with(self, edits):
        """The texts with these edits of one crate, or None if one of them excludes another."""
        texts = {}
        for edit in edits:
            folder = self.folder(edit.crate)
            own, wrong = edit.apply(lambda file, folder=folder: texts[file] if file in texts else read(f"{folder}/{file}"))
            if wrong:
                return None
            texts.update(own)
        return texts

    def check(self, crate, edits=(), paths=()):
        """Checks the crate with these edits, or these functions of it."""
        kept, texts, folder = {}, self.texts_with(edits), self.folder(crate)
        for file, text in texts.items():
            kept[file] = read(f"{folder}/{file}")
            write(f"{folder}/{file}", text)
        started = time.monotonic()
        said, status = prove(folder, paths, self.jobs)
        seconds = time.monotonic() - started
        for file, text in kept.items():
            write(f"{folder}/{file}", text)
        self.checks += 1
        names = "".join(f"{it.name}\n" for it in edits)
        write(f"{KEPT}/{crate}-{self.checks}.log", f"{names}{said}")
        return Verdict(said, status, seconds)


def batches(edits, copy):
    """Lists of edits that are tried in one check: no two of them are in one function, and one that is in none is alone."""
    made = []
    for edit in edits:
        is_alone = any(not function for *_, function in edit.functions)
        for batch in made:
            others = set().union(*(it.functions for it in batch))
            if not is_alone and all(function for *_, function in others) and not edit.functions & others and copy.texts_with([*batch, edit]) is not None:
                batch.append(edit)
                break
        else:
            made.append([edit])
    return made


class Tally:
    """Prints a line for each edit of a crate, and counts what becomes of them."""

    def __init__(self, copy, crate):
        self.copy, self.crate, self.counts = copy, crate, collections.Counter()

    def tell(self, edit, kind, how, seconds, count):
        self.counts[kind] += 1
        at = "alone" if count == 1 else f"one of {count}"
        print(f"{edit.name}: {how} ({at} in a check of {seconds:.0f} s)", flush=True)

    def try_batch(self, batch):
        """Tries edits in one check of what they are in, and those that it doesn't settle in smaller ones."""
        paths, count = set().union(*(it.paths for it in batch)), len(batch)
        verdict = self.copy.check(self.crate, batch, sorted(paths) if all(paths) else ())
        seen = [it for it in batch if verdict.how == "refused" and verdict.refuses(it)]
        unseen = [it for it in batch if it not in seen]
        for edit in seen:
            self.tell(edit, "here", "refused in its function", verdict.seconds, count)
        if count > 1 and unseen:
            # callers of what was refused are tried without it
            part = len(unseen) if seen else len(unseen) // 2 if verdict.how.startswith("the prover") else 1
            for at in range(0, len(unseen), part):
                self.try_batch(unseen[at : at + part])
        elif unseen:
            self.settle(batch[0], verdict if verdict.how == "refused" else self.copy.check(self.crate, batch))

    def settle(self, edit, verdict):
        """Reports an edit tried alone whose function isn't refused."""
        how = {"refused": f"refused elsewhere, in {verdict.place(self.crate)}", "proved": "ACCEPTED"}
        self.tell(edit, verdict.how, how.get(verdict.how, f"BAD EDIT: {verdict.how}"), verdict.seconds, 1)


def try_crate(room, gate, crate, edits):
    """Tries the edits of a crate, which is proved without them: by a check, or the gate says so."""
    copy = Copy(room, gate, crate)
    tally = Tally(copy, crate)
    if not copy.is_proved:
        verdict = copy.check(crate)
        print(f"{crate}: {verdict.how} without an edit, {verdict.seconds:.0f} s", flush=True)
        if verdict.how != "proved":
            return tally
    for batch in batches(edits, copy):
        tally.try_batch(batch)
    return tally


class Turns:
    """The crates whose edits are left, first those with most, handed out once the gate has proved the crates below."""

    def __init__(self, edits, gate):
        self.left = sorted({it.crate for it in edits}, key=lambda name: -sum(it.crate == name for it in edits))
        self.gate, self.lock, self.below = gate, threading.Lock(), crates()

    def next(self):
        """Returns the next crate, or None after the last. It waits while a crate below each of those left isn't proved."""
        while True:
            with self.lock:
                has_ended = not self.gate or self.gate.has_ended()
                proved = self.gate.proved() if self.gate else set()
                ready = [it for it in self.left if has_ended or proved.issuperset(self.below[it])]
                if ready or not self.left:
                    if ready:
                        self.left.remove(ready[0])
                    return ready[0] if ready else None
            time.sleep(5)


def try_crates(edits, beside, gate=None):
    """Tries edits, so many crates beside each other, each in a copy of its own: a crate is locked while one above it is checked."""
    turns = Turns(edits, gate)

    def lane(_):
        done = []
        while crate := turns.next():
            with tempfile.TemporaryDirectory(prefix="wrong-bodies-") as room:
                done.append(try_crate(room, gate, crate, [it for it in edits if it.crate == crate]))
        return done

    with concurrent.futures.ThreadPoolExecutor(beside) as pool:
        return [it for done in pool.map(lane, range(beside)) for it in done]


def edits_of(kind):
    return [Edit(*it) for it in edits.edits(kind)]


def named():
    """The edits that the prover alone refuses, by the first table of crates/WRONG_BODIES.md."""
    page = read(f"{ROOT}/crates/WRONG_BODIES.md").split("\n## Edits tried by `make wrong-bodies` alone\n")[0]
    rows = (line.strip("| ").split(" | ") for line in page.split("\n") if line.startswith("| `"))
    pairs = ((re.findall(r"`(\w+)`", row[0]), re.findall(r"`([^`]*)`", row[-1])) for row in rows)
    alone = ((names, [it.removesuffix("/wrong-bodies.txt") for it in what]) for names, what in pairs if all(it.endswith("/wrong-bodies.txt") for it in what))
    return {f"{crate}/{name}" for names, crates in alone for crate in crates for name in names}


def chosen(edits, names):
    """The edits of these names, all where there is no name; and the names that there are none of."""
    unknown = set(names) - {it.crate for it in edits} - {it.name for it in edits}
    return [it for it in edits if not names or it.crate in names or it.name in names], sorted(unknown)


def look(edits):
    """Prints which edits can't be applied, and returns their number."""
    bad = [it for it in edits if it.wrong]
    for edit in bad:
        print(f"{edit.name}: BAD EDIT: {edit.wrong}")
    return len(bad)


def command():
    parser = argparse.ArgumentParser(usage=__doc__)
    parser.add_argument("--beside", type=int, default=1)
    parser.add_argument("--gate", nargs=2)
    parser.add_argument("--fit", action="store_true")
    parser.add_argument("--named", action="store_true")
    parser.add_argument("names", nargs="*")
    options = parser.parse_args()
    tried = edits_of("wrong-bodies")
    if options.fit:
        tried += edits_of("must-fail")
        bad = look(tried)
        return last_line("edits", len(tried), bad)
    if options.named:
        those = named()
        tried = [it for it in tried if it.name in those]
    tried, unknown = chosen(tried, options.names)
    if unknown:
        print(f"wrong-bodies: there is no {', '.join(unknown)}")
        return 1
    look(tried)
    if shutil.which("rt") is None:
        return subprocess.run([f"{ROOT}/scripts/need", "toolchain"], check=False).returncode
    shutil.rmtree(KEPT, ignore_errors=True)
    os.makedirs(KEPT)
    tallies = try_crates([it for it in tried if not it.wrong], options.beside, options.gate and Gate(*options.gate))
    here, elsewhere, accepted = (sum(it.counts[kind] for it in tallies) for kind in ("here", "refused", "proved"))
    print(f"wrong-bodies: {len(tried)} tried, {here + elsewhere} refused, {elsewhere} of them elsewhere, {accepted} accepted")
    key = "wrong-bodies" if options.named and not options.names else "wrong-bodies --some"
    return last_line(key, len(tried), len(tried) - here - elsewhere, "tried")
