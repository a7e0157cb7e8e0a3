"""check-steps: makes calls of the lasting table in every order of their steps: small programs of up to three threads over the Rust crate's
stand-in for the core, which agrees with the core word by word (check-bindings). bindings/rust/src/access/tests/steps.rs has the programs.

Then it makes them over the wrong tables of tests/wrong_steps.txt, each of which must be found. A wrong table is a line with its name,
the test that finds it, the fault that is found, and pairs of a text that the sources have once and what replaces it, with tabs between
them; `\\n` is the end of a line. Each fault that the checks can report is reported of some wrong table."""
import glob
import os
import re
import shutil
import subprocess
import tempfile

from scripts.checks import Counted
from scripts.programs import in_parallel, run
from scripts.repository import ROOT, read, write

CRATE = "bindings/rust"
# how the tests are compiled, and how if they are run on the table that is right
BUILD, FAST = ("rustc", "--edition", "2021", "--test", "--cfg", "yachtbanyan_stand_in", "--crate-name", "steps", "src/lib.rs"), ("-O", "-D", "warnings")
SECONDS = 3000
# what a test says that fails, and a fault that the sources can report
SAID, FAULT = re.compile(r"panicked at [^\n]*\n(?:assertion [^\n]* failed: )?([^\n]*)"), re.compile(r'assert[^;]*?"([a-z][^"]*)"', re.DOTALL)


def sources():
    """Returns the texts of the stand-in, and of the programs, by their paths."""
    ways = "stand_in/*.rs", "tests/steps.rs", "tests/steps/*.rs"
    return {it: read(it) for way in ways for it in glob.glob(f"{CRATE}/src/access/{way}", root_dir=ROOT)}


def built(room, texts, flags):
    """Builds the crate's tests in a folder, with these texts of some sources. Returns the program's path."""
    shutil.copytree(f"{ROOT}/{CRATE}", room, ignore=shutil.ignore_patterns("target"))
    for path, text in texts.items():
        write(os.path.join(room, os.path.relpath(path, CRATE)), text)
    subprocess.run([*BUILD, *flags, "-o", "steps"], cwd=room, check=True)
    return os.path.join(room, "steps")


def first_fault(room, name, test, pairs):
    """Returns the fault of a wrong table, or what is wrong with its edits."""
    texts, right = sources(), sources()
    for old, new in zip(pairs[::2], pairs[1::2]):
        if sum(it.count(old) for it in texts.values()) != 1:
            return f"the sources have {old!r} {sum(it.count(old) for it in texts.values())} times, and not once"
        texts = {path: it.replace(old, new) for path, it in texts.items()}
    # a wrong table has other states too
    is_of_table = all(texts[it] == right[it] for it in right if "/tests/" in it)
    how = {"env": {**os.environ, **({"YACHTBANYAN_ANY_STATES": "1"} if is_of_table else {})}}
    status, text, _ = run([built(os.path.join(room, name), texts, ("-A", "warnings")), f"::steps::{test}", "--include-ignored"], seconds=SECONDS, **how)
    shutil.rmtree(os.path.join(room, name))
    return (SAID.findall(text) or [text])[-1] if status else "nothing"


def wrong_tables():
    """Returns each wrong table: its name, the test, the fault, and the texts and what replaces them."""
    lines = (it.replace("\\n", "\n").split("\t") for it in read("tests/wrong_steps.txt").splitlines())
    return [(name, test, fault, pairs) for name, test, fault, *pairs in lines]


def command():
    checks, wrong = Counted("steps"), wrong_tables()
    if shutil.which("rustc") is None:
        checks.skip(1 + len(wrong), "rustc")
    else:
        with tempfile.TemporaryDirectory() as room:
            tests = [built(os.path.join(room, "right"), {}, FAST), "::steps::", "--include-ignored"]
            status, text, _ = run(tests, seconds=SECONDS)
            faults = in_parallel(lambda it: first_fault(room, it[0], it[1], it[3]), wrong)
        checks.want(status == 0, f"the programs ended with status {status}: {text}")
        for (name, _, fault, _), said in zip(wrong, faults):
            checks.want(said == fault, f"of {name} it is said: {said}, and not {fault}")
    for fault in sorted({fault for path, it in sources().items() if not re.search("stand_in/(?!idle)", path) for fault in FAULT.findall(it)}):
        checks.want(any(fault == it for _, _, it, _ in wrong), f"no wrong table shows this fault: {fault}")
    return checks.end()
