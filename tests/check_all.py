"""check-all: tries tests/all on commands that do nothing: each check prints its plan and its case, and the toolchain's rt that each
crate is proved. Then all is well. For each command that fails, each check that prints nothing or too little, and each way in which the
gate fails, tests/all must fail, and not end with the gate's line. Checks in bash must count a wrong case, check-must-spend must fail if
the checker rejects nothing, and check-layout on files with a fault."""
import contextlib
import io
import os
import re
import shutil
import subprocess
import tempfile

from scripts import clauses
from scripts.checks import Counted, kept_numbers, name_of
from scripts.programs import in_parallel
from scripts.repository import ROOT, read, write

# what tests/all calls beside the checks
SCRIPTS = "need", "run", "build-libraries"
# checks that others run, by the file of the other
INSIDE = {"claims": "layout", "edits": "layout", "links": "layout", "wrong bodies": "layout"}
# a check that make test does not run
APART = "style"
VERDICT = "7 passed, 0 failed"
# how the gate ends: its lines and its status
GATES = {"well": (VERDICT, 0), "with a failure": ("6 passed, 1 failed", 1), "with a failure after its line": (VERDICT, 3), "without its line": ("", 0)}
# a command: it prints its lines unless SILENT names it, and fails if FAILS does
STUB = """#!/bin/bash
case "$SILENT" in NAME) ;; "NAME few") echo 1..1 ;; *) printf '%s' 'LINES' ;; esac
case "$FAILS" in "NAME" | "NAME ${1##*.}") exit 1 ;; esac
"""
PLANNED = "1..1\nok 1\n"
GATE = r"""#!/bin/bash
for crate in $(sed -nE 's/^([a-z0-9_]+).*:.*/\1/p' crates.txt); do echo "rt: $crate proved"; done
[ -z "$GATE_LINE" ] || echo "$GATE_LINE"
exit "$GATE_STATUS"
"""
BASH = "bindings", "dist", "layout", "mistakes", "must-spend", "servers", "traps"
# faults of files for check-layout: a file, its text, what replaces it, and what is complained of
FAULTS = (
    ("HANDLES", "Threads", "Files", "HANDLES is not its one line"),
    ("examples/hard_link_goes_on.text", None, None, "examples/hard_link_goes_on.script has no text beside it"),
    ("examples/README.md", "(short_read_severs.script)", "()", "examples/README.md doesn't list examples/short_read_severs.script"),
    ("examples/short_read_severs.script", "# ", "", "examples/short_read_severs.script doesn't begin with a comment that says what it shows"),
    ("examples/alone.text", "", "sparse 0\n", "examples/alone.text belongs to no script"),
    ("crates/fx_cli/stdin", "sparse", "register", "crates/fx_cli/stdin is not that of examples/open_read_close"),
    ("crates.txt", "fx_words", "fx_word", "crates.txt does not list the folders of crates/"),
    ("crates/fx_base/specs/Errno.antt", "\n", f"\n-- {'long ' * 20}\n", "lines of definitions have more than 100 columns"),
    ("crates/fx_base/src/errno.rt", "\n", f"\n// {'long ' * 20}\n", "lines of comments have more than 100 columns"),
    ("scripts/need", "\n", f"\n# {'long ' * 20}\n", "lines of comments have more than 100 columns"),
    ("crates/fx_order/src/chain.rt", "\n", "\n// Op::Open, Op::Read, Op::Close, Op::Update, Op::Open\n", "other crates match on the kind of a request"),
    ("Makefile", "help-all: help", "help-all: helps", "make alone does not list its targets"),
    ("docs/inside/MODEL.md", "(../use/LIMITS.md)", "(../use/LIMIT.md)", "docs/inside/MODEL.md leads to ../use/LIMIT.md, which is not there"),
    ("docs/inside/PROOFS.md", "`CountedTable::look`, `release`", "`CountedTable::lock`, `release`", "there is no CountedTable::lock"),
    ("docs/inside/PROOFS.md", "`fits`, `steps`; `draw`", "`fits`, `stops`; `draw`", "take has no clause stops"),
    ("docs/inside/PROOFS.md", "at most 1, 2, 4, 3, 3, 2 and 1 atomic", "at most 1, 2, 5, 3, 3, 2 and 1 atomic", "not right: put in 5 steps"),
    ("docs/inside/PROOFS.md", "| fx_ring | Ring, Submission |", "| fx_ring | Submission |", "the reading list should have "),
    ("docs/use/CHECKING.md", "and 1.5.1.0 a.txt are both left", "and 1.6.1.0 a.txt are both left",
     "docs/use/CHECKING.md has 5 lines of examples/judged/explained.judged"),
    ("man/conform.1", "by default 500", "by default 501", "not right: conform, by default 501"),
    ("README.md", "fixcheck --all examples", "fixcheck --al examples", "README.md: not right: fixcheck --al"),
    ("README.md", " minutes of proofs", "0 minutes of proofs", "README.md: bench/write-tables writes"),
    ("docs/use/SPEED.md", "0.9", "0.8", "docs/use/SPEED.md: bench/write-tables writes"),
    ("docs/use/LIMITS.md", "-tables machine", "-tables other", "docs/use/LIMITS.md: bench/write-tables writes"),
    ("tests/counts.py", "import shutil\n", "import shutil\nimport wave\n", "pyflakes3 finds a fault"),
    ("tests/one", "status=$?\n", "status=$?\nexport it=$(true)\n", "shellcheck finds a fault"),
)
TOOLS = "pyflakes3", "shellcheck"
# a source: scripts/clauses must notice a field, a precondition or a clause that is left out
SOURCE = ("pub struct Made {\n", "    pub it: u32,\n", "}\nimpl Made {\n    pub fn make(it: u32) -> u32\n", "        requires small { it < 9 }\n",
          "        ensures same { result ≡ it }\n", "    {\n        it\n    }\n}\n")


def file_of(check):
    return f"tests/{check}" if check in ("compare", "wrong-bodies") else f"tests/check-{check.replace(' ', '-')}"


def listed():
    return re.findall(r"^[a-z]+-? +([a-z-]+)", read("tests/all.txt"), re.MULTILINE)


def lay_out(room):
    """Makes the folder, and returns the commands."""
    for it in ("tests/all", "tests/all.txt", "tests/one", "crates.txt"):
        write(f"{room}/{it}", read(it))
    lines = {f"scripts/{it}": "" for it in SCRIPTS} | {f"tests/{it}": PLANNED for it in listed()}
    for name, text in lines.items():
        write(f"{room}/{name}", STUB.replace("NAME", name).replace("LINES", text))
    for name, text in (("rt", GATE), ("sleep", "#!/bin/sh\nexec /bin/sleep 0.05\n")):
        write(f"{room}/bin/{name}", text)
    # what Rattle's own compiler built
    write(f"{room}/crates/fx_cli/out/fx_cli.by-rattle", "")
    for name in (*lines, "tests/all", "tests/one", "bin/rt", "bin/sleep", "crates/fx_cli/out/fx_cli.by-rattle"):
        os.chmod(f"{room}/{name}", 0o755)
    return list(lines)


def ran(room, case):
    """Runs tests/all where a command fails, prints nothing, or the gate ends so. Returns whether it ends well, and its last lines."""
    fails, silent, gate = case
    line, status = GATES[gate]
    variables = {**os.environ, "PATH": f"{room}/bin:{os.environ['PATH']}", "FAILS": fails, "SILENT": silent, "GATE_LINE": line, "GATE_STATUS": str(status)}
    it = subprocess.run([f"{room}/tests/all"], env=variables, stdin=subprocess.DEVNULL, stdout=subprocess.PIPE, stderr=subprocess.STDOUT, text=True, check=False, timeout=120)
    said = it.stdout.splitlines()[-3:]
    return it.returncode == 0 and said[-1:] == [VERDICT], it.returncode == 0 or VERDICT in said[-1:], said


def check_all(checks):
    with tempfile.TemporaryDirectory(prefix="all-") as room:
        commands = lay_out(room)
    cases = [("", "", "well")] + [(it, "", "well") for it in [*commands, "scripts/run check_examples"]]
    cases += [("", it, "well") for it in commands if it.startswith("tests/")] + [("", "tests/check-steps few", "well")]
    cases += [("", "", it) for it in GATES if it != "well"]
    kept = {file_of(it) for it in kept_numbers() if it == name_of(it) and it not in (*INSIDE, APART)}
    checks.want(kept == {f"tests/{it}" for it in listed()}, f"tests/all runs other checks than have numbers in tests/cases.txt: {sorted(kept)}")
    with tempfile.TemporaryDirectory(prefix="all-") as room:
        # a program can't be started while a child that is being started has it open
        rooms = [f"{room}/{nth}" for nth in range(len(cases))]
        for it in rooms:
            lay_out(it)
        for case, (is_well, is_like_well, said) in zip(cases, in_parallel(lambda it: ran(*it), list(zip(rooms, cases)))):
            is_right = is_well if case == ("", "", "well") else not is_like_well
            checks.want(is_right, f"tests/all, where {case} fails, is silent, and the gate ends so, said last: {said}")


def check_bash(checks):
    """The function `want` of such checks counts what fails, and the last line of each check has its numbers."""
    for name in BASH:
        last = [it.strip() for it in read(file_of(name)).split("\n") if "scripts.checks" in it]
        checks.want(len(last) == 1 and re.search(r' "\$looked" "\$wrong"( "\$\{left\[@\]\}")?$', last[0]), f"{file_of(name)} doesn't end with its numbers: {last}")
    tried = '. tests/want.bash; want a true; want b false; want c test 1 -eq 2; [ "$looked $wrong" = "3 2" ]'
    ran = subprocess.run(["bash", "-c", tried, "tests/check-all"], cwd=ROOT, capture_output=True, text=True, check=False)
    checks.want((ran.returncode, ran.stdout) == (0, "# all: b\n# all: c\n"), f"want of tests/want.bash doesn't count what fails: {ran.stdout}")


def check_must_spend(checks):
    """A checker that rejects nothing, or something else."""
    for said in ("", "src/lib.rt:1:1: error[linear-value-let-go]: `_lost` is let go, and `OpenFile` is not `Drop`\nerror[other]: more\n"):
        with tempfile.TemporaryDirectory() as room:
            write(f"{room}/rt", f"#!/bin/sh\nprintf '%s' '{said}'\n")
            os.chmod(f"{room}/rt", 0o755)
            variables = {**os.environ, "PATH": f"{room}:{os.environ['PATH']}"}
            it = subprocess.run([f"{ROOT}/tests/check-must-spend"], env=variables, stdin=subprocess.DEVNULL, capture_output=True, text=True, check=False)
        number = kept_numbers()["must-spend"][1]
        checks.want(it.returncode == 1 and it.stdout.endswith(f"must-spend: {number} looked at, {number} wrong\n"), f"check-must-spend, where the checker says {said!r}: {it.stdout[-300:]}")


def check_layout(checks):
    """A copy of the repository with all of the faults: each is complained of, and without them nothing is."""
    files = subprocess.run(["git", "ls-files", "-z"], cwd=ROOT, capture_output=True, text=True, check=True).stdout.split("\0")
    with tempfile.TemporaryDirectory() as room:
        for it in files[:-1]:
            os.makedirs(os.path.dirname(f"{room}/{it}"), exist_ok=True)
            shutil.copy(f"{ROOT}/{it}", f"{room}/{it}")
        for file, old, new, _ in FAULTS:
            if old is None:
                os.remove(f"{room}/{file}")
            else:
                write(f"{room}/{file}", read(f"{room}/{file}").replace(old, new, 1) if old else new)
        it = subprocess.run([f"{room}/tests/check-layout"], stdin=subprocess.DEVNULL, capture_output=True, text=True, check=False)
    for name in INSIDE:
        checks.want(re.search(rf"^# {name}: \d+ ", it.stdout, re.MULTILINE), f"check-layout doesn't print the last line of {name}")
    for file, _, _, complaint in FAULTS:
        tool = complaint.split()[0]
        if tool in TOOLS and not shutil.which(tool):
            checks.skip(1, tool)
            continue
        checks.want(it.returncode == 1 and f" {complaint}" in it.stdout, f"check-layout doesn't find the fault of {file}: {complaint}")


def check_clauses(checks):
    texts = ["".join(it for nth, it in enumerate(SOURCE) if nth != left_out) for left_out in (None, 1, 3, 4)]
    whole, *others = (clauses.items((), lambda _, text=text: text, ["crates/made/src/made.rt"]) for text in texts)
    with contextlib.redirect_stdout(io.StringIO()):
        found = [clauses.compare(whole, it) for it in (whole, *others)]
    checks.want(found == [0, 1, 1, 1], f"scripts/clauses finds {found} differences where no line, or one, is left out")


def command():
    checks = Counted("all")
    check_clauses(checks)
    check_all(checks)
    check_bash(checks)
    check_must_spend(checks)
    check_layout(checks)
    return checks.end()
