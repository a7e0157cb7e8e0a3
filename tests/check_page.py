"""check-page PROGRAM [FIXCHECK]: plays and runs what the pages show: scripts, commands, the table of faults, the tutorial of
docs/use/RECORDING.md, programs, and kept outputs. With FIXCHECK it looks at man/fixfiles.1 and man/fixcheck.1 too: they and the
completions are as the programs' help, their examples are played, and mandoc finds nothing to complain of."""
import os
import re
import shutil
import subprocess
import tempfile

from scripts.checks import Counted, arguments
from scripts.pages import blocks, rows, section
from scripts.programs import run
from scripts.repository import ROOT, read, read_bytes, write

# the numbers of cases that need fixcheck, and mandoc
OF_FIXCHECK, OF_MANDOC = 13, 3
# the first lines of README.md that name its readers, and its largest number of bytes
HEAD, MOST_BYTES = 30, 8_200
# cases of the tutorial; logs, of which one shows the bug, a short one's lines; legal logs
OF_TUTORIAL, LOGS, MOST_LINES, LEGAL_LOGS = 7, 20, 15, 3


def texts_of(page):
    return ["".join(f"{line}\n" for line in it) for it in blocks(read(page))]


def lines_of(piece):
    """Returns the lines that a piece of a cell means: `X`, N times `X`, `X` and N times `Y`, or `X1` to `X9`."""
    if first_and_last := re.fullmatch(r"`(\D+)(\d+)(.*)` to `\1(\d+)\3`", piece):
        head, first, tail, last = first_and_last.groups()
        return [f"{head}{nth}{tail}" for nth in range(int(first), int(last) + 1)]
    line = ""
    for part in piece.split(" and "):
        times, text = re.fullmatch(r"(?:([0-9,]+) times )?`(.*)`", part).groups()
        line += text * (int(times.replace(",", "")) if times else 1)
    return [line]


def faults(page):
    """Each fault of the table, and the lines of its script."""
    for name, cell in re.findall(r"^\| `([a-z-]+)` \| .* \| (.*) \|$", page, re.MULTILINE):
        yield name, [line for piece in cell.split(", then ") for line in lines_of(piece)]


def sample_of_readme():
    """The script of the first table of README.md, and the text beside it."""
    cells = [it for _, it in rows(read("README.md"))]
    cells = cells[1 : 1 + next(nth for nth, it in enumerate(cells) if it[0] == "`submit`")]
    return ["".join(f"{it[column].strip('`')}\n" for it in cells if it[column]) for column in (0, 1)]


def sample_of(page):
    """The first script of a page, and the text after it."""
    those = texts_of(page)
    at = next(nth for nth, it in enumerate(those) if it.startswith("file "))
    return those[at : at + 2]


def is_history(lines):
    """Checks whether lines show the state of a.txt at slot 0 after each event, and each event is allowed."""
    place, holds = "at slot 0", 0
    for line in lines:
        event = re.match(r"\w+ +(\w+)\(", line)[1]
        is_allowed = {"Look": place == "at slot 0", "Put": place == "at slot 0", "Release": holds > 0, "Close": (place, holds) == ("removed", 0)}[event]
        place = {"Put": "removed", "Close": "closed"}.get(event, place)
        holds += {"Look": 1, "Release": -1}.get(event, 0)
        if not is_allowed or not line.endswith(f"a.txt is {place}" + (place != "closed") * f", held {('by nobody', 'once')[holds]}"):
            return False
    return place == "closed"


def numbers_in(text):
    return {int(it.replace(",", "")) for it in re.findall(r"\d+(?:,\d{3})*", text)}


def section_of(page, title):
    return page.split(f".Sh {title}\n")[1].split("\n.Sh ")[0]


def options_of(page):
    """The options of a manual page, in its synopsis and in its list."""
    synopsis = re.findall(r"[ |](?:Fl )?-([a-z][a-z-]*)", section_of(page, "SYNOPSIS"))
    return [set(synopsis), set(re.findall(r"^\.It Fl .*?-([a-z][a-z-]*)", page, re.MULTILINE))]


def example_is_played(page, programs):
    """Checks that each command of the examples writes the lines after it. A file that `cat` shows is there."""
    with tempfile.TemporaryDirectory() as room:
        for command, wanted in re.findall(r"^\$ (.*)\n((?:[^$.].*\n)+)", section_of(page, "EXAMPLES"), re.MULTILINE):
            if command.startswith("cat "):
                write(os.path.join(room, command[4:]), wanted)
                continue
            name = command.split()[0]
            words = ["sh", "-c", command.replace(name, '"$0"', 1), programs[name]]
            if run(words, cwd=room) != (0, wanted, ""):
                return False
    return True


def lint(path):
    """What mandoc complains of, but that our own pages aren't installed."""
    said = run(["mandoc", "-T", "lint", "-W", "style", path])[1]
    return [it for it in said.splitlines() if not re.search(r"referenced manual not found: Xr (fix|io_uring)", it)]


def manual_pages(programs):
    """What is looked at of the manual pages, and whether it holds."""
    for name, program in programs.items():
        page, told_by = read(f"man/{name}.1"), subprocess.run([program, "--help"], capture_output=True, text=True, check=True).stdout
        options = told_by.split("Options:")[1].split("\n\n")[0]
        names, completed = (set(re.findall(r"--([a-z][a-z-]*)", it)) for it in (options, read(f"completions/{name}")))
        yield f"the options of {name}(1)", options_of(page) == [names] * 2
        yield f"completions/{name}", completed == names
        yield f"the numbers of {name}(1)", numbers_in(options) <= numbers_in(section_of(page, "DESCRIPTION"))
        statuses = re.findall(r"^  (\d)  ", told_by, re.MULTILINE)
        yield f"the statuses of {name}(1)", statuses == re.findall(r"^\.It (\d)$", section_of(page, "EXIT STATUS"), re.MULTILINE)
        yield f"the example of {name}(1)", example_is_played(page, programs)
    made = subprocess.run([f"{ROOT}/scripts/manual"], capture_output=True, text=True, check=True).stdout
    with tempfile.TemporaryDirectory() as room:
        path = os.path.join(room, "fixfiles-script.5")
        write(path, made)
        for it in (*(f"{ROOT}/man/{name}.1" for name in programs), path) if shutil.which("mandoc") else ():
            complaints = lint(it)
            yield f"{os.path.basename(it)}, of which mandoc says {complaints[:3]},", not complaints


def first_commands(checks):
    """Checks that README.md is short and names both readers first, and what its first commands print."""
    text = read("README.md")
    head = "\n".join(text.split("\n")[:HEAD])
    is_short = len(text.encode()) <= MOST_BYTES and all(it in head for it in ("server's author", "kernel's maintainer"))
    checks.want(is_short, f"README.md has {len(text.encode())} bytes, or its first {HEAD} lines don't name both readers")
    *first, serve = (re.split("  +#", it)[0] for it in next(blocks(text)))
    alone = commands_of(read("docs/use/RUST.md"), "RUSTFLAGS")
    checks.want((first, [serve]) == (["make kernel", "make run"], alone), f"README.md begins with the commands {first} and {serve}")
    serve = "YACHTBANYAN_LIB_DIR=$PWD/lib " + serve.partition("' ")[2]
    if shutil.which("cargo") and os.path.exists(f"{ROOT}/lib/libyachtbanyan.a"):
        target = {**os.environ, "CARGO_TARGET_DIR": f"{ROOT}/build/page", "PWD": ROOT}
        found = subprocess.run(serve, shell=True, cwd=ROOT, env=target, capture_output=True, text=True).stdout
        checks.want(found == read("tests/bindings/server.text"), f"over the library the server of README.md prints {found!r}")
    else:
        checks.skip(1, "cargo, or no library")
    found = subprocess.run(["make", "-s", "kernel"], cwd=ROOT, capture_output=True, text=True)
    if "kernel: skipped" in found.stderr:
        checks.skip(1, "io_uring")
    else:
        checks.want(found.stdout == sample_of_readme()[1], f"`make kernel` prints {found.stdout!r}")


def commands_of(page, word):
    return [it[0] for it in blocks(page) if it[0].startswith(word)]


def without_library(checks):
    """Runs the command of docs/use/RUST.md that needs no library: the server of README.md over a stand-in."""
    (command,) = commands_of(read("docs/use/RUST.md"), "RUSTFLAGS")
    if shutil.which("cargo"):
        where = {**os.environ, "CARGO_TARGET_DIR": f"{ROOT}/build/page/stand_in"}
        found = subprocess.run(command, shell=True, cwd=ROOT, env=where, capture_output=True, text=True).stdout
        checks.want(found == read("tests/bindings/server.text"), f"without the library the server prints {found!r}")
    else:
        checks.skip(1, "cargo")


def tutorial(page, room):
    """Follows the tutorial by its commands, with a log in a folder. Yields what is looked at, and whether it holds."""
    (with_bug, without), (judge, shorten, draw) = (commands_of(page, it) for it in ("cargo run --release --no-default", "YACHTBANYAN_LIB_DIR"))
    path, where = os.path.join(room, "log"), {**os.environ, "CARGO_TARGET_DIR": f"{ROOT}/build/page", "PWD": ROOT}

    def said(command, seed=""):
        command = re.sub(r"\blog(?=(\.svg)?( |$))", path, re.sub(r"(?<= cached )\d+", str(seed), command))
        return subprocess.run(command, shell=True, cwd=ROOT, env=where, capture_output=True, text=True).stdout

    for log, wants in zip((it for it in texts_of("docs/use/RECORDING.md") if it.startswith("file v -")), ("legal", "not legal: line 9: "), strict=True):
        write(path, log)
        yield f"the verdict on a log of RECORDING, {wants!r},", said(judge).startswith(f"{path}: {wants}")
    reason = next(it for it in blocks(page) if it[0].startswith("log: not legal: line 9: "))
    yield "the reason of RECORDING", said(judge).replace(f"{path}:", "log:").split() == " ".join(reason).split()
    for seed in range(1, LOGS + 1):
        said(with_bug, seed)
        # lines with the reason may follow
        if found := re.match(r".*: not legal: line \d+: (.*)\n", said(judge)):
            break
    short = said(shorten).splitlines()
    yield f"one of {LOGS} logs of the table with a bug", found
    yield f"the shortened log {short},", found and len(short) <= MOST_LINES and short[-1:] == [found[1]]
    said(draw)
    yield "the picture of the shortened log", found and os.path.exists(f"{path}.svg") and f": {found[1]}<" in read_bytes(f"{path}.svg").decode()
    legal = [said(without, seed) + said(judge) == f"{path}: legal\n" for seed in range(1, LEGAL_LOGS + 1)]
    yield "a log of the table without the bug", all(legal)


def judge_in_c(checks):
    """Checks that the second program of docs/use/C.md prints the lines after it."""
    if not os.path.exists(f"{ROOT}/lib/libyachtjudge.a"):
        checks.skip(1, "library")
        return
    those = list(blocks(read("docs/use/C.md"), spans_gaps=True))
    at = next(nth for nth, it in enumerate(those) if "#include <yachtjudge.h>" in it)
    with tempfile.TemporaryDirectory() as room:
        source, program = (os.path.join(room, it) for it in ("judge.c", "judge"))
        write(source, "".join(f"{it}\n" for it in those[at]))
        built = run(["cc", "-Wall", "-Wextra", "-Werror", f"-I{ROOT}/include", source, f"{ROOT}/lib/libyachtjudge.a", "-o", program])
        found = run([program])[1] if built[0] == 0 else built[2]
    checks.want([it for it in found.split("\n") if it] == those[at + 1], f"the second program of docs/use/C.md prints {found!r}")


def finding(checks):
    """Checks that docs/use/BAD_ENTRY.md shows the reproducer, and what it prints on a kernel of the version that the page names."""
    page, path = read("docs/use/BAD_ENTRY.md"), "kernel/reports/update_up_to_a_bad_entry.c"
    code, printed = list(blocks(page))[:2]
    checks.want("\n".join(code) in read(path), "docs/use/BAD_ENTRY.md shows another reproducer")
    version = re.search(r"^Kernel (\d+\.\d+)\.\d+ prints$", page, re.MULTILINE)[1]
    with tempfile.TemporaryDirectory() as room:
        program = os.path.join(room, "reproducer")
        status = run(["cc", f"{ROOT}/{path}", "-luring", "-o", program])[0] if shutil.which("cc") else 1
        found = run([program]) if status == 0 and os.uname().release.startswith(f"{version}.") else None
    if not found or found[:2] == (1, ""):
        checks.skip(1, f"kernel {version} with io_uring, or liburing")
    else:
        checks.want(found[1].split("\n")[:-1] == printed, f"the reproducer of docs/use/BAD_ENTRY.md prints {found!r}")


# the programs of docs/use/DIRECT.md: the first words that it shows of each, its file, and its name
DIRECT = (
    ("enum { SLOTS = 64,", "bindings/c/echo.c", "echo"), ("static int begin", "bindings/c/files.c", "files"),
    ("fn completed", "bindings/rust/examples/echo.rs", "debug/examples/echo"),
)


def built(path, program, room):
    """Builds a program of docs/use/DIRECT.md, with sanitizers if it is in C. Returns what is said if it isn't built, or None if a tool is missing."""
    if path.endswith(".rs"):
        command = ["cargo", "build", "--offline", "--quiet", "--example", os.path.basename(program), "--manifest-path", f"{ROOT}/bindings/rust/Cargo.toml"]
        where = {**os.environ, "CARGO_TARGET_DIR": room, "YACHTBANYAN_LIB_DIR": f"{ROOT}/lib"}
        return subprocess.run(command, env=where, capture_output=True, text=True).stderr if shutil.which("cargo") else None
    write(header := os.path.join(room, "liburing.c"), "#include <liburing.h>\n")
    if not shutil.which("cc") or run(["cc", "-E", header])[0]:
        return None
    flags = ["-std=c11", "-g", "-Wall", "-Wextra", "-Werror", "-fsanitize=address,undefined", f"-I{ROOT}/include"]
    return run(["cc", *flags, f"{ROOT}/{path}", f"{ROOT}/lib/libyachtdirect.a", "-luring", "-o", os.path.join(room, program)])[2]


def clients_are_served(program):
    """Runs the clients of an echo server. Returns what is wrong, or None if there is no io_uring."""
    clients = f"{program}.clients"
    status, text, said = run(["cc", f"{ROOT}/tests/clients.c", "-o", clients])
    if status == 0:
        status, text, said = run([clients, "echo", "600", "10", "20000", program])
    return None if status == 77 else [text, said] if status else []


def files_are_printed(program):
    """Runs the program that prints the first bytes of files. Returns what is wrong, or None if there is no io_uring."""
    those = [f"{ROOT}/{it}" for it in ("README.md", "LICENSE", "VERSION")]
    status, text, said = run([program, those[0], *those[1:], "/no/such/file"])
    right = all(read_bytes(it)[:4096].decode() in text for it in those) and len(text) == sum(min(4096, os.path.getsize(it)) for it in those)
    return None if status == 77 else [] if right and (status, said) == (1, "files: /no/such/file: No such file or directory\n") else [text, said]


def direct_programs(checks):
    """Checks that docs/use/DIRECT.md shows parts of the programs of bindings, which serve their clients and stop, or print files."""
    page = read("docs/use/DIRECT.md")
    has_library = all(os.path.exists(f"{ROOT}/lib/libyacht{it}.a") for it in ("banyan", "direct"))
    for first, path, program in DIRECT:
        (shown,) = (it for it in blocks(page) if it[0].startswith(first))
        checks.want("\n".join(shown) in read(path), f"docs/use/DIRECT.md shows another program than {path}")
        with tempfile.TemporaryDirectory() as room:
            said = built(path, program, room) if has_library else None
            play = files_are_printed if program == "files" else clients_are_served
            wrong = None if said is None else [said] if said else play(os.path.join(room, program))
        if wrong is None:
            checks.skip(1, f"io_uring, liburing, cargo or library for {path}")
        else:
            checks.want(not wrong, f"{path}: {wrong[:3]}")


def recording(checks):
    """Checks that docs/use/RECORDING.md shows lines of the recorder's example, and follows it."""
    page, source = read("docs/use/RECORDING.md"), read("bindings/recorder/examples/cached.rs")
    lines = "\n".join(it.strip() for it in source.splitlines())
    for block in blocks(page):
        if block[0].startswith("fn "):
            checks.want("\n".join(it.strip() for it in block) in lines, f"docs/use/RECORDING.md has other lines than cached.rs: {block[0]}")
    code = next(it for it in blocks(page, spans_gaps=True) if it[0].startswith("void *enter"))
    at = next(nth for nth, it in enumerate(code) if it.startswith("yacht_calls"))
    program = "\n".join(["#include <yachtrecord.h>", *code[:at], "int main(void) {", "void *table = NULL;", *code[at:], "}", ""])
    compiled = run(["gcc", "-std=c11", "-Wall", "-Wextra", "-Werror", f"-I{ROOT}/include", "-fsyntax-only", "-xc", "-"], program)
    checks.want(compiled == (0, "", ""), f"the recorder of C on docs/use/RECORDING.md: {compiled[2]}")
    if not (shutil.which("cargo") and os.path.exists(f"{ROOT}/lib/libyachtjudge.so")):
        checks.skip(OF_TUTORIAL, "cargo, or no library")
        return
    with tempfile.TemporaryDirectory() as room:
        for what, holds in tutorial(page, room):
            checks.want(holds, f"not right: {what}")


def command():
    given = arguments(__doc__, "program fixcheck?")
    checks, program, page = Counted("page"), given.program, read("docs/use/SCRIPT.md")
    first_commands(checks)
    without_library(checks)
    recording(checks)
    finding(checks)
    direct_programs(checks)
    judge_in_c(checks)
    for it, (script, text) in {"README.md": sample_of_readme(), "docs/use/SCRIPT.md": sample_of("docs/use/SCRIPT.md")}.items():
        checks.want(run([program], script) == (0, text, ""), f"the sample of {it} prints another text")
    drawn = [it for it in blocks(read("docs/inside/PROOFS.md")) if it[0].startswith("reader ")]
    checks.want(len(drawn) == 1 and is_history(drawn[0]), "the history of docs/inside/PROOFS.md is wrong")
    printed, shown = read("crates/example_library/stdout"), texts_of("docs/inside/LIBRARY.md")
    checks.want(any(printed.endswith(it) for it in shown if it.count("\n") > 3), "docs/inside/LIBRARY.md ends with another text of example_library")
    checks.want(printed.splitlines(True)[0] in shown, "docs/inside/LIBRARY.md has another text of first.rt")
    for name, holds in manual_pages({"fixfiles": program, "fixcheck": given.fixcheck}) if given.fixcheck else ():
        checks.want(holds, f"not right: {name}")
    table = dict(faults(section(page, "## Faults")))
    names = re.findall(r'ScriptFault::\w+ => "([a-z-]+)"', read("crates/fx_language/src/fault.rt"))
    checks.want(list(table) == names, f"the faults of docs/use/SCRIPT.md are not those of fx_language, in their order: {names}")
    for name, lines in table.items():
        at = 0 if name == "long-script" else len(lines)
        found = run([program], "\n".join(lines))
        checks.want(found == (3, "", f"fixfiles: line {at}: {name}\n"), f"the script of {name} ended with status {found[0]} and {found[2]!r}")
    if not given.fixcheck:
        checks.skip(OF_FIXCHECK, "fixcheck")
    elif not shutil.which("mandoc"):
        checks.skip(OF_MANDOC, "mandoc")
    return checks.end("samples looked at")
