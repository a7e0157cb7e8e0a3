"""check-pictures FIXCHECK [--draw]: compares docs/pictures with what is drawn of the histories that FIXCHECK prints, and of logs, or keeps that.
Checks what draw-history refuses and says, and that the picture of the layers has each crate of the product."""
import glob
import os
import re
import tempfile

from scripts.checks import Counted, arguments
from model.model import play
from scripts.pages import blocks
from scripts.programs import run
from scripts.repository import ROOT, read, read_bytes, write
from model.told_history import complaint_of

# the pictures that a command draws, and what of
DRAWN = {"docs/pictures/tails.svg": ("draw-tails", "bench/tails.txt"), "docs/pictures/lives.svg": ("draw-lives", "its phases")}
LAYERS = "docs/pictures/layers.svg"
# the number of cases that need the judge, and the most lines of a picture
OF_LOGS, MOST_LINES = 5, 120
EXAMPLE, OTHER = "examples/open_read_close", "examples/two_submissions"
# independent chains, and the pixels that their picture may have each way
CHAINS, MOST_PIXELS = 12, 1_200
INDEPENDENT = "file a.txt 68656c6c6f\nsparse 12\n" + "".join(
    f"open a.txt at {it} link\nread {it} 0 5 link\nclose {it}\n" for it in range(CHAINS)) + "submit\n"


def history_of(fixcheck, sample):
    """Returns the history of a sample, or nothing if it isn't a legal history of the text, or anything else is printed."""
    status, history, message = run([fixcheck, "--history", f"{sample}.script", f"{sample}.text"], cwd=ROOT)
    complaint = complaint_of(read_bytes(f"{sample}.script"), read(f"{sample}.text"), history.splitlines())
    return history if (status, message, complaint) == (0, "", None) else ""


def drawn(fixcheck, sample):
    return run([f"{ROOT}/scripts/draw-history", "--text", f"{ROOT}/{sample}.text"], history_of(fixcheck, sample))[1]


def pictures(checks, given):
    for picture in sorted(glob.glob("docs/pictures/*.svg", root_dir=ROOT)):
        sample = picture.removesuffix(".svg")
        sample = sample if os.path.exists(f"{ROOT}/{sample}.script") else f"examples/{os.path.basename(sample)}"
        # a picture without a script is drawn by hand
        if not os.path.exists(f"{ROOT}/{sample}.script"):
            continue
        new = drawn(given.fixcheck, sample)
        if given.draw and new:
            write(picture, new)
        checks.want(read(picture) == new, f"{picture} isn't what is drawn now; `make pictures` draws it again")
        checks.want("not a trace" in new, f"{picture} doesn't say that it is no trace")
    for picture, (command, source) in DRAWN.items():
        new = run([f"{ROOT}/scripts/{command}"])[1]
        if given.draw and new:
            write(picture, new)
        checks.want(new and read(picture) == new, f"{picture} isn't what is drawn of {source}; `make pictures` draws it again")
    product = re.findall(r"^(\w+)[^:\n]*:", read("crates.txt").split("# Not the product")[0], re.MULTILINE)
    lacking = [it for it in product if not re.search(rf"\b{it}\b", read(LAYERS))]
    checks.want(len(product) > 30 and not lacking, f"{LAYERS} lacks the crates {lacking}")


def drawn_log(path, words=()):
    """Returns the picture of a log, and what yachtlog prints."""
    with tempfile.TemporaryDirectory() as room:
        picture, module = os.path.join(room, "log.svg"), f"{ROOT}/bindings/python/yachtlog.py"
        status, said, fault = run(["python3", "-B", module, *words, "--draw", picture, path], env={**os.environ, "YACHTBANYAN_LIB_DIR": f"{ROOT}/lib"})
        return read_bytes(picture).decode() if os.path.exists(picture) else "", status, said + fault


def logs(checks, given):
    """Checks the pictures of the logs, and that a log which is too long isn't drawn unless it is shortened."""
    if not os.path.exists(f"{ROOT}/lib/libyachtjudge.so"):
        checks.skip(OF_LOGS, "library")
        return
    for path in sorted(glob.glob("docs/pictures/*.log", root_dir=ROOT)):
        picture, (new, _, said) = path.replace(".log", ".svg"), drawn_log(f"{ROOT}/{path}")
        if given.draw and new:
            write(picture, new)
        last = re.search(r": (not legal: line \d+: .*)\n", said)
        # a bar for each call but the registration, and the last line in words
        holds = last and f">{last[1]}<" in new and new.count('rx="3"') == read(path).count("\ncall ") - 1 and read(picture) == new
        checks.want(holds, f"{picture} isn't what is drawn now; `make pictures` draws it again: {said}")
    with tempfile.NamedTemporaryFile("w", suffix=".log") as file:
        file.write(read("docs/pictures/removed_twice.log").replace("call 2 ", "".join(f"call {it} look 2\ndone {it}.1 -9\n" for it in range(10, 10 + MOST_LINES // 2)) + "call 2 "))
        file.flush()
        for words, status, is_drawn in ((), 4, False), (("--shorten",), 1, True):
            new, found, said = drawn_log(file.name, words)
            checks.want((found, new != "") == (status, is_drawn) and ("lines are more than" in said) != is_drawn, f"a log of many lines, {words}: {said}")


def independent_chains(checks, fixcheck):
    """Checks that the picture of independent chains is no staircase."""
    with tempfile.TemporaryDirectory() as room:
        for ending, content in (("script", INDEPENDENT), ("text", play(INDEPENDENT.encode())[0])):
            write(os.path.join(room, f"chains.{ending}"), content)
        sample = os.path.relpath(os.path.join(room, "chains"), ROOT)
        size = re.search(r'width="(\d+)" height="(\d+)"', drawn(fixcheck, sample))
        checks.want(size and max(map(int, size.groups())) <= MOST_PIXELS, f"{CHAINS} independent chains are drawn on {size and size[0]} pixels")


def refused_texts(checks, fixcheck):
    """Checks that a text of another script, and one with another result, are refused, and the right one isn't."""
    history, is_right_taken = history_of(fixcheck, EXAMPLE), drawn(fixcheck, EXAMPLE) != ""
    changed = read(f"{EXAMPLE}.text").replace("1.1.2 5 68656c6c6f", "1.1.2 4 68656c6c")
    with tempfile.NamedTemporaryFile("w", suffix=".text") as file:
        file.write(changed)
        file.flush()
        for path in (f"{ROOT}/{OTHER}.text", file.name):
            status, picture, message = run([f"{ROOT}/scripts/draw-history", "--text", path], history)
            holds = (status, picture) == (1, "") and message.startswith("draw-history: the text is not that of the history: ")
            checks.want(holds and is_right_taken, f"draw-history takes a text of another history: {message!r}")


def command():
    given = arguments(__doc__, "fixcheck", "draw")
    checks = Counted("pictures")
    pictures(checks, given)
    logs(checks, given)
    independent_chains(checks, given.fixcheck)
    refused_texts(checks, given.fixcheck)
    shown = history_of(given.fixcheck, EXAMPLE).splitlines()
    checks.want(shown and shown in blocks(read("docs/use/CHECKING.md")), "docs/use/CHECKING.md shows another history")
    return checks.end()
