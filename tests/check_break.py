"""check-break [--gate BEGAN LOG]: applies the bug from README.md to a copy of the repository and expects the prover to reject the
function with the lines that README.md shows. With --gate it checks that function alone (scripts/proved.py)."""
import argparse
import re
import tempfile

from scripts.checks import last_line
from scripts.pages import blocks
from scripts.proved import Gate, copy_crates, prove
from scripts.refusals import complaints
from scripts.repository import read, write

FILE, FUNCTION = "crates/fx_plain/src/table/holds.rt", "PlainTable::release"
RIGHT, WRONG = "if left != 0", "if left != 1"


def without_numbers(lines):
    return [re.sub(r":\d+:", ":N:", it) for it in lines]


def promised(page):
    """Returns the lines of README.md about it, without the numbers of lines, which change."""
    those = (it for it in blocks(page) if it[0].endswith(" is not proved:"))
    return without_numbers(next(those, []))


def said_of(room, is_quick):
    """Returns the lines about fx_plain in that copy, as `make prove` prints them."""
    said, status = prove(f"{room}/crates/fx_plain", [FUNCTION], ("--jobs", "1")) if is_quick else prove(f"{room}/crates/fx_plain")
    return without_numbers(complaints(said.split("\n"))) if status else []


def complaint(gate):
    page = read("README.md")
    for text in (FILE, RIGHT, WRONG, "make prove CRATE=fx_plain"):
        if text not in page:
            return f"README.md doesn't say: {text}"
    source = read(FILE)
    if source.count(f"{RIGHT} {{") != 1:
        return f"{FILE} has no one line '{RIGHT} {{'"
    with tempfile.TemporaryDirectory(prefix="break-") as room:
        copy_crates(room, gate)
        write(f"{room}/{FILE}", source.replace(f"{RIGHT} {{", f"{WRONG} {{"))
        said = said_of(room, gate is not None)
    wanted = promised(page)
    if len(wanted) < 2 or said != wanted:
        lines = "\n".join([*(f"< {it}" for it in wanted), *(f"> {it}" for it in said)])
        return f"the wrong release was refused in other lines than those of README.md:\n{lines}"
    return ""


def command():
    parser = argparse.ArgumentParser(usage=__doc__)
    parser.add_argument("--gate", nargs=2)
    gate = parser.parse_args().gate
    wrong = complaint(gate and Gate(*gate))
    print(f"break: {wrong or 'a wrong release is refused, and its line says why'}")
    return last_line("break", 1, int(wrong != ""))
