"""check-wrong-bodies [--prover]: checks that tests/wrong-bodies distinguishes accepted edits from refused ones in one check, and the
output of scripts/refusals.py. Two of four edits of fx_baton change nothing: one in a function that may wait, and one in a function that
calls a refused one. The prover's output is RECORDED; with --prover it comes from the prover itself, in a copy of the crates."""
import contextlib
import io
import sys
import tempfile

from scripts import edits, proved
from tests import wrong_bodies
from scripts.checks import Counted
from scripts.refusals import complaints, refused_functions, unknown_lines
from scripts.repository import read

# each edit's text before and after it, in src/calls.rt, and the expected report
EDITS = {
    "wrong_count": ("        takes: 0,", "        takes: 1,", "refused in its function"),
    "wrong_event": ("Call::Clear(slot), removed", "Call::Take(slot), removed", "refused in its function"),
    "nothing_in_a_wait": (
        "let closed = plain.release(node);", "let closed = plain.release(node); let _nothing = node;", "ACCEPTED"),
    "nothing_in_a_caller": (
        "let removed = plain.take(slot);", "let removed = plain.take(slot); let _nothing = slot;", "ACCEPTED"),
}
ALL_PROVED = """\
fn fx_baton::calls::BatonTableFileTable::clear: proved, may wait
fn fx_baton::calls::BatonTableFileTable::release: proved, may wait
fn fx_baton::calls::BatonTableFileTable::take: proved, may wait
fn fx_baton::calls::retired: proved
fn fx_baton::laws::split_keeps_rule: proved where its callers give what it asks
logic=proved functions=37 may-wait=9
"""
BOTH_REFUSED = """\
./proofs/Closing.antt:157:18: note: large solution: the implicit argument {b} of `◌∙◌` was filled in with a large term
./proofs/calls/BatonTableFileTable/take/Answers.antt:7:5: note: large solution: it was filled in with a large term
./proofs/calls/BatonTableFileTable/clear/Answers.antt:22:5: error: `give_back-requires`: the two types first differ
impl fx_baton::calls::BatonTableFileTable: not proved; it waits for the proof of `put`, `clear`, `take`
note: src/calls.rt:211:1: it is not proved that what the function ensures holds when it returns (`returns-in-Some-Some`)
fn fx_baton::calls::retired: no proof: expected answers in ./proofs/calls/retired/Answers.antt; `search` did not prove it
note: `search` has not tried the goals of `fx_baton::calls::BatonTableFileTable::clear`, which wait for a callee's proof
fn fx_baton::calls::BatonTableFileTable::clear: not proved; it calls `fx_baton::calls::retired`, which is not proved
fn fx_baton::calls::BatonTableFileTable::release: proved, may wait
fn fx_baton::calls::BatonTableFileTable::take: no proof: it calls `fx_baton::calls::retired`, which is not proved
fn fx_baton::laws::split_keeps_rule: proved where its callers give what it asks
logic=not-proved
"""
# the report of a crate with both
TOLD = ["fx_baton::calls::retired is not proved:", "fx_baton::calls::BatonTableFileTable::clear is not proved:",
        "    src/calls.rt:211: it is not proved that what the function ensures holds when it returns"]
# and without the line of a goal
BY_HAND = "    proofs/calls/BatonTableFileTable/clear/Answers.antt:22:5: error: `give_back-requires`: the two types first differ"
# the prover's lines by the edits that are in the text
NOTHING = ["nothing_in_a_wait", "nothing_in_a_caller"]
RECORDED = {frozenset(EDITS): (BOTH_REFUSED, 1), frozenset(): (ALL_PROVED, 0), frozenset(NOTHING): (ALL_PROVED, 0),
            **{frozenset([it]): (ALL_PROVED, 0) for it in NOTHING}}


def recorded(folder, _paths=(), _jobs=()):
    """What the prover said of the edits that are in the folder's text."""
    text = read(f"{folder}/src/calls.rt")
    there = frozenset(name for name, (old, new, _) in EDITS.items() if new in text and (old in new or old not in text))
    return RECORDED.get(there, ("nothing is recorded of these edits", 2))


def told_of_edits(wrong_bodies):
    """The lines that wrong-bodies writes of the edits, tried in one check at first."""
    with tempfile.TemporaryDirectory() as folder, contextlib.redirect_stdout(io.StringIO()) as told:
        wrong_bodies.KEPT = folder
        text = "".join(f"[{name}]\nfile: src/calls.rt\nold: {old}\nnew: {new}\n\n" for name, (old, new, _) in EDITS.items())
        tried = [wrong_bodies.Edit("fx_baton", *it) for it in edits.parts(text)]
        wrong = [it for it in tried if it.wrong]
        if not wrong:
            wrong_bodies.try_crates(tried, 1)
    return [f"{it.name}: {it.wrong}" for it in wrong] + told.getvalue().splitlines()


def command():
    by_prover = sys.argv[1:] == ["--prover"]
    checks = Counted("wrong bodies")
    if not by_prover:
        wrong_bodies.prove = recorded
        proved.PARTS = ("src",)
    lines = told_of_edits(wrong_bodies)
    for name, (_, _, wanted) in EDITS.items():
        is_told = any(it.startswith(f"fx_baton/{name}: {wanted} (") for it in lines)
        checks.want(is_told, f"of {name} not '{wanted}' was reported, but: {' | '.join(lines)}")
    said = complaints(BOTH_REFUSED.split("\n"))
    checks.want(said == TOLD, f"refusals.py says {said}")
    said = complaints([it for it in BOTH_REFUSED.split("\n") if not it.startswith("note: src")])
    checks.want(said == [*TOLD[:2], BY_HAND], f"refusals.py says of a proof by hand {said}")
    is_known = not refused_functions(ALL_PROVED.split("\n")) and not unknown_lines(f"{ALL_PROVED}{BOTH_REFUSED}".split("\n"))
    checks.want(is_known, "a function that is proved is taken for a refused one")
    names = "fx_baton::table::BatonTable::deal", "fx_baton::kinds::Deal::deal"
    own, other = (wrong_bodies.is_function("fx_baton", it, "life", "BatonTable", "deal") for it in names)
    place = wrong_bodies.function_at("impl A<B> for Table {\n    fn f() {\n        1\n    }\n}\n", 40)
    is_found = own and not other and place == ("A", "Table", "f")
    checks.want(is_found, "a method isn't known by its type if that is in another file")
    is_unknown = unknown_lines(["fn fx_baton::calls::retired: looked at"])
    checks.want(is_unknown, "a line that the prover doesn't write today is taken for a known one")
    return checks.end()
