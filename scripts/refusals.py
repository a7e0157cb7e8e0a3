"""refusals LOG: prints in a few lines why a crate was not proved, from the prover's output: a line `fn NAME: ` for each function, and
errors in proof files.

`proved` may be followed by `, may wait`, `, may abort` or `where its callers give what it asks`: these are proved too. A function that
calls an unproved one has `no proof: it calls X, ..` or `not proved; it calls X, ..`. This doesn't count as a refusal: its goals
were proved, or nobody tried them. It is refused itself if its own proof files have an error."""
import re
import sys

LINE = re.compile(r"(?:fn|impl) (\S+): (.*)")
PROVED = re.compile(r"proved(?: where its callers give what it asks)?(?:, may (?:wait|abort))*$")
# the prover rests it with another: a callee, the methods of an impl, or a type
OF_ANOTHER = re.compile(r"it (?:calls|waits for|holds|names) |it is a (?:function|closure) of ")
# its own file has an error, which may be all that is said of it
ERROR = re.compile(r"(?:\./)?proofs/(\S+)/(?:Answers|Invariants|Proof)\.antt:\d+:\d+: error")
UNPROVED = ("not proved", "no proof")
GOAL = re.compile(r"note: (src/\S+?:\d+):\d+: it is not proved that (.*?) \(`([^`]*)`\)")


def refused_functions(lines):
    """The functions that are themselves not proved. One that is known by an error in its files alone is named without its crate."""
    said = ((line, LINE.match(line)) for line in lines if line.startswith("fn "))
    names = [at[1] for _, at in said if at and at[2].startswith(UNPROVED) and not OF_ANOTHER.search(at[2])]
    wrong = {it[1].replace("/", "::") for it in map(ERROR.match, lines) if it}
    called = {at[1] for at in map(LINE.match, lines) if at}
    for error in sorted(wrong):
        names.append(next((it for it in called if it.endswith(f"::{error}")), error))
    return list(dict.fromkeys(names))


def unknown_lines(lines):
    """The lines of functions that say what is in none of the forms above, so that a new form isn't taken for one of them."""
    forms = (*UNPROVED, "could not tell", "assumed", "not assumed", "no holes", "depends on a hole")
    said = ((it, LINE.match(it)) for it in lines if it.startswith("fn "))
    return [it for it, at in said if at and not PROVED.match(at[2]) and not at[2].startswith(forms)]


def complaints(lines):
    """What can't be read or has no type; else the functions that are themselves not proved, and what of them."""
    errors = [it for it in lines if re.match(r"src/\S+: error", it)]
    if errors:
        return errors
    goals = []
    for place, what, name in (it.groups() for it in map(GOAL.match, lines) if it):
        clause = re.search(r"clause-(\w+)$", name)
        goals.append(f"    {place}: it is not proved that {what}" + (f": {clause[1]}" if clause else ""))
    # a proof that is written by hand may fail in its own file alone
    by_hand = [f"    {it.removeprefix('./')}" for it in lines if re.match(r"(?:\./)?proofs/\S+: error: ", it)]
    return [*(f"{it} is not proved:" for it in refused_functions(lines)), *(dict.fromkeys(goals) or by_hand)]


def main(path):
    with open(path, encoding="utf-8", errors="replace") as it:
        lines = it.read().split("\n")
    print("\n".join((complaints(lines) or [f"The end of {path}:", *lines[-20:]])[:20]), file=sys.stderr)


def command():
    main(sys.argv[1])
