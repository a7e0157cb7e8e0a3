"""compare PROGRAM [COUNT [SEED]] [--few | --large]: plays random scripts, half of them with changes, on the program and on
model/model.py, and compares text, status and standard error; then the largest submissions, the examples, the scripts of tests/limits.py
and each beginning of a script. With --few it plays random ones alone, and keeps none; with --large one of the largest."""
import itertools
import random

from scripts.checks import Counted, arguments
from tests.limits import CHAINS, large_submission, limits
from model.model import ECANCELED, Script, has_failed, play, requests_of
from scripts.programs import difference, run
from model.random_scripts import random_scripts
from model.replay import results_in
from scripts.repository import read_bytes, scripts_of, write
from scripts.examples import rows

# how many of the largest submissions there are
LARGE = 8
# and how many faults the changed scripts have at least
FAULTS = 12
# words that replace others in a damaged script
WORDS = [b"", b"0", b"00", b"-1", b"-0", b"2147483648", b"0,", b"0,-1", b"07", b"0,7", b"18446744073709551615", b"18446744073709551616", b"a", b"a*", b"at", b"any", b"link", b"hardlink", b"00f", b"sparse", b"submit"]
# lines that are put into one
LINES = [b"", b"#", b"# \t", b"file c 00", b"file a 00", b"file a 0", b"submit", b"unregister", b"bogus", b"sparse", b"close 0", b"x" * 10_001]


def changed_byte(rng, text):
    at = rng.randrange(len(text) + 1)
    put = bytes([rng.choice(b"0019 ,-#\naxlsubmit\t\x7f\xff")]) if rng.random() < 0.7 else b""
    return text[:at] + put + text[at + rng.choice([0, 1]) :]


def changed_part(rng, text, end, others):
    """One of the parts between these bytes is put away, put in twice, or put in place of another."""
    parts = text.split(end)
    at = rng.randrange(len(parts))
    there = rng.choice(parts + others)
    parts[at : at + rng.choice([0, 1])] = rng.choice([[], [there], [there], [parts[at], there]])
    return end.join(parts)


def changed(rng, text):
    for _ in range(rng.choice([1, 1, 1, 2, 3])):
        kind = rng.random()
        if kind < 0.5:
            text = changed_byte(rng, text)
        elif kind < 0.75:
            lines = text.split(b"\n")
            at = rng.randrange(len(lines))
            lines[at] = changed_part(rng, lines[at], b" ", WORDS)
            text = b"\n".join(lines)
        else:
            text = changed_part(rng, text, b"\n", LINES)
    return text


def large_scripts(seed):
    for chains in (CHAINS, CHAINS + 1):
        yield large_submission(chains).encode()
        yield from (script for _, script in random_scripts("large", seed, 3, chains=(chains,)))


def kept_scripts():
    whole = read_bytes("examples/open_read_close.script")
    yield from (whole[:count] for count in range(len(whole)))
    yield from (script for _, script in scripts_of("examples", "examples/questions"))
    yield from (it.script for it in rows())
    yield from (script.encode() for _, script, *_ in limits())


def odd_scripts(rng, seed, count):
    """Every second one is changed. The last line of some has no end."""
    for nth, (_, script) in enumerate(random_scripts("odd", seed, count)):
        script = script.removesuffix(b"\n") if rng.random() < 0.25 else script
        yield changed(rng, script) if nth % 2 else script


def hard_links_that_matter(text, written):
    """Returns the number of members of a good script that fail, have a hard link and are followed by a member."""
    results = results_in(written)
    return sum(
        linked_by == "hardlink" and results[place] != -ECANCELED and has_failed(request, results[place])
        for place, request, linked_by in requests_of(Script(text)) if (*place[:2], place[2] + 1) in results)


def command():
    given = arguments(__doc__, "program", "few large", {"count": 4000, "seed": 1})
    checks, keeps = Counted("compare"), not given.few and not given.large
    randoms = [] if given.large else list(odd_scripts(random.Random(given.seed), given.seed, given.count))
    large = [] if given.few else list(itertools.islice(large_scripts(given.seed), 1 if given.large else None))
    names, hard, played = [], 0, 0
    for nth, script in enumerate(itertools.chain(randoms, large, kept_scripts() if keeps else ())):
        written, status, fault = play(script)
        said = f"fixfiles: line {fault.line}: {fault.name}\n" if fault else ""
        differs, kept = difference(run([given.program], script), (status, written, said)), f"build/compare-{given.seed}-{nth}.script"
        checks.want(not differs, f"the program and the model differ on {kept}: it {differs}")
        if differs and keeps:
            write(kept, script)
        if nth < len(randoms):
            names += [fault.name] if fault else []
            hard += hard_links_that_matter(script, written) if fault is None else 0
        played += 1
    if keeps:
        # one in four, so that the random scripts show what a hard link does
        checks.want(hard >= given.count // 4, f"{hard} members with a failed hard link are few")
        checks.want(len(set(names)) >= FAULTS, f"the changed scripts have {len(set(names))} faults, which are few")
        checks.want(len(large) == LARGE, f"{len(large)} of the largest submissions were played, and not {LARGE}")
    print(f"compare: {played} scripts played: {len(randoms)} random ones, {len(randoms) - len(names)} of them good, with {hard} failed hard links that a member follows; "
          f"the others with {len(set(names))} faults; {len(large)} of the largest submissions, and {played - len(randoms) - len(large)} kept ones")
    return checks.end()
