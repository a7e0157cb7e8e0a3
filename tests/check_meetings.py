"""check-meetings PROGRAM FIXCHECK [COUNT [SEED]] [--few] [--turn N]: checks that the texts of threads that run at the same time are
legal. COUNT random scripts, whose chains contend for two slots, are played on 2 to 16 workers in turns of at most N instructions
(tests/step.c). If few of the texts over a table differ from one worker's, the threads didn't meet, and that is an error. Then four
workers play large submissions whose chains contend for 1, 16 or 256 slots, without turns and with. --few leaves these out; --turn 0
plays without turns."""
import random
import re

from scripts.checks import Counted, arguments
from tests.limits import CHAINS, MEMBERS, lines
from scripts.programs import LEGAL, UNDECIDED, built, in_parallel, in_turns, run, verdict
from model.random_scripts import random_scripts
from scripts.repository import write

TABLES, MOST_WORKERS = ("words", "baton"), 16
# fixcheck may leave one of this many texts undecided
DECIDED_OF = 50
# at least one of this many texts over each table differs from one worker's
DIFFERS_OF = 3
# crowds: on how many slots, by how many workers, and in how many scripts of so many submissions,
# each with the most requests, which is more than 350,000 requests for each table and size; and how
# many chains are played in turns
SIZES, CROWD, CROWDS, SUBMISSIONS, IN_TURNS = (1, 16, 256), 4, 2, 11, 64


def judged(given, case):
    """Whether the text of a play in turns differs from one worker's, whether it is left undecided, and what is wrong."""
    nth, script, workers, table = case
    alone = run([given.program, "--table", table], script)
    options = "--table", table, "--workers", str(workers)
    status, text, message = in_turns(given.program, script, nth, given.turn, *options)
    said_of, lines, _ = verdict(given.fixcheck, script, text)
    wrong = None
    if (status, message) != (0, "") or (alone[0], alone[2]) != (0, ""):
        wrong = f"ended with status {status} and said {message!r}, and on one worker with {alone[0]} and {alone[2]!r}"
    elif said_of not in (LEGAL, UNDECIDED):
        wrong = f"gave a text of which fixcheck says, with status {said_of}: {lines[:1]}"
    return text != alone[1], said_of == UNDECIDED, wrong and f"{workers} workers over {table} {wrong}"


def cases(count, seed):
    rng = random.Random(seed)
    return [(nth, script, rng.randint(2, MOST_WORKERS), TABLES[nth % 2]) for nth, (_, script) in enumerate(random_scripts("meeting", seed, count))]


def crowding(step, size):
    """The request of a step. The steps are spread over the slots by a hash."""
    slot = (step * 2_654_435_761 % 2**32 >> 16) % size
    return {0: f"open a at {slot}", 2: f"close {slot}", 4: "open a any", 6: f"update {slot} -1"}.get(step % 8, f"read {slot} 0 1")


def crowd(size, submissions, chains, first):
    """A script of full chains, none of which is severed, and how many requests each submission has."""
    script, step = ["file a 61", f"sparse {size}"], first
    for _ in range(submissions):
        for _ in range(chains):
            members = [crowding(step + it, size) for it in range(MEMBERS)]
            script += [f"{it} hardlink" for it in members[:-1]] + members[-1:]
            step += MEMBERS
        script.append("submit")
    return lines(*script), chains * MEMBERS


def complaint_of_crowd(script, requests, text):
    """What is wrong with the text of a crowd: each request completes, and of each open that answers a slot, or 0, a file is closed."""
    opens = [it.startswith("open") for it in script.split("\n") if it[:4] in ("open", "read", "clos", "upda")]
    answers = re.findall(r"^(\d+\.\d+\.\d+) (-?)\d+", text, re.M)
    wanted = [f"{it // requests + 1}.{it % requests // MEMBERS + 1}.{it % MEMBERS + 1}" for it in range(len(opens))]
    if [place for place, _ in answers] != wanted:
        return f"it has {len(answers)} completions, or others than expected, of {len(opens)} requests"
    installed = [f"{place}.0" for is_open, (place, minus) in zip(opens, answers) if is_open and not minus]
    closed = re.findall(r"^closed (\S+) a$", text, re.M)
    return None if sorted(closed) == sorted(installed) else f"{len(closed)} files are closed, and {len(installed)} were installed"


def crowded(given, case):
    """What is wrong with a crowd, if it is."""
    size, table, nth, turn = case
    script, requests = crowd(size, 1, IN_TURNS, nth) if turn else crowd(size, SUBMISSIONS, CHAINS, nth)
    options = "--table", table, "--workers", str(CROWD)
    status, text, message = in_turns(given.program, script, nth, turn, *options)
    wrong = complaint_of_crowd(script, requests, text)
    if (status, message) != (0, ""):
        wrong = f"it ended with status {status} and said {message!r}"
    elif wrong is None:
        rows = text.split("\n")
        # a text with its last line left out, and with that twice
        for spoiled in ([*rows[:-2], ""], [*rows[:-1], rows[-2], ""]):
            if complaint_of_crowd(script, requests, "\n".join(spoiled)) is None:
                wrong = "nothing complains of a text with another end"
    return wrong and f"a crowd of {CROWD} on {size} slots over {table}{' in turns' * bool(turn)}: {wrong}"


def crowds(given, checks):
    every = [(size, table, nth, turn) for size in SIZES for table in TABLES for nth, turn in [*((it, 0) for it in range(CROWDS)), (0, given.turn)]]
    # one of those that go as they like has all processors
    found = [crowded(given, it) for it in every if not it[-1]] + in_parallel(lambda it: crowded(given, it), [it for it in every if it[-1]])
    for wrong in found:
        checks.want(wrong is None, wrong)
    print(f"meetings: {len(every)} crowds of {CROWD} workers on {', '.join(map(str, SIZES))} slots, {len(every) - found.count(None)} wrong")


def command():
    options = arguments(__doc__, "program fixcheck", "few", {"count": 300, "seed": 1}, {"turn": 100})
    built("step.c")
    checks, all_cases = Counted("meetings"), cases(options.count, options.seed)
    results = in_parallel(lambda it: judged(options, it), all_cases)
    for (nth, script, _, _), (_, _, wrong) in zip(all_cases, results):
        kept = f"build/meetings-{nth}.script"
        checks.want(wrong is None, f"{kept}: {wrong}")
        if wrong and not options.few:
            write(kept, script)
    undecided = sum(it[1] for it in results)
    checks.want(undecided <= max(1, options.count // DECIDED_OF), f"fixcheck leaves {undecided} texts undecided, which are many")
    differ = {table: sum(it[0] for case, it in zip(all_cases, results) if case[3] == table) for table in TABLES}
    for table, count in differ.items():
        meet = count * DIFFERS_OF * len(TABLES) >= options.count
        checks.want(meet, f"{count} texts over {table} differ from one worker's, which are few: the threads don't meet")
    if not options.few:
        crowds(options, checks)
    print(f"meetings: {options.count} played in turns of {options.turn} instructions, of which over {' and '.join(TABLES)} "
          f"{' and '.join(map(str, differ.values()))} give a text that differs from one worker's; {undecided} undecided")
    return checks.end()
