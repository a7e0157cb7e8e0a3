"""write-tables: writes the tables of measurements into the pages, from the kept runs beside this file, and the minutes of proofs, from
scripts/seconds.txt. A page has each table between two lines: `<!-- bench/write-tables NAME -->` and `<!-- end -->`. tests/check-claims
complains of a page that has another text there."""
import glob
import re
import statistics

from bench.ratios import read_kept, title
from scripts.checks import arguments
from scripts.crates import minutes
from scripts.repository import ROOT, read, write

# the part of a wrong table's logs that are not legal, from which on their size shows the fault
SHOWING = 0.9
FULL = "128 of 256 full", "2,048 of 4,096 full", "32,768 of 65,536 full"


def found(path, pattern):
    """Returns what a pattern finds in a kept run, at each place."""
    those = re.findall(pattern, read(path), re.MULTILINE)
    if not those:
        raise ValueError(f"{path} has nothing of {pattern}")
    return those


def span(numbers, decimals=2):
    """Returns the least and the greatest of some numbers."""
    numbers = sorted(float(str(it).replace(",", "")) for it in numbers)
    return " to ".join(dict.fromkeys(f"{it:,.{decimals}f}" for it in (numbers[0], numbers[-1])))


def lines(rows):
    """Returns rows of cells as an indented block, in columns."""
    widths = [max(map(len, it)) for it in zip(*rows)]
    return "\n".join("    " + "   ".join(cell.ljust(width) for cell, width in zip(row, widths)).rstrip() for row in rows)


def cells(rows):
    """Returns rows of cells as a table, the first one as its head."""
    head, *rest = ("| " + " | ".join(row) + " |" for row in rows)
    return "\n".join([head, "|" + "---|" * len(rows[0]), *rest])


def ratio(path, what, own, other):
    """Returns how often a table took another one's time in a row: the median of the kept runs."""
    return statistics.median(read_kept(read(path))[what, own, other])


def on_threads(path, name, own, other):
    return [f"{ratio(path, title(name, threads), own, other):.2f}" for threads in (1, 2, 4)]


def crate(name, other, own="Rust crate"):
    return on_threads("bench/rust.txt", name, own, other)


def pairs(full, own="Rust crate"):
    return crate(f"insert, get and remove, {full}", "sharded-slab keys", own)


def elsewhere(name):
    """Returns the ratios of a row on the other machine, the least and the greatest on 1, 2 and 4 threads."""
    return [number for it in found("bench/elsewhere.txt", rf"^{name}: (.*)$")[0].split("; ") for number in it.split(" to ")]


LOOKS, BY_KEY = "look and release: crate / arc-swap load", "insert, get and remove by key: crate / sharded-slab"


def on_machines():
    """Returns the ratios of two rows, the least and the greatest of both machines."""
    here = {LOOKS: [*crate("look and release, 256 slots", "arc-swap load"), *crate("look and release, 1 slot", "arc-swap load")],
            BY_KEY: [it for full in FULL for it in pairs(full, "Rust crate keys")]}
    return [span([*here[it], *elsewhere(it)], 1) for it in (LOOKS, BY_KEY)]


def summary():
    """Returns the first table of the page of speed."""
    looks, by_key = on_machines()
    slab = [crate(f"look and release, {slots} slots", "sharded-slab keys")[2] for slots in ("4,096", "65,536")]
    return cells([
        ("on 1 to 4 threads", "times as long as", "ratio"),
        ("a look-up by slot, and the drop of its guard", "`load` of arc-swap", f"{looks} (two machines)"),
        ("", "a look-up of sharded-slab", f"{slab[0]} of 4,096 slots, {slab[1]} of 65,536 (four threads)"),
        ("a cached slot", "`load` of arc-swap's Cache", span(crate("a cached slot", "arc-swap cache", "Rust crate cached"))),
        ("90 % look-ups, 10 % replacements", "the same with arc-swap", f"{crate('90 % look, 10 % replace, 256 slots', 'arc-swap load')[2]} (four threads)"),
        ("an insertion, a look-up and a removal, by slot", "the same with sharded-slab", f"{span(pairs(it)[2] for it in FULL)} (four threads)"),
        ("the same by key", "", f"{by_key} (two machines)"),
    ])


def of_crate():
    rows = [("crate / other", "1 thread", "2 threads", "4 threads")]
    rows += [(f"{it}: arc-swap load", *crate(it, "arc-swap load")) for it in ("look and release, 256 slots", "look and release, 1 slot")]
    for it in ("look and release, 4,096 slots", "look and release, 65,536 slots"):
        rows += [(f"{it}: sharded-slab", *crate(it, "sharded-slab keys")), ("the same by key", *crate(it, "sharded-slab keys", "Rust crate keys"))]
    rows += [(f"a cached slot: arc-swap {name}", *crate("a cached slot", f"arc-swap {it}", "Rust crate cached")) for name, it in (("Cache", "cache"), ("load", "load"))]
    rows += [("90 % look, 10 % replace, 256 slots: arc-swap", *crate("90 % look, 10 % replace, 256 slots", "arc-swap load"))]
    rows += [(f"insert, get and remove, {it}: sharded-slab", *pairs(it)) for it in FULL]
    rows += [(f"the same by key, {it}", *pairs(it, "Rust crate keys")) for it in FULL]
    return lines(rows)


def of_calls():
    """Returns the instructions and the locked steps of calls, and the lines of memory that a look-up at random waits for."""
    tables = {"crate": "crate", "by key": "crate by key", "core for C": "core", "arc-swap load": "arc-swap load", "sharded-slab": "sharded-slab"}
    text, rows = read("bench/calls.txt"), [("", *tables)]
    for name in ("look", "insert, remove", "insert, look, remove", "replace"):
        # an arc-swap has no free slots
        those = ["" if it == "arc-swap load" and name.startswith("insert") else it for it in tables.values()]
        counts = [re.search(rf"^{it}: {name}: ([\d.]+) instructions, ([\d.]+) locked", text, re.MULTILINE) for it in those]
        rows.append((name, *(f"{float(it[1]):.0f} ({it[2]})" if it else "" for it in counts)))
    ours, theirs = found("bench/calls.txt", r"^(?:crate cached|arc-swap cache): look: ([\d.]+) instructions")
    rows.insert(2, ("a cached slot", f"{float(ours):.0f} (0.0)", "", "", f"{float(theirs):.0f} (0.0)", ""))
    misses = [re.search(rf"^{it}: look at random: .*, ([\d.]+) beyond 1 MB", text, re.MULTILINE) for it in tables.values()]
    return lines([*rows, ("lines fetched at random", *(it[1] if it else "" for it in misses))])


def median(path, name, word):
    """Returns the median, over the kept runs, of what follows a word in a row."""
    return statistics.median(map(int, found(path, rf"^\w+: {re.escape(name)}: .*?\b{word} ([\d ]+)")[0].split()))


def of_tails():
    """Returns the nanoseconds of single calls, the least and the greatest of the calls of a table."""
    rows = [("", "half", "99 %", "99.99 %")]
    for shown, table, calls in (("the crate's calls", "Rust crate", ("look and release", "insert", "remove")),
                                ("arc-swap: look up", "arc-swap load", ("look and release",)), ("arc-swap: replace", "arc-swap load", ("insert", "remove"))):
        names = [f"{table}, {writing} writing: {it}" for writing in (1, 58) for it in calls]
        rows.append((shown, *(span((median("bench/tails.txt", it, word) for it in names), 0) for word in ("p50", "p99", r"p99\.99"))))
    return lines(rows)


def of_searches():
    """Returns the microseconds of an insertion and a removal in a table with two empty slots."""
    rows = [("microseconds", "4,096 slots", "65,536 slots", "1,048,576 slots")]
    for who in ("the same handle", "another one"):
        names = [f"insert and remove by {who}, 2 of {slots} slots empty" for slots in (4096, 65536, 1048576)]
        rows.append((f"removed by {who}", *(f"{median('bench/searches.txt', it, 'median') / 1000:.1f}" for it in names)))
    return lines(rows)


def of_fills():
    """Returns how many times as long 16 handles in turn need to fill a table as one."""
    sizes = [1 << it for it in range(12, 21, 2)]
    ratios = (found("bench/searches.txt", rf"^searches: fill {it} slots by 16 handles: .* ratio ([\d. ]+)$")[0].split() for it in sizes)
    return lines([("slots", *(f"{it:,}" for it in sizes)), ("16 handles / one handle", *(f"{statistics.median(map(float, it)):.2f}" for it in ratios))])


def of_lasting():
    rows = [("the core's calls / sharded-slab, by its own keys", "1 thread", "2 threads", "4 threads")]
    names = [f"{work}, {it}" for work in ("own-slot chains", "allocation and take") for it in (FULL[1], "4,092 of 4,096 full", FULL[2])]
    names += ["look and release, 4,096 slots", "look and release, 65,536 slots"]
    return lines([*rows, *((it, *on_threads("bench/tables.txt", it, "lasting", "sharded-slab keys")) for it in names)])


def of_others():
    """Returns ratios of the core and of the crate to others, the least and the greatest of several rows."""
    titles = dict.fromkeys(row for row, *_ in read_kept(read("bench/tables.txt")))

    def ratios(pattern, own, other):
        return span(ratio("bench/tables.txt", it, own, other) for it in titles if re.match(pattern, it))

    return lines([
        ("chains and allocations, 1 thread: core / plain words", ratios("(own-slot|allocation).*1 thread$", "lasting", "lasting words")),
        ("the same, 2 and 4 threads", ratios("(own-slot|allocation).*threads$", "lasting", "lasting words")),
        ("allocations, half full: core / slots over a slab", ratios(f"allocation.*({'|'.join(FULL)})", "lasting", "sharded-slab")),
        ("allocations of the last four slots, 2 and 4 threads", ratios("allocation.*4,092 of 4,096 full, . threads", "lasting", "sharded-slab")),
        ("opening and closing, 4,096 slots: core / plain words", ratios("opening", "lasting", "lasting words")),
        ("the same: crate / sharded-slab", ratios("opening", "Rust crate", "sharded-slab keys")),
    ])


def of_program():
    """Returns the instructions of fixfiles by those of plain Rust, and the times of more workers by those of one."""
    rows = [("script", "fixfiles / plain")]
    rows += found("bench/program.txt", r"^bench: (.*?)(?: over words)?: ([\d.]+) times the plain")
    workers = [("by the clock, times as long as on one worker", "2 workers", "4 workers")]
    name = "1,023 chains of 16 at one of 256 slots each"
    those = found("bench/program.txt", rf"^bench: {name}, in .* runs: ([\d. ]+) times that of one worker on 2 and ([\d. ]+) times on 4")[0]
    workers.append((name, *(f"{statistics.median(map(float, it.split())):.2f}" for it in those)))
    return f"{lines(rows)}\n\n{lines(workers)}"


def of_judge():
    """Returns the CPU seconds of the judge of logs, for each kind of fault a dash if it gave no verdict."""
    rows = [("log", "seconds of CPU time")]
    for calls, count, seconds in found("bench/logs.txt", r"^(\d+) calls, 5 open, (\d+) lines: legal ([\d.]+)"):
        rows.append((f"{int(calls):,} calls, 5 open, {int(count):,} lines: legal", seconds))
    calls, seconds = found("bench/logs.txt", r"^(\d+) calls, 6 open, .*: not legal ([\d.]+);")[0]
    rows.append((f"{int(calls):,} calls, 6 open: not legal", seconds))
    faults = [("open", "legal", *re.findall(r"(\w+) [\d.]+ \(", read("bench/faults.txt").splitlines()[0]))]
    for width, legal, those in found("bench/faults.txt", r"^5000 calls, (\d+) open: legal ([\d.]+), (.*)$"):
        faults.append((width, legal, *("-" if verdict else seconds for seconds, verdict in re.findall(r"([\d.]+) \((no verdict)?", those))))
    return f"{lines(rows)}\n\n{lines(faults)}"


def of_lives():
    machine, slab, other = found("bench/direct.txt", r"^machine (.*), slab (.*), ratio (.*)$")[0]
    chain, of_chain = found("bench/direct.txt", r"^chain (.*), ratio (.*)$")[0]
    rows = [("a life by requests", f"{machine} instructions", slab, other), ("a life by a chain of three", f"{chain} instructions", slab, of_chain)]
    return lines([("", "libyachtdirect", "slab in plain Rust", "ratio"), *rows])


def of_machine():
    (few, least), (many, most) = [map(int, it) for it in found("bench/direct.txt", r"^a machine of (\d+) slots: (\d+) bytes")]
    each = (most - least) // (many - few)
    return f"A machine of lives (`fx_direct`) with S slots allocates {each} S + {least - each * few} bytes when it opens, and nothing later."


def of_memory():
    """Returns the memory of tables of the Rust crate."""
    (seat, handle), = found("bench/memory.txt", r"each seat ([\d.]+) bytes, and each handle ([\d.]+) for each seat")
    (first, further), = found("bench/memory.txt", r"first 4096 slots ([\d.]+) bytes, each further one ([\d.]+)")
    rows = [("memory of", "")]
    rows += [(f"a table of {int(slots):,} slots, {handles} handles, {int(seats):,} seats", f"{size} MB") for slots, handles, seats, size in
             found("bench/memory.txt", r"^memory: (\d+) slots, (\d+) handles, (\d+) seats: ([\d.]+) MB")]
    each = ("each of the first 4,096 slots", first), ("each further slot", further), ("each seat", seat), ("each handle, for each seat", handle)
    return cells([*rows, *((words, f"{size} bytes") for words, size in each)])


def of_wrong():
    """Returns for each way in which a table is wrong: of one wrong call in how many, and the calls, what was judged of its logs."""
    rows = {}
    for way, rare, logs, those in found("bench/recording.txt", r"^(\w+):(\d+): of (\d+) logs are not legal: (.*)$"):
        rows.setdefault(way, {})[int(rare)] = {int(calls): (int(wrong), int(logs)) for wrong, calls in re.findall(r"(\d+) of (\d+) calls", those)}
    return rows


def of_rare_calls():
    ways = {"stale": "a look returns what the slot had before", "early": "a removed value is dropped in use", "lost": "a removed value is never dropped",
            "take": "a removal says the opposite", "full": "a put at any slot says that all are full"}
    rows, those = [], of_wrong()
    for way, words in ways.items():
        least = [[calls for calls, (wrong, logs) in sorted(sizes.items()) if wrong >= SHOWING * logs] for _, sizes in sorted(those[way].items())]
        rows.append((words, *(f"{it[0]:,}" if it else "more" for it in least)))
    return cells([("wrong call", *(f"one of {it:,}" for it in sorted(those["stale"]))), *rows])


def quoted(path, pattern):
    """Returns lines of a kept run as an indented block."""
    return "\n".join(f"    {it}".rstrip() for it in found(path, pattern))


TABLES = {
    "calls": of_calls, "crate": of_crate, "judge": of_judge, "lasting": of_lasting,
    "lives": of_lives, "machine": of_machine, "memory": of_memory, "others": of_others, "program": of_program,
    "rare-calls": of_rare_calls, "fills": of_fills, "searches": of_searches, "summary": summary, "tails": of_tails,
    "conform": lambda: quoted("bench/conform.txt", r"^# scripts: .*|^# Totals: .*"),
    "litmus": lambda: quoted("bench/litmus.txt", "^(?!#).*$").removesuffix("\n"),
}
# what is between other words of a page: the words before it, its form, and what writes it
MINUTES, RATIOS = r"\d+ to \d+ minutes", r"[\d.]+ to [\d.]+"
INLINE = (
    ("README.md", "    make run +# ", MINUTES, lambda: minutes("fx_cli")), ("README.md", "    make test +# ", MINUTES, minutes),
    ("README.md", r"builds `fixcheck` \(", MINUTES, lambda: minutes("check_cli")),
    ("README.md", r"looks up in \[", RATIOS, lambda: on_machines()[0]), ("README.md", r"inserts and removes in \[", RATIOS, lambda: on_machines()[1]),
    ("docs/use/CHECKING.md", r"builds `fixcheck` before that \(", MINUTES, lambda: minutes("check_cli")),
    ("docs/use/KERNEL.md", r"build `fixcheck` once \(", MINUTES, lambda: minutes("check_cli")),
    ("docs/use/LINUX.md", r"builds `fixcheck` \(", MINUTES, lambda: minutes("check_cli")),
    ("docs/use/LINUX.md", r"`fixfiles` and `fixcheck` \(", MINUTES, lambda: minutes("fx_cli", "check_cli")),
    ("docs/inside/LIBRARY.md", r"crates below, in ", MINUTES, lambda: minutes("example_library")),
)
MARKED = re.compile(r"(<!-- bench/write-tables ([\w-]+) -->\n)(.*?)(\n<!-- end -->)", re.DOTALL)


def pages():
    ways = "README.md", "docs/*/*.md", "bindings/*/README.md"
    return [it for way in ways for it in sorted(glob.glob(way, root_dir=ROOT))]


def written(path, text):
    """Returns a page with the tables, minutes and ratios that are written into it."""
    for _, before, form, made in (it for it in INLINE if it[0] == path):
        text, count = re.subn(rf"({before}){form}", lambda it, its=made: it[1] + its(), text)
        if count != 1:
            raise ValueError(f"{path} has {count} times {before!r} and {form!r}")
    return MARKED.sub(lambda it: it[1] + TABLES[it[2]]() + it[4], text)


def named():
    return [name for it in pages() for _, name, *_ in MARKED.findall(read(it))]


def command():
    arguments(__doc__)
    for it in pages():
        write(f"{ROOT}/{it}", written(it, read(it)))
    return 0
