"""check-workers PROGRAM [--few]: checks that the program plays with the requested number of workers and over the requested table, and
writes each command's text at once (tests/watch.c). The table shows in the memory for each file number: the lock-free table has a word
and a place for each, and a list of them that is moved."""

from tests.check_allocation_failures import Outcomes
from scripts.checks import Counted, arguments
from tests.counts import counted
from tests.limits import BYTES, CHAINS, ENTRIES, MEMBERS, heaviest_submission, lines, linked
from scripts.programs import built

TABLES, MOST_WORKERS, CHAINS_OF_ONE = ("words", "baton"), 16, 400
# what a file number takes at least and at most, where a chain has more of them
BYTES_PER_NUMBER = {"words": (90, 100), "baton": (-2, 2)}
# what a worker takes: for itself, for a request, and for a file that may be closed with its tag
BYTES_OF_A_WORKER, BYTES_PER_REQUEST, BYTES_PER_CLOSE = 2048, 72, 40
# of one of 100 more small submissions, on one worker: allocations, bytes and the requests
ALLOCATIONS_EACH, BYTES_EACH = (6, 8), {"words": (800, 1_300), "baton": (5_000, 8_000)}
SMALL = "open a at 0", "read 0 0 1", "submit"
# chains with the least workers that play them so, and by how many bytes words may differ
IDLE, BYTES_OF_WORDS = ((0, 2), (1, 2), (3, 3)), 64
FEW = (1, 3, 16)

# the reads of 4,096 bytes of two submissions: some, and the most
READS = 32, CHAINS


def is_within(least, found, most):
    return least <= found <= most


def commands_and_texts():
    """A script, and the text of each of its commands that prints one."""
    reads = [line for chains in READS for line in (*[f"read 0 0 {BYTES}"] * chains, "submit")]
    script = lines(f"file a.txt {'61' * BYTES}", "sparse 1", "open a.txt at 0", "submit", "submit", *reads, "unregister", "unregister")
    return script, [it for it in Outcomes(script).texts if it]


class Workers(Counted):
    def counts(self, script, *options):
        return counted([self.program, *options], script)

    def check_threads(self, table, workers, chains, options):
        script = lines("sparse 1", *["read 0 0 0"] * chains, "submit")
        text = lines("sparse 0", *(f"1.{it + 1}.1 -9" for it in range(chains)))
        ran = self.counts(script, *options)
        wanted = min(workers, max(1, chains)) - 1
        name = f"{chains} chains over {table} on {workers} workers"
        self.want(ran.threads == wanted, f"{name} made {ran.threads} threads beside the program's own, and not {wanted}")
        self.want(ran.ended[:2] == (0, text), f"{name} ended with status {ran.ended[0]}, or wrote another text")

    def check_writes(self, table, workers):
        """Checks that each command that prints makes one write, of its text, and a submission of nothing makes none."""
        commands, texts = commands_and_texts()
        ran = self.counts(commands, "--table", table, "--workers", str(workers))
        name = f"texts of {READS} reads over {table} on {workers} workers"
        self.want(ran.ended[:2] == (0, "".join(texts)), f"{name} ended with status {ran.ended[0]}, or wrote another text")
        wanted = [len(it) for it in texts]
        self.want(ran.writes == wanted, f"{name} were written in {len(ran.writes)} parts, {ran.writes}, and not {wanted}")

    def check_table(self, table, workers, options):
        """Each chain gets as many numbers as the one with the most opens: of two equal submissions one has a chain of 16."""
        alone, reads = ["open a at 0"] * CHAINS_OF_ONE, ["read 0 0 0"] * (MEMBERS - 1)
        chains = linked(*["open a at 0"] * MEMBERS), linked("open a at 0", *reads)
        scripts = [lines("file a 61", "sparse 256", *alone, *it, "submit") for it in chains]
        many, least = (self.counts(it, *options) for it in scripts)
        statuses = many.ended[0], least.ended[0]
        self.want(statuses == (0, 0), f"opens over {table} ended with statuses {statuses}")
        numbers = (MEMBERS - 1) * (CHAINS_OF_ONE + 1)
        per_number = (many.bytes - least.bytes) / numbers
        if workers == 1:
            print(f"workers: over {table} {per_number:.1f} bytes are asked for each file number", flush=True)
        least_bytes, most_bytes = BYTES_PER_NUMBER[table]
        self.want(is_within(least_bytes, per_number, most_bytes), f"{per_number:.1f} bytes for each file number are not those of {table}, on {workers} workers with {options}")

    def check_memory(self, table, workers):
        """What several workers take more than one, in the submission with the most closes and in one with few."""
        updates = 3 * CHAINS * 4 * ENTRIES
        small = lines("sparse 1", *["read 0 0 0"] * 64, "submit")
        for script, requests, closes in ((heaviest_submission()[0], CHAINS * MEMBERS, updates), (small, 64, 0)):
            alone, several = (self.counts(script, "--table", table, "--workers", str(it)) for it in (1, workers))
            # several workers fill lists each, which are joined
            each = (several.bytes - alone.bytes) / workers
            least = BYTES_PER_REQUEST * requests + BYTES_PER_CLOSE * closes
            holds = is_within(least, each, least + BYTES_OF_A_WORKER)
            self.want(holds, f"{workers} workers over {table} ask for {each:,.0f} bytes each, of {requests} requests and {closes} closes")

    def check_small(self, table):
        """Small submissions on one worker are played on one table, which has a number for each file that they install."""
        few, many = (self.counts(lines("file a 61", "sparse 256", *SMALL * it), "--table", table, "--workers", "1") for it in (100, 200))
        self.want((few.ended[0], many.ended[0]) == (0, 0), f"small submissions over {table} ended with statuses {few.ended[0]} and {many.ended[0]}")
        for what, found, (least, most) in (("allocations", many.allocations - few.allocations, ALLOCATIONS_EACH), ("bytes", many.bytes - few.bytes, BYTES_EACH[table])):
            self.want(is_within(100 * least, found, 100 * most), f"a small submission over {table} takes {found / 100:,.1f} {what}, and not {least:,} to {most:,}")

    def check_apart(self, table):
        """Submissions that need more numbers on one table than on two take little more memory than each by itself."""
        head, opens = ("file a 61", "sparse 256"), ["open a at 0"] * (CHAINS - 1)
        heavy = linked(*[f"update 0 {','.join(['0'] * ENTRIES)}"] * 4)
        options = "--table", table, "--workers", "1"
        alone = sum(self.counts(lines(*head, *it, "submit"), *options).bytes for it in (heavy, opens))
        for one, other in ((heavy, opens), (opens, heavy)):
            both = self.counts(lines(*head, *one, "submit", *other, "submit"), *options).bytes
            # a table for both has ten times as many bytes; files are moved between the submissions
            self.want(0 < both <= alone * 1.25, f"two submissions over {table} ask for {both:,} bytes together, and for {alone:,} by themselves")

    def check_idle(self, table):
        """As many workers as there are take no more than as many as have a chain."""
        for chains, workers in IDLE:
            script = lines("sparse 1", *["read 0 0 0"] * chains, "submit")
            few, most = (self.counts(script, "--table", table, "--workers", str(it)).bytes for it in (workers, MOST_WORKERS))
            holds = abs(most - few) <= BYTES_OF_WORDS
            self.want(holds, f"for {chains} chains over {table} {workers} workers ask for {few:,} bytes, and {MOST_WORKERS} for {most:,}")


def command():
    given = arguments(__doc__, "program", "few")
    built("watch.c")
    checks = Workers("workers", program=given.program)
    checks.want([is_within(2, it, 3) for it in (1, 2, 3, 4)] == [False, True, True, False], "a number past a bound is allowed")
    for table in TABLES:
        for workers in FEW if given.few else range(1, MOST_WORKERS + 1):
            options = "--table", table, "--workers", str(workers)
            # numbers that distinguish workers from chains
            for chains in sorted({0, 1, workers - 1, workers, workers + 1, 2 * workers, 2 * MOST_WORKERS + 1}):
                checks.check_threads(table, workers, chains, options)
            checks.check_table(table, workers, options)
        for workers in (2, MOST_WORKERS):
            checks.check_memory(table, workers)
        checks.check_idle(table)
        checks.check_apart(table)
        checks.check_small(table)
        checks.check_threads(table, 1, 5, ("--table", table))
        for workers in 1, 2, 4, MOST_WORKERS:
            checks.check_writes(table, workers)
    checks.check_table("words", 1, ())
    return checks.end()
