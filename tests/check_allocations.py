"""check-allocations FIXFILES BENCH_TABLES: counts, by tests/watch.c, the allocations of calls on which contracts are silent. FIXFILES
plays 1,000 equal chains, with what a few chains allocate. BENCH_TABLES makes 30,000 or more calls on each shared table, and allocates
for its setting alone; its calls that open or close allocate as often as is kept here."""

from scripts.checks import Counted, arguments
from scripts.programs import built
from tests.counts import counted
from tests.limits import lines, linked

TIMES = 1_000
# the most allocations of a submission, however many chains it has, and of a setting
MOST = 100
TABLES, WORKERS = ("words", "baton"), ("1", "2")
# slot 0 has the file at first, and slot 1 has none
HEAD = "file a 61", "register 0,-1"
# the requests of a chain, and how often it allocates
CHAINS = {
    ("open a at 0",): 0, ("open b at 0",): 0, ("open a at 2",): 0, ("open a any",): 0, ("open a at 1", "read 1 0 0", "close 1"): 0,
    ("close 1",): 0, ("close 2",): 0, ("update 0 0,-2",): 0, ("update 0 -1,0",): 0, ("update 0 -1,9",): 0, ("update 1 -1,0",): 0,
    ("read 0 0 0",): 0, ("close 1", "close 0"): 0, ("read 1 0 1",): 1, ("read 0 0 1",): 1, ("read 0 0 1", "read 0 0 1"): 2,
}
# allocations of calls with a table and without: for a line one, and one more for a negative number
CALLS = (
    {"range 0 2": 1, "range 1 2": 2, "register 0": 2, "sparse 1": 2, "regupdate 2 0": 2, "regupdate 0 9": 2},
    {"range 0 0": 1, "range 0 1": 2, "unregister": 2, "regupdate 0 0": 2, "register 9": 2, "sparse 257": 2},
)
# those of calls of tests/check-allocation-failures, with what sets them up and ends them
ONCE = {"add - 0": 8, "prepare - 5": 3, "open words 1": 8, "open baton 1": 9, "tags - 0": 16}
# the allocations of such a call that end it if they fail
ENDING = "tags - 0", range(1, 16)
# the kind of work, the number of slots, and how many calls find, read, install or take a file
WORKS = ("look", 16, 200_000), ("mix", 16, 150_000), ("outside", 256, 45_000), ("inside", 256, 45_000), ("allocate", 256, 30_000)


class Checks(Counted):
    def in_play(self, options, *script):
        """Returns the number of allocations of a play, without those of the reading."""
        whole, read = (counted([self.fixfiles, *options], lines(*it)) for it in (script, (*script, "no command")))
        self.want((whole.ended[0], read.ended[0]) == (0, 3), f"{script[:4]} ends with status {whole.ended[0]}, and {read.ended[0]} with a bad line")
        return whole.allocations - read.allocations

    def want_each(self, each, what, options, *script):
        found = self.in_play(options, *script)
        self.want(each * TIMES <= found <= each * TIMES + MOST, f"{TIMES} times {what} with {options} make {found} allocations, and not {each} each")

    def chains(self, table, workers):
        for chain, each in CHAINS.items():
            self.want_each(each, chain, ("--table", table, "--workers", workers), *HEAD, *linked(*chain) * TIMES, "submit")

    def calls(self):
        for more, those in zip(((), ("unregister",)), CALLS):
            for call, each in those.items():
                self.want_each(each, call, (), *HEAD, *more, *[call] * TIMES)

    def works(self, table):
        for work, slots, calls in WORKS:
            ran = counted([self.bench_tables], f"{work} {table} {slots}\n")
            wanted = 0, f"{work}: {calls} calls\nend\n"
            self.want(ran.ended[:2] == wanted and 0 < ran.allocations <= MOST, f"{work} {table} {slots} ends with {ran.ended} after {ran.allocations} allocations")

    def once(self):
        for line, wanted in ONCE.items():
            one, two = (counted([self.bench_tables], f"{line}\n" * times).allocations for times in (1, 2))
            self.want(two - one == wanted, f"`{line}` makes {two - one} allocations, and not {wanted}")
        call, those = ENDING
        for failing in those:
            ran = counted([self.bench_tables], f"{call}\n", failing)
            self.want((ran.ended[1], ran.allocations) == ("no setting\nend\n", failing + 1), f"`{call}`, where allocation {failing} fails, makes {ran.allocations}")


def command():
    given = arguments(__doc__, "fixfiles bench_tables")
    built("watch.c")
    checks = Checks("allocations", fixfiles=given.fixfiles, bench_tables=given.bench_tables)
    for table in TABLES:
        for workers in WORKERS:
            checks.chains(table, workers)
    checks.calls()
    for table in TABLES:
        checks.works(table)
    checks.once()
    return checks.end()
