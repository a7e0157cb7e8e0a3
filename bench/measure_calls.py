"""measure-calls [TIMES]: prints the instructions and the locked steps (with a lock, or an exchange with memory) of calls of the Rust
crate, of its core as C calls it, and of arc-swap and sharded-slab (crates/bench_rust/src/calls.rs), by callgrind: the difference between
runs of TIMES calls (10,000) and of twice as many; and the cache lines that look-ups at random of 65,536 values wait for, by cachegrind.
It needs valgrind, objdump and what bench/bench-rust needs, which builds the program first."""
import os
import re
import subprocess
import tempfile

from scripts.checks import arguments
from scripts.repository import ROOT

PROGRAM = f"{ROOT}/build/bench_rust/release/bench_rust"
TABLES = "crate", "crate by key", "core", "arc-swap load", "sharded-slab"
CACHED = "crate cached", "arc-swap cache"
RANDOM = "crate", "crate by key", "sharded-slab"
CALLS = "look", "insert, remove", "insert, look, remove", "replace"


def locked():
    """Returns the addresses of the instructions of the program that lock a line of memory."""
    listing = subprocess.run(["objdump", "-d", "--no-show-raw-insn", PROGRAM], capture_output=True, text=True, check=True).stdout
    return {int(at, 16) for at in re.findall(r"^ +([0-9a-f]+):\t(?:lock |xchg +.*\()", listing, re.MULTILINE)}


def counted(those, table, calls, times):
    """Returns the instructions of a run, and how many of them are of those."""
    with tempfile.TemporaryDirectory() as room:
        words = ["valgrind", "--tool=callgrind", "--dump-instr=yes", "--dump-line=no", "--compress-pos=no", f"--callgrind-out-file={room}/out"]
        subprocess.run([*words, PROGRAM, "calls", table, calls, str(times)], check=True, capture_output=True)
        with open(f"{room}/out", encoding="utf-8") as file:
            text = re.sub(r"^calls=.*\n.*\n", "", file.read(), flags=re.MULTILINE)
    costs = [(int(at, 16), int(cost)) for at, cost in re.findall(r"^0x([0-9a-f]+) (\d+)$", text, re.MULTILINE)]
    return sum(cost for _, cost in costs), sum(cost for at, cost in costs if at in those)


def measure(those, table, calls, times):
    once, twice = (counted(those, table, calls, times * it) for it in (1, 2))
    instructions, steps = ((last - first) / times for first, last in zip(once, twice))
    print(f"{table}: {calls}: {instructions:.1f} instructions, {steps:.1f} locked", flush=True)


def missed(table, times):
    """Returns how many lines look-ups at random didn't find in a cache, of the small one and of the large one."""
    words = ["valgrind", "--tool=cachegrind", "--cache-sim=yes", "--D1=32768,8,64", "--LL=1048576,16,64", "--cachegrind-out-file=/dev/null"]
    ran = subprocess.run([*words, PROGRAM, "calls", table, "look at random", str(times)], check=True, capture_output=True, text=True)
    return [int(it.replace(",", "")) for it in re.findall(r"(?:D1 |LLd) misses: +([\d,]+)", ran.stderr)]


def command():
    os.chdir(ROOT)
    given = arguments(__doc__, numbers={"times": 10_000})
    those = locked()
    for table in TABLES:
        for calls in CALLS:
            if (table, calls) != ("sharded-slab", "replace") and not (table == "arc-swap load" and calls.startswith("insert")):
                measure(those, table, calls, given.times)
    for table in CACHED:
        measure(those, table, "look", given.times)
    times = 10 * given.times
    for table in RANDOM:
        small, large = ((last - first) / times for first, last in zip(missed(table, times), missed(table, 2 * times)))
        print(f"{table}: look at random: {small:.2f} lines beyond 32 KB, {large:.2f} beyond 1 MB", flush=True)
