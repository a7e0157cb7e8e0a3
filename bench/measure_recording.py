"""measure-recording [LOGS]: counts recorded logs (10) that are not legal, of tables of which one call of N is wrong. Needs cargo, lib/."""
import itertools
import os
import subprocess

from scripts.checks import arguments
from scripts.repository import BUILD, ROOT
import yachtlog

os.environ["YACHTBANYAN_LIB_DIR"] = f"{ROOT}/lib"
TARGET = f"{BUILD}/bindings/measured"
# tables that are wrong at one of some calls, and of how many
WRONG, RARE = ("stale", "early", "lost", "take", "full"), (100, 1_000, 10_000)
# the arguments after the seed that make 300, 3,000 and 28,800 calls
SIZES = (3, 20, 5), (3, 20, 50), (3, 20, 480)


def recorded(*words):
    ran = subprocess.run([f"{TARGET}/release/recorder", *map(str, words)], capture_output=True, text=True, check=True)
    return ran.stdout.splitlines()


def count(table, seeds):
    """Prints how many of the logs of these seeds are not legal, of each size, with the calls of the last one, but its registration."""
    found = []
    for size in SIZES:
        logs = [recorded(table, it, *size) for it in seeds]
        wrong = sum(yachtlog.Log("\n".join([*lines, ""])).judge().word == "not legal" for lines in logs)
        found.append(f"{wrong} of {sum(it.startswith('call ') for it in logs[-1]) - 1} calls")
    print(f"{table}: of {len(seeds)} logs are not legal: {', '.join(found)}", flush=True)


def command():
    given = arguments(__doc__, numbers={"logs": 10})
    print(f"# {os.cpu_count()} processors, a load of {os.getloadavg()[0]:.1f}")
    environment = {**os.environ, "CARGO_TARGET_DIR": TARGET, "YACHTBANYAN_LIB_DIR": "/nonexistent"}
    words = ["cargo", "build", "--release", "--offline", "--quiet", "--no-default-features"]
    subprocess.run(words, cwd=f"{ROOT}/bindings/recorder", env=environment, check=True)
    for wrong, rare in itertools.product(WRONG, RARE):
        count(f"{wrong}:{rare}", range(1, given.logs + 1))
