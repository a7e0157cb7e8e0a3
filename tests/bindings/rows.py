"""Counts the rows of a program and those that are wrong, which are printed under its name. With --first it ends at the first wrong one."""
import sys
from pathlib import Path

NAME = Path(sys.argv[0]).name
rows = {"looked": 0, "wrong": 0}


def want(holds, what):
    rows["looked"] += 1
    if not holds:
        rows["wrong"] += 1
        print(f"{NAME}: {what}")
        if "--first" in sys.argv:
            end()


def raised(call):
    """Returns what a call raises, or None."""
    try:
        call()
    except Exception as fault:
        return fault
    return None


def raises(kind, words, call):
    fault = raised(call)
    want(type(fault) is kind and words in str(fault), f"{kind.__name__} with '{words}' expected, and {fault!r} found")


def end():
    print(f"{NAME}: {rows['looked']} looked at, {rows['wrong']} wrong")
    sys.exit(rows["wrong"] != 0)
