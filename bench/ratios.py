"""Prints the ratios of the tables' times, each the median over its rounds. As a program, it reads the rounds that bench_rust prints. With
`--keep TABLE,..` it prints the ratios of these tables in each of several runs instead, a line for each row, to be kept in a file."""
import itertools
import re
import statistics
import sys

# the number of this project's tables in a row, and of plain ones
MOST = 4


def title(name, threads):
    return f"{name}, {threads} {'thread' if threads == 1 else 'threads'}"


def ratio(rounds, own, other):
    return statistics.median(times[own] / times[other] for times in rounds)


def tell(what, rounds):
    """Prints a line for each of the first tables, at most `MOST`: its times by those of each table after it."""
    tables = list(rounds[0])
    for at, own in enumerate(tables[:-1][:MOST]):
        ratios = (f"{it} {ratio(rounds, own, it):.2f}" for it in tables[at + 1 :])
        print(f"bench-rust: {what}: {own} / {', '.join(ratios)}", flush=True)


def read_rounds(lines):
    """Yields each row's title with its rounds. A line has the row's name, the number of threads, and each table with its time, between tabs."""
    split = (line.rstrip("\n").split("\t") for line in lines)
    for (name, threads), cells in itertools.groupby(split, lambda it: tuple(it[:2])):
        yield title(name, int(threads)), [{table: float(time) for table, time in (it.rsplit(" ", 1) for it in line[2:])} for line in cells]


def keep(lines, owns):
    """Prints a line for each row: its title, and the ratios of each of the tables to those after it, a number for each run."""
    runs = {}
    for what, rounds in read_rounds(lines):
        runs.setdefault(what, []).append(rounds)
    for what, those in runs.items():
        tables = list(those[0][0])
        pairs = [(own, it) for own in owns if own in tables for it in tables[tables.index(own) + 1 :]]
        print(what, *(f"{own} / {it} {' '.join(f'{ratio(rounds, own, it):.4f}' for rounds in those)}" for own, it in pairs), sep="\t")


def read_kept(text):
    """Returns the numbers of a kept file by the row, the table and the one that it is compared with."""
    rows = (line.split("\t") for line in text.splitlines() if not line.startswith("#"))
    cells = ((what, re.match(r"(.*) / (.*?) ([\d. ]+)$", it).groups()) for what, *cells in rows for it in cells)
    return {(what, own, other): [float(it) for it in numbers.split()] for what, (own, other, numbers) in cells}


def command():
    if sys.argv[1:2] == ["--keep"]:
        keep(sys.stdin, sys.argv[2].split(","))
    else:
        for what, rounds in read_rounds(sys.stdin):
            tell(what, rounds)
