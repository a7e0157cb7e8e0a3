"""Runs a program and counts, by tests/watch.c, its threads, bytes, allocations and writes: an allocation is a call that requests memory
from the C library, from the start of main on. Also fails one allocation of a run after another, and checks each outcome."""
import collections
import shutil
import sys
import tempfile
from typing import NamedTuple

from scripts.checks import Counted
from scripts.programs import built, preloaded, run

# the numbers of watch.c, and how many writes it reports
NUMBERS, WRITES = 4, 64


class Ran(NamedTuple):
    """The counts of a run, what each of its writes was given, and its status, text and message."""

    threads: int
    bytes: int
    allocations: int
    writes: list
    ended: tuple


def counted(command, script, failing=0):
    """Returns the counts of a run in which the allocation of that number fails, from 1 on."""
    with tempfile.NamedTemporaryFile() as file:
        file.write(bytes(8 * (NUMBERS + WRITES)))
        file.flush()
        how = preloaded("watch", COUNTS=file.name, FAILING_ALLOCATION=str(failing))
        ended = run(command, script, **how)
        file.seek(0)
        numbers = [int.from_bytes(file.read(8), sys.byteorder) for _ in range(NUMBERS + WRITES)]
    threads, size, allocations, writes = numbers[:NUMBERS]
    return Ran(threads, size, allocations, numbers[NUMBERS:][:writes], ended)


def spread(count, most):
    """Returns which of `count` allocations fail: all, or of more than `most` some at the begin, at the end and between."""
    third = most // 3
    if count <= most:
        return range(1, count + 1)
    between = range(third + 1, count - third, max(1, (count - 2 * third) // third))
    return sorted({*range(1, third + 1), *between, *range(count - third + 1, count + 1)})


class Failures(Counted):
    """The number of allocations that failed, at most `most` of each run, and the number of wrong outcomes."""

    def can_fail(self):
        """Builds the library that fails allocations. Returns whether it could."""
        if shutil.which("cc") is None:
            print(f"{self.name}: there is no C compiler cc here, which builds what fails allocations")
            return False
        built("watch.c")
        return True

    def fail(self, name, command, given, kind_of, whole, wanted=()):
        """Fails each allocation of a command in turn. `kind_of` names an outcome, or is None; each of `wanted` must occur."""
        kinds, wrong, ran = collections.Counter(), [], counted(command, given)
        count, ended = ran.allocations, ran.ended
        if kind_of(ended, ended) != whole or count == 0:
            wrong.append(f"without a failure: {str(ended)[:300]}")
        failing = spread(count, self.most)
        for nth in failing:
            ran = counted(command, given, nth)
            # on several workers there may be an allocation less than before
            if ran.allocations >= nth:
                kind = kind_of(ran.ended, ended)
                kinds[kind] += 1
                if kind is None:
                    wrong.append(f"with allocation {nth} failing: {str(ran.ended)[:600]}")
        # the allocation after the last one does not exist
        if len(failing) == count and counted(command, given, count + 1).allocations > count + 1:
            wrong.append(f"there are more allocations than {count}")
        wrong += [f"never: {it}" for it in sorted(wanted) if it not in kinds]
        found = ", ".join(f"{it}: {kinds[it]}" for it in sorted(filter(None, kinds)))
        print(f"{self.name}: {name}: {count:,} allocations, {len(failing)} failed; {found}; {len(wrong)} wrong", flush=True)
        for it in wrong[:3]:
            print(f"{self.name}:   {it}")
        self.seen, self.wrong = self.seen + len(failing), self.wrong + len(wrong)
