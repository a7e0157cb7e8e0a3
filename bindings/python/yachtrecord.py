"""Records random calls of threads on a table of slots, and prints the log, which yachtlog judges (docs/use/RECORDING.md): record(table, seed=1).

A table has get(slot), which returns the value or None; put(slot, value); put_any(value), which fills an empty slot and returns it, or None if there
is none; and take(slot), which empties a slot and returns whether it was full. A table without `put` chooses its slots. It may have handle(), which
returns a thread's access with these calls, and rest(), which drops what is kept for later calls and waits until each removed value is dropped."""
import random
import sys
import threading
import time
from typing import Any


class Value:
    """A value for the table. The end of its last reference is a line of the log. `close` ends its use before that; only the first end counts."""
    def __init__(self, call: int, lines: list[str]) -> None:
        self.call, self.is_open, self._lines = call, True, lines

    def close(self) -> None:
        is_open, self.is_open = self.is_open, False
        self._lines.extend([f"closed {self.call}.1.0 v"] * is_open)

    __del__ = close


def _call(its: Any, kind: int, slot: int, value: Value, lines: list[str]) -> None:
    """Makes a call, between its lines. An append is one step, so the order of the lines is that of tickets."""
    call, note, is_put = value.call, lines.append, 5 <= kind < 8
    value.is_open = is_put
    if kind < 5:
        note(f"call {call} look {slot}")
        found = its.get(slot)
        note(f"done {call}.1 -9" if found is None else f"done {call}.1 0 {found.call}.1.0")
        time.sleep(0)
        note("" if found is None else f"free {call}")
    elif kind < 7 and hasattr(its, "put"):
        note(f"call {call} open v at {slot}")
        its.put(slot, value)
        note(f"done {call}.1 0")
    elif is_put:
        note(f"call {call} open v any")
        at = its.put_any(value)
        value.is_open = value.is_open and at is not None
        note(f"done {call}.1 {-23 if at is None else at}")
    else:
        note(f"call {call} close {slot}")
        note(f"done {call}.1 {0 if its.take(slot) else -9}")


def record(table: Any, seed: int = 1, threads: int = 3, rounds: int = 20, calls: int = 50, slots: int = 3, silence: float = 20) -> int:
    """Prints a log of `threads`, each with `calls` calls in each of `rounds`, after which all rest. If a call raises an exception, or none begins or
    returns for `silence` seconds, the log ends there, and standard error says why. Returns the exit status: 1 if the log ends early, 2 if
    there is no slot, or else 0. It sets the interpreter's switch interval to 10 microseconds."""
    if slots < 1:
        sys.stderr.write("recorder: the plan has no slot\n")
        return 2
    lines, why, ids = ["file v -", f"call 1 sparse {slots}", "done 1.1 0"], list[BaseException](), iter(range(2, threads * rounds * calls + 2))
    rests, settles = threading.Barrier(threads), threading.Barrier(threads, lambda: lines.append("settled"))
    def play(number: int) -> None:
        try:
            its, chance = table.handle() if hasattr(table, "handle") else table, random.Random(f"{seed} {number}")
            for nth in range(1, rounds * calls + 1):
                if not why:
                    _call(its, chance.randrange(10), chance.randrange(slots), Value(next(ids), lines), lines)
                if nth % calls == 0:
                    rests.wait()
                    getattr(its, "rest", int)()
                    settles.wait()
        except BaseException as fault:
            why.append(fault)  # it keeps the value of the call, which is perhaps in no table

    those = [threading.Thread(target=play, args=(number,), daemon=True) for number in range(threads)]
    sys.setswitchinterval(1e-5)
    for it in those:
        it.start()
    seen, since = 0, time.monotonic()
    while any(it.is_alive() for it in those) and not why:
        time.sleep(0.01)
        seen, since = (len(lines), time.monotonic()) if len(lines) > seen else (seen, since)
        if time.monotonic() > since + silence:
            why.append(TimeoutError(f"no call began or returned for {silence} s"))
    print(*filter(None, lines[:]), sep="\n", flush=True)
    sys.stderr.write(f"recorder: {why[0]!r}; the log ends there\n" if why else "")
    return len(why[:1])
