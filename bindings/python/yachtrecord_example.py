"""An example of yachtrecord: records random calls of three threads on a table of three slots under a lock, and prints the log
(docs/use/RECORDING.md). yachtrecord_example.py SEED [N]: one look of N returns what the slot had before. Without N the table is right."""
import argparse
import sys
import threading
from typing import Optional

import yachtrecord
from yachtrecord import Value

SLOTS = 3


class Table:
    def __init__(self, wrong_look: int) -> None:
        self.lock = threading.Lock()
        # what each slot has, and what it had before that
        self.now: list[Optional[Value]] = [None] * SLOTS
        self.before: list[Optional[Value]] = [None] * SLOTS
        self.looks, self.wrong_look = 0, wrong_look

    def get(self, slot: int) -> Optional[Value]:
        with self.lock:
            self.looks += 1
            is_wrong = self.wrong_look and self.looks % self.wrong_look == 0
            return (self.before if is_wrong else self.now)[slot]

    def swap(self, slot: int, value: Optional[Value]) -> bool:
        old, self.now[slot] = self.now[slot], value
        if old is not None:
            self.before[slot] = old
        return old is not None

    def put(self, slot: int, value: Value) -> None:
        with self.lock:
            self.swap(slot, value)

    def put_any(self, value: Value) -> Optional[int]:
        with self.lock:
            if None not in self.now:
                return None
            slot = self.now.index(None)
            self.swap(slot, value)
            return slot

    def take(self, slot: int) -> bool:
        with self.lock:
            return self.swap(slot, None)

    def rest(self) -> None:
        """Drops what the slots had before."""
        with self.lock:
            self.before = [None] * SLOTS


if __name__ == "__main__":
    parser = argparse.ArgumentParser(description=__doc__)
    parser.add_argument("seed", metavar="SEED", type=int, nargs="?", default=1)
    parser.add_argument("wrong_look", metavar="N", type=int, nargs="?", default=0)
    options = parser.parse_args()
    sys.exit(yachtrecord.record(Table(options.wrong_look), options.seed, calls=1000, slots=SLOTS))
