"""Plays a script on model/model.py with the requests of each submission done in a given order, one at a time."""
import re

from model.model import ECANCELED, Player, completion_line, severs

ORDER = re.compile(r"order (\d+):((?: \d+\.\d+\.\d+(?:\.\d+)?)*)")


class Illegal(Exception):
    """A step of an order or a history that is not allowed there, or text that isn't a step."""


def want(holds, complaint):
    if not holds:
        raise Illegal(complaint)


def orders_of(lines):
    """The steps of each submission by its line `order S: S.C.M S.C.M.E ..`: a chain, a member and a place in a list, or None."""
    orders = {}
    for line in lines:
        order = ORDER.fullmatch(line)
        want(order and int(order[1]) not in orders, line)
        parts = [[int(it) for it in step.split(".")] for step in order[2].split()]
        want(all(it[0] == int(order[1]) for it in parts), line)
        orders[int(order[1])] = [(*it[1:], None)[:3] for it in parts]
    return orders


class Replayed(Player):
    """`results` has the result in the text for each place: an open at any slot takes the slot that it says."""

    def __init__(self, files, orders, results):
        super().__init__(files)
        self.orders, self.results = orders, results

    def chain(self, place, members):
        """A chain that waits for its turns: each step must be that of its next request at the table, or of the next entry."""
        is_severed, lines = False, []
        for nth, (request, linked_by) in enumerate(members, 1):
            at, (kind, *words) = (*place, nth), request
            if is_severed or not self.comes_to_the_table(request):
                res, got = (-ECANCELED, b"") if is_severed else self.perform(at, request)
            elif kind == "update":
                for entry, it in enumerate(words[1]):
                    if it != -2:
                        want((yield) == (nth, entry), f"{at} has another entry in its place of the order")
                        self.work_off(words[0] + entry, [it], lambda _: (1, *at, entry))
                res, got = len(words[1]), b""
            else:
                want((yield) == (nth, None), f"{at} isn't in its place of the order")
                self.wanted = self.results.get(at)
                res, got = self.perform(at, request)
            is_severed |= severs(request, linked_by, res)
            lines.append(completion_line(at, res, got))
        # the end is a turn too: a step that is sent here comes too late
        want((yield lines) == "end", f"{place} has a step too many")

    def lines_of(self, those):
        want(self.submissions in self.orders, f"submission {self.submissions} has no order")
        chains = [self.chain((self.submissions, nth), chain) for nth, chain in enumerate(those, 1)]
        lines = [next(it) for it in chains]
        for chain, *step in self.orders.pop(self.submissions):
            want(1 <= chain <= len(chains), f"there is no chain {chain}")
            lines[chain - 1] = chains[chain - 1].send(tuple(step))
        want(all(it is not None for it in lines), f"submission {self.submissions} is done in part")
        return [line for its in lines for line in its]


def results_in(text):
    """The results of a text by their places."""
    results = {}
    for line in text.split("\n"):
        words = line.split(" ")
        if words[0].count(".") == 2 and len(words) > 1:
            results[tuple(map(int, words[0].split(".")))] = int(words[1])
    return results


def replayed(script, text, lines):
    """The text of the script where its requests are done in the orders of these lines."""
    player = Replayed(script.files, orders_of(lines), results_in(text))
    played = player.play(script.commands)
    want(not player.orders, "there are orders of no submission")
    return played
