"""Finds all texts of a tiny script: plays every order of its chains' members, and of the entries of updates, each on a player of its
own, so that no order is left out. Nothing answers -12 here. tests/check-outcomes compares the lists of fixcheck with it."""
from model.model import ECANCELED, Player, Script, chains_of, completion_line, severs
from model.orders import TooManyOrders

# the most orders of a script; with more it is left out
MOST_ORDERS = 20_000


class Interleavings:
    """`texts` has every text, and `orders` counts the orders that were played of all submissions."""

    def __init__(self, text, most=MOST_ORDERS):
        self.script, self.most, self.orders, self.texts = Script(text), most, 0, set()
        self.go_on(Player(self.script.files), 0, [])

    def go_on(self, player, nth, lines):
        """Plays the commands from the nth on; the lines are those before it."""
        if nth == len(self.script.commands):
            self.texts.add("".join(f"{it}\n" for it in lines + player.copy().end()))
            return
        command, player = self.script.commands[nth], player.copy()
        if command[0] != "submit" or player.refusal_of_submission(command[1]):
            more = player.command(*command)
            self.go_on(player, nth + 1, lines + more)
            return
        player.submissions += 1
        self.submit(player, [list(it) for it in chains_of(command[1])], {}, {}, lambda left, more: self.go_on(left, nth + 1, lines + more))

    def submit(self, player, chains, answers, entries, then):
        """`answers` has the completion of each place, and `entries` how far an update's list is done. What is left goes to `then`."""
        left = [nth for nth, chain in enumerate(chains, 1) if (nth, len(chain)) not in answers]
        if not left:
            self.orders += 1
            if self.orders > self.most:
                raise TooManyOrders
            after = player.copy()
            told = [completion_line((player.submissions, *place), *answers[place]) for place in sorted(answers)]
            then(after, told + after.closed_lines())
        for nth in left:
            member = next(it for it in range(1, len(chains[nth - 1]) + 1) if (nth, it) not in answers)
            self.turn(player, chains, answers, entries, then, nth, member)

    def turn(self, player, chains, answers, entries, then, nth, member):
        """A member's turn: the whole request, or an entry of its list."""
        request, linked_by = chains[nth - 1][member - 1]
        place = player.submissions, nth, member
        if request[0] == "update" and not player.refusal_of_list(*request[1:]):
            at, after = entries.get((nth, member), 0), player.copy()
            after.work_off(request[1] + at, request[2][at : at + 1], lambda _: (1, *place, at))
            if at + 1 < len(request[2]):
                self.submit(after, chains, answers, {**entries, (nth, member): at + 1}, then)
            else:
                self.submit(after, chains, {**answers, (nth, member): (len(request[2]), b"")}, entries, then)
            return
        is_any = request[0] == "open" and request[2] is None
        for slot in range(max(len(player.slots), 1) if is_any else 1):
            after = player.copy()
            after.wanted = slot
            res, got = after.perform(place, request)
            # an open that was to take this slot and didn't is one of another turn of the loop
            if is_any and res != slot and (res >= 0 or slot):
                continue
            told = {**answers, (nth, member): (res, got)}
            if severs(request, linked_by, res):
                told |= {(nth, it): (-ECANCELED, b"") for it in range(member + 1, len(chains[nth - 1]) + 1)}
            self.submit(after, chains, told, entries, then)


def texts_of_all_orders(text, most=MOST_ORDERS):
    return Interleavings(text, most).texts
