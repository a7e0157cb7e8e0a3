"""Checks conflicts: that lines which fixcheck names as having no order have none, and that each of them is needed. Every order of the
requests of a submission is tried on model/model.py, one step at a time.

In `complaint_of`, for lines that a search of fixcheck found, a line that isn't named, or is left out, puts no condition on its request:
it may answer anything, and the following requests of its chain are canceled, or not, as in the text; and a file may be closed or not.
Lines of opens at any slot are never left out, and those of closed files only all together. If the lines are those of one slot, requests
at the others are left out, and none of their lines may be named.

`order_of_named` looks at the lines that any verdict names: the named lines alone must have no order, whatever the other requests
answer and whichever of them are canceled. An open at any slot still takes the slot that its line says."""
import re

from model.model import ECANCELED, Player, chains_of, severs, submitted, text_of_mark
from model.orders import Search, TooManyOrders, completion_of, pieces_of, reached

SAYS, OF_SLOT = "no order of the requests gives ", re.compile(r"which concerns? slot (\d+)")
CLOSES_NO_OTHER, FEWER = "and closes no other file", re.compile("fewer of them may contradict|there may be none without it")
NO_MEMORY = -12
CANCELS = "and cancels the same requests"
# reasons that rest on files without a line, and those that a line's place alone shows
NO_LINE = re.compile(r"(?:has no|neither has a) `closed` line|" + CLOSES_NO_OTHER)
PLACE_ALONE = re.compile(r"a file is closed once|closed files (stand|are) in order")
# with more requests than these not all orders are looked at
LARGEST_SUBMISSION = 24


class Step:
    """A request of a text, or one entry of an update: its line, from 0, and the result and the bytes there."""

    def __init__(self, line, place, request, told):
        self.line, self.place, self.request, self.told = line, place, request, told

    def slot(self):
        """Returns the slot that it accesses, or None if it finds all full."""
        kind, *words = self.request
        if kind != "open":
            return words[0]
        return words[1] if words[1] is not None else self.told[0] if self.told[0] >= 0 else None

    def may_be_left_out(self):
        return self.request[0] in ("read", "close")

    def tells(self):
        """Returns whether its line depends on what is at the slots: a read's or a close's, or that of an open at any slot."""
        return self.may_be_left_out() or self.request[0] == "open" and self.request[2] is None

    def mark(self):
        """The mark of the file that it installs, if it does."""
        kind, *words = self.request
        return text_of_mark(submitted(self.place, words[2] if kind == "update" and len(words) > 2 else 0))


def before(script, lines, command):
    """The player before a command, and the first line that it prints, before which no line of a closed file is left."""
    search, player, at = Search(lines, splits=True), Player(script.files), 0
    for earlier in script.commands[: command - 1]:
        ends = search.after(player, earlier, at)
        whole = ((it, end) for it, end in ends if not "".join(lines[end : end + 1]).startswith(("closed ", "tag ")))
        player, at = next(whole, None) or next(search.after(player, earlier, at))
    return player, at


class Submission:
    """A submission of a text: the player before it, what each chain's lines say, its first line, and the lines of closed files."""

    def __init__(self, script, lines, command):
        self.player, at = before(script, lines, command)
        self.player.submissions += 1
        self.chains, self.told, self.first, self.closed = chains_of(script.commands[command - 1][1]), [], [], {}
        for nth, chain in enumerate(self.chains, 1):
            self.first.append(at)
            self.told.append([completion_of(lines[at + it], (self.player.submissions, nth, it + 1)) for it in range(len(chain))])
            at += len(chain)
        while at < len(lines) and lines[at].startswith("closed "):
            self.closed[at] = lines[at]
            at += 1

    def has_order(self, named, closes_no_other, most):
        """Returns whether the requests have an order that results in the named lines."""
        first, goal = self.ends()
        for seen, (player, at) in enumerate(reached((self.player.copy(), first), lambda player, at: self.moves(player, at, named)), 1):
            if seen > most:
                raise TooManyOrders
            if at[0] == goal and self.closes(player, named, closes_no_other):
                return True
        return False

    def closes(self, player, named, closes_no_other):
        closed = {it for it in player.copy().closed_lines() if it.startswith("closed ")}
        return {it for nth, it in self.closed.items() if nth in named} <= closed and (not closes_no_other or closed <= set(self.closed.values()))


class OfLines(Submission):
    """One of which lines that aren't named put no condition on their requests, if these may be left out: of all slots, or of one."""

    def __init__(self, script, lines, command, slot):
        super().__init__(script, lines, command)
        self.steps = [[it for it in self.steps_of(nth) if slot is None or it.slot() in (slot, None)] for nth in range(len(self.chains))]
        if slot is not None:
            # an open that finds the range full finds a file at this slot; no other is known
            self.player.range = (slot, 1) if slot in range(self.player.range[0], sum(self.player.range)) else (0, 0)
            marks = {step.mark() for chain in self.steps for step in chain}
            marks |= {text_of_mark(file[0]) for nth, file in enumerate(self.player.slots) if file and nth == slot}
            self.closed = {at: it for at, it in self.closed.items() if it.split(" ")[1] in marks}

    def steps_of(self, nth):
        steps, chain, told = [], self.chains[nth], self.told[nth]
        for member, (request, _) in enumerate(chain):
            res, got = told[member]
            if res == -ECANCELED:
                continue
            place = self.player.submissions, nth + 1, member + 1
            steps += [Step(self.first[nth] + member, place, piece, (it, got)) for piece, it in pieces_of(request, res)]
        return steps

    def ends(self):
        return ((0,) * len(self.steps),), tuple(map(len, self.steps))

    def moves(self, player, at, named):
        places, = at
        for nth, chain in enumerate(self.steps):
            if places[nth] < len(chain):
                step, after = chain[places[nth]], player.copy()
                after.wanted = step.told[0]
                answer = after.perform(step.place, step.request)
                if answer == step.told or step.line not in named and step.may_be_left_out():
                    yield after, ((*places[:nth], places[nth] + 1, *places[nth + 1 :]),)

    def strange(self, named):
        """Returns those of the lines that don't depend on the slot; none if all are of requests that install or remove files."""
        steps = [step for chain in self.steps for step in chain]
        if named and named <= {step.line for step in steps if not step.may_be_left_out()}:
            return set()
        return named - {step.line for step in steps if step.tells()} - set(self.closed)

    def optional(self, named):
        reads = {step.line for chain in self.steps for step in chain if step.may_be_left_out()}
        return [it for it in named if it in reads]


class Free(Submission):
    """One of which lines that aren't named may be any that an order gives."""

    def ends(self):
        return (((0, 0),) * len(self.chains), frozenset()), tuple((len(chain), 0) for chain in self.chains)

    def fits(self, nth, member, answer, named):
        """Whether a request may answer this: where its line is named, what the line says."""
        return self.first[nth] + member not in named or self.told[nth][member] == answer

    def answers(self, player, nth, member, entry):
        """Each player that a member of a chain, or the next entry of its list, may leave, with what it answers."""
        request, _ = self.chains[nth][member]
        place, told = (self.player.submissions, nth + 1, member + 1), self.told[nth][member]
        # a canceled open at any slot, and one whose line can't be read, may take any
        res = told[0] if told else -ECANCELED
        piece = request if entry is None else ("update", request[1] + entry, [request[2][entry]], entry)
        slots = [None]
        if request[0] == "open" and request[2] is None and request[1] in player.names and player.free_slots():
            slots = player.free_slots() if res < 0 else [it for it in player.free_slots() if it == res]
        for slot in slots:
            after = player.copy()
            after.wanted = slot
            yield after, after.perform(place, piece)
        if request[0] == "read" and request[3] > 0:
            yield player.copy(), (NO_MEMORY, b"")

    def after_member(self, nth, member, answer, named):
        """Where a chain is after a member that answered this, or None where that isn't what named lines say."""
        if not self.fits(nth, member, answer, named):
            return None
        request, linked_by = self.chains[nth][member]
        if not severs(request, linked_by, answer[0]):
            return member + 1, 0
        rest = range(member + 1, len(self.chains[nth]))
        return (len(self.chains[nth]), 0) if all(self.fits(nth, it, (-ECANCELED, b""), named) for it in rest) else None

    def moves(self, player, at, named):
        places, _ = at
        for nth, (member, entry) in enumerate(places):
            if member == len(self.chains[nth]):
                continue
            request, _ = self.chains[nth][member]
            is_list = request[0] == "update" and not player.refusal_of_list(*request[1:3])
            for after, answer in self.answers(player, nth, member, entry if is_list else None):
                if is_list and entry + 1 < len(request[2]):
                    step = member, entry + 1
                else:
                    step = self.after_member(nth, member, (len(request[2]), b"") if is_list else answer, named)
                if step:
                    yield after, ((*places[:nth], step, *places[nth + 1 :]), frozenset(after.closed))


def complaint_of(script, text, said, most=20_000):
    """What is wrong with the lines that a verdict, `said`, names as having no order, or None. May raise TooManyOrders."""
    lines, command = text.split("\n")[:-1], int(re.search(r"command (\d+)", said[0])[1])
    of_slot = OF_SLOT.search(said[0])
    submission = OfLines(script, lines, command, int(of_slot[1]) if of_slot else None)
    named = {int(re.match(r" +(\d+): ", it)[1]) - 1 for it in said[1:]}
    closes_no_other = CLOSES_NO_OTHER in said[0]
    for line in submission.strange(named):
        return f"line {line + 1} says nothing about it"
    if submission.has_order(named, closes_no_other, most):
        return f"an order results in the lines {sorted(it + 1 for it in named)}"
    if FEWER.search(said[0]):
        return None
    for line in submission.optional(named):
        if not submission.has_order(named - {line}, closes_no_other, most):
            return f"line {line + 1} may be left out"
    closed = set(submission.closed)
    if not closes_no_other and named & closed:
        return "it names files that are closed, and doesn't rest on them"
    if closes_no_other and of_slot and not closed <= named:
        return "it doesn't name each closed file of the slot"
    if closes_no_other and of_slot and not submission.has_order(named - closed, False, most):
        return "it doesn't matter which files are closed"
    return None


def order_of_named(script, text, said, most=20_000):
    """Whether an order gives the lines that a verdict names, or None if its reason needs no order. May raise TooManyOrders."""
    if len(said) < 2 or not said[0].startswith("not legal: ") or PLACE_ALONE.search(said[0]) or CANCELS in said[0]:
        return None
    lines, command = text.split("\n")[:-1], int(re.search(r"command (\d+)", said[0])[1])
    if len(script.commands[command - 1][1]) > LARGEST_SUBMISSION:
        raise TooManyOrders
    named = {int(re.match(r" +(\d+): ", it)[1]) - 1 for it in said[1:]}
    return Free(script, lines, command).has_order(named, bool(NO_LINE.search(said[0])), most)
