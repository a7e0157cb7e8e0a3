"""reasons LOG: checks whether each step of the reason why a log is not legal follows from the log and from earlier steps, and whether they
contradict each other. The exit status is 0 if it is so, 1 if it isn't, and 2 if no reason is found.

Written from docs/inside/FLIGHT.md and docs/inside/MODEL.md alone; it shares only the reader of lines with the library's modules. A step
is the rule, the lines of its events, the number of an access, the numbers of earlier steps, the earlier point, the later point, and
whether they differ in time. A point is EVENT and its line, ACCESS, the line of the answer and a number, PUT and a mark, or GONE, a mark
and a slot."""
import collections
import functools
import sys

import yachtlines

EVENT, ACCESS, PUT, GONE = "event", "access", "put", "gone"
CANCELED = -125


class Wrong(Exception):
    """Why a step doesn't follow."""


def want(holds, why):
    if not holds:
        raise Wrong(why)


class Log:
    """What the lines of a log say, as the module yachtlines reads them. With `tags`, the tag of a file comes in place of its close."""

    def __init__(self, text, tags=False):
        self.read = yachtlines.Lines(text)
        self.all = list(self.read.readings())[tags]
        # the answer of a read of a pipe comes before the end of its hold
        self.events = {it.line: it for it in reversed(self.all)}
        self.calls = {it.call: it.line for it in self.all if it.word == "call"}
        self.closes = {it.line: it.mark for it in self.all if it.word == "closed"}
        self.lines = {(it.call, it.member): it.line for it in self.all if it.word == "done"}
        self.size = self.read.slots

    def chain(self, call):
        want(call in self.calls, f"there is no call {call}")
        return self.read.chains[call]

    def request(self, call, member):
        """Returns the request of a member, or None if the call has no such member."""
        chain = self.chain(call)
        return chain[member - 1] if 1 <= member <= len(chain) else None

    def event_at(self, line, word):
        want(line in self.events and self.events[line].word == word, f"line {line} is no {word}")
        return self.events[line]

    def call_at(self, line):
        return self.event_at(line, "call").call

    def answer_at(self, line):
        """Returns the call and the member that a line answers, the result and what follows it."""
        it = self.event_at(line, "done")
        return it.call, it.member, *self.read.answers[it.call, it.member]

    def found_at(self, line):
        """Returns the look that a line answers, and the file that it found."""
        call, _, _, found = self.answer_at(line)
        want(self.chain(call)[0].kind == "look" and found, f"line {line} finds no file")
        return call, found

    def access(self, call_line, line, number):
        """Returns the slot that an access leaves and the file there, or None if the answer doesn't show it."""
        call = self.call_at(call_line)
        answered, member, result, _ = self.answer_at(line)
        want(answered == call, f"line {line} doesn't answer call {call}")
        want(self.request(call, member), f"call {call} has no member {member}")
        made = self.accesses_of(line)
        want(0 <= number < len(made), f"member {call}.{member} made no access {number}, as it answered {result}")
        return made[number]

    def accesses_of(self, line):
        """Returns what is known of the accesses of the member that a line answers."""
        call, member, result, _ = self.answer_at(line)
        request, place = self.request(call, member), (call, member)
        kind, slot = request.kind, request.slot
        if result in (CANCELED, -12) or kind != "update" and self.refusal(request):
            return []
        if slot is None:
            return [(result, (*place, 0)) if result >= 0 else None]
        if kind == "update":
            rows = [(slot + at, (*place, at) if it >= 0 else None) for at, it in enumerate(request.entries) if it >= -1]
            return rows if result == len(request.entries) else []
        if slot >= self.size:
            return []
        if kind == "open":
            return [(slot, (*place, 0))]
        if kind == "look":
            return [(slot, self.found_at(line)[1] if result >= 0 else None)]
        # a close leaves its slot empty, whatever it finds; a read that answers -9 found it empty
        return [(slot, None) if kind == "close" or result < 0 else None]

    def found_slots(self, call_line, line, number):
        """Returns the slots at which an access finds a file, by its answer."""
        self.access(call_line, line, number)
        call, member, result, _ = self.answer_at(line)
        request = self.request(call, member)
        if request.slot is None:
            return range(self.size) if result < 0 else []
        return [request.slot] if request.kind in ("close", "read", "look") and result >= 0 else []

    def changes(self, before):
        """Yields the accesses that calls before a line may make: call, member, number, slot (None for any) and new file."""
        return (it for line, *it in self.made if line < before)

    @functools.cached_property
    def made(self):
        """The accesses that calls may make: the line of the call, and what `changes` yields of each."""
        found = []
        for call, line in self.calls.items():
            for member, it in enumerate(self.chain(call), 1):
                if it.kind in ("close", "open") and not self.refusal(it):
                    found.append((line, call, member, 0, it.slot, None if it.kind == "close" else (call, member, 0)))
                made = [at for at, entry in enumerate(it.entries) if entry >= -1 and not self.refusal(it)]
                for number, at in enumerate(made):
                    found.append((line, call, member, number, it.slot + at, (call, member, at) if it.entries[at] >= 0 else None))
        return found

    def installs(self, slot, before):
        """Returns the marks of the files that calls before a line may install at a slot."""
        return [file for *_, at, file in self.changes(before) if file and at in (slot, None)]

    def takers(self, slot, before):
        """Yields the accesses before a line that may take the file of a slot: call, member, number and new file."""
        return ((*access, file) for *access, at, file in self.changes(before) if at == slot)

    def refusal(self, request):
        """Returns the answer of a request that changes nothing, whatever is at the slots, or None."""
        if request.kind == "open" and request.name not in self.read.names:
            return -2
        if request.kind in ("open", "close", "update") and (request.slot or 0) + max(len(request.entries), 1) > self.size:
            return -22
        return -9 if any(not -2 <= it < len(self.read.contents) for it in request.entries) else None

    def slot_of(self, file, result):
        """Returns the slot at which a member that answered a result installed a file."""
        call, member, entry = file
        request = self.request(call, member)
        return result if request.slot is None else request.slot + entry

    def answer_of(self, file):
        """Returns the line and the result of the answer of the member that installs a file, or 0 twice."""
        return (self.lines[file[:2]], self.read.answers[file[:2]].result) if file[:2] in self.lines else (0, 0)

    def reads_others(self, line, file):
        """Returns whether a line answers a read with other bytes than those of a file."""
        call, member, result, more = self.answer_at(line)
        it = self.request(call, member)
        content = self.read.contents[self.read.file_of(file)]
        return it.kind == "read" and result >= 0 and content[2 * it.first : 2 * (it.first + it.count)] != more

    def left_before(self, slot, before):
        """Yields what accesses to a slot leave that were answered before a line, with the line of the call."""
        return (it for line, *it in self.left[slot] if line < before)

    @functools.cached_property
    def left(self):
        """What accesses leave at each slot, from the last answer on: the lines of the answer and of the call, and the file."""
        found = collections.defaultdict(list)
        for (call, _), line in reversed(self.lines.items()):
            for it in self.accesses_of(line):
                if it:
                    found[it[0]].append((line, self.calls[call], it[1]))
        return found

    def may_answer(self, request, result, more):
        """Returns whether a request of a chain may have a result, and words after it, whatever it finds."""
        kind, refusal = request.kind, self.refusal(request)
        if more and kind != "read":
            return False
        if refusal:
            return result == refusal
        if kind == "read":
            return not more if result == -9 else result == len(more) // 2 and request.slot < self.size
        if request.slot is None:
            return result == -23 or 0 <= result < self.size
        return result in {"open": (0,), "close": (0, -9), "update": (len(request.entries),)}[kind]


def is_put(point):
    want(point[0] == PUT, f"{point} is no installation")
    return point[1]


class Reason:
    """The steps of a reason so far: `known` has the order of each. The rules are methods: each gets the lines and the access of a
    step, the orders of its premises, and its points, and returns the order that the step adds: both points, and whether they differ
    in time."""

    def __init__(self, log):
        self.log, self.known, self.orders, self.before = log, [], set(), None

    def order(self, rule, lines, access, premises, points):
        """Returns the order that a step adds."""
        wanted = getattr(self, "_" + rule.replace("-", "_"), None)
        want(wanted, f"there is no rule {rule}")
        want(all(0 <= it < len(self.known) for it in premises), "an earlier step is none")
        return wanted(lines, access, [self.known[it] for it in premises], points)

    def _events(self, lines, access, premises, points):
        want(lines[0] < lines[1] and self.log.events.keys() >= set(lines), "the lines are in another order, or no events")
        return (EVENT, lines[0]), (EVENT, lines[1]), True

    def _begins(self, lines, access, premises, points):
        self.log.access(*lines, access)
        return (EVENT, lines[0]), (ACCESS, lines[1], access), True

    def _ends(self, lines, access, premises, points):
        self.log.access(*lines, access)
        return (ACCESS, lines[1], access), (EVENT, lines[1]), True

    def _calls(self, lines, access, premises, points):
        file = points[1][1]
        want(self.log.call_at(lines[0]) == file[0], f"line {lines[0]} doesn't call what installs {file}")
        return (EVENT, lines[0]), (PUT, file), True

    def _installed(self, lines, access):
        """Returns the slot and the file that an access installs."""
        left = self.log.access(*lines, access)
        call, member, _, _ = self.log.answer_at(lines[1])
        want(left and left[1] and left[1][:2] == (call, member), "the access installs no file")
        return left

    def _installs(self, lines, access, premises, points):
        return (PUT, self._installed(lines, access)[1]), (EVENT, lines[1]), True

    def _places(self, lines, access, premises, points):
        slot, file = self._installed(lines, access)
        return (PUT, file), (GONE, file, slot), True

    def _found(self, lines):
        """Returns the slot and the file that a look found."""
        _, file = self.log.found_at(lines[1])
        left = self.log.access(*lines, 0)
        want(left and left[1] == file, "the look found no file")
        return left

    def _follows(self, lines, access, premises, points):
        return (PUT, self._found(lines)[1]), (ACCESS, lines[1], 0), True

    def _finds(self, lines, access, premises, points):
        slot, file = self._found(lines)
        return (ACCESS, lines[1], 0), (GONE, file, slot), True

    def _closed(self, line):
        want(line in self.log.closes, f"line {line} closes no file")
        return self.log.closes[line]

    def _closes(self, lines, access, premises, points):
        return (GONE, self._closed(lines[0]), points[0][2]), (EVENT, lines[0]), True

    def _settles(self, lines, access, premises, points):
        (line,) = lines
        (put, event, is_before), (there, gone, is_there) = premises
        want(self.log.event_at(line, "settled") and is_before and event == (EVENT, line), "nothing is settled after the installation")
        want(is_there and gone[0] == GONE and put == there == (PUT, gone[1]), "the file isn't known to be at a slot")
        want(all(file != gone[1] for at, file in self.log.closes.items() if at < line), "the file was closed before")
        return (EVENT, line), gone, True

    def _empties(self, lines, access, premises, points):
        ((put, point, _),) = premises
        file, left = is_put(put), self.log.access(*lines, access)
        want(point == (ACCESS, lines[1], access), "the file isn't known to be installed before")
        want(left and left[1] != file, "the access doesn't leave the slot without the file")
        return (GONE, file, left[0]), (ACCESS, lines[1], access), False

    def _precedes(self, lines, access, premises, points):
        ((point, gone, is_strict),) = premises
        left = self.log.access(*lines, access)
        want(is_strict and point == (ACCESS, lines[1], access) and gone[0] == GONE, "the file isn't known to be there later")
        want(left and left[0] == gone[2] and left[1] != gone[1], "the access doesn't leave the slot without the file")
        return (ACCESS, lines[1], access), (PUT, gone[1]), True

    def _placed(self, premise):
        """Returns the file and the slot of the premise that an installed file was then at its slot."""
        put, gone, is_strict = premise
        want(is_strict and gone[0] == GONE and put == (PUT, gone[1]), "the file isn't known to be at the slot")
        return gone[1], gone[2]

    def _displaces(self, lines, access, premises, points):
        (put, later, _), placed = premises
        file, (other, slot) = is_put(put), self._placed(placed)
        want(later == (PUT, other) and file != other, "the other file isn't known to be installed later")
        return (GONE, file, slot), (PUT, other), False

    def _outlives(self, lines, access, premises, points):
        (put, gone, is_strict), placed = premises
        other, slot = self._placed(placed)
        want(is_strict and put == (PUT, other) and gone[0] == GONE and gone[2] == slot and gone[1] != other, "the file isn't known to be there later")
        return (PUT, other), (PUT, gone[1]), True

    def _then(self, lines, access, premises, points):
        (before, middle, is_strict), (same, after, is_later) = premises
        want(middle == same, "the second order begins elsewhere")
        return before, after, is_strict or is_later

    def _finds_closed(self, lines, access, premises, points):
        want(lines[0] < lines[1] and self._closed(lines[0]) == self.log.found_at(lines[1])[1], "the file was not closed before")
        return (EVENT, lines[1]), (EVENT, lines[1]), True

    def _closes_twice(self, lines, access, premises, points):
        want(lines[0] < lines[1] and self._closed(lines[0]) == self._closed(lines[1]), "another file was closed")
        return (EVENT, lines[1]), (EVENT, lines[1]), True

    def _closes_held(self, lines, access, premises, points):
        look, file = self.log.found_at(lines[0])
        want(lines[0] < lines[1] and self._closed(lines[1]) == file, "another file was closed, or before the look")
        want(all((it.word, it.call) != ("free", look) for it in self.log.all if it.line < lines[1]), "the look doesn't hold the file")
        return (EVENT, lines[1]), (EVENT, lines[1]), True

    def _cant_answer(self, lines, access, premises, points):
        call, member, result, more = self.log.answer_at(lines[1])
        want(self.log.call_at(lines[0]) == call and self.log.chain(call)[0].kind != "look", "another call is answered, or a look")
        want(result != -12 and (result != CANCELED or member == 1), "a member may lack memory, or be canceled after another one")
        want(not self.log.may_answer(self.log.request(call, member), result, more), "the request may have this answer")
        return (EVENT, lines[1]), (EVENT, lines[1]), True

    def _fails(self, lines, access, premises, points):
        file, (call, member, result, _) = points[1][1], self.log.answer_at(lines[1])
        want(lines[0] in self.log.events and file[:2] == (call, member) and result < 0, "the member of the file didn't fail")
        return (EVENT, lines[0]), (PUT, file), True

    def _unknown(self, lines, access, premises, points):
        ((put, event, is_before),) = premises
        file = is_put(put)
        want(is_before and event[0] == EVENT, "the file isn't known to be installed")
        want(all(own != file for *_, own in self.log.changes(event[1])), "a call may install the file")
        return put, put, True

    def _cut(self, lines, access, premises, points):
        (call, member, result, _), (other, after, last, _) = map(self.log.answer_at, lines)
        want(call == other and after == member + 1, "the answers aren't those of members that follow each other")
        request = self.log.request(call, member)
        is_short = request.kind == "read" and result < request.count
        cancels = result == CANCELED or (request.link == "link" and (result < 0 or is_short))
        want(cancels != (last == CANCELED), "the answers agree")
        return (EVENT, lines[1]), (EVENT, lines[1]), True

    def _holds(self, lines, access, premises, points):
        z, (before, after) = (ACCESS, lines[1], access), points
        own = next((it[1:] for it in points if it[0] in (PUT, GONE)), (None,))
        want(points == (z, z) or (before[0], after) == (PUT, z) or (before, after[0]) == (z, GONE), "it says nothing of a file that is there")
        slots = [it for it in self.log.found_slots(*lines, access) if after[0] != GONE or it == own[1]]
        want(any(all(file == own[0] or self._is_absent(z, lines[0], slot, file) for file in self.log.installs(slot, lines[1])) for slot in slots),
             "the access finds no file, or another one may be there")
        return before, after, after[0] != GONE

    def _is_absent(self, z, call_line, slot, file):
        """Whether a file isn't at a slot just before the access z, by earlier steps, or by the answer of the member that installs it."""
        gone = GONE, file, slot
        if self.orders & {(z, (PUT, file), False), (z, (PUT, file), True), (gone, z, True)} or self.log.reads_others(z[1], file):
            return True
        line, result = self.log.answer_of(file)
        if line == 0:
            return False
        if result < 0 or self.log.slot_of(file, result) != slot:
            return True
        return any(line < called and left != file for called, left in self.log.left_before(slot, call_line))

    def _lands(self, lines, access, premises, points):
        slot = points[1][2]
        put, may = self._landing(premises, slot)
        want(may and self.log.read.file_of(put[1]) >= 0 and self.log.request(*put[1][:2]).slot is not None, "it isn't the only slot")
        return put, (GONE, put[1], slot), True

    def _misses(self, lines, access, premises, points):
        slot = points[0][2]
        put, may = self._landing(premises, slot)
        want(not may, "the file may be installed there")
        return (GONE, put[1], slot), put, False

    def _landing(self, premises, slot):
        """Returns the file that is installed before an event, and whether a call before the event may install it at a slot."""
        ((put, event, is_before),) = premises
        file = is_put(put)
        want(is_before and event[0] == EVENT, "the file isn't known to be installed")
        return put, file in self.log.installs(slot, event[1])

    def _existed(self, lines, access, premises, points):
        return (PUT, self._closed(lines[0])), (EVENT, lines[0]), True

    def _stays(self, lines, access, premises, points):
        ((since, gone, is_there),) = premises
        want(is_there and since[0] == EVENT and gone[0] == GONE and lines[0] in self.log.events, "the file isn't known to be there")
        self._want_taker(None, since[1], gone, lines[0])
        return (EVENT, lines[0]), gone, True

    def _takes(self, lines, access, premises, points):
        taker, gone = points
        (since, there, is_there), (same, until, _) = premises
        want(is_there and since[0] == EVENT and there == same == gone and gone[0] == GONE and until[0] == EVENT, "the file isn't known to be gone")
        want(taker[0] in (ACCESS, PUT), "no access takes it")
        self._want_taker(taker, since[1], gone, until[1])
        return taker, gone, False

    def _taken_by(self, lines, access, premises, points):
        taker, gone, _ = self._takes(lines, access, premises, points[::-1])
        return gone, taker, False

    def _want_taker(self, taker, since, gone, until):
        """Raises Wrong unless only `taker` may have taken a file, which was at its slot at the line `since`, before the line `until`."""
        for it in self.log.takers(gone[2], until):
            want(self._takes_none(taker, since, gone, *it), f"member {it[0]}.{it[1]} may have taken the file")

    def _takes_none(self, taker, since, gone, call, member, number, file):
        """Whether an access can't have taken a file, but for `taker`: by earlier steps, or by the answer of its member."""
        line, result = self.log.answer_of((call, member, 0))
        # an access comes before its answer
        if file == gone[1] or result < 0 or 0 < line <= since:
            return True
        times = [(PUT, file)] if file else []
        times += [(ACCESS, line, number)] if line else []
        if any((time, gone, True) in self.orders or (gone, time, True) in self.orders for time in times):
            return True
        return taker in times or (gone, (EVENT, self.log.calls[call]), True) in self.orders

    def _suppose(self, lines, access, premises, points):
        want(self.before is None, "an order is supposed already")
        self.before = list(self.known), set(self.orders)
        return *points, True

    def _otherwise(self, lines, access, premises, points):
        want(self.before is not None and self.is_contradicted(), "no order is refuted")
        (known, self.orders), self.before = self.before, None
        before, after, _ = self.known[len(known)]
        self.known = known + [(after, before, False)] * (len(self.known) - len(known))
        return after, before, False

    def is_contradicted(self):
        before, after, is_strict = self.known[-1] if self.known else ("", "-", False)
        return is_strict and before == after

    def _differs(self, lines, access, premises, points):
        ((before, after, _),) = premises
        want(before[0] == after[0] == ACCESS and self.log.call_at(lines[0]) != self.log.call_at(lines[1]), "they are no accesses of two calls")
        self.log.access(lines[0], *before[1:])
        self.log.access(lines[1], *after[1:])
        return before, after, True


def facts_of(steps):
    """Returns the steps of a verdict of yachtjudge.judge_events as this program reads them."""
    def point(it):
        return it.kind, *{EVENT: (it.line,), ACCESS: (it.line, it.access), PUT: (it.file,), GONE: (it.file, it.slot)}[it.kind]

    return [(*it[:4], point(it.before), point(it.after), it.is_strict) for it in steps]


def complaint(text, facts, tags=False):
    """Returns what is wrong with a reason, or nothing."""
    try:
        reason = Reason(Log(text, tags))
        for nth, (rule, lines, access, premises, before, after, is_strict) in enumerate(facts):
            order = before, after, is_strict
            try:
                adds = reason.order(rule, lines, access, premises, (before, after))
                want(adds == order, f"it adds {adds}, not {order}")
            except (Wrong, ValueError, IndexError, KeyError, TypeError) as why:
                return f"step {nth}, {rule} of lines {list(lines)}: {why}"
            reason.known.append(order)
            reason.orders.add(order)
    except (ValueError, IndexError, StopIteration) as fault:
        return f"the log or the facts can't be read: {fault!r}"
    return "" if reason.is_contradicted() and reason.before is None else "the last step has no point before itself"


def command():
    import yachtjudge
    import yachtlog

    with open(sys.argv[1], "rb") as file:
        log = yachtlog.Log(file.read())
    for nth, events in enumerate(log.readings()):
        steps = yachtjudge.judge_events(log, events).reason
        if steps:
            wrong = complaint(log.source, facts_of(steps), bool(nth))
            print(wrong, end="\n" if wrong else "")
            return bool(wrong)
    return 2
