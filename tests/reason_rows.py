"""Rows for tests/reasons.py, derived by hand: for each rule steps that follow from LOG, and last steps in their place that don't."""
from collections import namedtuple

from tests.reasons import ACCESS, EVENT, GONE, PUT, complaint

NO_CONTRADICTION = "the last step has no point before itself"
# the number of each line is that of its call, or in the comment
LOG = """\
file a 61
file b 62
call 1 sparse 2
done 1.1 0
call 2 open a at 0
done 2.1 0
call 3 look 0
done 3.1 0 2.1.0
call 4 update 0 1,-1
done 4.1 2
call 5 look 0
done 5.1 0 4.1.0
free 3
closed 2.1.0 a
settled
call 6 close 0
done 6.1 0
call 7 read 0 0 1
done 7.1 -9
closed 4.1.0 b
call 8 look 0
done 8.1 0 2.1.0
closed 2.1.0 a
call 9 look 2
done 9.1 -9
call 11 close 1
done 11.1 0
call 10 close 0 link ; open b any link ; update 1 0,0
done 10.1 1
done 10.2 -125
done 10.3 2
call 12 open a at 1
done 12.1 0 61
call 13 open a any
done 13.1 2
call 14 close 1 link ; read 1 0 1
done 14.1 -9
done 14.2 -125
closed 3.1.0 a
call 15 close 0
done 15.1 0
call 16 open b at 0
done 16.1 0
call 17 read 0 0 1
done 17.1 1 61
call 18 read 0 0 1
done 18.1 1 62
call 19 read 0 1 1
done 19.1 0
"""
A, B = (2, 1, 0), (4, 1, 0)
OPENED, LOOKED, UPDATED, FOUND, CLOSED, READ = (5, 6), (7, 8), (9, 10), (11, 12), (16, 17), (18, 19)
PUT_NONE = PUT, (0, 0, 0)
PUT_A, PUT_B, GONE_A, GONE_B = (PUT, A), (PUT, B), (GONE, A, 0), (GONE, B, 0)


Step = namedtuple("Step", "rule lines access premises before after is_strict")


def step(rule, lines, before, after, access=0, premises=(), is_strict=True):
    return Step(rule, lines, access, premises, before, after, is_strict)


def event(line):
    return EVENT, line


def access(line, number=0):
    return ACCESS, line, number


def begins(lines, nth=0):
    return step("begins", lines, event(lines[0]), access(lines[1], nth), nth)


def ends(lines, nth=0):
    return step("ends", lines, access(lines[1], nth), event(lines[1]), nth)


def installs(lines, before):
    return step("installs", lines, before, event(lines[1]))


def never(rule, *pairs):
    """Returns steps by which the second of two lines has no point in time."""
    return [step(rule, lines, event(lines[1]), event(lines[1])) for lines in pairs]


def chain(*steps):
    """Returns steps, and those that join their orders, one after another. The last one has the order from the first point to the last one."""
    made = list(steps)
    for at in range(1, len(steps)):
        last = len(made) - 1 if at > 1 else 0
        first, it = made[last], steps[at]
        made.append(step("then", (), first.before, it.after, premises=(last, at), is_strict=first.is_strict or it.is_strict))
    return made


def of_lines(earlier, later):
    return step("events", (earlier, later), event(earlier), event(later))


installs_a, installs_b = installs(OPENED, PUT_A), installs(UPDATED, PUT_B)
places_a, places_b = step("places", OPENED, PUT_A, GONE_A), step("places", UPDATED, PUT_B, GONE_B)
finds_b = step("finds", FOUND, access(12), GONE_B)
begins_found = begins(FOUND)
# chains of orders that rules have as premises, each with the number of its last step
PUT_A_PUT_B = chain(installs_a, of_lines(6, 9), step("calls", (9,), event(9), PUT_B))
PUT_B_CLOSED = chain(installs_b, of_lines(10, 16), begins(CLOSED))
PUT_B_SETTLED = chain(installs_b, of_lines(10, 15))
PUT_A_SETTLED = chain(installs_a, of_lines(6, 15))
LOOK_GONE_B = chain(ends(LOOKED), of_lines(8, 11), begins_found, finds_b)
CLEAR_GONE_B = chain(ends(UPDATED, 1), of_lines(10, 11), begins_found, finds_b)
PUT_A_GONE_B = chain(installs_a, of_lines(6, 11), begins_found, finds_b)
LOOK_CLOSE = chain(ends(LOOKED), of_lines(8, 16), begins(CLOSED))
PUT_B_FOUND = [step("follows", FOUND, PUT_B, access(12))]
A_IS_THERE = chain(begins(LOOKED), step("finds", LOOKED, access(8), GONE_A))
B_IS_THERE = chain(begins_found, finds_b)
closes_a, closes_b = step("closes", (14,), GONE_A, event(14)), step("closes", (20,), GONE_B, event(20))
# both files, gone before lines 20 and 30; the last step is that B is gone before line 28
B_IS_GONE = [*B_IS_THERE, closes_b, of_lines(20, 30), step("then", (), GONE_B, event(30), premises=(3, 4))]
B_IS_GONE_SOONER = [*B_IS_GONE, of_lines(20, 28), step("then", (), GONE_B, event(28), premises=(3, 6))]
# an order that doesn't end at an event, and an open at any slot
NO_LANDING = [step("follows", LOOKED, PUT_A, access(8)), step("calls", (28,), event(28), (PUT, (10, 2, 0)))]
# line 6 is supposed to come before line 5
SUPPOSED = [step("suppose", (), event(6), event(5)), of_lines(5, 6), step("then", (), event(6), event(6), premises=(0, 1))]
OTHERWISE = step("otherwise", (), event(5), event(6), is_strict=False)
# steps that come first, the last one, and others in its place, or what of it is another
ROWS = [
    ([], of_lines(5, 6),
     [of_lines(6, 5), of_lines(6, 6), of_lines(4, 5), of_lines(1, 5), of_lines(49, 50), of_lines(0, 5),
      step("events", (5, 6), event(5), event(6), is_strict=False), step("events", (5, 6), event(5), event(7))]),
    ([], begins(OPENED), [begins((5, 8)), begins(OPENED, 1), begins((6, 6)), begins((5, 5)), begins((24, 25)), dict(before=access(6), after=event(5))]),
    ([], ends(UPDATED, 1), [ends(UPDATED, 2), ends((9, 12)), ends((24, 25)), dict(after=event(11))]),
    ([], step("calls", (5,), event(5), PUT_A),
     [dict(lines=(9,), before=event(9)), dict(lines=(6,), before=event(6)), step("calls", (3,), event(3), (PUT, (1, 1, 0)))]),
    ([], installs_b, [dict(access=1), installs(LOOKED, PUT_A), installs(CLOSED, PUT_B), installs(UPDATED, PUT_A), installs((5, 8), PUT_A)]),
    ([], places_b, [dict(after=(GONE, B, 1)), dict(access=1), step("places", LOOKED, PUT_A, GONE_A), dict(after=GONE_A)]),
    ([], step("follows", LOOKED, PUT_A, access(8)),
     [dict(before=PUT_B), dict(lines=READ, after=access(19)), step("follows", (7, 12), PUT_B, access(12)), dict(lines=(24, 25), after=access(25))]),
    ([], finds_b,
     [dict(after=(GONE, B, 1)), dict(after=GONE_A), step("finds", (24, 25), access(25), (GONE, A, 2)), step("finds", OPENED, access(6), GONE_A)]),
    ([], step("closes", (14,), (GONE, A, 0), event(14)),
     [dict(lines=(13,), after=event(13)), dict(before=GONE_B), dict(lines=(15,), after=event(15)), dict(after=event(13))]),
    ([*PUT_B_SETTLED, places_b], step("settles", (15,), event(15), GONE_B, premises=(2, 3)),
     [dict(premises=(3, 2)), dict(premises=(0, 3)), dict(premises=(2, 2)), dict(lines=(16,), before=event(16))]),
    # a file that was closed before
    ([*PUT_A_SETTLED, places_a], of_lines(5, 6), [step("settles", (15,), event(15), GONE_A, premises=(2, 3))]),
    (PUT_B_CLOSED, step("empties", CLOSED, GONE_B, access(17), premises=(4,), is_strict=False),
     [dict(is_strict=True), dict(before=(GONE, B, 1)), dict(premises=(0,)), dict(lines=READ, after=access(19)), dict(premises=(5,))]),
    # a look that finds the file itself
    (PUT_B_FOUND, of_lines(5, 6), [step("empties", FOUND, GONE_B, access(12), premises=(0,), is_strict=False)]),
    (LOOK_GONE_B, step("precedes", LOOKED, access(8), PUT_B, premises=(6,)),
     [dict(after=PUT_A), dict(premises=(0,)), dict(premises=(3,), lines=FOUND, before=access(12)), dict(lines=READ, before=access(19))]),
    # an access to another slot
    (CLEAR_GONE_B, of_lines(5, 6), [step("precedes", UPDATED, access(10, 1), PUT_B, 1, (6,))]),
    ([*PUT_A_PUT_B, places_b], step("displaces", (), GONE_A, PUT_B, premises=(4, 5), is_strict=False),
     [dict(is_strict=True), dict(premises=(5, 4)), dict(premises=(4, 0)), dict(before=(GONE, A, 1)), dict(premises=(5, 5), before=GONE_B)]),
    ([*PUT_A_GONE_B, places_a], step("outlives", (), PUT_A, PUT_B, premises=(6, 7)),
     [dict(premises=(7, 6)), dict(premises=(7, 7), after=PUT_A), dict(before=PUT_B, after=PUT_A), dict(premises=(6, 0))]),
    ([installs_a, of_lines(6, 9)], step("then", (), PUT_A, event(9), premises=(0, 1)),
     [dict(premises=(1, 0)), dict(premises=(0, 0)), dict(premises=(0, 2)), dict(premises=(0, -1)), dict(before=event(6)), dict(is_strict=False)]),
    ([], *never("finds-closed", (14, 22)), never("finds-closed", (20, 22), (14, 8), (14, 25))),
    ([], *never("closes-twice", (14, 23)), never("closes-twice", (14, 20), (23, 14), (13, 23), (14, 14))),
    ([], *never("closes-held", (12, 20)), never("closes-held", (8, 14), (12, 14), (22, 14), (10, 20))),
    ([], *never("cant-answer", (28, 29)), [*never("cant-answer", CLOSED, READ, (24, 25), (16, 29), (28, 30)), dict(before=event(28))]),
    # an open that answers bytes, one at a slot that isn't there, an update past the last slot
    ([], *never("cant-answer", (32, 33)), never("cant-answer", (32, 29))),
    ([], *never("cant-answer", (34, 35)), never("cant-answer", (34, 33))),
    ([], *never("cant-answer", (28, 31)), never("cant-answer", UPDATED)),
    # the second member of call 10 is canceled, so it installs nothing, and the third one is not
    ([], step("fails", (5, 30), event(5), (PUT, (10, 2, 0))),
     [dict(lines=(5, 29)), dict(lines=(5, 31)), dict(lines=(1, 30), before=event(1)), dict(after=PUT_A), dict(is_strict=False)]),
    ([], *never("cut", (29, 30)), never("cut", (30, 29), (29, 31), (6, 10), (37, 38), (14, 30))),
    ([], *never("cut", (30, 31)), [dict(before=event(30))]),
    # call 3 is a look
    ([step("existed", (39,), PUT_NONE, event(39)), step("existed", (14,), PUT_A, event(14))], step("unknown", (), PUT_NONE, PUT_NONE, premises=(0,)),
     [dict(premises=(1,), before=PUT_A, after=PUT_A), dict(is_strict=False), dict(after=event(39)), dict(premises=(2,))]),
    # slot 1 never had a file, and one of slot 0 was replaced; without its access, more may be there
    ([], step("holds", (26, 27), access(27), access(27)),
     [step("holds", lines, access(lines[1]), access(lines[1])) for lines in (CLOSED, READ, (24, 25), (26, 17), OPENED)]),
    # slot 0 can have had b alone then: a read of a's byte finds no file, reads of b's may find b
    ([], step("holds", (44, 45), access(45), access(45)), [step("holds", lines, access(lines[1]), access(lines[1])) for lines in ((46, 47), (48, 49))]),
    ([], step("holds", (46, 47), access(47), (GONE, (16, 1, 0), 0), is_strict=False), [dict(after=GONE_B), dict(is_strict=True)]),
    ([], step("holds", CLOSED, access(17), GONE_B, is_strict=False),
     [dict(after=GONE_A), dict(is_strict=True), dict(after=PUT_B), dict(after=(GONE, B, 1)), dict(lines=LOOKED, before=access(8))]),
    ([], step("holds", CLOSED, PUT_B, access(17)),
     [dict(before=PUT_A), dict(is_strict=False), step("holds", OPENED, PUT_A, access(6)), dict(before=GONE_B), dict(before=access(12))]),
    (LOOK_CLOSE, step("differs", (7, 16), access(8), access(17), premises=(4,)),
     [dict(lines=(7, 7)), dict(premises=(0,)), dict(lines=(9, 16)), dict(is_strict=False)]),
    (PUT_A_PUT_B[:1], step("lands", (), PUT_A, GONE_A, premises=(0,)),
     [dict(after=(GONE, A, 1)), dict(is_strict=False), dict(before=PUT_B, after=GONE_B), dict(after=GONE_B)]),
    (NO_LANDING, of_lines(5, 6),
     [step("lands", (), PUT_A, GONE_A, premises=(0,)), step("lands", (), (PUT, (10, 2, 0)), (GONE, (10, 2, 0), 0), premises=(1,))]),
    (PUT_A_PUT_B[:1], step("misses", (), (GONE, A, 1), PUT_A, premises=(0,), is_strict=False),
     [dict(before=GONE_A), dict(is_strict=True), dict(before=(GONE, B, 1), after=PUT_B)]),
    (NO_LANDING, of_lines(5, 6), [step("misses", (), (GONE, A, 1), PUT_A, premises=(nth,), is_strict=False) for nth in (0, 1)]),
    ([], step("existed", (14,), PUT_A, event(14)), [dict(lines=(20,), after=event(20)), dict(lines=(15,), after=event(15))]),
    # before line 9 no call but A's own may change slot 0, and call 4 installs B there
    (A_IS_THERE, step("stays", (9,), event(9), GONE_A, premises=(2,)),
     [dict(lines=(10,), before=event(10)), dict(premises=(0,)), dict(is_strict=False), dict(after=GONE_B), dict(lines=(4,), before=event(4)),
      dict(premises=(1,))]),
    ([*A_IS_THERE, closes_a], step("takes", (), PUT_B, GONE_A, premises=(2, 3), is_strict=False),
     [dict(before=PUT_A), dict(before=access(8)), dict(premises=(3, 2)), dict(is_strict=True), dict(before=GONE_A, after=PUT_B), dict(after=GONE_B),
      dict(before=event(9)), dict(premises=(1, 3))]),
    ([*A_IS_THERE, closes_a], step("taken-by", (), GONE_A, access(10), premises=(2, 3), is_strict=False),
     [dict(before=PUT_B, after=GONE_A), dict(after=access(10, 1)), dict(is_strict=True, after=PUT_B), dict(after=PUT_A)]),
    # the close of call 10 may have taken B before line 30, unless B was gone before that call
    (B_IS_GONE, step("takes", (), access(17), GONE_B, premises=(2, 3), is_strict=False), [dict(premises=(2, 5))]),
    (B_IS_GONE_SOONER, step("takes", (), access(17), GONE_B, premises=(2, 5), is_strict=False), [dict(before=access(29)), dict(before=PUT_A)]),
    # an order is supposed once; against the log's it is refuted, and what followed from it is gone
    ([], SUPPOSED[0], [dict(is_strict=False), OTHERWISE]),
    (SUPPOSED[:1], of_lines(5, 6), [SUPPOSED[0], OTHERWISE]),
    (SUPPOSED, OTHERWISE, [dict(is_strict=True), dict(before=event(6), after=event(5)), SUPPOSED[0]]),
    ([*SUPPOSED, OTHERWISE], of_lines(5, 6), [OTHERWISE, step("then", (), event(6), event(6), premises=(0, 1))]),
    ([], of_lines(5, 6), [step("knows", (5, 6), event(5), event(6))]),
]


def wrong_rows():
    """Yields each step that is taken or refused, where it should not be."""
    for before, last, others in ROWS:
        found = complaint(LOG, [*before, last])
        if found not in ("", NO_CONTRADICTION):
            yield last, found
        for it in others:
            it = last._replace(**it) if isinstance(it, dict) else it
            found = complaint(LOG, [*before, it])
            if found in ("", NO_CONTRADICTION) or not found.startswith(f"step {len(before)}, "):
                yield it, found


def count():
    return sum(1 + len(others) for _, _, others in ROWS)
