"""Rows for yachtjudge.judge_events that only Python has (judge_rows.py has the others), each derived by hand: numbers of calls, tags, the
caller's own events, the reason of a log, what is raised, and the text that events become."""
from unittest import mock

import yachtjudge
import yachtlog
import yachtreason
from rows import end, raises, want
from tests import reasons
from yachtjudge import LogVerdict, Point, Step, judge_events

HEAD = "file a 61\nfile b 6262\ncall 1 sparse 2\ndone 1.1 0\n"


def log(*lines, head=HEAD):
    return yachtlog.Log(head + "".join(f"{it}\n" for it in lines))


def outcome(call):
    """Returns the verdict of a call, or what it raises."""
    try:
        return call()
    except ValueError as fault:
        return fault


def verdict(word, line, *lines):
    """Wants a verdict. The first line after the head has the number 5."""
    it = log(*lines)
    found = outcome(lambda: judge_events(it))
    want(found == LogVerdict(word, line) and bool(found) == (word == "legal"), f"{found} in place of {word} {line}: {lines}")
    want(outcome(it.judge) == found, f"{outcome(it.judge)} with its tags in place of {word} {line}: {lines}")


opened = "call 2 open a at 0", "done 2.1 0"
read = *opened, "call 3 read 0 0 4", "call 4 close 0", "done 4.1 0"
# the calls of a text may have any numbers, and so have the marks of their files
verdict("legal", 0, "call 7 open b any", "call 5 update 0 -2,0", "call 9 close 1", "done 5.1 2", "done 7.1 1", "done 9.1 0", "closed 5.1.1 a")
verdict("not legal", 9, "call 7 open b any", "call 5 update 0 -2,0", "done 5.1 2", "done 7.1 1", "closed 5.1.1 a")
verdict("legal", 0, "call 2 regupdate 1 1", "call 3 open missing at 0 link ; close 1", "done 3.1 -2", "done 3.2 -125", "done 2.1 1")
verdict("not legal", 8, "call 2 regupdate 1 1", "call 3 open missing at 0 hardlink ; close 1", "done 3.1 -2", "done 3.2 -125", "done 2.1 1")

# the tag of a file in place of its close, and events of the caller's choice
tagged = log(*read, "done 3.1 1 61", "closed 2.1.0 a", "settled", "tag 2.1.0")
want(outcome(lambda: judge_events(tagged)) == LogVerdict("legal"), "a log without its tags isn't legal")
want(outcome(tagged.judge) == LogVerdict("not legal", 12), "a tag that comes too late is legal")
want(outcome(lambda: judge_events(tagged, tagged.events[:3])) == LogVerdict("legal"), "the beginning of a log isn't legal")

# an update as one step: a read of its first slot finds its file, and a later one of its second
# slot finds none
between = log("call 2 update 0 0,0", "call 3 read 0 0 1", "done 3.1 1 61", "call 4 read 1 0 1", "done 4.1 -9", "done 2.1 2")
at_once = log("call 2 update 0 0,-2,0", "done 2.1 -22", "call 3 update 0 0,-1", "done 3.1 2")
want(outcome(between.judge) == LogVerdict("legal"), "no request comes between two entries of an update")
split = outcome(lambda: between.judge(whole_updates=True))
want(split == LogVerdict("not legal", 9), "a request comes between two entries of an update of one step")
want(at_once.judge(whole_updates=True).word == "legal", "an update isn't one step")
want(judge_events(between, whole_updates=True) == split and split.reason == () and between.reason(split) == [],
     "a log that is legal but by whole updates has a reason")

# the reason of a log, by its lines and the numbers of its calls: the look finds a file that left
# before the look was called
stale = log("call 7 open a at 0", "done 7.1 0", "call 5 close 0", "done 5.1 0", "call 9 look 0", "done 9.1 0 7.1.0")
found = outcome(lambda: judge_events(stale))
steps = found.reason
want(found == LogVerdict("not legal", 10) and steps and steps[-1].is_strict and steps[-1].before == steps[-1].after, f"a reason has no contradiction: {steps}")
want(reasons.complaint(stale.source, reasons.facts_of(steps)) == "", f"a reason doesn't follow: {steps}")
want(Step("finds", (9, 10), 0, (), Point("access", 10), Point("gone", file=(7, 1, 0)), True) in steps, f"a reason lacks the look: {steps}")
want(stale.reason(found) == ["7.1.0 was gone from slot 0 after close 5, which answered 0, since open 7 had installed 7.1.0 at line 6 and close 5 was called"
                          " at line 7",
                          "look 9 found 7.1.0 at slot 0; but 7.1.0 was gone from slot 0 after close 5, close 5 was answered at line 8 and look 9 was called"
                          " at line 9"], f"the reason has other words: {stale.reason(found)}")
found = judge_events(stale, stale.events[:4])
want(found == LogVerdict("legal") and found.reason == () and stale.reason(found) == [], "a beginning that is legal has a reason")
with mock.patch.object(yachtjudge, "ROOM", 1):
    want(judge_events(stale).reason == steps, "a reason that has no room at first is another one")
want(judge_events(stale, whole_updates=True).reason == steps, "the reason by whole updates is another one")


# with too few moves a log is undecided, and else it is judged as without a limit
STEPS = [0, 1, 2, 3, 5, 8, 13, 21, 34, 55, 89, 144, 233, 377, 610, 987, 10_000]
for it, is_whole in ((between, False), (between, True), (stale, False), (stale, True), (tagged, False)):
    wanted = judge_events(it, whole_updates=is_whole)
    those = [judge_events(it, moves=moves, whole_updates=is_whole) for moves in STEPS]
    few = sum(found == LogVerdict("undecided") for found in those)
    rest = [(found, found.reason) for found in those[few:]]
    want(2 < few < len(those) and rest == [(wanted, wanted.reason)] * len(rest), f"a limit of moves gives {those} in place of {wanted}")
want(tagged.judge(moves=0) == LogVerdict("undecided") and tagged.judge(moves=10_000) == LogVerdict("not legal", 12), "a log of the kernel has no limit of moves")
want(log().judge(moves=0) == LogVerdict("legal"), "a log that needs no search isn't judged without moves")


def reason_of(it):
    """Returns the reason of the verdict on a log, in sentences."""
    return it.reason(it.judge())


early = log(*opened, "call 3 look 0", "call 4 close 0", "done 4.1 0", "done 3.1 0 2.1.0", "closed 2.1.0 a", "free 3")
want(reason_of(early) == ["look 3 held 2.1.0 from line 10 on, and it was closed by line 11"], f"the reason of an early close is {reason_of(early)}")
# a file whose call isn't in the log keeps its mark, and isn't told to be installed
foreign = log("call 2 look 0", "done 2.1 0 7.1.0")
want(reason_of(foreign) == ["line 6 says that 7.1.0 was installed, and no call before it can have installed that file"],
     f"the reason of a foreign file is {reason_of(foreign)}")
want(reasons.complaint(foreign.source, reasons.facts_of(foreign.judge().reason)) == "", "the reason of a foreign file doesn't follow")
twice = log(*opened, "call 3 close 0", "done 3.1 0", "closed 2.1.0 a", "tag 2.1.0", "tag 2.1.0")
want(reason_of(twice) == ["2.1.0 was closed by line 10, and again by line 11"], f"the reason of a second tag is {reason_of(twice)}")
want(reasons.complaint(twice.source, reasons.facts_of(twice.judge().reason), True) == "", "the reason of a tag is wrong")
sentences = [str(it) for it in range(14)]
last = "".join(f"    {it}\n" for it in sentences[2:])
want(yachtlog.shown(sentences, False) == "    2 sentences before these: --full-reason prints them\n" + last, "a long reason is printed otherwise")
want(yachtlog.shown(sentences, True) == "    0\n    1\n" + last and yachtlog.shown(sentences[2:], False) == last, "a whole reason is printed otherwise")

# faults: what is not a log isn't read (tests/log_lines.py); other events, or those of another
# table, are named by their lines
def changed(**fields):
    it = log("call 2 look 0", "done 2.1 -9", "call 3 close 0", "done 3.1 -9")
    vars(it).update(fields)
    return it


raises(yachtlog.BadLog, "line 5: a read has at most 4096 bytes, not 4097", lambda: log("call 2 read 0 0 4097", "done 2.1 -9"))
events = changed().events
raises(yachtlog.BadLog, "line 6: no call has the number 2", lambda: judge_events(changed(), [events[1], events[0]]))
raises(yachtlog.BadLog, "line 8: no call has the number 3", lambda: judge_events(changed(), [events[0], events[3]]))
raises(yachtlog.BadLog, "line 8: call 3 is answered already", lambda: judge_events(changed(), [*events, events[3]]))
freed = yachtlog.Event(9, "free", 2)
raises(yachtlog.BadLog, "line 9: call 2 holds no file", lambda: judge_events(changed(), [*events, freed]))
long = {**changed().chains, 3: [yachtlog.Request("read", 0, count=4097)]}
raises(yachtlog.BadLog, "line 7: a read has at most 4096 bytes, not 4097", lambda: judge_events(changed(chains=long)))
raises(yachtlog.BadLog, "a table has 1 to 1048576 slots, not '1048577'", lambda: judge_events(changed(slots=1_048_577)))
raises(yachtlog.BadLog, "line 5: no line of a log begins with 'x'", lambda: yachtjudge.judge_log(f"{HEAD}x\n"))
raises(TypeError, "text must be str or bytes, not int", lambda: yachtjudge.judge_log(5))
lacking = yachtjudge.judge_log(f"{HEAD}call 2 read 0 0 1\ndone 2.1 -12\n")
want(lacking == LogVerdict("undecided", 6), f"a log with an answer -12 is judged otherwise: {lacking}")

# the text of events, and the line of each; and a log of the kernel
said = log("call 2 update 1 -1,1 link ; read 0 1 2 hardlink ; open c any", "call 3 look 1", "done 3.1 0 2.1.1", "free 3", "call 4 open b at 0",
           "done 4.1 -9 61", "done 2.1 2", "done 2.2 -9", "done 2.3 -2", "closed 4.1.0 b", "settled")
want(said.plain(said.events) == (said.source, [0, 0, 0, 0, *range(5, 16)]), f"events become another text: {said.plain(said.events)}")
closed = log(*opened, "closed 2.1.0 b", "closed 3.1.0 a").plain(said.events[:0])
want(closed == (HEAD, [0] * 4), f"no event becomes another text: {closed}")
foreign = log(*opened, "closed 2.1.0 b")
want(foreign.plain(foreign.events[2:])[0] == f"{HEAD}closed 0.0.0 a\n", "a file under another name becomes another text")
piped = log("call 2 regupdate 0 0", "done 2.1 1", "call 3 read 0 0 1", "fed p 41", "done 3.1 1 41", head="pipe p\ncall 1 sparse 2\ndone 1.1 0\n")
text = "file p -\ncall 1 sparse 2\ndone 1.1 0\ncall 2 update 0 0\ndone 2.1 1\ncall 3 look 0\ndone 3.1 0 2.1.0\nfree 3\n"
want(piped.plain(piped.events) == (text, [0, 0, 0, 4, 5, 6, 8, 8]), f"a read of a pipe becomes another text: {piped.plain(piped.events)}")
want(yachtjudge.judge_log(piped.source) == piped.judge() == LogVerdict("legal"), "a log of the kernel isn't judged by the module")

# the words of each rule, as include/yachtjudge.h describes it, by its lines and its two points
told = log("call 2 open a at 0", "done 2.1 0", "call 3 look 0", "done 3.1 0 2.1.0", "free 3", "call 4 open b at 1 link ; close 0", "done 4.1 0",
           "done 4.2 0", "closed 2.1.0 a", "settled")
event, access, put = Point("event", 7), Point("access", 12), Point("put", file=(2, 1, 0))
gone, other, found = Point("gone", file=(2, 1, 0)), Point("put", file=(4, 1, 0)), "look 3 found a file at slot 0 by line 8"
RULES = [
    ("begins", (7, 8), event, access, "look 3 was called at line 7"),
    ("ends", (7, 8), access, event, "look 3 was answered at line 8"),
    ("calls", (5,), event, put, "the call that installs 2.1.0 began at line 5"),
    ("installs", (5, 6), put, access, "open 2 had installed 2.1.0 at line 6"),
    ("places", (5, 6), access, gone, "open 2 installed 2.1.0 at slot 0"),
    ("follows", (7, 8), put, access, "2.1.0 was installed before look 3 found it"),
    ("finds", (7, 8), access, gone, "look 3 found 2.1.0 at slot 0"),
    ("closes", (13,), gone, event, "2.1.0 was closed by line 13"),
    ("settles", (14,), event, gone, "2.1.0 was still at slot 0 when all was settled at line 14"),
    ("empties", (10, 12), gone, access, "2.1.0 was gone from slot 0 after close 4.2"),
    ("precedes", (10, 12), access, other, "4.1.0 was installed after close 4.2"),
    ("displaces", (), gone, other, "2.1.0 was gone from slot 0 when 4.1.0 was installed"),
    ("outlives", (), put, other, "4.1.0 was installed after 2.1.0"),
    ("finds-closed", (13, 8), event, event, "look 3 found 2.1.0 at line 8, which was closed by line 13"),
    ("cant-answer", (10, 11), event, event, "open 4.1 answered 0 at line 11, which such a request never answers"),
    ("holds", (7, 8), gone, gone, f"{found}, where no file can have been"),
    ("holds", (7, 8), access, gone, f"{found}, which can only have been 2.1.0"),
    ("holds", (7, 8), put, access, f"{found}, which can only have been 2.1.0"),
    ("differs", (5, 7), access, access, "accesses of two calls are not at the same time"),
    ("stays", (13,), event, gone, "no call before line 13 can have taken 2.1.0 from slot 0"),
    ("takes", (), access, gone, "2.1.0 was at slot 0 until close 4.2, which alone can have taken it"),
    ("taken-by", (), gone, other, "2.1.0 was gone from slot 0 after the installation of 4.1.0, which alone can have taken it"),
    ("lands", (), put, gone, "2.1.0 was installed at slot 0"),
    ("misses", (), gone, put, "no call before can have installed 2.1.0 at slot 0"),
    ("existed", (13,), put, event, "2.1.0 was installed before it was closed by line 13"),
    ("fails", (13, 12), event, other, "close 4.2 answered 0 at line 12, so it installed nothing"),
    ("cut", (11, 12), event, event, "close 4.2 answered 0 at line 12, although open 4.1 answered 0 at line 11, which cancels the next request"),
    ("suppose", (), put, other, "the installation of 2.1.0 came before the installation of 4.1.0"),
    ("otherwise", (), event, access, "line 7 came before the access of close 4.2"),
]
for rule, lines, before, after, words in RULES:
    sentences = yachtreason.Words(told, told.events, [Step(rule, lines, 0, (), before, after, True)]).sentences()
    want(sentences == [words], f"the words of {rule} are {sentences}")
existed, unknown = Step("existed", (13,), 0, (), put, event, True), Step("unknown", (), 0, (0,), put, put, True)
sentences = yachtreason.Words(told, told.events, [existed, unknown]).sentences()
want(sentences == ["line 13 says that 2.1.0 was installed, and no call before it can have installed that file"], f"the words of unknown are {sentences}")
# an order is supposed, the contradiction that ends the case, and the opposite order
answered, before = Point("access", 8), Point("event", 9)
case = [Step("suppose", (), 0, (), gone, answered, True), Step("finds", (7, 8), 0, (), answered, gone, False),
        Step("then", (), 0, (0, 1), gone, gone, True), Step("otherwise", (), 0, (), answered, gone, False), existed]
sentences, removal = yachtreason.Words(told, told.events, case).sentences(), "the removal of 2.1.0 from slot 0"
supposed = f"{removal} came before the access of look 3"
want(sentences[:2] == [f"suppose that {supposed}",
                       f"look 3 found 2.1.0 at slot 0; but {supposed}; so the access of look 3 came before or with {removal}"],
     f"the words of a case are {sentences}")
# why a file is the only one, or an access: the orders that exclude the others
orders = [Step("ends", (7, 8), 0, (), answered, Point("event", 8), True), Step("calls", (9,), 0, (), before, other, True),
          Step("events", (8, 9), 0, (), Point("event", 8), before, True), Step("then", (), 0, (0, 2), answered, before, True),
          Step("then", (), 0, (3, 1), answered, other, True)]
later = "look 3 was answered at line 8 and the call that installs 4.1.0 began at line 9"
for slot, words in (1, f"look 3 found a file at slot 1 by line 8, where no file can have been, since {later}"), (0, f"{found}, where no file can have been"):
    sentences = yachtreason.Words(told, told.events, [*orders, Step("holds", (7, 8), 0, (), answered, answered, True, slot)]).sentences()
    want(sentences == [words], f"the words of a file at slot {slot} are {sentences}")
passing, stays = Step("precedes", (10, 12), 0, (), access, gone, True), Step("stays", (13,), 0, (), event, gone, True)
sentences = yachtreason.Words(told, told.events, [passing, stays, existed]).sentences()
want(sentences[:-1] == ["no call before line 13 can have taken 2.1.0 from slot 0, since 2.1.0 was installed after close 4.2"], f"a taker is excluded by {sentences}")
read = log("call 2 open a at 0", "done 2.1 0", "call 3 read 0 0 1", "done 3.1 1 62")
holds = Step("holds", (7, 8), 0, (), answered, answered, True)
want(yachtreason.Words(read, read.events, [holds]).sentences() == ["read 3 got 62 from slot 0 by line 8, where no file with these bytes can have been"],
     "a read of other bytes is told otherwise")
end()
