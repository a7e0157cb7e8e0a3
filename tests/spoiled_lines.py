"""Spoils a line of a text, by kinds, and looks whether a refusal names it: the command, and the line by its number or, if it is lost, by
its place or its file. What names a line names its command too."""
import functools
import re

from model.model import Script, fault_of

# the script of a source; that of many texts one after another is read once
parsed = functools.lru_cache(1)(Script)

COMPLETION = re.compile(r"\d+\.\d+\.\d+ ")
READ = re.compile(r"\d+\.\d+\.\d+ [1-9]\d* [0-9a-f]+$")
CALL = re.compile(r"[a-z]+ -?\d+$")
# a verdict that names more lines than this one names none
MOST_NAMED = 4


def named_of(said):
    """The commands and the lines of the text that a verdict names in its first line."""
    commands = {int(it) for it in re.findall(r"command (\d+)", said)}
    lines = set()
    for numbers in re.findall(r"lines? ((?:\d+(?:, | and )?)+)", re.sub(r"line \d+ of the script", "", said)):
        lines |= {int(it) for it in re.findall(r"\d+", numbers)}
    return commands, lines


class Spoiled:
    """A text with spoiled lines: all lines, which ones count as spoiled, from 1, the command of the first of them, from 1,
    the last command's number, words that name a lost line, and whether the command before may be named too."""

    def __init__(self, lines, at, command, last, words=(), is_joined=False):
        self.lines, self.at, self.command, self.last, self.words = lines, at, command, last, words
        self.commands = {command, command - is_joined}

    @property
    def text(self):
        return "".join(f"{it}\n" for it in self.lines)

    def is_named(self, said):
        """Whether a verdict names the command, and whether it names the line."""
        commands, lines = named_of(said)
        if "the end of the script" in said:
            commands.add(self.last + 1)
        has_line = len(lines) <= MOST_NAMED and bool(lines & set(self.at)) or any(it in said for it in self.words)
        return bool(self.commands & commands) or has_line, has_line


def owners_of(script, lines):
    """Returns for each line of a text the command that writes it, from 1; the one after the last is the end."""
    owners, at, submissions = [], 0, 0
    for nth, (command, *values) in enumerate(script.commands, 1):
        count = 1
        if command == "submit" and fault_of(values[0]) is None:
            count, submissions = len(values[0]), submissions + 1
        owners += [nth] * count
        at += count
        while at < len(lines) and lines[at].startswith(("closed ", "tag ")):
            owners.append(nth)
            at += 1
    return owners + [len(script.commands) + 1] * (len(lines) - at)


def places(lines, pattern):
    return [at for at, it in enumerate(lines) if re.match(pattern, it)]


def changed(lines, at, line):
    return [*lines[:at], line, *lines[at + 1 :]], [at + 1]


def of_result(new):
    """The result of a completion is another one."""
    def spoil(rng, lines):
        at = rng.choice(places(lines, COMPLETION))
        place, res, *rest = lines[at].split(" ")
        return changed(lines, at, " ".join([place, new(rng, int(res)), *rest]))
    return spoil


def of_part(pattern, new):
    """A line that fits the pattern is another one."""
    def spoil(rng, lines):
        at = rng.choice(places(lines, pattern))
        return changed(lines, at, new(rng, lines[at]))
    return spoil


def other_number(rng, number):
    return str(max(1, int(number) + rng.choice([-1, 1, 2])))


def other_place(nth):
    def new(rng, line):
        place, rest = line.split(" ", 1)
        parts = place.split(".")
        parts[nth] = other_number(rng, parts[nth])
        return f"{'.'.join(parts)} {rest}"
    return new


def other_byte(rng, line):
    front, content = line.rsplit(" ", 1)
    at = rng.randrange(len(content))
    return f"{front} {content[:at]}{rng.choice('0123456789abcdef')}{content[at + 1:]}"


def short_read(rng, line):
    place, res, content = line.split(" ")
    return f"{place} {int(res) - 1} {content[:-2]}" if int(res) > 1 else f"{place} 0"


def long_read(rng, line):
    place, res, content = line.split(" ")
    return f"{place} {int(res) + 1} {content}{rng.choice(('00', '61', content[:2]))}"


def other_name(rng, line):
    word, mark, name = line.split(" ")
    return f"{word} {mark} {rng.choice(['a', 'b', 'f0', 'f1', name + 'x'])}"


def other_mark(rng, line):
    word, mark, name = line.split(" ")
    parts = mark.split(".")
    nth = rng.randrange(len(parts))
    parts[nth] = parts[nth][0] + other_number(rng, parts[nth][1:]) if parts[nth].startswith("r") else other_number(rng, parts[nth])
    return f"{word} {'.'.join(parts)} {name}"


def swapped(pattern):
    """A line and the next one that fits change their places."""
    def spoil(rng, lines):
        those = places(lines, pattern)
        nth = rng.randrange(len(those) - 1)
        one, other = those[nth], those[nth + 1]
        lines = list(lines)
        lines[one], lines[other] = lines[other], lines[one]
        return lines, [one + 1, other + 1]
    return spoil


def swapped_results(rng, lines):
    one, other = rng.sample(places(lines, COMPLETION), 2)
    parts = [it.split(" ", 1) for it in lines]
    parts[one][1], parts[other][1] = parts[other][1], parts[one][1]
    return [" ".join(it) for it in parts], [one + 1, other + 1]


def doubled(pattern):
    def spoil(rng, lines):
        at = rng.choice(places(lines, pattern))
        return [*lines[: at + 1], *lines[at:]], [at + 1, at + 2]
    return spoil


def lost(pattern):
    """A line is left out. Of equal lines in a row the last one is: the text is the same, whichever it is."""
    def spoil(rng, lines):
        at = rng.choice(places(lines, pattern))
        while lines[at + 1 : at + 2] == [lines[at]]:
            at += 1
        return [*lines[:at], *lines[at + 1 :]], [at + 1]
    return spoil


def one_more(rng, lines):
    """Adds a completion of another chain after the last one of a submission."""
    those = [at for at in places(lines, COMPLETION) if at + 1 == len(lines) or not COMPLETION.match(lines[at + 1])]
    at = rng.choice(those)
    submission, chain, _ = lines[at].split(" ")[0].split(".")
    return [*lines[: at + 1], f"{submission}.{int(chain) + 1}.1 0", *lines[at + 1 :]], [at + 2]


def other_sign(rng, lines):
    at = rng.randrange(len(lines))
    place = rng.randrange(len(lines[at]) + 1)
    return changed(lines, at, lines[at][:place] + rng.choice("0123456789abr. -") + lines[at][place + 1 :])


KINDS = {
    "a result that is one off": of_result(lambda rng, res: str(res + rng.choice([-1, 1]))),
    "a result of another kind": of_result(lambda rng, res: rng.choice(["0", "-9", "-22", "-6", "1"])),
    "a canceled request": of_result(lambda rng, res: "-125"),
    "a call's result": of_part(CALL, lambda rng, line: f"{line.split(' ')[0]} {rng.choice(['0', '1', '-9', '-22', '-16'])}"),
    "a byte of a read": of_part(READ, other_byte),
    "a byte of a read that is lost": of_part(READ, lambda rng, line: line[:-2] if len(line.rsplit(" ", 1)[1]) > 2 else line),
    "a read that is short": of_part(READ, short_read),
    "a read that is long": of_part(READ, long_read),
    "a completion's chain": of_part(COMPLETION, other_place(1)),
    "a completion's member": of_part(COMPLETION, other_place(2)),
    "swapped completions": swapped(COMPLETION),
    "swapped results": swapped_results,
    "a doubled completion": doubled(COMPLETION),
    "a lost completion": lost(COMPLETION),
    "a completion too many": one_more,
    "a closed file's name": of_part("closed ", other_name),
    "a closed file's mark": of_part("closed ", other_mark),
    "swapped closed files": swapped("closed "),
    "a doubled closed file": doubled("closed "),
    "a lost closed file": lost("closed "),
    "a tag": of_part("tag ", lambda rng, line: f"tag {other_number(rng, line[4:])}"),
    "a lost tag": lost("tag "),
    "a lost call": lost(CALL),
    "another sign": other_sign,
}


def spoiled(rng, source, text, kind):
    """The text with a spoiled line of a kind; none where it has no such line, or is the same then."""
    lines = text.split("\n")[:-1]
    script = parsed(source)
    owners = owners_of(script, lines)
    try:
        wrong, at = KINDS[kind](rng, lines)
    except (IndexError, ValueError):
        return None
    if wrong == lines:
        return None
    first = min(at[0], len(lines)) - 1
    is_lost_close = len(wrong) < len(lines) and lines[first].startswith("closed ")
    words = (lines[first].split(" ")[1] + " ",) if is_lost_close else ()
    # without the line of a call, its closed lines continue those of the command before
    is_joined = len(wrong) < len(lines) and bool(CALL.match(lines[first])) and "".join(wrong[first : first + 1]).startswith(("closed ", "tag "))
    return Spoiled(wrong, at, owners[first], len(script.commands), words, is_joined)


def some_of(rng, source, text, count):
    """Some kinds, and the text spoiled so."""
    for kind in rng.sample(sorted(KINDS), count):
        wrong = spoiled(rng, source, text, kind)
        if wrong is not None:
            yield kind, wrong
