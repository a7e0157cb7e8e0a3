"""Reads the pages of this repository: headings, sections, tables, indented blocks, the newest changes, prose and its sentences."""
import functools
import re


def newest(changes):
    """Returns the part of CHANGELOG.md of the newest version."""
    return re.split(r"^## ", changes, flags=re.MULTILINE)[1]


def anchor_of(heading):
    """What a `#` leads to a heading by."""
    return re.sub(r"[^\w -]", "", heading.lower()).replace(" ", "-")


def headings(text):
    return [re.sub(r"[`*]", "", it).strip() for it in re.findall(r"^#+ (.*)$", text, re.MULTILINE)]


@functools.cache
def anchors(text):
    return {anchor_of(it) for it in headings(text)}


def section(text, heading):
    """Returns the text under a heading, up to the next one that is as high."""
    return text.split(f"\n{heading}\n")[1].split(f"\n{heading.split()[0]} ")[0]


def rows(text):
    """The cells of each row of each table, with the heading above it."""
    heading = ""
    for line in text.split("\n"):
        if line.startswith("#"):
            heading = line.strip("# ")
        elif line.startswith("|") and not re.match(r"\|[-|]+$", line):
            yield heading, [it.strip() for it in line.strip("|").split("|")]


def blocks(text, spans_gaps=False):
    """The lines of each indented block of a page, of which empty lines may be a part."""
    gap = r"|^\n(?=    )" if spans_gaps else ""
    for block in re.findall(rf"(?:^    .*\n{gap})+", text + "\n", re.MULTILINE):
        yield [line[4:] for line in block.split("\n") if line]


def blank(text):
    """Returns a text of the same lines, in which no word is found."""
    return re.sub(r"[^\n]+", "\0", text) if "\n" in text else text and "\0"


def prose_of_page(text):
    """Returns a page without its code and the targets of links. An indented line of a name and its meaning is prose."""
    text = re.sub(r"^```.*?^```", lambda it: blank(it[0]), text, flags=re.MULTILINE | re.DOTALL)
    text = re.sub(r"^    (?! *[\w/().-]+ {2,}\S).*$|`[^`]*`|(?<=\])\([^)\s]*\)", lambda it: blank(it[0]), text, flags=re.MULTILINE)
    return text


# the most words of a sentence, and where a sentence or a part of it ends
MOST_WORDS = 25
END = re.compile(r"(?<=[.?!])(?:\*\*)?\s+(?=[A-Z\[`*(\"\d])|(?<=[.?!]\*\*)\s+|(?<=[;:])(?:\*\*)?\s+")


def paragraphs(page):
    """Yields the number of the first line of each paragraph, item of a list and cell of a table, and its text."""
    page = re.sub(r"^```.*?^```", lambda it: "\n" * it[0].count("\n"), page, flags=re.MULTILINE | re.DOTALL)
    kept = []
    for number, line in enumerate([*page.split("\n"), ""], 1):
        item = re.match(r"\s*(?:-|\d+\.) +(.*)", line)
        is_text = line.strip() and not re.match(r"    |#|!\[|\|", line)
        if kept and (item or not is_text):
            yield kept[0][0], " ".join(it for _, it in kept)
            kept = []
        if line.startswith("|"):
            yield from ((number, it) for it in line.strip("|").split("|"))
        elif is_text:
            kept.append((number, item[1] if item else line.strip()))


def long_sentences(page):
    """Yields each sentence, or part of one, with too many words: the line, the number of words, and the sentence."""
    for number, text in paragraphs(page):
        plain = re.sub(r"`[^`]*`", "Code", re.sub(r"\]\([^)]*\)", "]", text))
        for sentence in END.split(plain):
            words = sum(bool(re.search(r"\w", it)) for it in sentence.split())
            if words > MOST_WORDS:
                yield number, words, sentence
