"""check-style [PATH ..]: prints the places in the files and folders PATH, or in all, that the style of this repository avoids: words
(style.txt) in pages, comments, heads of scripts and names in code; sentences of a page with more than 25 words; titles and comments that
begin with What, Whether, Which, How or That. Code samples, names in backticks and the targets of links don't count. It also prints names
that stand for two things in the product. The tables count as one crate. `make style` runs it."""
import glob
import os
import re
import sys
from typing import NamedTuple

from scripts.checks import Counted
from scripts.pages import MOST_WORDS, blank, long_sentences, newest, prose_of_page
from scripts.repository import ROOMS, ROOT, SOURCES, files_of, read

# a comment or a title that begins so has no verb or noun in front
FIRST = re.compile(r"(What|Whether|Which|How|That)\b")
NOT_KEPT = re.compile(r"^(bin|build)/")
# crates whose parts have the same names: the tables, and those that have parts of them
TABLES = "fx_baton", "fx_counted", "fx_lasting", "table_range", "table_seats"
# names for the same thing in several crates
GENERIC = {"IsInRange", "Settings", "Spacing", "limits_are_numbers", "settings_in"}
TYPE = re.compile(r"^pub(?:\([a-z]+\))? (?:struct|enum|trait|type) (\w+)", re.MULTILINE)
FUNCTION = re.compile(r"^pub (?:const |unsafe )*fn (\w+)", re.MULTILINE)
EXPORT = re.compile(r"^pub use \w+::(?:(\w+)|\{([^}]*)\});", re.MULTILINE)
DEFINITION = re.compile(r"^(?:abbrev |opaque )?pub (?:record |data )?(?!(?:use|mod|record|data) )([^\s:({]+)", re.MULTILINE)


class Rule(NamedTuple):
    """A row of style.txt."""

    word: str
    pattern: str
    better: str
    allowed: str
    group: str
    wrong: str
    right: str

    def found(self, text):
        """Yields the place of each use of the word that isn't within an allowed phrase. A pattern that looks back takes ten times as long."""
        text = text.lower()
        phrases = [it.span() for it in re.finditer(rf"\b(?:{self.allowed})\b".replace(" ", r"\s+"), text)] if self.allowed else []
        for use in re.finditer(rf"(?:{self.pattern})(?![\w`/-]|\.\w)".replace(" ", r"\s+"), text):
            if not re.match(r"[\w/.`-]", text[use.start() - 1 : use.start()]) and not any(begin <= use.start() and use.end() <= end for begin, end in phrases):
                yield use.start()


def rules():
    return [Rule(*it.replace("\\n", "\n").split("\t")) for it in read("tests/style.txt").splitlines() if not it.startswith("#")]


def kept_lines(text, pattern):
    """Only what a pattern finds in a line, by its first group; the rest of the line is blank."""
    def kept(line):
        it = re.match(pattern, line)
        return blank(line[: it.start(1)]) + it[1] + blank(line[it.end(1) :]) if it else blank(line)

    return "\n".join(map(kept, text.split("\n")))


def head_of_script(text):
    """The comment or docstring at the begin of a script; what follows is blank."""
    head = re.match(r'(?:#!.*\n)?(?:"""((?s:.*?))"""|/\*((?s:.*?))\*/|((?:(?:#|//).*\n)+))', text)
    return blank(text[: head.start(head.lastindex)]) + re.sub(r"(?m)^(#|//!?| \*)", lambda it: " " * len(it[0]), head[head.lastindex]) if head else ""


def comments(text, marks):
    """The whole lines that are comments by these marks, the marks as spaces, so that a phrase is found over two lines."""
    kept = re.sub(r"`[^`\n]*`", "\0", kept_lines(text, rf"( *(?:{marks})(?: .*|$))"))
    return re.sub(rf"(?m)^\0*( *)({marks})", lambda it: " " * len(it[0]), kept)


def names(text):
    """The identifiers of code at their places, as words that `;` keeps apart from those of others."""
    code = re.sub(r'"(?:[^"\\\n]|\\.)*"|(?://|--).*', lambda it: blank(it[0]), text)
    return re.sub(r"[A-Za-z_]\w*", lambda it: ";" + re.sub(r"(?<=[a-z0-9])(?=[A-Z])|_", " ", it[0]), re.sub(r"[^\w\n]+", "\0", code))


def begins(text, is_page):
    """Yields the places where a title of a page, or the first line of a comment, begins with What, Whether, Which, How or That."""
    at_begin = rf"(?m)^#+ (?={FIRST.pattern})" if is_page else rf"(?<![^\0\n]\n)(?:^|(?<=\n)) +(?={FIRST.pattern})"
    return [it.end() for it in re.finditer(at_begin, text)]


def texts():
    """Yields each path, what of the file is looked at (its page, comments or names), and that."""
    for path in (it for way in ("*.md", "*/*.md", "*/*/*.md", "*/*/*/*.md") for it in sorted(glob.glob(way, root_dir=ROOT)) if not NOT_KEPT.search(it)):
        yield path, "page", prose_of_page(read(path))
    for path in sorted(glob.glob("man/*", root_dir=ROOT)):
        yield path, "prose", re.sub(r"(?ms)^\.Bd.*?^\.Ed|^\.Dl.*?$|^\.(Fl|Ar|Nm|Xr)\b.*?$", lambda it: blank(it[0]), read(path))
    yield "Makefile", "prose", kept_lines(read("Makefile"), r"(?:#|\s*@echo|\$\(error)(.*)")
    for path in sorted(it for room in ROOMS for it in glob.glob(f"{room}/*", root_dir=ROOT)):
        if os.path.isfile(f"{ROOT}/{path}") and not path.endswith((".md", ".txt")):
            yield path, "prose", head_of_script(read(path))
    for path in files_of("*", *SOURCES):
        text = read(path)
        yield path, "comments", comments(text, "///|//!|//|--" if path.endswith(".rt") else "//|--")
        if "/proofs/" not in path:
            yield path, "names", names(text)


def faults(path, kind, text, those):
    """Yields the number of a line and a complaint for each place of a text that the style avoids."""
    found = [(at, f"{it.word!r}: {it.better}") for it in those if kind != "names" or it.group == "names" for at in it.found(text)]
    if kind in ("page", "comments"):
        found += [(at, "What .. first: a verb (Returns, Checks whether), or a noun in a title") for at in begins(text, kind == "page")]
    yield from ((text.count("\n", 0, at) + 1, words) for at, words in sorted(found))
    for number, count, sentence in long_sentences(newest(read(path)) if path == "CHANGELOG.md" else read(path)) if kind == "page" else ():
        yield number, f"{count} words: {sentence}"


def samples(style, those):
    """Each rule finds its wrong text once, as a page and as a comment, and its right text not. So it is with long sentences."""
    for it in those:
        for text, wanted in ((it.wrong, 1), (it.right, 0)):
            comment = comments("\n".join(f"    /// {line}" for line in text.split("\n")), "///")
            found = [len(list(it.found(prose))) for prose in (prose_of_page(text), comment)]
            style.want(found == [wanted] * 2, f"{it.word!r} is found {found} times in {text!r}")
    found = [it.word for it in those if it.group for _ in it.found(names('fn tells() { SoMany(wants_it, unwanted, "wanted") } // so many'))]
    style.want(found == ["want", "so many"], f"{found} are found in the names of a sample")
    style.want(len(begins("# What is it\n", True)) == len(begins(" How it is", False)) == 1 and not begins("# The way\nWhat", True), "a title that begins with What isn't found")
    most = " ".join(["Word", *["word"] * (MOST_WORDS - 1)])
    for page, wanted in ((f"{most} one.", 1), (f"{most}. {most}: {most}; {most}.", 0), (f"- {most}\n- {most}\n  one `two three`", 1), (f"| {most} | {most} one |", 1),
                         (f"# {most} one\n\n    {most} one\n\n{most}\n\n{most}", 0)):
        style.want(len(list(long_sentences(page))) == wanted, f"another number of long sentences than {wanted} is found in {page!r}")


def exported(texts_of):
    """Returns the functions that a crate exports, and its modules with the name of an exported item, from the texts of its modules."""
    root = texts_of.get("lib", texts_of.get("main", ""))
    items = {it for one, many in EXPORT.findall(root) for it in re.findall(r"\w+", one or many)}
    functions = items & {it for text in texts_of.values() for it in FUNCTION.findall(text)}
    public = re.findall(r"^pub mod (\w+);", root, re.MULTILINE)
    return functions | {it for module in public for it in FUNCTION.findall(texts_of.get(module, ""))}, items & set(re.findall(r"^(?:pub )?mod (\w+);", root, re.MULTILINE))


def twice(crates, sources):
    """Yields a complaint for each name of these crates that stands for two things. `sources` has the files of a part of a crate by path."""
    found = {}
    for crate in crates:
        where = "the tables" if crate in TABLES else crate
        texts_of = {os.path.basename(it)[:-3]: text for it, text in sources(crate, "src").items() if it.endswith(".rt")}
        functions, hidden = exported(texts_of)
        yield from (f"{crate}: a module and an exported item are named {it}: rename the module" for it in sorted(hidden))
        those = [("type", it, where if crate in TABLES else f"{crate}/src/{module}.rt") for module, text in texts_of.items() for it in TYPE.findall(text)]
        those += [("exported function", it, where) for it in functions]
        those += [("definition", it, where if crate in TABLES else path) for path, text in sources(crate, "specs").items() for it in DEFINITION.findall(text)]
        for kind, name, place in those:
            found.setdefault((kind, name), set()).add(place)
    for (kind, name), places in sorted(found.items()):
        if len(places) > 1 and name not in GENERIC:
            yield f"{name} is a {kind} in {' and in '.join(sorted(places))}"


def sample_of_names(style):
    """Two crates that share a name of each kind are found, and the tables are not."""
    sample = {"src": {"lib.rt": "mod make;\npub mod laws;\n\npub use made::{Made, make};\n", "made.rt": "pub struct Made {}\npub fn make() {}\n", "laws.rt": "pub fn holds()\n"},
              "specs": {"Made.antt": "abbrev pub IsMade : Type 0\npub record Sat : Type 0 where\n"}}
    for crates, wanted in (("ab", 7), (TABLES, len(TABLES)), ("a", 1)):
        found = list(twice(crates, lambda crate, part: {f"{crate}/{it}": text for it, text in sample[part].items()}))
        style.want(len(found) == wanted, f"of crates {crates} with the same names it is said: {found}")


def command():
    style, those = Counted("style"), rules()
    samples(style, those)
    sample_of_names(style)
    paths = [os.path.relpath(it, ROOT) for it in sys.argv[1:]]
    for path, kind, text in texts():
        if not paths or any(it in (".", path) or path.startswith(f"{it}/") for it in paths):
            lines = [f"{path}:{number}: {words}" for number, words in faults(path, kind, text, those)]
            style.want(not lines, "\n".join(lines))
    lines = read("crates.txt").partition("# Not the product")[0].splitlines()
    product = [re.match(r"\w+", it)[0] for it in lines if re.match(r"\w", it)]
    for it in twice(product, lambda crate, part: {path: read(path) for path in files_of(crate, part)}):
        style.want(False, it)
    return style.end("samples and files")
