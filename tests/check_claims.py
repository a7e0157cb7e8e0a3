"""check-claims: compares the pages with the sources: functions, clauses, preconditions, types and names; the reading list; quoted lines;
the refusals of crates/WRONG_BODIES.md; atomic steps, options and defaults; and what bench/write-tables writes. So it finds a page that is
older than the code (tests/check-all has a wrong page of each kind).

A claim is written '`f`, `g`: `x`, `y`; `h`: `z`': f and g both have the clauses x and y, and h has z. Without clauses it refers to the
whole contract. A word with a capital letter is a definition that the contract cites."""
import collections
import contextlib
import glob
import os
import re
from typing import NamedTuple

from bench import tables
from scripts import edits, examples
from scripts.clauses import functions_of
from scripts.checks import Counted
from scripts.pages import anchor_of, blocks, newest, rows, section
from scripts.repository import ROOT, SOURCES, files_of, read

PROOFS, BODIES = "docs/inside/PROOFS.md", "crates/WRONG_BODIES.md"
CALLER = "Preconditions of the public calls"
# the least number of claims of each kind
LEAST = {"tables": 600, "conditions": 85, "reading list": 1, "promises": 6, "wrong bodies": 480, "quotes": 170,
         "atomic steps": 12, "defaults": 7, "options": 19, "pages": 450, "measurements": 26, "kept outputs": 4}
# the kept outputs of which docs/use/CHECKING.md shows lines, and how many
QUOTED = {"examples/judged/explained.judged": 6, "examples/judged/submissions.judged": 5, "examples/questions/replaced_under_a_reader.texts": 7,
          "examples/questions/open_any_beside_a_close.texts": 6}
# where the reading list of docs/inside/PROOFS.md begins
HEADLINE = "crates/fx_ring/specs/Submission.antt"


class Contract(NamedTuple):
    """The contract of a public function: the names that may come before its own, those of its clauses, its words, and whether it has a
    `requires`. A ghost member of a trait has one too, and a type with a model: its `impl Model`."""

    name: str
    owners: set
    clauses: set
    words: set
    has_requires: bool = False

    def known(self):
        """Its clauses, and the definitions that it cites."""
        return self.clauses | {it for it in self.words if it[0].isupper()}


def sources():
    """For each crate the contracts of its sources, all of its words, and what it exports."""
    found, words, exported = {}, {}, {}
    for crate in sorted(os.listdir(f"{ROOT}/crates")):
        texts = {it: read(it) for it in files_of(crate, *SOURCES)}
        words[crate] = {word for text in texts.values() for word in words_of(text)}
        found[crate] = [contract for it, text in texts.items() if it.endswith(".rt") for contract in contracts_in(text, os.path.basename(it)[:-3])]
        root = f"{ROOT}/crates/{crate}/src/lib.rt"
        told = re.findall(r"^pub (?:use|mod) (?:\w+::)*([^;]*);", read(root) if os.path.exists(root) else "", flags=re.MULTILINE)
        exported[crate] = set(re.findall(r"\w+", " ".join(told)))
    return found, words, exported


def contracts_in(text, file):
    """Yields the contracts of a source, whose file has that name. Pages name an export for C without its major version, as headers do."""
    for path, parts in functions_of(text):
        owner, _, name = re.sub(r"(\byacht_\w+)_\d+$", r"\1", path).rpartition("::")
        owners, heads = {file, *re.findall(r"\w+", owner)}, [re.match(r"(requires|ensures)\*?(?: (\w+))?", it) for it in parts[1:]]
        if "for" not in owners or "FileTable" in owners:
            yield Contract(name, owners, {it[2] for it in heads}, words_of(" ".join(parts)), any(it[1] == "requires" for it in heads))
    for head, body in re.findall(r"^(?:pub(?:\([a-z]+\))? )?(?:impl|trait)\b(.*?) \{\n(.*?)^\}", text, re.MULTILINE | re.DOTALL):
        if model := re.fullmatch(r" Model for (\w+)", head):
            yield Contract(model[1], {file, *words_of(head)}, set(), words_of(body))
        for name, ghost in re.findall(r"^    ghost (\w+):(.*?);$", body, re.MULTILINE | re.DOTALL):
            yield Contract(name, {file, *words_of(head)}, set(), words_of(ghost))


def words_of(text):
    return set(re.findall(r"\w+", text))


def names_in(cell):
    return [re.sub(r"\(.*", "", it) for it in re.findall(r"`([^`]+)`", cell) if not it.startswith("make ")]


def groups(cell):
    """Each '`f`, `g`: `x`, `y`' of a cell as its functions and its clauses; without a colon they are functions."""
    for group in cell.split(";"):
        functions, _, clauses = group.partition(": ")
        if names_in(group):
            yield names_in(functions), names_in(clauses)


class Claims(Counted):
    """Counts what is claimed by its kind too."""

    def __init__(self):
        super().__init__("claims")
        self.kind, self.kinds = "tables", collections.Counter()
        self.found, self.words, self.exported = sources()
        self.scripts = {os.path.basename(it).split(".")[0] for way in ("examples/*", "examples/*/*", "kernel/*/*", "bindings/*") for it in glob.glob(f"{ROOT}/{way}")}
        ways = "include/*.h", "bindings/rust*/src/**/*.rs", "bindings/python/*.py"
        bindings = (os.path.relpath(it, ROOT) for way in ways for it in glob.glob(f"{ROOT}/{way}", recursive=True))
        others = "kernel/conform.py", "kernel/rules.py", "kernel/kernels.py", "kernel/flights.py", "kernel/direct/traps.c", *files_of("bench_rust", "src"), *bindings
        self.scripts |= {word for it in others for word in re.findall(r"\w+", read(it))} | {it.name.split("/")[1] for it in examples.rows()}

    def want(self, holds, what):
        self.kinds[self.kind] += 1
        super().want(holds, what)

    def is_there(self, name, crates):
        """Whether each part of a path is a word of the crates, or of the crate that it begins with."""
        parts = name.split("::")
        if parts[0] in self.found:
            crates, parts = [parts[0]], parts[1:] or parts
        if parts[0] in ("Vec", "String", "Box", "Rc", "Arc", *self.found):
            return True
        return any(all(it in self.words[crate] or os.path.exists(f"{ROOT}/crates/{crate}/src/{it}.rt") for it in parts) for crate in crates)

    def contracts_of(self, name, crates):
        """The contracts that a name means: of a type, a trait or a module's function, where a path says which."""
        parts = [it for it in name.split("::") if it not in self.found]
        return [it for crate in crates for it in self.found[crate] if it.name == parts[-1] and set(parts[:-1]) <= it.owners]

    def claim(self, where, names, clauses, crates):
        """Checks that each function has each clause; of several with one name, one has all of them."""
        for name in names:
            named = [it for it in name.split("::")[:1] if it in self.found] or crates
            contracts = self.contracts_of(name, named)
            self.want(contracts or not clauses and self.is_there(name, named), f"{where}: there is no {name}")
            known = max((it.known() for it in contracts), key=lambda it: len(it & set(clauses)), default=None)
            for clause in clauses if contracts else ():
                self.want(clause in known, f"{where}: {name} has no clause {clause}")

    def row(self, file, heading, cell):
        """Claims of the functions that a cell names: of a crate in the heading, or else of that of the last path."""
        told = [it for it in re.findall(r"\b(?:fx|check)_\w+", heading) if it in self.found]
        crates = told or list(self.found)
        for names, clauses in groups(cell):
            crates = told or [it.split("::")[0] for it in names if it.split("::")[0] in self.found] or crates
            self.claim(f"{file}, {heading!r}", names, clauses, crates)

    def conditions(self, told):
        """Each public function with a `requires` is among those of which a caller must know."""
        for crate, contracts in self.found.items():
            for it in contracts if crate.startswith(("fx_", "check_")) and crate != "fx_cli" else ():
                if it.has_requires and (it.owners | {it.name}) & self.exported[crate]:
                    self.want(it.name in told, f"docs/inside/PROOFS.md: what a caller of {crate}'s {it.name} must know isn't there")

    def page(self, file):
        """Each `path::of::names`, `TypeName` and `name_of_words` of a page is in the sources, a test, a script or liburing."""
        text = named_in(file)
        if file == BODIES:
            text = re.sub(r"^\|.*$", "", text, flags=re.MULTILINE)
        for name in set(re.findall(r"`(\w+(?:::\w+)+|[A-Z]\w*[a-z]\w*|[a-z]+(?:_[a-z]+)+|YACHT_[A-Z_]+)[`(]", text)):
            holds = self.is_there(name, list(self.found)) or is_test(name) or self.scripts.issuperset(name.split("::")) or name.startswith("io_uring_")
            self.want(holds, f"{file}: there is no {name}")
        for name, clauses in re.findall(r"`([\w:]+)`(?: and the others)? ensures? ((?:`\w+`(?! ensures)(?:, | and )?)+)", " ".join(text.split())):
            self.claim(file, [name], re.findall(r"\w+", clauses.replace(" and ", " ")), list(self.found))


def named_in(file):
    """Returns a page; CHANGELOG.md without the names that are gone, or were replaced."""
    text = read(file)
    if file == "CHANGELOG.md":
        gone = r"^### Removed(?s:.*?)(?=^##)|^ *\|[^|]*\||in place of\s+`[^`]*`(?:(?:,| and)\s+`[^`]*`)*"
        names = re.findall(r"`[^`]+`", " ".join(re.findall(gone, text, re.MULTILINE)))
        text = re.sub("|".join(map(re.escape, names)), "", re.sub(gone, "", text, flags=re.MULTILINE))
    return text


def atomic_steps(page):
    """Yields each call of which a row says how many atomic steps it makes, and whether that is the number of its clause `steps`."""
    for counts, calls in re.findall(r"^\|[^|]* at most ([^|]*?) atomic steps[^|]*\| ([^|]*?)(?:: | \|)", page, re.MULTILINE):
        names, kept, last = names_in(calls), {}, None
        for text in (read(it) for it in files_of("*", "src") if f"impl {names[0].split('::')[0]} " in read(it)):
            for name, most in re.findall(r"\bfn (\w+)|steps_taken pass\.new ≤ steps_taken pass\.old \+ ([^}]*?) \}", text):
                last = name or last
                kept |= {last: most} if most else {}
        for name, most in zip(names, re.split(", | and ", counts), strict=True):
            yield f"{name} in {most} steps", re.sub(r"^\((.*)\)$", r"\1", kept.get(name.split("::")[-1], "")) == most


def options(page):
    """Yields each option of a command on a page, and whether the command has it."""
    commands = {it: read(f"completions/{it}") for it in ("fixfiles", "fixcheck")}
    rooms = {"kernel": ("conform", "litmus", "judge-linux", "in-vm"), "scripts": ("draw-history",), "bindings/python": ("yachtlog.py",)}
    commands |= {it: read(f"{room}/{it.removesuffix('.py').replace('-', '_')}.py") for room, those in rooms.items() for it in those}
    for name, words in re.findall(rf"\b({'|'.join(commands)})\b((?: (?![#.|])\[?[\w./=<>-]+\]?)+)", page):
        for option in re.findall(r"--([a-z][a-z-]*)", words):
            yield f"{name} --{option}", re.search(rf'(?<![\w-])["]?(?:--)?{option}(?![\w-])', commands[name]) is not None


def defaults(page):
    """Yields each default of a manual page of a script, and whether the script, or the search that it uses, has that number."""
    name = re.search(r"^\.Nm (\S+)$", page, re.MULTILINE)[1].replace("-", "_")
    scripts = [*glob.glob(f"{ROOT}/*/{name}.py"), "model/orders.py"]
    numbers = {re.sub("[_,]", "", it) for path in scripts for it in re.findall(r"\b\d[\d_,]*\b", read(path))}
    for number in re.findall(r"(?:by default|the first)\s+([\d,]+\d|\d)", page):
        yield f"{name}, by default {number}", number.replace(",", "") in numbers


# what a page claims of steps, options and defaults, and the pages
NUMBERS = {
    "atomic steps": (atomic_steps, [PROOFS]),
    "defaults": (defaults, ["man/conform.1", "man/draw-history.1", "man/judge-linux.1", "man/litmus.1"]),
    "options": (options, ["README.md", "CHANGELOG.md", "examples/README.md", *sorted(glob.glob("docs/*/*.md", root_dir=ROOT))]),
}


def numbers(claims):
    for claims.kind, (claimed, pages) in NUMBERS.items():
        for page in pages:
            for what, holds in claimed(newest(read(page)) if page == "CHANGELOG.md" else read(page)):
                claims.want(holds, f"{page}: not right: {what}")


def measurements(claims):
    """Each page has the tables and the minutes that bench/write-tables writes, and each table is on one page."""
    for path in tables.pages():
        is_written = False
        with contextlib.suppress(KeyError, ValueError):
            is_written = tables.written(path, read(path)) == read(path)
        claims.want(is_written, f"{path}: bench/write-tables writes another table, or other minutes")
    claims.want(sorted(tables.named()) == sorted(tables.TABLES), f"the pages have the tables {sorted(tables.named())}, and not {sorted(tables.TABLES)}")


def refuses(name, refusal):
    """Whether there is an edit of that name, a wrong step table, a test, an example or a check."""
    if refusal == "make steps":
        return re.search(rf"^{name}\t", read("tests/wrong_steps.txt"), re.MULTILINE)
    if refusal.startswith(f"{examples.TABLE} "):
        return any(it.name == f"faults/{refusal.split()[1]}" for it in examples.rows())
    if refusal.startswith(("examples/", "tests/")):
        return any(os.path.exists(f"{ROOT}/{it}") for it in (refusal, f"{refusal.replace('-', '_')}.py"))
    if "::" in refusal:
        return is_test(refusal)
    crate, _, kind = refusal.partition("/")
    return name in edits.names(kind.removesuffix(".txt"), crate=crate)


def is_test(name):
    """Of the crate that the name begins with."""
    crate, _, test = name.rpartition("::")
    return bool(crate) and any(re.search(rf"#\[test\]\s+fn {test}\b", read(it)) for it in files_of(crate, "src"))


def tables_of_proofs(claims):
    """Claims what the tables of docs/inside/PROOFS.md say. Returns their headings, and the calls of which a caller must know."""
    headings, told = set(), set()
    for heading, cells in rows(read(PROOFS)):
        is_head = cells[0] == "claim" or cells[1:] == ["contract"]
        if not is_head and (heading == "Every function" or len(cells) == 2 and re.match("fx_|check_|example_|Laws", heading)):
            claims.row(PROOFS, "fx_plain" if heading.startswith("Laws") else heading, cells[1])
            headings.add(heading)
    for item in re.split(r"^- ", section(read(PROOFS), f"## {CALLER}"), flags=re.MULTILINE)[1:]:
        calls, _, what = " ".join(item.split()).partition(": ")
        told |= {it.split("::")[-1] for it in names_in(calls)}
        for part in (calls, what):
            claims.row(PROOFS, CALLER, part)
    return headings, told


def imported_by(spec):
    """The files of definitions, of any crate of this repository, that a file of definitions imports from."""
    for crate, path in re.findall(r"^(?:pub )?use Rattle\.((?:fx|table)_\w+)\.specs\.([\w.]+)\.\{", read(spec), re.MULTILINE):
        if not path.startswith("declared."):
            yield f"crates/{crate}/specs/{path.replace('.', '/')}.antt"


def reached():
    """The files of definitions that the headline's definition reaches, and how many lines they have but imports, comments and blank lines."""
    found, left = set(), [HEADLINE]
    while left:
        spec = left.pop()
        left += [] if spec in found else imported_by(spec)
        found.add(spec)
    return found, sum(not re.match(r"\s*$| *--|(pub )?(use|mod) ", it) for spec in found for it in read(spec).split("\n"))


def reading_list(claims):
    """The reading list of docs/inside/PROOFS.md has a row for each crate, with its files by their names, and both numbers."""
    (files, lines), part = reached(), section(read(PROOFS), "## Reading list")
    listed = [f"crates/{crate}/specs/{name}.antt" for _, (crate, names) in rows(part) if re.search("fx_|table_", crate) for name in names.split(", ")]
    wanted = f"{len(files)} files with {lines} lines of definitions"
    names = ", ".join(sorted(os.path.basename(it)[:-5] for it in files))
    claims.want(sorted(listed) == sorted(files) and wanted in " ".join(part.split()), f"{PROOFS}: the reading list should have {wanted}: {names}")


def promises_of_readme(claims, headings):
    """Each promise of README.md leads to tables of docs/inside/PROOFS.md that name functions, and to nothing else of it."""
    anchors = {anchor_of(it) for it in headings}
    items = re.split(r"^- ", section(read("README.md"), "## Proved, tested, trusted").split("\n\n**")[0], flags=re.MULTILINE)[1:]
    claims.want(items, "README.md promises nothing")
    for item in items:
        led = re.findall(r"\]\(docs/inside/PROOFS\.md#([\w-]+)\)", item)
        claims.want(led and set(led) <= anchors, f"README.md: no table of {PROOFS} backs: {item[:60]}")


def wrong_bodies(claims):
    """What refuses a wrong body is there."""
    for _, cells in rows(read(BODIES)):
        if cells[0] != "wrong body":
            refusals = re.findall(r"`([^`]+)`", cells[2])
            claims.want(refusals, f"{BODIES}: nothing refuses {cells[0]}")
            for refusal in refusals:
                for name in names_in(cells[0]):
                    claims.want(refuses(name, refusal), f"{BODIES}: {refusal} doesn't have {name}")


def quotes(claims):
    """Each line of a law, and of the examples of the library: a block of code with a call of the table, or an invariant."""
    examples = (("example_library", "src", "proofs"),)
    sources, specs = ("".join(read(file) for it in those for file in files_of(*it)) for those in (examples, (("*", "specs"),)))
    found = {"law": 0, "example": 0}
    for page in ("README.md", "docs/inside/LIBRARY.md", PROOFS):
        for block in blocks(read(page), spans_gaps=True):
            kind = "example" if any("table." in it or "abbrev pub invariant" in it for it in block) else "law" if any(" ≡ " in it for it in block) else None
            for quoted in (re.split(r"(?:^|  )\s*(?:--|//)", it)[0].strip() for it in block if kind):
                found[kind] += 1
                claims.want(quoted in (sources if kind == "example" else specs), f"{page} quotes what no {kind} says: {quoted}")
    claims.want(all(found.values()), "README.md, docs/inside/LIBRARY.md and docs/inside/PROOFS.md quote no law, or no example")


def kept_outputs(claims):
    """docs/use/CHECKING.md shows lines of kept outputs of fixcheck, that have a number."""
    shown = [" ".join(it.split()) for block in blocks(read("docs/use/CHECKING.md")) for it in block if re.search(r"\d", it)]
    for path, wanted in QUOTED.items():
        words = " ".join(read(path).split())
        count = sum(it in words for it in shown)
        claims.want(count >= wanted, f"docs/use/CHECKING.md has {count} lines of {path}, and not {wanted}")


def command():
    claims = Claims()
    headings, told = tables_of_proofs(claims)
    claims.kind = "conditions"
    claims.conditions(told)
    for claims.kind, what in (("reading list", reading_list), ("wrong bodies", wrong_bodies), ("quotes", quotes), ("kept outputs", kept_outputs), ("measurements", measurements)):
        what(claims)
    claims.kind = "promises"
    promises_of_readme(claims, headings)
    numbers(claims)
    claims.kind = "pages"
    for path in ("README.md", "CHANGELOG.md", *(it for way in ("*/*.md", "docs/*/*.md") for it in sorted(glob.glob(way, root_dir=ROOT)))):
        claims.page(path)
    few = {kind: claims.kinds[kind] for kind, least in LEAST.items() if claims.kinds[kind] < least}
    claims.want(not few, f"of these kinds there are few claims, of {LEAST}: {few}")
    return claims.end("names looked at")
