"""declare-core: writes the declarations of the core's exports for C and Rust, from fx_server_c and fx_server; the functions and the
limits of yachtbanyan(3) and yachtdirect(3), from the headers; the numbers of docs/use/LIMITS.md, from the constants that its rows name;
the version, from VERSION, and the date of the manual pages. If a limit has changed, it prints the lines of other pages and headers that
have the old number."""
import contextlib
import datetime
import functools
import glob
import re
import textwrap

from scripts.repository import ROOT, files_of, read, write

WIDTH = 100
SOURCE = "crates/fx_server_c/src/exports.rt"
CODES = "crates/fx_server/src/codes.rt"
LIMITS = "docs/use/LIMITS.md"
# each type of a parameter for C and Rust
TYPES = {
    "u32": ("uint32_t ", "u32"),
    "u64": ("uint64_t ", "u64"),
    "Handle": ("yacht_core ", "Core"),
    "&mut Handle": ("yacht_core *", "*mut Core"),
    "&mut u64": ("uint64_t *", "*mut u64"),
    "&mut CoreOutcome": ("yacht_outcome *", "*mut Outcome"),
    "usize": ("size_t ", "usize"),
}


class Export:
    """An export of the core. Of its parameters `Global` has no bytes, and a slice is two."""

    def __init__(self, name, given, result):
        pairs = re.findall(r"(\w+): ([^,\n]+)", given.replace("&mut [WorkerPlace]", "&mut Handle, count: usize"))
        self.name, self.result = name, result
        self.parameters = [(it, *TYPES[kind]) for it, kind in pairs if kind != "Global"]

    def for_c(self):
        """Returns its declaration in lines of at most 100 columns."""
        head = f"{'int64_t' if self.result else 'void'} {self.name}("
        given = ", ".join(f"{kind}{name}".replace(" ", "\0") for name, kind, _ in self.parameters)
        return folded(f"{given});", head, " " * len(head)).replace("\0", " ")

    def for_rust(self):
        """Returns its declaration as rustfmt lays it out."""
        given = [f"{name}: {kind}" for name, _, kind in self.parameters]
        head, end = f"    pub fn {self.name}(", f"){' -> i64' if self.result else ''};"
        line = f"{head}{', '.join(given)}{end}"
        return line if len(line) <= WIDTH else "\n".join([head, *(f"        {it}," for it in given), f"    {end}"])


def exports():
    found = re.findall(r'extern "C" fn (\w+)\((.*?)\)(?: -> (\w+))?\s*(?=requires|ensures|\{)', read(SOURCE), re.S)
    return [Export(*it) for it in found]


def documented(text, pattern):
    """Returns what a pattern finds, each after the text of its description."""
    found = re.findall(rf"((?:^ *///.*\n)+) *{pattern}", text, re.M)
    return [(" ".join(re.findall(r"/// (.*)", words)), *rest) for words, *rest in found]


def codes():
    return documented(read(CODES), r"pub const (\w+): i64 = ([-\d]+);")


def fields():
    struct = re.search(r"pub struct CoreOutcome \{\n(.*?)\n\}", read("crates/fx_server/src/answers.rt"), re.S)[1]
    return documented(f"{struct}\n", r"pub (\w+): u64,")


def folded(words, first, rest):
    """Returns a text in lines of at most 100 columns."""
    return textwrap.fill(words, WIDTH, initial_indent=first, subsequent_indent=rest, break_long_words=False, break_on_hyphens=False)


@functools.cache
def constant(crate, name):
    """Returns a constant of a crate or of a header."""
    texts = [read(f"include/{crate}.h")] if crate.startswith("yacht") else [read(it) for it in files_of(crate, "src")]
    found = {it.strip() for text in texts for it in re.findall(rf"\b{name}(?:: \w+)? = (-?[\d_ <()+-]+)[;,\s}}]", text)}
    if len(found) != 1:
        raise ValueError(f"{crate} has {len(found)} constants {name}")
    return eval(found.pop().replace("_", ""))


def for_c():
    about = f"""The C interface of the verified core, for this library alone: the shared library does not export its functions. There is one
for each call that a user makes; {SOURCE} describes each. In the core's words a value is a file. The functions return the numbers of
yachtbanyan.h: where that says YACHT_DROPPED, the core has returned the tag of a value that nobody uses any more. scripts/declare-core
writes this file."""
    members = "\n".join(f"{folded(words + ' */', '    /* ', '     * ')}\n    uint64_t {name};" for words, name in fields())
    return f"""{folded(about + " */", "/* ", " * ")}
#ifndef YACHT_CORE_H
#define YACHT_CORE_H
#include <stddef.h>
#include <stdint.h>

/* A worker of the core, which its place in memory owns: one pointer, or NULL if there is none. */
typedef struct yacht_core {{
    void *worker;
}} yacht_core;

/* The numbers that a call returns beside its answer. Each is 0 if there is no such file. */
typedef struct yacht_outcome {{
{members}
}} yacht_outcome;

{chr(10).join(it.for_c() for it in exports())}

#endif
"""


def constants():
    return "\n".join(f"{folded(words, '/// ', '/// ')}\npub const {name}: i64 = {value};" for words, name, value in codes())


def outcome():
    members = "\n".join(f"{folded(words, '    /// ', '    /// ')}\n    pub {name}: u64," for words, name in fields())
    return f"""/// The numbers that a call returns beside its answer. Each is 0 if there is no such file.
#[repr(C)]
#[derive(Clone, Copy, Default)]
pub struct Outcome {{
{members}
}}"""


def for_rust():
    about = f"""The exports of the verified core, and the numbers that they return. In the core's words a value is a file.
`scripts/declare-core` writes this file from `{SOURCE}`, which describes each function."""
    return f"""{folded(about, "//! ", "//! ")}
#![allow(dead_code, unused_imports)]
use super::core::Core;

{outcome()}

{constants()}

#[cfg(not(yachtbanyan_stand_in))]
unsafe extern "C" {{
{chr(10).join(it.for_rust() for it in exports())}
}}
"""


def functions(header):
    """Returns the functions of a header, each as its result, its name and its arguments."""
    plain = re.sub(r"/\*.*?\*/", "", header, flags=re.S)
    found = re.findall(r"^(?!typedef)([a-z][\w ]*?[ *]+)(yacht_\w+)\(([^;{]*?)\);", plain, re.M | re.S)
    return [(result.strip(), name, [" ".join(it.split()) for it in given.split(",")]) for result, name, given in found]


def dated(page):
    """Returns a manual page with the date of the newest version."""
    day = datetime.date.fromisoformat(re.search(r"^## \[.*\] - (.*)$", read("CHANGELOG.md"), re.M)[1])
    return re.sub(r"^\.Dd .*$", f".Dd {day:%B} {day.day}, {day.year}", page, count=1, flags=re.M)


def for_manual(name, names_all=True):
    """Returns a function that returns the manual page of a library with its header's functions and constants, which it names, or not all."""
    def made():
        page, header = read(f"man/{name}.3"), read(f"include/{name}.h")
        if names_all and {*re.findall(r"\b(YACHT_\w+) = ", header)} != {*re.findall(r"^\.(?:It )?Dv (YACHT_\w+)", page, re.M)}:
            raise ValueError(f"man/{name}.3 has other constants than its header")
        lines = []
        for result, function, given in functions(header):
            lines += [f'.Ft "{result}"' if " " in result else f".Ft {result}", " ".join([f".Fn {function}", *(f'"{it}"' for it in given)])]
        page = re.sub(r"(?:^\.Ft .*\n\.Fn .*\n)+", lambda _: "\n".join([*lines, ""]), page, count=1, flags=re.M)
        return dated(re.sub(r"(?<=^\.Dv )(YACHT_\w+)\n\([\d,]+\)", lambda it: f"{it[1]}\n({constant(name, it[1]):,})", page, flags=re.M))

    return made


def for_limits():
    """Returns the page of limits with the number of each constant that a row of its table names."""
    def row(found):
        number, words, crate, name = found.groups()
        value = constant(crate, name)
        new = f"2^{value.bit_length()} - 1" if number.startswith("2^") and not value & (value + 1) else f"{value:,}"
        return f"    {f'{new} {words.rstrip()}'.ljust(len(number) + 1 + len(words))}{crate}: {name}"

    return re.sub(r"^    (2\^\d+ - 1|[\d,]+) (.* {2,})(\w+): ([A-Z_]+)$", row, read(LIMITS), flags=re.M)


def old_limits():
    """Yields each line of a page or a header that has the number which the page of limits has of a constant, and the constant hasn't."""
    old, new = ({name: number for number, name in re.findall(r"^    ([\d,]+) .*: ([A-Z_]+)$", it, re.M)} for it in (read(LIMITS), for_limits()))
    ways = "README.md", "docs/*/*.md", "bindings/*/README.md", "man/*", "include/*.h"
    for name, number in ((name, number) for name, number in old.items() if new[name] != number):
        for path in (it for way in ways for it in sorted(glob.glob(way, root_dir=ROOT)) if it != LIMITS):
            for nth, line in enumerate(read(path).splitlines(), 1):
                if re.search(rf"(?<![\w,.]){number}(?![,.]?\w)", line):
                    yield f"{path}:{nth}: {name} was {number}, and is {new[name]}: {line.strip()}"


def with_version(path, count):
    """Returns a function that returns a file with the version where it has it, which is at that number of places."""
    def made():
        version = read("VERSION").strip()
        parts = dict(zip(("MAJOR", "MINOR", "PATCH"), version.split(".")))
        text, found = VERSION.subn(lambda it: it[1] + (version if it[1].endswith('"') else parts[it[2] or "MAJOR"]), read(path))
        if found != count:
            raise ValueError(f"{path} has {found} versions, and not {count}")
        return text

    return made


# what the version follows, and each part of it; the library's name of a function has the major one
VERSION = re.compile(
    r'(^(?:(?:__version__ =|version =|const VERSION: &str =|#define YACHT\w*VERSION) "|#define YACHT\w*VERSION_(MAJOR|MINOR|PATCH) )|'
    r'\byacht_(?:open|direct_open|judge|outcomes|judge_events|judge_whole_updates|judge_log)_)(?=\d)[\d.]*\d', re.M)
# the files with the version, and how often each has it or a part of it
VERSIONED = {
    "bindings/python/yachtjudge.py": 7, "bindings/recorder/src/c.rs": 1, "bindings/rust/Cargo.toml": 1, "bindings/rust_judge/Cargo.toml": 1,
    **{f"bindings/rust_judge/src/{it}.rs": count for it, count in (("core", 3), ("log", 1), ("script", 2))},
    "crates/fx_arguments/src/fixcheck.rt": 1, "crates/fx_judge_c/src/exports.rt": 4,
    "include/yachtbanyan.h": 5, "include/yachtdirect.h": 5, "include/yachtjudge.h": 9,
    "crates/fx_direct_c/src/exports.rt": 1, "bench/life.rs": 3, **{f"bindings/rust/src/direct/{it}.rs": 1 for it in ("core", "machine", "stand_in")},
}
DATED = [*sorted(glob.glob("man/*.1", root_dir=ROOT)), "man/yachtrecord.3"]
FILES = {
    **{path: lambda path=path: dated(read(path)) for path in DATED},
    "man/yachtbanyan.3": for_manual("yachtbanyan"),
    "man/yachtdirect.3": for_manual("yachtdirect"),
    "man/yachtjudge.3": for_manual("yachtjudge", names_all=False),
    LIMITS: for_limits,
    "bindings/c/core.h": for_c,
    "bindings/rust/src/access/exports.rs": for_rust,
    **{path: with_version(path, count) for path, count in VERSIONED.items()},
}
# what is written by each source, and what it is written from
WRITTEN = (
    (SOURCE, r"(?<=fn )yacht_core_\w+"), (CODES, r"(?<=: i64 = )[-\d]+"), (LIMITS, r"(?<=^    )[\d,]+(?= .*: [A-Z_]+$)"), *((path, VERSION.pattern) for path in VERSIONED),
    *((path, r"^\.Dd .*$") for path in DATED),
    *((path, r'(?<=^\.Fn )\w+(?= "yacht_)|(?<=^\()[\d,]+(?=\))|(?<=Dv )YACHT_\w+') for path in ("man/yachtbanyan.3", "man/yachtdirect.3")),
    ("man/yachtjudge.3", r'(?<=^\.Fn )\w+(?= ")|(?<=^\()[\d,]+(?=\))'),
)


def stale():
    """Yields the files that aren't as they would be written."""
    for path, made in FILES.items():
        with contextlib.suppress(ValueError):
            if read(path) == made():
                continue
        yield path


def command():
    for it in old_limits():
        print(it)
    for path, made in FILES.items():
        write(f"{ROOT}/{path}", made())
    return 0
