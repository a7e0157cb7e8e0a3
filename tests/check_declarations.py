"""check-declarations: compares the declarations of the exported functions in Rattle, C, Rust and Python: names, widths of arguments and
results, fields of structs, values of constants. Files that scripts/declare-core writes are as it writes them. Then each declaration is
changed in turn, in memory, and each change must be noticed."""
import ast
import re

from scripts import declare_core
from scripts.checks import Counted
from scripts.repository import read

# by library: the files with its exports in Rattle, and its declarations elsewhere
RATTLE = {
    "judge": ["fx_judge_c/exports", *(f"fx_judge/{it}" for it in ("judge", "outcomes", "flights", "events", "steps", "codes"))],
    "direct": ["fx_direct_c/exports", "fx_direct_c/codes"],
    "server": ["fx_server_c/exports", "fx_server/codes", "fx_server/answers"],
}
FILES = {
    "judge": {
        "C": ["include/yachtjudge.h"],
        "Rust": ["bindings/rust_judge/src/core.rs"],
        "Python": ["bindings/python/yachtjudge.py", "bindings/python/yachtsteps.py"],
    },
    "direct": {
        "C": ["include/yachtdirect.h"],
        "Rust": ["bindings/rust/src/direct/core.rs"],
        "stand-in": ["bindings/rust/src/direct/stand_in.rs"],
    },
    # the others are written by scripts/declare-core
    "server": {"C": ["bindings/c/core.h", "include/yachtbanyan.h"]},
}
# what the C part of the judge adds to the exports, as its header has it; and what passes a log by
# its events, which only C does
ADDED = "yacht_judge_log_6", "struct Reading"
OF_EVENTS = "yacht_judge_events_6", "yacht_judge_whole_updates_6", "struct File", "struct Event", "struct Request", "struct Judgement"
# the widths of numbers in each language; any other type is a struct, or a handle
WIDTHS = {
    "u8": "8", "uint8_t": "8", "c_uint8": "8", "u32": "u32", "uint32_t": "u32", "c_uint32": "u32", "i32": "i32", "int32_t": "i32",
    "c_int32": "i32", "int": "i32", "u64": "u64", "uint64_t": "u64", "c_uint64": "u64", "i64": "i64", "int64_t": "i64", "usize": "size",
    "size_t": "size", "c_size_t": "size",
}
NUMBERS = re.compile(r"\b(?:" + "|".join(WIDTHS) + r")\b")
# by language: what isn't for C; forms of a function, a struct, its fields and a constant
FORMS = {
    "Rattle": (
        None, r'extern "C" fn (?P<name>\w+)\((?P<given>.*?)\)(?: -> (?P<result>\w+))?\s*(?=ghost|requires|ensures|\{)',
        r"#\[repr\(C\)\]\n#\[derive\([\w, ]*Drop\)\]\npub struct (?:Core|Yacht)(?P<name>\w+) \{(?P<fields>.*?)\n\}",
        r"pub (?P<name>\w+): (?P<type>\w+),", r"pub const (?P<name>\w+): \w+ = (?P<value>[-\d]+);",
    ),
    "C": (
        r"/\*.*?\*/", r"(?m:^)(?P<result>\w+) (?P<name>yacht_\w+)\((?P<given>[^;{]*)\);", r"typedef struct \w+ \{(?P<fields>[^}]*)\} yacht_(?P<name>\w+);",
        r"(?P<type>\w+) (?P<name>\w+);", r"\bYACHT_(?:JUDGE_|DIRECT_)?(?P<name>\w+) = (?P<value>[-\d]+)",
    ),
    "Rust": (
        r'extern "(?!C")\w*" \{.*?\n\}', r"fn (?P<name>yacht_\w+)\((?P<given>.*?)\)(?:\s+-> (?P<result>\w+))?\s*[;{]",
        r"#\[repr\(C\)\]\n#\[derive[^\n]*\]\npub\(crate\) struct (?P<name>\w+) \{(?P<fields>.*?)\n\}",
        r"pub\(crate\) (?P<name>\w+): (?P<type>\w+),", r"const (?P<name>\w+): \w+ = (?P<value>[-\d]+);",
    ),
    "Python": (
        None, r"_library\.(?P<name>\w+)\.restype = (?P<result>\w+)\n_library\.(?P=name)\.argtypes = \[(?P<given>.*?)\]\n",
        r"class _(?P<name>\w+)\(ctypes\.Structure\):\n    _fields_ = \[(?P<fields>.*?)\]\n", r'\("(?P<name>\w+)", (?P<type>\w+)\)', None,
    ),
}
FORMS["stand-in"] = FORMS["Rust"]


def shape(text):
    """Returns the width of what a declaration passes, and whether it passes the address."""
    width = next((WIDTHS[it] for it in re.findall(r"\w+", text) if it in WIDTHS), "struct")
    return f"to {width}" if re.search(r"[*&]", text) else width


def parameters(text):
    """Returns the shapes of parameters. In Rattle `Global` has no bytes, and a slice is a pointer and a length."""
    for it in (it.strip() for it in re.sub(r"\bPOINTER\((\w+)\)", r"\1*", text).split(",")):
        if it and not it.endswith(": Global"):
            yield shape(it)
            yield from ["size"] * ("[" in it)


def constants_of_python(text):
    """Yields the constants that Python has, several in a line."""
    for names, values in re.findall(r"^([A-Z_]+(?:, [A-Z_]+)+) = (.*)$", text, re.M):
        numbers = range(*map(int, re.findall(r"\d+", values))) if values.startswith("range") else ast.literal_eval(values)
        yield from ((name, it) for name, it in zip(names.split(", "), numbers) if isinstance(it, int))


def symbols(text):
    """Returns the symbol of each function that a macro of a header renames: its name and the major version."""
    return dict(re.findall(r"^#define (yacht_\w+) (yacht_\w+)$", text, re.M))


def declared(language, text):
    """Returns what a text declares: the shapes of each function, the fields of each struct, and the values of constants."""
    _, function, struct, field, constant = FORMS[language]
    found, renamed = {}, symbols(text)
    for it in re.finditer(function, text, re.S):
        result = it["result"] or "void"
        found[renamed.get(it["name"], it["name"])] = ["nothing" if result == "void" else shape(result), *parameters(it["given"])]
    for it in re.finditer(struct, text, re.S):
        fields = [f"{each['name']} {shape(each['type'])}" for each in re.finditer(field, it["fields"])]
        found[f"struct {it['name'].title()}"] = fields
    pairs = re.findall(constant, text) if constant else constants_of_python(text)
    return found | {f"const {name}": int(value) for name, value in pairs}


def texts_of(library):
    """Returns the texts of the declarations by language, and in each by path. Of the answers of the core only the structs are for C."""
    rattle = {f"crates/{it.replace('/', '/src/')}.rt": "" for it in RATTLE[library]}
    texts = {language: {it: read(it) for it in paths} for language, paths in {"Rattle": rattle, **FILES[library]}.items()}
    for it in (it for it in rattle if it.endswith("answers.rt")):
        texts["Rattle"][it] = "\n".join(re.findall(r"#\[repr\(C\)\]\n.*?\n\}\n", texts["Rattle"][it], re.S))
    return {language: {it: plain(language, text) for it, text in those.items()} for language, those in texts.items()}


def plain(language, text):
    """Returns a text without what is no declaration for C, and with what its macros or tables write."""
    text = of_rows(text) if language == "Python" else of_macros(text) if language in ("Rust", "stand-in") else text
    return re.sub(FORMS[language][0], "", text, flags=re.S) if FORMS[language][0] else text


def of_macros(text):
    """Returns a text of Rust with the constants, structs and functions that its macros define, each by a row."""
    numbers = lambda it: "\n".join(f"const {name}: i32 = {value};" for name, value in re.findall(r"(\w+) (-?\d+)", it[1]))
    text = re.sub(r"numbers! \{ (.*?) \}", numbers, text)
    struct = lambda it: f"#[repr(C)]\n#[derive(Copy)]\npub(crate) struct {it[1]} {{\n" + re.sub(r"(\w+: \w+),?\s*", r"pub(crate) \1,\n", it[2]) + "\n}"
    text = re.sub(r"^structs! \{\n(.*?)\n\}$", lambda it: re.sub(r"^    (\w+) \{ (.*?) \}$", struct, it[1], flags=re.M | re.S), text, flags=re.M | re.S)
    # what a function of a row begins with, and its result, stand in the macro
    for first, abi, given, result in re.findall(r"\$name:ident\((\w+), .*?extern \"(\w+)\" .*?fn \$name\((.*?)\$\(\$more.*?\) -> (\w+);", text, re.S):
        row = lambda it, given=given, result=result: f"    pub(crate) fn {it[1]}({given}{it[2]}) -> {result};"
        block = lambda it, first=first, abi=abi, row=row: f'unsafe extern "{abi}" {{\n' + re.sub(rf"^    (\w+)\({first}, (.*?)\);$", row, it[1], flags=re.M | re.S) + "\n}"
        text = re.sub(rf"^functions! \{{\n(    \w+\({first}, .*?)\n\}}$", block, text, flags=re.M | re.S)
    for given, result in re.findall(r"fn \$name\((it: .*?)\) -> (\w+) \{", text):
        text = re.sub(r"^    (yacht_\w+)\(it, key\)", rf"fn \1({given.replace('$', '')}) -> {result} {{", text, flags=re.M)
    return text


def of_rows(text):
    """Returns a text of Python with the members of its structs and the types of its functions one by one."""
    def struct(found):
        rows = re.findall(r'(\w+)="([^"]*)"|\("(\w+)", (\w+)\)', found[2])
        return found[1] + "[" + ", ".join(f'("{name}", {kind})' for of, names, *one in rows for name, kind in ([(it, f"c_{of}") for it in names.split()] or [one])) + "]\n"

    text = re.sub(r"(class _\w+\(ctypes\.Structure\):\n    _fields_ = )(.*)\n", struct, text)
    for name in re.findall(r"^(_[A-Z]+) = ", text, re.M):
        text = text.replace(f"*{name}", re.search(rf"^{name} = (.*)$", text, re.M)[1])
    return re.sub(r"^    \(_library\.(\w+), \((.*)\)\),$", r"_library.\1.restype = c_uint32\n_library.\1.argtypes = [\2]\n", text, flags=re.M)


def differences(texts):
    """Returns a line for each difference of another language from Rattle. Languages but C may leave constants out."""
    found = {language: declared(language, "\n".join(those.values())) for language, those in texts.items()}
    exported, lines = found.pop("Rattle"), []
    exported |= {it: found["C"][it] for it in ADDED if it in found["C"]}
    for language, those in found.items():
        structs = any(it.startswith("struct") for it in those)
        for name, wanted in exported.items():
            is_optional = name.startswith("const") and language != "C" or name.startswith("struct") and not structs or language != "C" and name in OF_EVENTS
            if name not in those and not is_optional:
                lines.append(f"{language} doesn't declare {name}")
            elif name in those and those[name] != wanted:
                lines.append(f"{language} declares {name} as {those[name]}, and Rattle as {wanted}")
        core = (it for it in those if it.startswith("yacht_core") or language == "Python" and it.startswith("yacht"))
        lines += [f"Rattle doesn't export {it}, which {language} declares" for it in core if it not in exported]
    return lines


def changes(language, text, exported):
    """Yields what is changed in a text, where, and what replaces it: names of Rattle's, numbers and constants."""
    _, function, struct, _, constant = FORMS[language]
    renamed = symbols(text)
    for name, symbol in renamed.items():
        if symbol in exported:
            at = text.index(f" {symbol}\n") + 1
            yield f"the symbol of {name}", (at, at + len(symbol)), f"{symbol}0"
    for form, kind in ((function, ""), (struct, "struct "), (constant, "const ")):
        for it in re.finditer(form, text, re.S) if form else ():
            name = it["name"].title() if form == struct else renamed.get(it["name"], it["name"])
            if kind + name not in exported:
                continue
            for at in () if form == constant else NUMBERS.finditer(text, *it.span()):
                yield at[0], at.span(), "u64" if WIDTHS[at[0]] == "u32" else "u32"
            if form != struct:
                group, new = ("name", "yacht_core_other") if form == function else ("value", "-100")
                yield it["name"], it.span(group), new


def spoiled(texts):
    """Yields each change of one declaration: what is changed, and the texts with it."""
    exported = {*declared("Rattle", "\n".join(texts["Rattle"].values())), *ADDED}
    for language, path, text in ((language, *it) for language, those in texts.items() for it in those.items()):
        others = [(f"{what} in line {text.count(chr(10), 0, begin) + 1}", text[:begin] + new + text[end:]) for what, (begin, end), new in changes(language, text, exported)]
        if language == "Rust" and 'extern "C"' in text:
            others.append(('extern "C"', plain(language, text.replace('extern "C"', 'extern "Rust"'))))
        for what, other in others:
            yield f"{what} of {path}", {**texts, language: {**texts[language], path: other}}


def written(counted):
    """Checks that files are what scripts/declare-core writes, and that each change of them, or of their sources, is noticed."""
    stale = list(declare_core.stale())
    for path in declare_core.FILES:
        counted.want(path not in stale, f"{path} isn't what scripts/declare-core writes")
    for path, pattern in declare_core.WRITTEN:
        for at in re.finditer(pattern, read(path), re.M):
            other = at.string[: at.end() - 1] + ("8" if at[0][-1] == "9" else "9") + at.string[at.end() :]
            declare_core.read = lambda it, path=path, other=other: other if it == path else read(it)
            counted.want(any(declare_core.stale()), f"the change of {at[0]} in {path} isn't noticed")


def command():
    counted = Counted("declarations")
    for library in RATTLE:
        texts = texts_of(library)
        counted.seen += len(declared("Rattle", "\n".join(texts["Rattle"].values()))) * (len(texts) - 1)
        for line in differences(texts):
            counted.want(False, f"{library}: {line}")
        for what, changed in spoiled(texts):
            counted.want(differences(changed), f"{library}: the change of {what} isn't noticed")
    written(counted)
    return counted.end()
