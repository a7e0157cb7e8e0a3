"""clauses [--names OLD=NEW ..] REVISION [CRATE..]: compares each public function's signature and contract, each public type, and each
definition of specs/ with those of a revision. It prints what is gone, new or different, and ends with status 1 unless something is only
new. OLD=NEW names a word that was renamed. A function is public if it is `pub`, or of a `pub trait`, or of an `impl` of a trait with
clauses. Order and layout make no difference."""
import argparse
import io
import re
import subprocess
import tarfile

from scripts.repository import ROOT, files_of, read

FUNCTION = re.compile(r'( *)(pub )?(?:const |unsafe )*(?:extern "C" )?fn (\w+)')
CLAUSE = re.compile(r"\s*(requires|ensures)\*?(?= |\{)")


def words_of(text):
    """Returns the words and signs of a text, without comments, so that layout makes no difference."""
    text = re.sub(r"(?m)(?:^|\s)(?://|--).*$", "", text)
    return " ".join(text.split())


def clauses_of(lines):
    """Returns the signature and the clauses of a function, which are the lines before its body."""
    parts = [[]]
    for line in lines:
        if CLAUSE.match(line):
            parts.append([])
        parts[-1].append(line)
    signature, *clauses = (words_of("\n".join(it)) for it in parts)
    return [signature.rstrip(" {;"), *sorted(it.rstrip(" ;") for it in clauses)]


def functions_of(text):
    """Yields the functions of a source with their clauses: the name with its impl or trait, and the lines."""
    lines, around, at = text.split("\n"), "", 0
    is_open = False
    while at < len(lines):
        line = lines[at]
        if re.match(r"(?:pub(?:\([a-z]+\))? )?(?:unsafe )?(?:impl|trait)\b", line):
            around = words_of(line).rstrip(" {")
            is_open = " for " in around or around.startswith("pub trait")
        elif line == "}":
            around, is_open = "", False
        begins = FUNCTION.match(line)
        if begins and (begins[2] or is_open and begins[1]):
            end = last_of(lines, at, begins[1])
            yield f"{around}::{begins[3]}" if around else begins[3], clauses_of(lines[at : end + 1])
            at = end + 1
        else:
            at += 1


def last_of(lines, at, indentation):
    """Returns the last line of the signature and the contract of the function that begins at line `at`."""
    depth = 0
    for end in range(at, len(lines)):
        line = lines[end]
        if end > at and (not line or re.match(rf"{indentation}\{{", line)):
            return end - 1
        has_clause = any(map(CLAUSE.match, lines[at : end + 1]))
        depth += line.count("{") - line.count("}")
        if depth == 0 and line.rstrip().endswith(";") or not has_clause and line.rstrip().endswith(("{", "}")):
            return end
    return len(lines) - 1


def types_of(text):
    """Yields the public types and constants of a source."""
    for it in re.finditer(r"(?m)^pub (?:struct|enum|trait|type|const|static) (\w+)(?:[^;{]*;|[^{;]*\{(?:.|\n)*?^\})", text):
        if not it[0].startswith("pub trait"):
            is_struct = it[0].startswith("pub struct")
            lines = [line for line in it[0].split("\n") if not (is_struct and re.match(r"    (?!pub |ghost )\S", line))]
            yield it[1], [words_of("\n".join(lines))]


def definitions_of(text):
    """Yields the definitions of a file of specs/: each begins at a line without indentation."""
    block = []
    for line in [*re.sub(r"(?m)^\s*--.*$", "", text).split("\n"), "end"]:
        if line and not line[0].isspace() and not re.match(r"(?:import|open|use|pub use|pub mod|mod|module|end$)\b", line) or line == "end":
            name = block and re.match(r"(?:pub |abbrev |record |data |infix\w* \d+ )*(\S+)", block[0])
            if name:
                yield name[1], [words_of("\n".join(block))]
            block = []
        block.append(line)


def items(crates, read_file, paths):
    """Returns the items of these crates: what each says, by crate, kind and name."""
    found = {}
    for path in paths:
        crate, folder = path.split("/")[1:3]
        if crate == "bench_rust" or crates and crate not in crates or folder not in ("src", "specs"):
            continue
        text = read_file(path)
        if path.endswith(".rt"):
            kinds = (("function", functions_of), ("type", types_of))
        else:
            kinds = (("definition", definitions_of),)
        for kind, each in kinds:
            for name, said in each(text):
                found.setdefault((crate, kind, name), []).append(said)
    return {key: sorted(said) for key, said in found.items()}


def of_revision(revision, crates):
    packed = subprocess.run(["git", "-C", ROOT, "archive", revision, "crates"], capture_output=True, check=True).stdout
    with tarfile.open(fileobj=io.BytesIO(packed)) as tar:
        texts = {it.name: tar.extractfile(it).read().decode() for it in tar if it.name.endswith((".rt", ".antt"))}
    return items(crates, texts.get, texts)


def renamed(found, names):
    """Returns the items with these names replaced, in names and texts."""
    change = lambda text: re.sub(r"[\w-]+", lambda it: names.get(it[0], it[0]), text)
    return {(crate, kind, change(name)): sorted([change(it) for it in said] for said in all_said) for (crate, kind, name), all_said in found.items()}


def compare(old, new):
    """Prints the differences, and returns how many items of the old ones are gone or say something else."""
    wrong = 0
    for key in sorted(old.keys() | new.keys()):
        before, after = old.get(key), new.get(key)
        if before == after:
            continue
        wrong += before is not None
        print(f"{key[0]} {key[1]} {key[2]}: {'new' if before is None else 'gone' if after is None else 'different'}")
        if before and after:
            flat = [[it for said in all_said for it in said] for all_said in (before, after)]
            for sign, here, there in (("-", *flat), ("+", *reversed(flat))):
                for it in here:
                    if it not in there:
                        print(f"    {sign} {it}")
    return wrong


def command():
    parser = argparse.ArgumentParser(usage=__doc__)
    parser.add_argument("--names", nargs="*", default=[])
    parser.add_argument("revision")
    parser.add_argument("crates", nargs="*")
    options = parser.parse_args()
    old = renamed(of_revision(options.revision, options.crates), dict(it.split("=") for it in options.names))
    new = items(options.crates, read, files_of("*", "src", "specs"))
    wrong = compare(old, new)
    print(f"clauses: {len(old)} items of {options.revision}, {len(new)} now, {wrong} gone or different")
    return 1 if wrong else 0
