"""Finds, reads and writes the files of this repository."""
import glob
import os
import shutil

ROOT = os.path.dirname(os.path.dirname(os.path.abspath(__file__)))
# the folders of scripts, and of what they play
ROOMS = "scripts", "tests", "model", "kernel", "bench"
# for what is built and kept: build/, or a folder of the user (kernel/play-on-kernel)
CACHE = os.environ.get("XDG_CACHE_HOME") or os.path.expanduser("~/.cache")
BUILD = os.path.join(ROOT, "build") if os.access(ROOT, os.W_OK) else os.path.join(CACHE, "yachtbanyan")
# where a crate has its sources, definitions and proofs
SOURCES = "src", "specs", "proofs"


def read(path):
    """The text of a file, by its path from the top of the repository, or by a whole path."""
    with open(os.path.join(ROOT, path), encoding="utf-8") as file:
        return file.read()


def read_bytes(path):
    with open(os.path.join(ROOT, path), "rb") as file:
        return file.read()


def write(path, content):
    """Writes text or bytes, into a folder that is made where it is missing."""
    path = os.path.join(ROOT, path)
    os.makedirs(os.path.dirname(path), exist_ok=True)
    with open(path, "wb") as file:
        file.write(content if isinstance(content, bytes) else content.encode())


def copy_changed(folder, to, file, old, new):
    """Copies a folder. In the copy of one of its files `new` replaces the first `old`, which must be there."""
    shutil.copytree(os.path.join(ROOT, folder), to, dirs_exist_ok=True)
    text = read(os.path.join(to, file))
    assert old in text, old
    write(os.path.join(to, file), text.replace(old, new, 1))


def is_newer(path, files):
    """Checks whether a file exists and is at least as new as each of `files`."""
    return os.path.exists(path) and all(os.path.getmtime(it) <= os.path.getmtime(path) for it in files)


def keep(name, script, text):
    """Keeps a script and its text, on which something was found wrong. Returns their paths, which are relative below this folder."""
    paths = [os.path.join(BUILD, f"{os.path.basename(name)}.{ending}") for ending in ("script", "text")]
    for path, content in zip(paths, (script, text)):
        write(path, content)
    return [os.path.relpath(it, ROOT) if it.startswith(ROOT) else it for it in paths]


def scripts_of(*folders):
    """The scripts of these folders, each with its path from the top, in the order of the paths."""
    found = (glob.glob(f"{folder}/*.script", root_dir=ROOT) for folder in folders)
    for path in sorted(it for those in found for it in those):
        yield path, read_bytes(path)


def files_of(crate, *parts):
    """The files in these folders of a crate, or of each crate for `*`, by their paths from the top; without a folder the crate's own."""
    found = (glob.glob(f"crates/{crate}/{part}", root_dir=ROOT, recursive=True) for part in ([f"{it}/**/*.*" for it in parts] or ["*.*"]))
    return sorted(it for those in found for it in those)
