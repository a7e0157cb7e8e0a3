"""check-links [FOLDER]: checks that the targets of the pages exist: the file of each link, the heading of each `#` and of each title
quoted next to a link, each file, target of make and script that a page names; and that each table has a head. Of the pages of an
unpacked archive, FOLDER, it checks the links, and that they name no command of make but as one of the repository."""
import functools
import glob
import os
import re
import sys

from scripts.archive_pages import ELSEWHERE
from scripts import edits
from scripts.checks import Counted, last_line
from scripts.pages import anchors, headings
from scripts.repository import ROOMS, ROOT, SOURCES, files_of, read

# files that a run makes, and placeholders
NOT_KEPT = re.compile(r"^(bin|build|lib|out)(/|$)|^/|\.\.|NAME|CRATE|\bpath\b")
FILE = re.compile(r"^[\w./-]+$")
KINDS = (".rt", ".antt", ".py", ".rs", ".c", ".h", ".md")


def pages(root):
    return sorted(it for way in ("*.md", "*/*.md", "*/*/*.md") for it in glob.glob(way, root_dir=root) if not NOT_KEPT.search(it))


@functools.cache
def targets_of_make():
    """Returns the targets that have a rule, and those that `make help` and `make help-all` list."""
    makefile = read("Makefile")
    return {it for those in re.findall(r"^([\w -]+):(?!=)", makefile, re.MULTILINE) for it in those.split()}, set(re.findall(r"@echo ' *make ([\w-]+)", makefile))


@functools.cache
def kept_under(crate):
    """The names of all files of a crate, each also without its ending."""
    names = {os.path.basename(it) for it in files_of(crate, *SOURCES)}
    return names | {os.path.splitext(it)[0] for it in names} | edits.names("must-fail", "wrong-bodies", crate=crate)


class Links(Counted):
    def want_on(self, page, holds, what):
        self.want(holds, f"{page} {what}")

    def page(self, page):
        text = read(f"{self.root}/{page}")
        self.links(page, re.sub(r"\s*\n\s*", " ", text))
        if self.root != ROOT:
            self.commands(page, re.sub(rf"`[^`]*`{re.escape(ELSEWHERE)}", "", text), set())
            return
        rules, told = targets_of_make()
        self.commands(page, text, rules & told)
        for table in re.findall(r"(?:^\|.*\n?)+", text, re.MULTILINE):
            self.want_on(page, re.match(r".*\n\|[-|]+\n", table), f"has rows without the head of their table: {table[:60]}")
        for paragraph in re.split(r"\n\n|(?<=\|)\n", text):
            self.files(page, paragraph)

    def links(self, page, joined):
        for link, title in re.findall(r'\]\(([^)\s]+)\)(?:, "([^"]+)")?', joined):
            path, _, anchor = link.partition("#")
            if re.match(r"\w+:", link):
                continue
            to = os.path.normpath(f"{self.root}/{os.path.dirname(page)}/{path}") if path else f"{self.root}/{page}"
            is_there = os.path.exists(to) and to.startswith(self.root)
            self.want_on(page, is_there, f"leads to {link}, which is not there")
            if is_there and anchor:
                self.want_on(page, anchor in anchors(read(to)), f"leads to {link}, and there is no such heading")
            if is_there and title and to.endswith(".md"):
                self.want_on(page, title in headings(read(to)), f'speaks of "{title}" in {path}, which has no such heading')

    def commands(self, page, text, targets):
        code = re.findall(r"`([^`\n]+)`", text) + [it[4:] for it in text.split("\n") if it.startswith("    ")]
        for command in code:
            for target in re.findall(r"(?:^|&& )make ([a-z][\w-]*)", command):
                self.want_on(page, target in targets, f"names make {target}, which the Makefile hasn't or doesn't list")
            for folder in re.findall(r"^cd (\S+)", command):
                self.want_on(page, NOT_KEPT.search(folder) or os.path.isdir(f"{self.root}/{folder}"), f"goes to {folder}, which is not there")
            for path in re.findall(r"SCRIPT=([\w./-]+)", command):
                self.want_on(page, NOT_KEPT.search(path) or os.path.isfile(f"{self.root}/{path}"), f"plays {path}, which is not there")

    def files(self, page, paragraph):
        """A name without a folder is in the crate that was named last. One marked as new is that of a file to be made."""
        crate = None
        for name, new in re.findall(r"`([^`\n]+)`( \(new\))?", paragraph):
            first = name.split("/")[0]
            if os.path.isdir(f"{ROOT}/crates/{first}"):
                crate = first
            elif name.startswith("crates/"):
                crate = name.split("/")[1]
            if not FILE.match(name) or NOT_KEPT.search(name) or not ("/" in name or name.endswith(KINDS)):
                continue
            self.want_on(page, self.is_there(page, name, crate) != bool(new), f"names {name}, which is {'there' if new else 'not there'}")

    def is_there(self, page, name, crate):
        places = [ROOT, f"{ROOT}/{os.path.dirname(page)}", f"{ROOT}/crates", *(f"{ROOT}/{it}" for it in ROOMS)]
        crates = [crate] if crate else os.listdir(f"{ROOT}/crates")
        places += [f"{ROOT}/crates/{it}" for it in crates]
        # a check is named as a command, and its code may be a module
        names = [name, f"{name}.antt", *([f"{name.replace('-', '_')}.py"] if name.startswith(("check-", "tests/")) else [])]
        if any(os.path.exists(f"{place}/{it}") for place in places for it in names):
            return True
        return "/" not in name and any(name in kept_under(it) for it in crates)


def command():
    root = os.path.abspath(sys.argv[1]) if sys.argv[1:] else ROOT
    links = Links("links", root=root)
    for page in pages(root):
        links.page(page)
    rules, told = targets_of_make()
    for target in sorted(rules | told | {"help"}) if root == ROOT else ():
        links.want_on("Makefile", target in rules and (target in told or target == "help"), f"hasn't {target}, or doesn't list it")
    key = "links" if root == ROOT else "links --elsewhere"
    return last_line(key, links.seen, links.wrong, f"looked at on {len(pages(root))} pages")
