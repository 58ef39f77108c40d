#!/usr/bin/env python3
"""Checks what the pages say of the repository: links, names, files, quotes, words that grow stale, how many words there
are, the drawings, the wrong bodies, and the tables, cases and constants that scripts of this folder write.

    python3 docs/check.py

It changes nothing, prints each fault on a line, and fails if there is one.
"""
import os
import re
import subprocess
import sys
from pathlib import Path

# Importing a script of this folder leaves no file there.
sys.dont_write_bytecode = True
import api_table
import cases
import c_pages
import language
import rules
import words
import wrong_bodies

ROOT = Path(__file__).resolve().parents[1]
PAGES = [ROOT / "README.md", ROOT / "examples" / "README.md", *sorted((ROOT / "docs").rglob("*.md"))]
# Names of other projects.
FOREIGN = re.compile(r"Py|_Py|ob_|tp_|write_all$|keep_two$")
# Words that are often about the repository at the time of writing, and then grow stale.
STALE = re.compile(r"\b(yet|today|so far|coming)\b", re.I)
# Lines that have such a word and are right: each is about a moment of a run.
RIGHT = {
    # The rows in which a thread has made objects, at the moment of a claim.
    "docs/LANGUAGE.md": ["a worker's are those of its births so far"],
    # A row whose birth is under way.
    "docs/PICTURES.md": ["the row holds no object yet"],
}
# What names a file or a folder of the repository.
FILE = re.compile(r"[\w*./-]+\.(rt|antt|edit|py|md|txt)")
FOLDER = re.compile(r"(\.\./)*(brc_\w+|crates|docs|examples|bench|src|specs|proofs|(also-)?must-fail)/[\w*./-]*")
# What is made when something is built or run.
MADE = re.compile(r"(^|/)out/")


def sources():
    """The sources of all crates, by path."""
    found = {}
    for path in sorted((ROOT / "crates").rglob("*")):
        if path.suffix in (".rt", ".antt", ".edit", ".cases") and "out" not in path.relative_to(ROOT).parts:
            found[path] = path.read_text()
    return found


def words_of(texts):
    return set(re.findall(r"\w+", " ".join(texts)))


def anchors(path):
    """The anchors of a page's headings, as GitHub makes them."""
    headings = re.findall(r"^#+ (.*)$", path.read_text(), re.M)
    return {re.sub(r"[^\w\- ]", "", heading.lower()).replace(" ", "-") for heading in headings}


def link_faults(page):
    """Links that lead nowhere, and names in a link's text that its file doesn't have."""
    for text, target in re.findall(r"\[([^\]]*)\]\(([^)\s]+)\)", page.read_text()):
        if target.startswith("http"):
            continue
        file, _, anchor = target.partition("#")
        path = (page.parent / file).resolve() if file else page
        if not path.exists():
            yield f"{target} isn't there"
        elif anchor and anchor not in anchors(path):
            yield f"{target} has no such heading"
        elif path.suffix in (".rt", ".antt"):
            words = words_of([path.read_text()])
            for name in re.findall(r"`([^`]+)`", text):
                if re.fullmatch(r"[\w:]+", name) and name.split("::")[-1] not in words:
                    yield f"`{name}` isn't in {target}"


def name_faults(page, known):
    """Names of code in the page that no source has: those with an underscore or an inner capital."""
    prose = re.sub(r"```.*?```", "", page.read_text(), flags=re.S)
    for token in sorted(set(re.findall(r"`([^`\n]+)`", prose))):
        for name in re.findall(r"[A-Za-z]\w+", token):
            if re.search(r"[a-z]_[a-z]|[a-z][A-Z]", name) and name not in known and not FOREIGN.match(name):
                yield f"`{name}` is in no source"


def all_files():
    """The paths of all files and folders of the repository, below its top."""
    found = set()
    for folder, folders, files in os.walk(ROOT):
        folders[:] = [name for name in folders if name not in ("out", ".git")]
        found |= {(Path(folder) / name).relative_to(ROOT).as_posix() for name in folders + files}
    return found


def file_faults(page, there):
    """Crates and files that the page names and that aren't there. A word in capitals stands for any name."""
    text = page.read_text()
    for crate in sorted(set(re.findall(r"\bbrc_\w+", text))):
        if f"crates/{crate}" not in there:
            yield f"no crate {crate}"
    prose = re.sub(r"```.*?```|\]\([^)]*\)", "", text, flags=re.S)
    for token in sorted(set(re.findall(r"`([^`\n]+)`", prose))):
        for word in token.split():
            if not (FILE.fullmatch(word) or FOLDER.fullmatch(word)) or MADE.search(word):
                continue
            word = re.sub(r"^(\.\./)+|/$", "", word)
            pattern = "".join("[^/]*" if it == "*" else r"\w+" if it.isupper() and len(it) > 1 else re.escape(it)
                              for it in re.split(r"(\*|\b[A-Z]+\b)", word))
            if not any(re.search(rf"(^|/){pattern}$", path) for path in there):
                yield f"no file `{word}`"


def stale_faults(page):
    """Lines with a word of STALE that aren't RIGHT."""
    name = page.relative_to(ROOT).as_posix()
    for number, line in enumerate(page.read_text().splitlines(), 1):
        for right in RIGHT.get(name, []):
            line = line.replace(right, "")
        for word in STALE.findall(line):
            yield f"line {number} says \"{word}\""


def quote_faults(found):
    """Code on the page for a runtime's maker that is no source's, word for word."""
    page = (ROOT / "docs" / "EMBED.md").read_text()
    texts = [*found.values(), (ROOT / "crates.txt").read_text()]
    for quote in re.findall(r"```\w+\n(.*?)```", page, re.S):
        if not any(quote in text for text in texts):
            yield f"in no source: {quote.splitlines()[0]}"


def line_faults(found):
    """Lines of code on the page for a new instruction that no source has; one with `..` is shortened."""
    page = (ROOT / "docs" / "ADD_AN_INSTRUCTION.md").read_text()
    lines = {" ".join(line.split()) for text in found.values() for line in text.splitlines()}
    for mark, block in re.findall(r"^```(\w*)\n(.*?)^```$", page, re.M | re.S):
        for line in block.splitlines() if not mark else []:
            if line.strip() and " .. " not in line and " ".join(line.split()) not in lines:
                yield f"in no source: {line.strip()}"


def drawing_faults():
    """What docs/pictures/draw.py finds."""
    ran = subprocess.run([sys.executable, ROOT / "docs" / "pictures" / "draw.py", "--check"], capture_output=True, text=True)
    return ran.stderr.splitlines()[-1:] if ran.returncode else []


def main():
    found = sources()
    known = words_of(found.values()) | {path.stem for path in found}
    known |= {part for path in found for part in path.relative_to(ROOT).parts}
    known |= {path.stem for folder in ("docs", "examples", "tools") for path in (ROOT / folder).rglob("*")}
    known |= words_of(path.read_text() for path in (ROOT / "examples").rglob("*.brc"))
    there = all_files()
    faults = []
    for page in PAGES:
        in_page = [*link_faults(page), *name_faults(page, known), *file_faults(page, there)]
        # The examples describe runs, moment by moment.
        in_page += stale_faults(page) if page.parent.name != "examples" else []
        faults += [f"{page.relative_to(ROOT)}: {fault}" for fault in in_page]
    faults += [f"docs/EMBED.md: {fault}" for fault in quote_faults(found)]
    faults += [f"docs/ADD_AN_INSTRUCTION.md: {fault}" for fault in line_faults(found)]
    faults += [f"docs/lists/RULES.md: {fault}" for fault in rules.faults()]
    faults += [f"docs/lists/WRONG_BODIES.md: {fault}" for fault in wrong_bodies.faults()]
    faults += [*api_table.faults(), *c_pages.faults(), *cases.faults(), *language.faults(), *words.faults()]
    faults += drawing_faults()
    print(*faults, f"{len(faults)} faults", sep="\n")
    return 1 if faults else 0


if __name__ == "__main__":
    sys.exit(main())
