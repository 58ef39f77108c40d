#!/usr/bin/env python3
"""Looks through the wrong bodies, lists them, or tries them all.

    python3 docs/wrong_bodies.py                     fails if a wrong body or docs/lists/WRONG_BODIES.md is at fault
    python3 docs/wrong_bodies.py --list [CRATE..]    prints them, as tables of Markdown
    python3 docs/wrong_bodies.py --all [CRATE..]     tries the wrong bodies of both folders

A wrong body is a file of must-fail/ (tried by the gate) or of also-must-fail/ (tried by --all). Its first line is

    wrong: WHAT IS WRONG (WHICH CONTRACT REFUSES IT)

of at most 200 characters. The contract is a function of the changed file, with a clause of its own or one `of` another
function. After `; rule` or `; rules` come the rules of the step relation that the mistake breaks, and after `; code`
the checker's code that isn't reported.

Without an option the script fails if a line has another form, or names a function or a clause that isn't there; if a
rule has neither a wrong body nor a reason in docs/rules.py; or if a mistake that the page names isn't tried by the
gate.

With --all it clones the last commit into folders of its own, moves the wrong bodies of also-must-fail/ beside those of
must-fail/, and tries those of the crates named, or all: those that change different functions of a crate by one check,
and what isn't refused so, each for itself, by `rt must-fail`. Crates are tried side by side. It ends with the number of
the refused ones, and with status 1 if one isn't refused.
"""
import functools
import re
import shutil
import subprocess
import sys
import tempfile
from concurrent.futures import ThreadPoolExecutor
from pathlib import Path
from queue import Queue

# Importing a script of this folder leaves no file there.
sys.dont_write_bytecode = True
import proved
import refusals
import rules
from tables import LISTS, ROOT, link

sys.path.append(str(ROOT / "tools"))
import lanes

PAGE = LISTS / "WRONG_BODIES.md"
NAMES_HEADING = "## The mistakes that have a name"
FOLDERS = {"must-fail": "gate", "also-must-fail": "script"}
LONGEST = 200


class Edit:
    def __init__(self, path):
        self.path, self.name = path, path.stem
        self.crate, self.folder = path.parts[-3:-1]
        self.line = path.read_text().split("\n")[0]
        found = re.fullmatch(r"wrong: (.+[^.]) \(((?:(?! \().)+)\)", self.line)
        self.wrong, self.refused_by = found.groups() if found else ("", "")
        self.source = path.parents[1] / re.search(r"^file: (.*)$", path.read_text(), re.M)[1].strip()

    def names_a_contract(self):
        """Whether the function that it names first is in the changed file, and has the clauses that it names."""
        named = re.match(r"`(?:(\w+)::)?(\w+)`(?:: ((?:`\w+`(?:, )?)+)(?! of))?", self.refused_by)
        if not named:
            return self.refused_by.startswith("the invariant ")
        owner, name, clauses = named.groups()
        wanted = set(re.findall(r"\w+", clauses or ""))
        return any(it.name == name and owner in (None, it.owner, it.of_trait) and wanted <= set(it.clauses)
                   for it in functions(self.source))

    def row(self):
        return f"| {link(self.name, self.path)} | {FOLDERS[self.folder]} | {self.wrong}. | {self.refused_by} |\n"


@functools.cache
def functions(source):
    return [*proved.functions(source)]


def edits(crate="*"):
    found = [Edit(path) for folder in FOLDERS for path in ROOT.glob(f"crates/{crate}/{folder}/*.edit")]
    return sorted(found, key=lambda edit: (edit.refused_by.split(";")[0], edit.name))


def in_order():
    return re.findall(r"^(\w+)(?: [^:\n]*)?:", (ROOT / "crates.txt").read_text(), re.M)


def tables(named):
    crates = in_order()
    head = "| Wrong body | Tried by | What is wrong | Refused by |\n|---|---|---|---|\n"
    having = [(crate, edits(crate)) for crate in crates if not named or crate in named]
    rows = {crate: "".join(edit.row() for edit in found) for crate, found in having if found}
    return "\n".join(f"### {crate}\n\n{head}{its}" for crate, its in rows.items())


def faults_of_edits(there):
    for edit in there:
        if not edit.wrong or len(edit.line) > LONGEST:
            yield f"{edit.crate}/{edit.folder}/{edit.name}.edit begins with another line: {edit.line}"
        elif not edit.names_a_contract():
            yield f"{edit.crate}/{edit.folder}/{edit.name}.edit names no contract of its file: {edit.refused_by}"
    twice = {(edit.crate, edit.name) for edit in there if edit.folder == "also-must-fail"}
    yield from (f"{edit.crate} has {edit.name} twice" for edit in there
                if edit.folder == "must-fail" and (edit.crate, edit.name) in twice)


def faults_of_names(there):
    """Yields the named mistakes that no gate tries."""
    page = PAGE.read_text()
    section = page[page.index(NAMES_HEADING) :].split("\n## ")[0]
    tried = {edit.name for edit in there if edit.folder == "must-fail"}
    rows = " ".join(re.findall(r"^\|(.*)\|$", section, re.M))
    yield from (f"no gate tries {name}" for name in re.findall(r"`(\w+)`", rows) if name not in tried)


def faults():
    there = edits()
    return [*faults_of_edits(there), *faults_of_names(there), *rules.faults_of_wrong_bodies()]


def check():
    there, found = edits(), faults()
    in_gate = sum(edit.folder == "must-fail" for edit in there)
    print(*(f"docs/lists/WRONG_BODIES.md: {fault}" for fault in found), sep="\n", end="\n" if found else "")
    print(f"{len(there)} wrong bodies, {in_gate} of them in the gate, {len(rules.names())} rules, {len(found)} faults")
    return 1 if found else 0


def cloned(folder):
    """Clones the last commit, with all wrong bodies in must-fail/, and the libraries that `rt` has built here: it builds anew
    those whose stamp says that they are of other bytes."""
    subprocess.run(["git", "clone", "-q", ROOT, folder], check=True)
    for built in ROOT.glob("crates/*/out/rlib"):
        shutil.copytree(built, folder / built.relative_to(ROOT))
    for path in folder.glob("crates/*/also-must-fail/*.edit"):
        (path.parents[1] / "must-fail").mkdir(exist_ok=True)
        path.rename(path.parents[1] / "must-fail" / path.name)
    return folder


def say(line):
    print(line, flush=True)


def try_all(crates):
    number = {crate: len(edits(crate)) for crate in in_order()}
    lacking = [crate for crate in crates if not number.get(crate)]
    if lacking:
        print(f"{lacking[0]} has no wrong body")
        return 1
    named = [crate for crate in number if number[crate] and (not crates or crate in crates)]
    with tempfile.TemporaryDirectory(prefix="wrong-bodies-") as room:
        free = Queue()
        for at in range(lanes.lanes()):
            free.put(cloned(Path(room) / f"clone-{at}"))

        def tried(crate):
            clone = free.get()
            try:
                return refusals.try_crate(clone / "crates" / crate, say)
            finally:
                free.put(clone)

        # Those with the most come first, so that none of them is tried alone at the end.
        with ThreadPoolExecutor(lanes.lanes()) as pool:
            refused = sum(pool.map(tried, sorted(named, key=number.get, reverse=True)))
    wanted = sum(number[crate] for crate in named)
    print(f"{refused} of {wanted} wrong bodies refused")
    return 0 if refused == wanted else 1


def main():
    if len(sys.argv) == 1:
        return check()
    if sys.argv[1] == "--list":
        print(tables(sys.argv[2:]), end="")
        return 0
    if sys.argv[1] == "--all":
        return try_all(sys.argv[2:])
    print(__doc__)
    return 2


if __name__ == "__main__":
    sys.exit(main())
