#!/usr/bin/env python3
"""Makes cases of `brc c` of the C functions that docs/C.md and FROM_C.md print. The gate runs them, since they are a file
of brc_cases.

    python3 docs/c_pages.py            fails if crates/brc_cases/data/c_pages.cases differs from the pages
    python3 docs/c_pages.py --write    writes it
    python3 docs/c_pages.py --run      judges the functions with the program at crates/brc/out/brc

The line that begins a block of C says what `brc c` has to find in it, which readers of the page don't see:

    ```c NAME.c right
    ```c NAME.c right by assumptions
    ```c NAME.c error LINE:COLUMN CODE
    ```c NAME.c warning LINE:COLUMN CODE

Several findings have `and` between them. If it goes on with `for FIRST-LAST`, the file is that of the block with a name
before it, in which this block takes the place of the lines from FIRST to LAST. A block of C without a name is no whole
function, and no such change of one.
"""
import re
import subprocess
import sys
import tempfile
from pathlib import Path

from language import ROOT, DOCS, PROGRAM, content

PAGES = [DOCS / "C.md", DOCS / "FROM_C.md"]
CASES = ROOT / "crates" / "brc_cases" / "data" / "c_pages.cases"
FINDING = r"(?:error|warning) \d+:\d+ C\d+"
MARK = re.compile(rf"(\S+\.c) (right|right by assumptions|{FINDING}(?: and {FINDING})*)(?: for (\d+)-(\d+))?")


class Judged:
    """A file of C, and what is to be found in it."""

    def __init__(self, place, name, verdict, text):
        self.place, self.name, self.text = place, name, text
        self.assumes = verdict == "right by assumptions"
        self.findings = [it.split() for it in verdict.split(" and ")] if not verdict.startswith("right") else []

    def count(self, level):
        number = sum(it[0] == level for it in self.findings)
        return f"{number} {level}{'' if number == 1 else 's'}"

    def status(self):
        return 1 if self.count("error") != "0 errors" else 0

    def counts(self):
        """The last line."""
        right = "0 right, 1 at fault" if self.status() else "0 right, 1 with warnings" if self.findings else "1 right"
        assumed = " (1 by assumptions)" if self.assumes else ""
        return f"1 function: {right}{assumed}; {self.count('error')}, {self.count('warning')}\n"

    def parts(self):
        """How the lines of findings begin, and how they end."""
        begins = [f"{self.name}:{at}: {level}: " for level, at, _ in self.findings]
        return begins + [f" [{code}]\n" for _, _, code in self.findings]

    def is_met(self, printed, status):
        has_all = all(part in printed for part in self.parts()) and printed.endswith(self.counts())
        return status == self.status() and has_all and (self.findings or printed == self.counts())

    def case(self):
        lines = [f"case {self.place}", f"$ brc c {self.name}", f"file {self.name}", *content(self.text)]
        lines += [f"status {self.status()}"]
        for part in self.parts():
            lines += ["out has", *content(part)]
        lines += ["out ends" if self.findings else "out"]
        return "\n".join(lines + content(self.counts()))


def judged_of(page):
    """The files of C of a page, and the faults of its marks."""
    text, found, wrong, lines = page.read_text(), [], [], []
    for block in re.finditer(r"^```c (.*)\n((?:.*\n)*?)```$", text, re.M):
        place = f"{page.name}, line {text.count(chr(10), 0, block.start()) + 1}"
        match = MARK.fullmatch(block.group(1))
        if not match:
            wrong.append(f"{place}: a mark of another form: {block.group(1)}")
            continue
        own = block.group(2).splitlines()
        name, verdict, first, last = match.groups()
        lines = lines[:int(first) - 1] + own + lines[int(last):] if first else own
        found.append(Judged(place, name, verdict, "\n".join(lines) + "\n"))
    return found, wrong


def all_judged():
    found, wrong = [], []
    for page in PAGES:
        more, faults_of = judged_of(page)
        found, wrong = found + more, wrong + faults_of
    return found, wrong


def cases(found):
    head = "# The C functions of the pages. docs/c_pages.py writes them from there: change the page, and run it."
    return "\n\n".join([head, *(judged.case() for judged in found)]) + "\n"


def faults():
    """What differs between the pages and the file of cases."""
    found, wrong = all_judged()
    if not CASES.exists() or CASES.read_text() != cases(found):
        wrong.append(f"{CASES.relative_to(ROOT)} differs from the pages: docs/c_pages.py --write writes it")
    return wrong


def run(judged):
    """What `brc c` prints of the file, and its status."""
    with tempfile.TemporaryDirectory() as folder:
        (Path(folder) / judged.name).write_text(judged.text)
        done = subprocess.run([PROGRAM, "c", judged.name], cwd=folder, capture_output=True, text=True)
    return done.stdout + done.stderr, done.returncode


def main():
    found, wrong = all_judged()
    if sys.argv[1:] == ["--write"]:
        CASES.write_text(cases(found))
    elif sys.argv[1:] == ["--run"]:
        for judged in found:
            printed, status = run(judged)
            if not judged.is_met(printed, status):
                wrong.append(f"{judged.place}: status {status}, and it prints\n{printed}")
    elif sys.argv[1:]:
        sys.exit(__doc__)
    else:
        wrong = faults()
    print(*wrong, f"{len(found)} files, {len(wrong)} wrong", sep="\n")
    sys.exit(1 if wrong else 0)


if __name__ == "__main__":
    main()
