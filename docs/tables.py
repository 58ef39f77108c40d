"""A part of a page that a script writes: what is between two marks. The scripts of this folder share it."""
import os
import re
import sys
from pathlib import Path

ROOT = Path(__file__).resolve().parents[1]
# The pages that are lists, most of them written by a script of this folder.
LISTS = ROOT / "docs" / "lists"


def mark_lines(script, several=False):
    """Returns the marks before and after what the script writes."""
    what, end = ("tables", "their end") if several else ("table", "its end")
    return f"<!-- the {what} of docs/{script} -->\n", f"<!-- {end} -->\n"


def link(text, path):
    """Returns the text as code, with a link from a page of LISTS to the file."""
    return f"[`{text}`]({os.path.relpath(path, LISTS)})"


class Part:
    """What is between the two marks of a page. `make` returns what has to be there."""

    def __init__(self, page, marks, make):
        self.page, self.marks, self.make = page, marks, make

    def wanted(self):
        """Returns the page as the script writes it."""
        head, begin, rest = self.page.read_text().partition(self.marks[0])
        _, end, tail = rest.partition(self.marks[1])
        if not begin or not end:
            sys.exit(f"{self.page.name} lacks a mark: {''.join(self.marks)}")
        return f"{head}{begin}\n{self.make()}\n{end}{tail}"

    def write(self):
        self.page.write_text(self.wanted())

    def faults(self):
        """Returns the lines that the page lacks, and those that the script wouldn't write."""
        page, wanted = self.page.read_text(), self.wanted()
        lines = page.splitlines(), wanted.splitlines()
        script = re.search(r"docs/\w+\.py", self.marks[0])[0]
        found = [f"{script} would write: {line}" for line in lines[1] if line not in lines[0]]
        found += [f"{script} wouldn't write: {line}" for line in lines[0] if line not in lines[1]]
        if not found and page != wanted:
            found = [f"{script} would write the same lines in another order or number"]
        return found
