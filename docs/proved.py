#!/usr/bin/env python3
"""Prints the contracts of the crates, as tables of Markdown, from their sources.

    python3 docs/proved.py [CRATE..]    those of the crates named, or of all

A crate's table has a row for each function that its lib.rt exports, by the function's own name or by that of its type
or trait, and whose contract has an `ensures`: the function's name, linked to its file; the first sentence of its doc
comment; and the names of its `ensures` clauses. The crates are in the order of crates.txt, without those of tests and
measurements.
"""
import re
import sys

# Importing a script of this folder leaves no file there.
sys.dont_write_bytecode = True
from tables import ROOT, link


class Function:
    def __init__(self, line, block, doc, contract):
        # The type of an `impl` or the trait of a `trait`, and the trait that an `impl` is of; each may be None.
        self.owner, self.of_trait = owner_of(block)
        self.name = re.search(r"fn (\w+)", line)[1]
        self.doc = doc
        self.clauses = re.findall(r"^ *ensures ?(\w*) \{", contract, re.M)
        self.is_public = bool(self.of_trait or block.startswith("pub trait") or re.match(r" *pub (const )?fn", line))

    def row(self, path):
        name = f"{self.owner}::{self.name}" if self.owner else self.name
        does = first_sentence(self.doc) if self.doc or not self.of_trait else f"Is `{self.of_trait}::{self.name}`."
        clauses = ", ".join(f"`{clause}`" for clause in self.clauses if clause)
        return f"| {link(name, path)} | {does} | {clauses} |\n"


def owner_of(block):
    """Returns the type or the trait that a block is about, and the trait that it implements."""
    while re.search(r"<[^<>]*>", block):
        block = re.sub(r"<[^<>]*>", "", block)
    found = re.match(r"(?:impl (?:([\w:]+) for )?|(?:pub )?trait )(\w+)", block)
    return (found[2], found[1]) if found else (None, None)


def first_sentence(doc):
    # An empty line ends the first paragraph.
    paragraph = " ".join(doc).split("  ")[0]
    return re.split(r"(?<=\.)\s+", paragraph)[0].replace("|", "\\|")


def functions(path):
    """Yields the functions of a file."""
    block, doc = "", []
    lines = iter(path.read_text().splitlines())
    for line in lines:
        if re.match(r"}|impl\b|(pub )?trait\b", line):
            block = line if line.endswith("{") else ""
        if line.lstrip().startswith("///"):
            doc.append(line.strip().removeprefix("///").strip())
            continue
        begun = re.match(r"( *)(pub(\(\w+\))? )?(const )?fn \w+", line)
        if begun:
            # A body begins at the function's own depth. A trait's function may end without one.
            end = re.compile(rf"{begun[1]}(\{{|\S.*[{{}};]$)|.*\}};$")
            contract = [line]
            while not end.match(contract[-1]):
                contract.append(next(lines))
            yield Function(line, block, doc, "\n".join(contract))
        if not line.lstrip().startswith("#["):
            doc = []


def crates():
    named = re.findall(r"^(\w+):", (ROOT / "crates.txt").read_text(), re.M)
    for_tests = {"brc_bench", "brc_case_format", "brc_cases", "brc_fixtures"}
    return [crate for crate in named if not crate.endswith("_tests") and crate not in for_tests]


def rows(crate):
    """Returns the rows of a crate's table, file by file. A program has no lib.rt, and so no row."""
    source = ROOT / "crates" / crate / "src"
    if not (source / "lib.rt").exists():
        return []
    # `pub use file::name;` or `pub use file::{name, ..};`
    exports = " ".join(re.findall(r"^pub use \w+::([^;]*);", (source / "lib.rt").read_text(), re.M))
    exported = set(re.findall(r"\w+", exports))
    return [
        function.row(path)
        for path in sorted(source.rglob("*.rt"))
        for function in functions(path)
        if function.is_public and function.clauses and (function.owner or function.name) in exported
    ]


def tables(named):
    head = "| Function | What it does | Clauses |\n|---|---|---|\n"
    return "\n".join(f"### {crate}\n\n{head}{''.join(rows(crate))}" for crate in named if rows(crate))


def main():
    lacking = [crate for crate in sys.argv[1:] if crate not in crates()]
    if lacking:
        print(f"no crate {lacking[0]} has contracts to list" if not lacking[0].startswith("-") else __doc__)
        return 2
    print(tables(sys.argv[1:] or crates()), end="")
    return 0


if __name__ == "__main__":
    sys.exit(main())
