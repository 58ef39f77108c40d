#!/usr/bin/env python3
"""Compares the rows of crates/brc_c_table/api.txt with the constants that the program has of them.

    python3 docs/api_table.py            fails if they differ
    python3 docs/api_table.py --write    writes the constants
    python3 docs/api_table.py --manual FOLDER
                                         compares whose each result is, and the number of arguments, with the manual:
                                         FOLDER is html/c-api of Debian's package python3.11-doc

A source can't include a file, so the rows are there a second time, without comments, in src/api.rt and src/api/ of that
crate.
"""
import html
import re
import sys
from pathlib import Path

ROOT = Path(__file__).resolve().parents[1]
CRATE = ROOT / "crates" / "brc_c_table"
SOURCES = CRATE / "src"
# A part is a file of fewer than 400 lines.
ROWS_OF_A_PART = 380
# What a row may say where the manual says whose the result is.
RESULTS = {"New reference": ("new",), "Borrowed reference": ("item", "part", "lent"), "Always NULL": ("null",)}
# The rows that say something else on purpose; the head of the table says why.
ON_PURPOSE = {"PyModuleDef_Init", "PyObject_Init", "PyObject_InitVar"}
# A letter that is about all arguments from there on, or part of a list of such.
REST = set("+*=pfu")
HEAD = "//! The rows of `api.txt`. `docs/api_table.py --write` writes {}.\n\n"


def rows():
    """The lines of the table that have a row, without comments."""
    lines = [line.partition("#")[0].split() for line in (CRATE / "api.txt").read_text().splitlines()]
    return [" ".join(words) for words in lines if words]


def wanted():
    """The sources, by path."""
    table = rows()
    parts = [table[at:at + ROWS_OF_A_PART] for at in range(0, len(table), ROWS_OF_A_PART)]
    names = [f"part_{number}" for number in range(1, len(parts) + 1)]
    found = {}
    for name, part in zip(names, parts):
        text = "".join(f"{row}\n" for row in part)
        found[SOURCES / "api" / f"{name}.rt"] = HEAD.format("this file") + f'pub const ROWS: &str = "\n{text}";\n'
    modules = "".join(f"mod {name};\n" for name in names)
    texts = ", ".join(f"{name}::ROWS" for name in names)
    found[SOURCES / "api.rt"] = (HEAD.format("this file and its parts") + f"{modules}\n/// The rows, in parts.\n"
                                 f"pub const PARTS: [&str; {len(names)}] = [{texts}];\n")
    return found


def faults():
    """What differs, a line for each file."""
    want = wanted()
    there = [SOURCES / "api.rt", *sorted((SOURCES / "api").glob("*.rt"))]
    return [f"{path.relative_to(ROOT)} isn't that of api.txt: docs/api_table.py --write writes it"
            for path in sorted({*want, *there})
            if path not in want or not path.exists() or path.read_text() != want[path]]


def plain(text):
    """The text of a page without its marks."""
    return html.unescape(re.sub(r"<[^>]+>", "", text)).replace("\u00b6", "").strip()


def manual(folder):
    """Of each function of the manual: its head, and whose its result is, if the manual says so."""
    found = {}
    for page in sorted(Path(folder).glob("*.html")):
        entries = re.finditer(r'<dt class="sig[^"]*" id="c\.(\w+)">(.*?)</dt>\s*<dd>(.*?)(?=<dt|</dd>)',
                              page.read_text(), re.S)
        for name, head, text in (entry.groups() for entry in entries):
            result = re.search(r"Return value: ([A-Za-z ]+)\.", plain(text))
            found[name] = plain(head).split("\n")[0], result and result[1]
    return found


def differences(folder):
    """The rows that the manual contradicts."""
    known = manual(folder)
    for row in rows():
        name, result, *words = row.split()
        head, wanted = known.get(name, ("", None))
        if wanted and result not in RESULTS[wanted] and name not in ON_PURPOSE:
            yield f"{name}: {result} here, and in the manual: {wanted}"
        letters = words[1 if result in ("item", "part", "same") else 0].strip(".")
        inside = re.search(r"\((.*)\)", head)
        if inside and not REST & set(letters) and len(letters) != arguments(inside[1]):
            yield f"{name}: {len(letters)} arguments here, and in the manual: {head}"


def arguments(text):
    """The number of arguments in a head."""
    return 0 if text in ("", "void") else text.count(",") + 1


def main():
    if len(sys.argv) == 3 and sys.argv[1] == "--manual":
        found = list(differences(sys.argv[2]))
        print(*found, f"{len(found)} differences", sep="\n")
        sys.exit(1 if found else 0)
    if sys.argv[1:] == ["--write"]:
        for path in (SOURCES / "api").glob("*.rt"):
            path.unlink()
        for path, text in wanted().items():
            path.parent.mkdir(exist_ok=True)
            path.write_text(text)
    elif sys.argv[1:]:
        sys.exit(__doc__)
    print(*faults(), f"{len(rows())} rows", sep="\n")
    sys.exit(1 if faults() else 0)


if __name__ == "__main__":
    main()
