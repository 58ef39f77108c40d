#!/usr/bin/env python3
"""Counts the cases of crates/brc_cases, and compares the lists that its program is given with its files.

    python3 docs/cases.py            fails if a file isn't given to the program, or the number of cases is another
    python3 docs/cases.py --write    writes the files args and stdout of the crate

The form of the files is on docs/CASES.md.
"""
import sys
from pathlib import Path

ROOT = Path(__file__).resolve().parents[1]
CRATE = ROOT / "crates" / "brc_cases"
# The file whose texts all others may use comes first.
FIRST = "texts.cases"


def names():
    found = sorted(path.name for path in (CRATE / "data").iterdir())
    return [FIRST, *(name for name in found if name != FIRST)]


def count(path):
    """The number of a file's cases: a case with rows is as many as it has rows."""
    found = 0
    for paragraph in path.read_text().split("\n\n"):
        lines = [line for line in paragraph.splitlines() if not line.startswith("#")]
        if lines and lines[0].startswith("case "):
            found += sum(line.startswith("- ") for line in lines) if "rows" in lines else 1
    return found


def wanted():
    """What the files args and stdout have to be."""
    number = sum(count(CRATE / "data" / name) for name in names())
    return {"args": "".join(f"{name}\n" for name in names()), "stdout": f"{number} cases hold\n"}


def faults():
    return [f"crates/brc_cases/{file} isn't up to date: docs/cases.py --write writes it"
            for file, text in wanted().items() if (CRATE / file).read_text() != text]


def main():
    if sys.argv[1:] == ["--write"]:
        for file, text in wanted().items():
            (CRATE / file).write_text(text)
    elif sys.argv[1:]:
        sys.exit(__doc__)
    for name in names():
        print(f"{name}: {count(CRATE / 'data' / name)}")
    print(*faults(), wanted()["stdout"], sep="\n", end="")
    sys.exit(1 if faults() else 0)


if __name__ == "__main__":
    main()
