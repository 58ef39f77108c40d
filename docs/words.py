#!/usr/bin/env python3
"""Prints how many words each page has, and fails if README or all pages have more than they may.

    python3 docs/words.py

Words are what white space parts, code and tables too. README's table of crates isn't counted with README.
"""
import sys
from pathlib import Path

ROOT = Path(__file__).resolve().parents[1]
PAGES = [ROOT / "README.md", ROOT / "examples" / "README.md", *sorted((ROOT / "docs").rglob("*.md"))]
README_LIMIT = 700
ALL_LIMIT = 60_000


def counted(path):
    return len(path.read_text().split())


def faults():
    beside_table = (ROOT / "README.md").read_text().partition("| Crate |")[0]
    limits = [
        ("README.md, without its table", len(beside_table.split()), README_LIMIT),
        ("all pages", sum(map(counted, PAGES)), ALL_LIMIT),
    ]
    return [f"{what}: {words} words, {most} at most" for what, words, most in limits if words > most]


def main():
    for path in PAGES:
        print(f"{counted(path):7} {path.relative_to(ROOT)}")
    print(f"{sum(map(counted, PAGES)):7} all")
    found = faults()
    print(*found, f"{len(found)} faults", sep="\n")
    return 1 if found else 0


if __name__ == "__main__":
    sys.exit(main())
