#!/usr/bin/env python3
"""Prints which functions of a crate took longest to prove, in seconds.

    rm -r crates/NAME/out && (cd crates/NAME && rt check --jobs 1) && python3 tools/proof_times.py NAME [ROWS]

`rt check` keeps each module of a proof in a file of its own as soon as it is checked. So the time between two files is
that of the later one, and a function's time is the sum over its files. With more than one job, or after a second check
over the same files, the sums say nothing.
"""
import re
import sys
from collections import Counter
from pathlib import Path

ROOT = Path(__file__).resolve().parents[1]
# A module's library, its path, and what it is of its function: these parts are one function's.
MODULE = re.compile(r"Rattle-\w+-(?:proofs|specs)\.(?:contracts\.|declared\.)?(.*?)(?:\.decls)?\.oantt")
PARTS = {"Code", "Key", "Kinds", "Layout", "Loans", "Lts", "Met", "Mir", "Proof", "Statement", "Symbol", "TheLink", "TheLinks",
         "TheVariants", "Tie", "Walk"}


def function_of(name):
    """Returns the function that a kept file is about, or the file's own name."""
    found = MODULE.fullmatch(name)
    if not found:
        return name
    path = found[1].split(".")
    while len(path) > 1 and path[-1] in PARTS:
        path.pop()
    return ".".join(path)


def main():
    if len(sys.argv) not in (2, 3) or not all(word.isdigit() for word in sys.argv[2:]):
        sys.exit(__doc__)
    kept = ROOT / "crates" / sys.argv[1] / "out" / "incremental"
    files = sorted((file.stat().st_mtime, file.name) for file in kept.rglob("*.oantt"))
    if not files:
        sys.exit(f"{kept} has no kept work: run rt check in the crate's folder")
    seconds = Counter()
    for (before, _), (after, name) in zip(files, files[1:]):
        seconds[function_of(name)] += after - before
    print(f"{sum(seconds.values()):8.1f} all")
    for function, time in seconds.most_common(int(sys.argv[2]) if len(sys.argv) == 3 else 20):
        print(f"{time:8.1f} {function}")


main()
