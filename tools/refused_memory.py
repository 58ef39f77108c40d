#!/usr/bin/env python3
"""Refuses each allocation of two runs in turn, from the first on until none is refused, and prints where it was.

    python3 tools/refused_memory.py [FIRST]

It runs the tests of crates/brc_run_tests by `rt try --test --fail-alloc N`, which proves nothing and takes up to a minute
for each N, from FIRST on, and looks at two of them: `each_refusal_is_answered` and `each_refused_call_goes_on`. The other
tests fail where they are refused memory, or wait for a run that never begins: a test ends after ten seconds.
docs/lists/PROVED.md says what came of it.
"""
import re
import subprocess
import sys
from pathlib import Path

FOLDER = Path(__file__).resolve().parents[1] / "crates" / "brc_run_tests"
TESTS = ("refused::each_refusal_is_answered", "stepped::each_refused_call_goes_on")
OUTCOME = re.compile(rf"^test (?:{'|'.join(TESTS)}) \.\.\. ok\n    (.*)$", re.M)


def outcomes_without(number):
    """What the two tests print if this allocation of each is refused; less if one of them fails."""
    words = ["rt", "try", "--test", "--seconds", "10", "--fail-alloc", str(number)]
    printed = subprocess.run(words, cwd=FOLDER, capture_output=True, text=True).stdout
    return OUTCOME.findall(printed)


def main():
    number = int(sys.argv[1]) - 1 if len(sys.argv) > 1 else 0
    while True:
        number += 1
        outcomes = outcomes_without(number)
        print(f"{number:>4} {'; '.join(outcomes)}", flush=True)
        if len(outcomes) != 2:
            sys.exit(f"with allocation {number} refused a test fails")
        if outcomes[0].startswith("Ended") and outcomes[1] == "refused in no call":
            return


main()
