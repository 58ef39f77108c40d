#!/usr/bin/env python3
"""Refuses threads to a run of 32 workers, and prints how `brc` answers.

    python3 tools/refused_threads.py [THREADS]

As root. It becomes a user of its own, whose processes may have 30 threads together, or THREADS: the limit doesn't hold for
root. It runs `brc` by `rt try`, which proves nothing and takes about a minute, and fails unless
`brc` answers `no thread` with status 3.
"""
import os
import resource
import shutil
import subprocess
import sys
from pathlib import Path

FOLDER = Path(__file__).resolve().parents[1] / "crates" / "brc"
# A user that nobody is.
USER = 54321
# Each worker makes enough calls that none is gone before the last one is started.
RUN = ["--data", "first.brc=../../examples/first.brc", "--",
       "run", "first.brc", "--call", "f", "--threads", "32", "--times", "100000"]


def main():
    most = int(sys.argv[1]) if len(sys.argv) > 1 else 30
    printed = subprocess.run(
        [os.path.realpath(shutil.which("rt")), "try", *RUN],
        cwd=FOLDER,
        env={"PATH": "/usr/bin:/bin", "HOME": "/tmp"},
        user=USER,
        group=USER,
        extra_groups=[],
        preexec_fn=lambda: resource.setrlimit(resource.RLIMIT_NPROC, (most, most)),
        stdout=subprocess.PIPE,
        stderr=subprocess.STDOUT,
        text=True,
    ).stdout
    print(printed, end="")
    if "no thread" not in printed.splitlines() or "run=ended status=3" not in printed:
        sys.exit(f"with {most} threads the answer is another one")


main()
