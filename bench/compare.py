#!/usr/bin/env python3
"""Compares the proved counter with the plain Rust program of the same steps, in runs that alternate.

    python3 bench/compare.py PROVED PLAIN [RUNS]

PROVED is the program of crates/brc_bench (`rt run` in that crate leaves it in out/), PLAIN is bench/plain.rs, built with
`rustc -O`. Each runs nine times, or RUNS times. The table has the median of the runs in nanoseconds, with the least and
the most. The load of the machine before each pair of runs goes to standard error: the figures mean something only where
it stays below the number of threads that the programs themselves use.
"""
import os
import re
import statistics
import subprocess
import sys

LINE = re.compile(r"^(.*?)[: ]\s*([0-9]+\.[0-9]+)(?: ns)?$")


def times(program):
    """Returns the nanoseconds of each row that the program measures, by the row's name."""
    out = subprocess.run([program, "--time"], capture_output=True, text=True, check=True).stdout
    rows = [LINE.match(line.strip()) for line in out.splitlines()]
    return {row.group(1).strip(": ").removeprefix("biased: "): float(row.group(2)) for row in rows if row}


def cell(row, runs):
    """Returns the median of the row in the runs, with the least and the most."""
    all_times = [run[row] for run in runs]
    return f"{statistics.median(all_times):.1f} ({min(all_times):.1f}–{max(all_times):.1f})"


def ratio(row, proved, plain):
    """Returns the proved program's median of the row, as a multiple of the plain one's."""
    return statistics.median(run[row] for run in proved) / statistics.median(run[row] for run in plain)


def main():
    proved_program, plain_program = sys.argv[1:3]
    proved, plain = [], []
    for _ in range(int(sys.argv[3]) if len(sys.argv) > 3 else 9):
        print(f"load {os.getloadavg()[0]:.2f}", file=sys.stderr)
        proved.append(times(proved_program))
        plain.append(times(plain_program))
    if missing := proved[0].keys() - plain[0].keys():
        sys.exit(f"compare: {plain_program} has no row named {', '.join(sorted(missing))}; give the rows one name")
    print("| Row | Proved | Plain | Proved / plain |")
    print("|---|---|---|---|")
    for row in proved[0]:
        print(f"| {row} | {cell(row, proved)} | {cell(row, plain)} | {ratio(row, proved, plain):.2f} |")
    for row in [row for row in plain[0] if row not in proved[0]]:
        print(f"| {row} | | {cell(row, plain)} | |")


main()
