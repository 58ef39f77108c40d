#!/usr/bin/env python3
"""Measures what the gate costs, crate by crate, and writes the table of docs/lists/PERFORMANCE.md.

    python3 tools/gate_cost.py LOG [--anew] [CRATE..]

It clones the last commit, runs `rt ci` there (where the kit keeps what earlier runs passed, from nothing only with
--anew; a kit that keeps nothing takes no such word), and puts what it prints into the file LOG. Each second it reads how
much processor time the compiler's processes have taken, by the crate that they work on and by what they do for it: its
code, its tests, the second check that its wrong bodies begin with, and the wrong bodies. Last it prints the table, and
if the gate passed, without the name of a crate, it writes it between the two marks of docs/lists/PERFORMANCE.md; then
come the closing line of the gate and the times. The machine has to be idle, or the times say little. ./test prints the
table of its own run.

What a process takes in its last second isn't seen, nor what starts and ends between two looks: the row "the rest" has
that, and compiling, linking and running.
"""
import datetime
import os
import re
import resource
import subprocess
import sys
import tempfile
import threading
import time
from collections import defaultdict
from pathlib import Path

# Importing a script of this folder leaves no file there.
sys.dont_write_bytecode = True
import lanes

ROOT = Path(__file__).resolve().parents[1]
PAGE = ROOT / "docs" / "lists" / "PERFORMANCE.md"
MARKS = "<!-- the table of tools/gate_cost.py -->", "<!-- its end -->"
TICKS = os.sysconf("SC_CLK_TCK")
PARTS = ["code", "tests", "second check", "wrong bodies"]


def part_of(words, folder):
    """Returns what a compiler's process works for: a crate and one of PARTS, or None. A wrong body is checked over a copy of
    the folder `seed`, which the second check has filled."""
    if "--crate-name" not in words or not any(word in words for word in ("check", "build", "compile")):
        return None
    crate = words[words.index("--crate-name") + 1]
    over = words[words.index("--incremental") + 1] if "--incremental" in words else ""
    if "rt-edits-" in over and over.endswith("/seed"):
        return crate, "second check"
    if "rt-edits-" in over or "rt-edit-" in folder:
        return crate, "wrong bodies"
    return crate, "tests" if "--test" in words else "code"


def look(seen, below):
    """Notes the time of each process of the run."""
    for name in os.listdir("/proc"):
        if not name.isdigit():
            continue
        try:
            with open(f"/proc/{name}/stat") as it:
                stat = it.read()
            fields = stat[stat.rindex(")") + 2 :].split()
            begun = int(name), fields[19]
            if begun not in seen:
                with open(f"/proc/{name}/cmdline") as it:
                    words = it.read().split("\0")
                folder = os.readlink(f"/proc/{name}/cwd")
                if os.getpgid(int(name)) != below and os.getsid(int(name)) != os.getsid(below):
                    continue
                part = part_of(words, folder)
                if part is None:
                    continue
                seen[begun] = [part, 0]
            seen[begun][1] = int(fields[11]) + int(fields[12])
        except (OSError, ValueError, IndexError):
            continue


def table(seen, edits, crates, total, closing, wall, cores):
    took = defaultdict(float)
    for part, ticks in seen.values():
        took[part] += ticks / TICKS
    kit = subprocess.run(["rt", "version"], capture_output=True, text=True).stdout.split()[0]
    lines = [
        f"{datetime.date.today()}, {kit}, {cores} cores: {total / 60:.0f} core-minutes in {wall / 60:.0f} minutes. `{closing}`",
        "",
        "| Crate | Code | Tests | Second check | Wrong bodies | Their number | All |",
        "|---|---|---|---|---|---|---|",
    ]
    sums = defaultdict(float)
    for crate in crates:
        each = [took[crate, part] for part in PARTS]
        for part, seconds in zip(PARTS, each):
            sums[part] += seconds
        cells = [f"{seconds:.0f}" if seconds >= 0.5 else "" for seconds in each]
        lines.append(f"| `{crate}` | {' | '.join(cells)} | {edits[crate] or ''} | {sum(each):.0f} |")
    rest = total - sum(sums.values())
    lines.append(f"| the rest | | | | | | {rest:.0f} |")
    cells = " | ".join(f"{sums[part]:.0f}" for part in PARTS)
    lines.append(f"| all | {cells} | {sum(edits.values())} | {total:.0f} |")
    return "\n".join(lines)


def edits_of(root):
    """Returns the number of wrong bodies of each crate."""
    named = re.findall(r"^(\w+)(?: [^:\n]*)?:", (root / "crates.txt").read_text(), re.M)
    return {crate: len(list(root.glob(f"crates/{crate}/must-fail/*.edit"))) for crate in named}


class Run:
    """A run of `rt ci`: its status, its last line, the seconds that it took, those of the processors, and the table."""

    def __init__(self, status, closing, wall, took, table):
        self.status, self.closing, self.wall, self.took, self.table = status, closing, wall, took, table


def pass_on(lines, printed, out):
    for line in lines:
        printed.append(line)
        out.write(line)
        out.flush()


def measured(root, words=(), out=sys.stdout):
    """Runs `rt ci` in a folder, and passes on what it prints."""
    start, seen, printed = time.time(), {}, []
    into = {"stdout": subprocess.PIPE, "stderr": subprocess.STDOUT, "text": True, "errors": "replace"}
    ran = subprocess.Popen(["rt", "ci", *words], cwd=root, env=lanes.environment(), start_new_session=True, **into)
    reader = threading.Thread(target=pass_on, args=(ran.stdout, printed, out))
    reader.start()
    while ran.poll() is None:
        look(seen, ran.pid)
        time.sleep(1)
    reader.join()
    used = resource.getrusage(resource.RUSAGE_CHILDREN)
    took, wall, closing = used.ru_utime + used.ru_stime, time.time() - start, "".join(printed[-1:]).strip()
    try:
        edits = edits_of(root)
        made = table(seen, edits, list(edits), took, closing, wall, os.cpu_count())
    except Exception as fault:
        # A fault of the measure changes nothing of the gate.
        made = f"what the gate costs wasn't measured: {fault}"
    return Run(ran.returncode, closing, wall, took, made)


def main():
    if len(sys.argv) < 2 or sys.argv[1].startswith("-"):
        print(__doc__)
        return 2
    with tempfile.TemporaryDirectory(prefix="gate-cost-") as room, open(sys.argv[1], "w") as log:
        clone = Path(room) / "clone"
        subprocess.run(["git", "clone", "-q", ROOT, clone], check=True)
        ran = measured(clone, sys.argv[2:], log)
    if ran.status == 0 and not [word for word in sys.argv[2:] if word != "--anew"]:
        head, rest = PAGE.read_text().split(MARKS[0])
        PAGE.write_text(head + MARKS[0] + "\n" + ran.table + "\n" + MARKS[1] + rest.split(MARKS[1])[1])
    print(ran.table, ran.closing, f"{ran.took:.0f} core-seconds, {ran.wall:.0f} seconds", sep="\n")
    return ran.status


if __name__ == "__main__":
    sys.exit(main())
