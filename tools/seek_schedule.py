#!/usr/bin/env python3
"""Looks for a schedule by which a run of a module takes a rule of the step relation, and prints it.

    python3 tools/seek_schedule.py MODULE RULE [options]

It tries random schedules with `brc step --trace` until a line has the rule (docs/lists/RULES.md), and then leaves steps
out as long as a line still has it. The last line of the printed schedule takes the rule; standard error has the
trace's line. Options, with what is taken without them:

    --call F ..      the functions that workers 1, 2, .. call: all of the module that have no parameters, in turn
    --workers N      2
    --rows N         4
    --times N        how often each worker calls its function: 2
    --tries N        20000
    --seed N         of the random numbers, so that a search can be made again: 1
    --unchecked      the module may be refused
    --program PATH   crates/brc/out/brc
"""
import argparse
import difflib
import random
import re
import subprocess
import sys
from pathlib import Path

ROOT = Path(__file__).resolve().parents[1]
PROGRAM = ROOT / "crates" / "brc" / "out" / "brc"
RULES = re.findall(r'Rule::\w+ => "(\w+)"', (ROOT / "crates" / "brc_trace" / "src" / "rule.rt").read_text())
# The most steps of a schedule that is tried, and the steps that lead any thread to its end.
MOST_STEPS = 400
TO_THE_END = 1000


def options():
    parser = argparse.ArgumentParser(usage=__doc__, add_help=False)
    parser.add_argument("module", type=Path)
    parser.add_argument("rule")
    parser.add_argument("--call", nargs="+", default=[])
    parser.add_argument("--program", type=Path, default=PROGRAM)
    parser.add_argument("--unchecked", action="store_true")
    for name, usual in {"workers": 2, "rows": 4, "times": 2, "tries": 20000, "seed": 1}.items():
        parser.add_argument(f"--{name}", type=int, default=usual)
    asked = parser.parse_args()
    known = {rule.lower(): rule for rule in RULES}
    if asked.rule.lower() not in known:
        near = difflib.get_close_matches(asked.rule, RULES, 3, 0.4)
        sys.exit(f"there is no rule {asked.rule}" + (f": {', '.join(near)}?" if near else ""))
    asked.rule = known[asked.rule.lower()]
    if not asked.module.exists():
        sys.exit(f"there is no file {asked.module}")
    if not asked.program.exists():
        sys.exit(f"there is no program {asked.program}: README.md says how to build it")
    asked.call = asked.call or re.findall(r"^func (\w+)$", asked.module.read_text(), re.M)
    if not asked.call:
        sys.exit(f"no function of {asked.module} can be called from outside: all have parameters")
    return asked


def spelled(asked, steps):
    """The text of the schedule with these steps: of a thread, its choice, and how many or which row."""
    calls = [f"call {t} {asked.call[(t - 1) % len(asked.call)]} {asked.times}" for t in range(1, asked.workers + 1)]
    lines = [f"step {t} {how} {n}" if how != "claim" else f"claim {t} {n}" for t, how, n in steps]
    return "\n".join(["schedule 1", f"workers {asked.workers}", f"rows {asked.rows}", *calls, *lines]) + "\n"


def found(asked, steps):
    """The number and the line of the first step that goes by the rule, or None."""
    line = [asked.program, "step", "--trace", *["--unchecked"] * asked.unchecked, asked.module, "-"]
    done = subprocess.run(line, input=spelled(asked, steps), capture_output=True, text=True)
    for text in done.stdout.splitlines():
        fields = text.split("  ")
        if asked.rule in fields[2:]:
            return int(fields[0]), text
    if done.returncode and not done.stdout:
        sys.exit(done.stderr.strip())
    return None


def random_steps(asked, dice):
    """Some steps of random threads, most of them few at a time. Now and then a thread claims one of its rows."""
    steps, left = [], MOST_STEPS
    while left > 0:
        thread = dice.randint(0, asked.workers)
        if dice.random() < 0.1:
            row = 1 if thread == 0 else 2 + (thread - 1) * asked.rows + dice.randrange(asked.rows)
            steps.append((thread, "claim", row))
            left -= 1
            continue
        many = dice.random()
        number = dice.randint(1, 3) if many < 0.5 else dice.randint(4, 25) if many < 0.9 else TO_THE_END
        steps.append((thread, "fault" if dice.random() < 0.05 else "ok", number))
        left -= min(number, 40)
    return steps


def cut(steps, number):
    """The steps up to this one."""
    kept = []
    for thread, how, n in steps:
        length = 1 if how == "claim" else n
        if number <= length:
            return [*kept, (thread, how, n if how == "claim" else number)]
        kept.append((thread, how, n))
        number -= length
    return kept


def joined(steps):
    """The same steps, in as few lines as can be."""
    lines = []
    for thread, how, n in steps:
        if lines and how != "claim" and lines[-1][:2] == (thread, how):
            lines[-1] = (thread, how, lines[-1][2] + n)
        else:
            lines.append((thread, how, n))
    return lines


def fewer(steps):
    """The steps with a line left out, with fewer steps in a line, or without a fault."""
    for at, (thread, how, n) in enumerate(steps):
        before, behind = steps[:at], steps[at + 1:]
        yield before + behind
        if how == "fault":
            yield [*before, (thread, "ok", n), *behind]
        if how != "claim":
            yield from ([*before, (thread, how, less), *behind] for less in (n // 2, n - 1) if 0 < less)


def shortest(asked, steps, number):
    """Steps of the same kind of which none can be left out."""
    best = joined(cut(steps, number))
    changed = True
    while changed:
        changed = False
        for tried in fewer(best):
            hit = found(asked, tried)
            if hit:
                best, changed = joined(cut(tried, hit[0])), True
                break
    return best


def main():
    asked = options()
    dice = random.Random(asked.seed)
    for tried in range(1, asked.tries + 1):
        steps = random_steps(asked, dice)
        hit = found(asked, steps)
        if hit:
            best = shortest(asked, steps, hit[0])
            print(spelled(asked, best), end="")
            print(f"after {tried} tries:\n{found(asked, best)[1]}", file=sys.stderr)
            return
    sys.exit(f"no run took {asked.rule} in {asked.tries} tries")


main()
