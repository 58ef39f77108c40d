#!/usr/bin/env python3
"""Writes the table of rules of docs/lists/RULES.md, or compares it with the sources.

    python3 docs/rules.py            changes nothing, and fails if the page isn't what this script would write
    python3 docs/rules.py --write    writes what is between the two marks of the page

A row is a rule of crates/brc_model/specs/Rules.antt: its name; the function of brc_effect that names it in a comment;
the premises, what the step leaves and which duties follow, as the rule has them; in words the comment above the rule;
the files of the crates of real threads that name it; and the wrong bodies whose first line names the rule, or why there
is none. It also fails if a rule has no comment or no function names it. docs/check.py makes the same check, and
docs/wrong_bodies.py asks for a wrong body of each rule that isn't in WITHOUT.
"""
import re
import sys

# Importing a script of this folder leaves no file there.
sys.dont_write_bytecode = True
import proved
from tables import LISTS, ROOT, Part, link, mark_lines

SOURCE = ROOT / "crates" / "brc_model" / "specs" / "Rules.antt"
EFFECT = ROOT / "crates" / "brc_effect" / "src"
# The crates of which a file may name a rule above a step that real threads take.
REAL = ["brc_table", "brc_heap", "brc_list", "brc_free", "brc_queue"]
# Why a rule has no wrong body of its own: its function has one in the other branch, or the step only reads a word.
OTHER_BRANCH = "none (other branch)"
ONLY_READS = "none (only reads)"
WITHOUT = {
    "NothingToClaim": OTHER_BRANCH,
    "NobodysCount": OTHER_BRANCH,
    "MergeRead": ONLY_READS,
}
class Rule:
    def __init__(self, name, comment, statement):
        self.name, self.comment = name, comment
        *self.premises, conclusion = split(statement, "→")
        # Goes duty found left next moves
        _, _, found, self.left, following, _ = split(conclusion, " ")
        self.next = [bare(duty) for duty in split(bare(following), "∷") if duty != "[]"]
        self.left = "" if self.left == found else bare(self.left)
        if found != "found":
            self.premises.insert(0, f"found ≡ {found}")


def bare(term):
    """Returns the term without parentheses round all of it."""
    return term[1:-1] if term.startswith("(") and split(term, " ") == [term] else term


def split(term, by):
    """Splits a term where it isn't within parentheses."""
    parts, depth = [""], 0
    for char in term:
        depth += (char == "(") - (char == ")")
        if char == by and not depth:
            parts.append("")
        else:
            parts[-1] += char
    return [part.strip() for part in parts if part.strip()]


def groups():
    """Returns the headings of Rules.antt, each with its rules."""
    text = SOURCE.read_text()
    text = text[text.index("pub data Goes") : text.index("pub record IsComputed")]
    found, comment = [], []
    # A line of a rule or a comment begins at the fourth column; what goes on is deeper.
    for part in re.findall(r"^    \S.*(?:\n     .*)*", text, re.M):
        part = " ".join(part.split())
        if part.startswith("-- ----"):
            found.append((part.removeprefix("-- ----").strip(), []))
        elif part.startswith("--"):
            comment.append(part.removeprefix("--").strip())
        else:
            # The variables of a rule are in parentheses after its name.
            name, rest = part.split(" : ", 1)
            while rest.startswith("("):
                rest = rest[rest.index(")") + 1 :].lstrip()
            found[-1][1].append(Rule(name, " ".join(comment), rest.removeprefix("→").strip()))
            comment = []
    return found


def names():
    return [rule.name for _, rules in groups() for rule in rules]


RULES = re.compile(r"[Rr]ules? ((?:`\w+`(?:[,;] | and |; and )?)+)")


def named(text):
    """Returns the rules that a comment names."""
    text = re.sub(r"\s*\n\s*//[/!]?\s*", " ", text)
    return {rule for names in RULES.findall(text) for rule in re.findall(r"\w+", names) if rule[0].isupper()}


def functions():
    """Returns for each rule the function of brc_effect that names it, with its file: how a step ends (outcomes), what
    follows it (effect), or its operation (access)."""
    found = {}
    for path in [EFFECT / "access.rt", EFFECT / "effect.rt", *sorted((EFFECT / "effect").glob("*.rt"))]:
        for rule in named(path.read_text()):
            found[rule] = ("access_of" if path.name == "access.rt" else "effect", path)
        if path.parent != EFFECT:
            for function in proved.functions(path):
                found |= {rule: (function.name, path) for rule in named(" ".join(function.doc))}
    outcomes = EFFECT / "outcomes.rt"
    for function in proved.functions(outcomes):
        found |= {rule: (function.name, outcomes) for rule in named(" ".join(function.doc))}
    return found


def real_threads():
    """Returns for each rule the files of the crates of real threads that name it in a comment."""
    found, known = {}, set(names())
    for crate in REAL:
        for path in sorted((ROOT / "crates" / crate / "src").rglob("*.rt")):
            comments = " ".join(re.findall(r"^\s*//(.*)$", path.read_text(), re.M))
            for rule in sorted(known.intersection(re.findall(r"`(\w+)`", comments))):
                found.setdefault(rule, []).append(path)
    return found


def wrong_bodies():
    """Returns for each rule the files of the wrong bodies that name it."""
    found = {}
    for path in sorted(ROOT.glob("crates/*/*must-fail/*.edit"), key=lambda path: (path.stem, path)):
        for rule in re.findall(r"; rules? (.*)\)$", path.read_text().split("\n")[0]):
            for name in re.findall(r"\w+", rule):
                found.setdefault(name, []).append(path)
    return found


def sentence(text):
    text = re.sub(r" \(`\w+`\)", "", text)
    return f"{text[0].upper()}{text[1:]}{'' if text.endswith('.') else '.'}"


def codes(terms):
    return ", ".join(f"`{term}`" for term in terms)


def table():
    lines = ["| Rule | If | Leaves | Then | In words | Step | Real threads | Wrong bodies |", "|" + "---|" * 8]
    does, real, wrong = functions(), real_threads(), wrong_bodies()
    for heading, rules in groups():
        lines.append(f"| **{heading[0].upper()}{heading[1:]}** |")
        for rule in rules:
            function, path = does.get(rule.name, (None, None))
            bodies = [link(it.stem, it) for it in wrong.get(rule.name, [])]
            cells = [
                f"`{rule.name}`",
                codes(rule.premises),
                codes([rule.left] if rule.left else []),
                codes(rule.next),
                sentence(rule.comment) if rule.comment else "",
                link(function, path) if function else "",
                ", ".join(link(it.name, it) for it in real.get(rule.name, [])),
                ", ".join(bodies) or WITHOUT.get(rule.name, ""),
            ]
            lines.append(f"| {' | '.join(cells)} |")
    return "\n".join(lines) + "\n"


PART = Part(LISTS / "RULES.md", mark_lines("rules.py"), table)


def faults_of_wrong_bodies():
    known, wrong = names(), wrong_bodies()
    found = [f"no wrong body names the rule {name}" for name in known if name not in wrong and name not in WITHOUT]
    found += [f"{name} has a wrong body by now" for name in WITHOUT if name in wrong]
    return found + [f"{name} is no rule" for name in sorted({*wrong, *WITHOUT}) if name not in known]


def faults():
    known, does = names(), functions()
    commented = {rule.name for _, its in groups() for rule in its if rule.comment}
    found = [f"no function names the rule {name}" for name in known if name not in does]
    found += [f"the rule {name} has no comment" for name in known if name not in commented]
    found += [f"{name} is no rule" for name in sorted(does) if name not in known]
    return found + PART.faults()


def main():
    if sys.argv[1:] == ["--write"]:
        PART.write()
        return 0
    if sys.argv[1:]:
        print(__doc__)
        return 2
    found = faults()
    print(*(f"docs/lists/RULES.md: {fault}" for fault in found), f"{len(names())} rules, {len(found)} faults", sep="\n")
    return 1 if found else 0


if __name__ == "__main__":
    sys.exit(main())
