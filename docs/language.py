#!/usr/bin/env python3
"""Makes cases of the examples of docs/TUTORIAL.md, LANGUAGE.md and FROM_C.md and of the modules of examples/README.md.
The gate runs them, since they are a file of brc_cases.

    python3 docs/language.py            fails if crates/brc_cases/data/pages.cases differs from the pages
    python3 docs/language.py --write    writes it
    python3 docs/language.py --run      runs the examples with the program at crates/brc/out/brc

A block marked `module` or `schedule` is the file f.brc or f.schedule of the blocks `console` below it. If the mark goes
on with a name, it is the file of this name, and has to be the same as the one in examples/from_c. A block marked
`function` and a name is some functions of that file, one after another. If the line after a block with a name begins
with a verdict in backticks, `brc check` of the file prints it. Commands may name each file there. A console block is
one command, on a line that begins with `$`, and what it prints: standard output, then standard error. A block marked
`part` has some lines of that, one after another. The exit status has to be the one that LANGUAGE.md's table gives to
such a line; an explanation has the line at its end. Of several lines, each with its file's name or an object, it is the
greatest.

A row of a table in examples/README.md names a module and what `brc check` prints of it. Each module has a row, and each
file of examples/from_c a block or a link in FROM_C.md.
"""
import json
import re
import shlex
import subprocess
import sys
import tempfile
from pathlib import Path

ROOT = Path(__file__).resolve().parents[1]
DOCS = ROOT / "docs"
PAGES = [DOCS / "TUTORIAL.md", DOCS / "LANGUAGE.md", DOCS / "FROM_C.md"]
EXAMPLES = ROOT / "examples"
FROM_C = EXAMPLES / "from_c"
PROGRAM = ROOT / "crates" / "brc" / "out" / "brc"
CASES = ROOT / "crates" / "brc_cases" / "data" / "pages.cases"
STATUSES = {
    "refused": 1, "wrong": 1,
    "unreadable": 2, "no function": 2, "out of bounds": 2, "cannot write": 2,
    "no memory": 3, "no thread": 3,
}


class Example:
    def __init__(self, place, command, files, wanted, is_part=False):
        self.place, self.files, self.wanted, self.is_part = place, files, wanted, is_part
        self.words = shlex.split(command)

    def files_named(self):
        """The files that its command names, in this order."""
        return [(word, self.files[word]) for word in dict.fromkeys(self.words) if word in self.files]

    def is_met(self, printed, status):
        """Whether this is printed, or printed among other lines, and the status is that of its last line."""
        lines = printed.splitlines()
        if self.words[0] == "explain":
            lines = lines[-1:]
        means = max(map(status_of, lines), default=0) if self.words[0] != "run" else status_of(printed)
        same = f"\n{self.wanted}" in f"\n{printed}" if self.is_part else self.wanted == printed
        return same and status == means


def status_of(line):
    """The status that a line on standard error means, or an object's verdict."""
    if line.startswith("{"):
        line = json.loads(line)["verdict"]
    line = re.sub(r"^\S+: ", "", line)
    return next((status for start, status in STATUSES.items() if line.startswith(start)), 0)


def page_examples(page):
    """The examples of a page, the files that its blocks are, the functions that they have of files, and the files of
    examples/from_c that it links to."""
    text = page.read_text()
    files, found, named, functions = {path.name: path.read_text() for path in FROM_C.iterdir()}, [], {}, []
    marks = "module|schedule|function|console|part"
    verdict = r"(?:\n\n`((?:refused|accepted) [^`\n]+)`)?"
    for block in re.finditer(rf"^```({marks})(?: (\S+))?\n(.*?)^```${verdict}", text, re.M | re.S):
        mark, name, inner, printed = block.groups()
        line = text.count("\n", 0, block.start()) + 1
        if name and printed:
            found.append(Example(f"{page.name}, line {line}", f"check {name}", dict(files), f"{printed}\n"))
        if mark in ("console", "part"):
            command, wanted = inner.split("\n", 1)
            words = command.removeprefix("$ brc ")
            found.append(Example(f"{page.name}, line {line}", words, dict(files), wanted, mark == "part"))
        elif mark == "function":
            functions.append((name, inner))
        else:
            files[name or ("f.brc" if mark == "module" else "f.schedule")] = inner
            if name:
                named[name] = inner
    linked = set(re.findall(r"\(\.\./examples/from_c/([^)\s]+)\)", text))
    return found, named, functions, linked


def table_examples():
    """The rows of examples/README.md that name a module."""
    page = EXAMPLES / "README.md"
    found, named = [], set()
    for line, row in enumerate(page.read_text().splitlines(), 1):
        match = re.fullmatch(r"\| `(\S+\.brc)` \|(?:.*\|)? `([^`]+)` \|", row)
        if match:
            named.add(match.group(1))
            files = {"f.brc": (EXAMPLES / match.group(1)).read_text()}
            found.append(Example(f"examples/README.md, line {line}", "check f.brc", files, match.group(2) + "\n"))
    return found, named


def examples():
    """All examples, and the faults of files that differ or aren't named."""
    found, faults, in_pages = [], [], set()
    for page in PAGES:
        more, named, functions, linked = page_examples(page)
        found += more
        in_pages |= {*named, *(name for name, _ in functions), *linked}
        faults += [f"{page.name}: {name} differs from examples/from_c" for name, text in named.items()
                   if not (FROM_C / name).exists() or (FROM_C / name).read_text() != text]
        faults += [f"{page.name}: {name} of examples/from_c has other functions" for name, text in functions
                   if not (FROM_C / name).exists() or f"\n{text}" not in (FROM_C / name).read_text()]
    faults += [f"examples/from_c: {path.name} has no block and no link" for path in sorted(FROM_C.iterdir())
               if path.name not in in_pages]
    more, named = table_examples()
    modules = [str(path.relative_to(EXAMPLES)) for path in sorted(EXAMPLES.rglob("*.brc"))]
    faults += [f"examples/README.md: {name} has no row" for name in modules if name not in named]
    return found + more, faults


def run_program(found):
    """What each example prints, and its status."""
    for example in found:
        with tempfile.TemporaryDirectory() as folder:
            for name, text in example.files.items():
                (Path(folder) / name).write_text(text)
            done = subprocess.run([PROGRAM, *example.words], cwd=folder, capture_output=True, text=True)
            yield example, done.stdout + done.stderr, done.returncode


def status_wanted(example, found):
    """The status of an example, by the last line that it has to print. A part of an explanation of a refused module
    doesn't have that line: a check of the same text has it."""
    if example.words[0] == "explain" and example.is_part:
        same = [it for it in found if it.words[0] == "check" and list(it.files_named()) == list(example.files_named())]
        return max((status_wanted(it, found) for it in same), default=0)
    lines = example.wanted.splitlines()
    if example.words[0] == "explain":
        lines = lines[-1:]
    return max(map(status_of, lines), default=0)


def content(text):
    """The lines of a file of cases that stand for the text."""
    lines = text.split("\n")
    whole = [f"| {line}" if line else "|" for line in lines[:-1]]
    return whole + ([json.dumps(lines[-1], ensure_ascii=False)] if lines[-1] else [])


def word(text):
    return json.dumps(text, ensure_ascii=False) if not text or re.search(r'[ "\\]', text) else text


def case(example, found, names):
    lines = [f"case {example.place}", "$ brc " + " ".join(map(word, example.words))]
    for name, text in example.files_named():
        lines += [f"file {name}", *([f"= {names[text]}"] if text in names else content(text))]
    lines += [f"status {status_wanted(example, found)}", "all has" if example.is_part else "all"]
    return "\n".join(lines + content(example.wanted))


def cases(found):
    """The examples as a file of cases. A text that several of them have is a named one."""
    often = {}
    for example in found:
        for _, text in example.files_named():
            often[text] = often.get(text, 0) + 1
    shared = [text for text in often if often[text] > 1]
    names = {text: f"page_{number}" for number, text in enumerate(shared, 1)}
    texts = ["\n".join([f"text {names[text]}", *content(text)]) for text in shared]
    head = "# The examples of the pages. docs/language.py writes them from there: change the page, and run it."
    return "\n\n".join([head, *texts, *(case(example, found, names) for example in found)]) + "\n"


def faults():
    """What differs between the pages, the files of examples/ and the file of cases."""
    found, wrong = examples()
    if not CASES.exists() or CASES.read_text() != cases(found):
        wrong.append(f"{CASES.relative_to(ROOT)} differs from the pages: docs/language.py --write writes it")
    return wrong


def main():
    found, wrong = examples()
    if sys.argv[1:] == ["--write"]:
        CASES.write_text(cases(found))
    elif sys.argv[1:] == ["--run"]:
        for example, printed, status in run_program(found):
            if not example.is_met(printed, status):
                wrong.append(f"{example.place}: status {status}, and it prints\n{printed}")
    elif sys.argv[1:]:
        sys.exit(__doc__)
    else:
        wrong = faults()
    print(*wrong, f"{len(found)} examples, {len(wrong)} wrong", sep="\n")
    sys.exit(1 if wrong else 0)


if __name__ == "__main__":
    main()
