"""Tries wrong bodies, several of a crate by one check.

A contract stands for its function in the proofs of all others, so two wrong bodies in two functions don't meet: one
check finds both refused, each function for itself. The functions have to be proved as they stand, which is checked first.
What such a check doesn't refuse, and what changes more than functions' bodies (a constant, say), is tried alone, by
`rt must-fail`.
"""
import contextlib
import functools
import os
import re
import subprocess

# A line of a check that says where in a function a goal isn't proved, or where in its proof a text isn't admitted.
TOLD = re.compile(r"^(?:note: )?(?:\./)?(src/\S+?|proofs/\S+?):(\d+):\d+: (it is not proved that .*|error: .*)$", re.M)
# A proof that names what the body no longer has says little of the contract.
NAMES_WHAT_WENT = re.compile(r"has no field|is not in scope|has no `|was not admitted")
INTO = {"stdout": subprocess.PIPE, "stderr": subprocess.STDOUT, "text": True, "errors": "replace"}


class Function:
    """A function of a file: its name as a check prints it, below the crate, and its first and last line. The first may be that
    of an attribute: checks count it in."""

    def __init__(self, name, first, last):
        self.name, self.first, self.last = name, first, last


def owner_of(block):
    """Returns the type of an `impl`, or the trait of a `trait`, and what a check calls the block: the trait of an `impl` comes
    right after the type."""
    while re.search(r"<[^<>]*>", block):
        block = re.sub(r"<[^<>]*>", "", block)
    found = re.match(r"(?:impl (?:([\w:]+) for )?|(?:pub )?trait )(\w+)", block)
    return (found[2], found[2] + (found[1] or "").rpartition("::")[2]) if found else ("", "")


def module_of(file):
    module = file.removeprefix("src/").removesuffix(".rt").replace("/", "::")
    return "" if module in ("lib", "main") else module


@functools.cache
def modules_of_types(crate):
    """Returns the module of each type of a crate: a check names a type's own functions below it, whatever file they are in,
    and those of a trait below their file."""
    found = {}
    for path in sorted(crate.glob("src/**/*.rt")):
        for name in re.findall(r"^(?:pub(?:\(\w+\))? )?(?:struct|enum|trait) (\w+)", path.read_text(), re.M):
            found[name] = module_of(str(path.relative_to(crate)))
    return found


def functions(crate, file):
    """Yields the functions of a crate's file. Each ends with a brace at its own depth, as `rt fmt` sets them."""
    block, lines = "", (crate / file).read_text().split("\n")
    for number, line in enumerate(lines, 1):
        if re.match(r"}|impl\b|(pub )?trait\b", line):
            block = line if line.endswith("{") else ""
        begun = re.match(r"( *)(?:pub(?:\(\w+\))? )?(?:const )?fn (\w+)", line)
        if begun:
            last = next((at for at, it in enumerate(lines, 1) if at >= number and it == begun[1] + "}"), number)
            first = number
            while lines[first - 2].lstrip().startswith("#["):
                first -= 1
            owner, called = owner_of(block)
            module = modules_of_types(crate).get(owner) if called == owner else None
            path = [module_of(file) if module is None else module, called, begun[2]]
            yield Function("::".join(it for it in path if it), first, last)


class Body:
    """A wrong body: its file, the texts that it changes, and the functions that these stand in; `alone` where one stands in none."""

    def __init__(self, path):
        self.path, self.folder, said = path, path.parents[1], path.read_text()
        self.file = re.search(r"^file: (.*)$", said, re.M)[1].strip()
        olds, news = (re.findall(rf"^{word}: (.*)$", said, re.M) for word in ("old", "new"))
        self.changes = list(zip(olds, news))
        text = (self.folder / self.file).read_text()
        there = list(functions(self.folder, self.file))
        # One that isn't there is no line's: `rt must-fail` says what is wrong with it.
        lines = [text[: text.index(old)].count("\n") + 1 if old in text else 0 for old in olds]
        found = [[it for it in there if it.first < line <= it.last] for line in lines]
        self.functions = [it[-1] for it in found if it]
        self.alone = not all(found)

    def put_into(self, text):
        """Returns the text with the changes, or None if what is to be changed doesn't stand there once."""
        for old, new in self.changes:
            if text.count(old) != 1:
                return None
            text = text.replace(old, new)
        return text


class Group:
    """Wrong bodies of a crate that change different functions, and the files with all their changes."""

    def __init__(self):
        self.bodies, self.texts, self.changed = [], {}, set()

    def takes(self, body):
        changed = {(body.file, it.first) for it in body.functions}
        before = self.texts.get(body.file) or (body.folder / body.file).read_text()
        text = None if changed & self.changed else body.put_into(before)
        if text is None:
            return False
        self.bodies.append(body)
        self.texts[body.file] = text
        self.changed |= changed
        return True


def groups(bodies):
    made = []
    for body in bodies:
        if not any(it.takes(body) for it in made):
            made.append(Group())
            if not made[-1].takes(body):
                # `rt must-fail` says what is wrong with it
                made.pop()
                body.alone = True
    return made


@contextlib.contextmanager
def written(folder, texts):
    """Gives a crate's files these texts for a while."""
    kept = {file: (folder / file).read_text() for file in texts}
    try:
        for file, text in texts.items():
            (folder / file).write_text(text)
        yield
    finally:
        for file, text in kept.items():
            (folder / file).write_text(text)


def refusal(body, said):
    """Returns what a check says of a function that the body changes, if it isn't proved by its own fault, or None: not one
    that only calls another which isn't."""
    lines = dict(re.findall(rf"^fn {body.folder.name}::(\S+): (.*)$", said, re.M))
    for changed in body.functions:
        line, proof = lines.get(changed.name, ""), f"proofs/{changed.name.replace('::', '/')}/"
        its = [
            f"{file}:{at}: {why}"
            for file, at, why in TOLD.findall(said)
            if file == body.file and changed.first <= int(at) <= changed.last
            or file.startswith(proof) and not NAMES_WHAT_WENT.search(why)
        ]
        if its and line.startswith(("no proof", "not proved")) and not line.startswith("no proof: it calls"):
            return its[0]
    return None


def check(folder, names):
    """Checks those functions of a crate, or all where a name fits none, and returns the status and what the check says."""
    for only in ([word for name in names for word in ("--only", name)], []):
        ran = subprocess.run(["rt", "check", "--jobs", "1", *only], cwd=folder, **INTO)
        if ran.returncode != 2:
            break
    return ran.returncode, ran.stdout


def try_alone(folder, bodies):
    """Has `rt must-fail` try those bodies of a crate, and returns its lines about them."""
    for path in folder.glob("must-fail/*.edit"):
        if path not in [body.path for body in bodies]:
            path.unlink()
    # One at a time: other crates are tried beside it.
    ran = subprocess.run(["rt", "must-fail", folder.name], cwd=folder.parents[1], env={**os.environ, "RT_JOBS": "1"}, **INTO)
    lines = ran.stdout.splitlines()
    return [line for line in lines if "must-fail" in line] or lines[-6:]


def names_of(bodies):
    return sorted({it.name for body in bodies for it in body.functions})


def try_crate(folder, say):
    """Tries the wrong bodies in must-fail/ of a crate's folder, says what each came to, and returns how many are refused."""
    bodies = [Body(path) for path in sorted(folder.glob("must-fail/*.edit"))]
    made = groups([body for body in bodies if not body.alone])
    left = [body for body in bodies if body.alone]
    status, said = check(folder, names_of(bodies)) if made else (0, "")
    if status:
        say(f"{folder.name}: isn't proved as it stands, so no wrong body of it was tried: prove it first")
        return 0
    refused = 0
    for group in made:
        with written(folder, group.texts):
            said = check(folder, names_of(group.bodies))[1]
        for body in group.bodies:
            why = refusal(body, said)
            if why is None:
                left.append(body)
                continue
            refused += 1
            say(f"{folder.name}/{body.path.stem}: refused: {why[:160]}")
    for line in try_alone(folder, left) if left else []:
        # Without a reason, or where only a proof names what the body no longer has, no contract has refused it.
        refused += ": refused, as it must be: " in line
        say(line)
    return refused
