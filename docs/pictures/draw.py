#!/usr/bin/env python3
"""Draws the pictures of docs/PICTURES.md, and checks them against the definitions.

    python3 docs/pictures/draw.py           writes the drawings into docs/PICTURES.md, and the pictures of runs
    python3 docs/pictures/draw.py --check   changes nothing; fails if a drawing or a picture is out of date

The pictures of runs, the .svg files of this folder, are those that the program at crates/brc/out/brc saves. If it isn't
there, they are left as they are.

What is read: the rules of the step relation (crates/brc_model/specs/Rules.antt), the word of each duty (Duties.antt
there), the numbers of the words (crates/brc_word/specs/Words.antt and src/values.rt), the kinds (Kinds.antt), the
places of a table's words (crates/brc_table/specs/Places.antt), the limits (Limits.antt) and crates.txt. A drawing whose
arrows are no longer the rules is an error.
"""
import re
import subprocess
import sys
import tempfile
import textwrap
from pathlib import Path

ROOT = Path(__file__).resolve().parents[2]
PROGRAM = ROOT / "crates" / "brc" / "out" / "brc"
EXAMPLES = ROOT / "examples"
PAGE = ROOT / "docs" / "PICTURES.md"
MODEL = ROOT / "crates" / "brc_model" / "specs"
WORD = ROOT / "crates" / "brc_word"
TABLE = ROOT / "crates" / "brc_table" / "specs"


def fail(message):
    sys.exit(f"draw.py: {message}")


def want(holds, message):
    if not holds:
        fail(message)


# ---- what the definitions say


def atoms(text):
    """The parts of an application: words, and brackets with what is in them."""
    parts, depth, part = [], 0, ""
    for letter in text.strip():
        if letter in "([":
            depth += 1
        if letter in ")]":
            depth -= 1
        if letter.isspace() and depth == 0:
            if part:
                parts.append(part)
            part = ""
        else:
            part += letter
    return parts + [part] if part else parts


class Rule:
    """One rule: its duty, what the step finds and leaves, and the duties that follow."""

    def __init__(self, name, text):
        self.name = name
        duty, self.found, self.left, self.next = atoms(text)[:4]
        self.duty = duty.strip("()").split()[0]

    def changes(self):
        return self.left != self.found

    def first_next(self):
        return self.next.strip("()").split()[0]


def read_rules():
    text = (MODEL / "Rules.antt").read_text()
    body = text[text.index("pub data Goes") : text.index("pub record IsComputed")]
    body = re.sub(r"--.*", "", body)
    parts = re.split(r"\n    ([A-Z]\w*) :", body)[1:]
    rules = {}
    for name, statement in zip(parts[::2], parts[1::2]):
        conclusion = statement[statement.rindex("→ Goes ") + len("→ Goes ") :]
        rules[name] = Rule(name, conclusion)
    want(len(rules) > 40, "too few rules were found in Rules.antt")
    return rules


def read_addresses():
    """The sort of word that each duty is about."""
    found = {}
    for line in (MODEL / "Duties.antt").read_text().splitlines():
        match = re.match(r"address_of (?:\w+ )+?(?:\((\w+)[^)]*\)|([A-Z]\w*)) = (\w+)", line)
        if match:
            found[match.group(1) or match.group(2)] = match.group(3)
    want(len(found) > 20, "too few duties were found in Duties.antt")
    return found


def values_in(path, known):
    """The definitions `name = value` of a file, of numbers and of names that are known."""
    numbers = dict(known)
    for name, value in re.findall(r"^(\w+) = ([\w ^*+-]+)$", path.read_text(), re.M):
        try:
            numbers[name] = eval(value.replace("^", "**"), {"__builtins__": {}}, numbers)
        except NameError:
            pass
    return numbers


def read_values():
    """The words' values that have a name in code."""
    text = (WORD / "src" / "values.rt").read_text()
    return {name: int(value) for name, value in re.findall(r"^pub const (\w+): u\d+ = (\d+);$", text, re.M)}


def read_numbers():
    """The named numbers of the words."""
    path = WORD / "specs" / "Words.antt"
    numbers = values_in(path, read_values())
    locked = re.search(r"^locked_word thread = thread \+ (\d+)$", path.read_text(), re.M)
    want(locked, "Words.antt gives no word of a locked gate")
    numbers["locked"] = int(locked.group(1))
    for name in "half immortal_local most_local bias fresh_word dead_word free_word closed_word".split():
        want(name in numbers, f"Words.antt gives no number {name}")
    return numbers


def read_states():
    names = "DEFAULT QUEUED MERGED".split()
    want(all(name in NUMBERS for name in names), "values.rt gives other states")
    return {name.lower(): NUMBERS[name] for name in names}


def read_kinds():
    text = (MODEL / "Kinds.antt").read_text()
    return {name.lower(): NUMBERS[value] for name, value in re.findall(r"^kind_number kinds\.(\w+) = ([A-Z]+)$", text, re.M)}


def read_places():
    """The sizes of a table's parts, and the line of each sort of word in a tile."""
    text = (TABLE / "Places.antt").read_text()
    sizes = values_in(TABLE / "Places.antt", values_in(MODEL / "Limits.antt", {}))
    lines = {sizes[number]: name for name, number in re.findall(r"^place layout \((\w+) x\) = in_tile (\w+) x$", text, re.M)}
    want("\ntile = line * tile_lines\n" in text, "a tile has another number of lines")
    sizes["tile"] = sizes["line"] * sizes["tile_lines"]
    want("\nplace layout (Marks t w) = marks_front + mark_room * t + w\n" in text, "the mark words are elsewhere")
    want("\ncells_front layout = front + tile * tiles layout\n" in text, "the cells are elsewhere")
    want(sorted(lines) == list(range(sizes["tile_lines"])), "the lines of a tile aren't its words")
    return sizes, [lines[number] for number in sorted(lines)]


def read_crates():
    crates = {}
    for line in (ROOT / "crates.txt").read_text().splitlines():
        if line and not line.startswith("#"):
            name, below = line.split(":")
            crates[name] = below.split()
    return crates


RULES = read_rules()
ADDRESSES = read_addresses()
NUMBERS = read_numbers()
STATES = read_states()
KINDS = read_kinds()
SIZES, TILE_LINES = read_places()
CRATES = read_crates()


def rules_of(test):
    return {rule.name for rule in RULES.values() if test(rule)}


def changing(address):
    return rules_of(lambda rule: ADDRESSES[rule.duty] == address and rule.changes())


def power(number):
    """The number as a power of two, as in 2^40."""
    exponent = number.bit_length() - 1
    want(number == 1 << exponent, f"{number} is no power of two")
    return exponent


# ---- drawing


def boxed(width, *lines):
    want(all(len(line) < width for line in lines), f"a line is too long for its box: {lines}")
    inside = ["│ " + line.ljust(width - 1) + "│" for line in lines]
    return ["┌" + "─" * width + "┐"] + inside + ["└" + "─" * width + "┘"]


def indented(lines, by=2):
    return [(" " * by + line).rstrip() for line in lines]


def draw_shared_word():
    """The states of a live object, by its shared word."""
    arrows = "SharedRaised Decrements Queues Merges MergesForHanded MergesToZero DecrementsToZero".split()
    want(changing("Shared") == set(arrows), f"the rules that change a shared word are {sorted(changing('Shared'))}")
    dying = rules_of(lambda rule: rule.first_next() == "Die")
    want(dying == {"NothingShared", "MergesToZero", "DecrementsToZero"}, f"the rules that free are {sorted(dying)}")
    default, queued, merged = (format(STATES[name], "02b") for name in ("default", "queued", "merged"))
    want(NUMBERS["fresh_word"] == 4 * NUMBERS["bias"] + STATES["default"], "fresh_word isn't (0, default)")
    want(NUMBERS["dead_word"] == 4 * NUMBERS["bias"] + STATES["merged"], "dead_word isn't (0, merged)")
    return f"""
      Born   SharedRaised            SharedRaised              SharedRaised
        │    Decrements              Decrements                Decrements
        │     ┌──┐                     ┌──┐                      ┌──┐
        ▼     │  ▼                     │  ▼                      │  ▼
      ┌───────────┐     Queues      ┌───────────┐     Merges     ┌───────────┐
      │  default  │────────────────▶│  queued   │───────────────▶│  merged   │
      │  bits {default}  │   from count 0  │  bits {queued}  │ MergesForHanded│  bits {merged}  │
      └───────────┘                 └───────────┘                └───────────┘
        │   │                                                      ▲   │
        │   └──────────────────────── Merges ──────────────────────┘   │
        │                                                              │
        │ NothingShared                                                │ DecrementsToZero
        │ MergesToZero                                                 │
        ▼                                                              ▼
      ┌──────────────────────────────────────────────────────────────────────┐
      │  freed: no thread holds a reference, and one thread deallocates      │
      └──────────────────────────────────────────────────────────────────────┘
"""


def draw_retain():
    """How a new reference is counted."""
    return """
  RetainLoad: the thread reads the local word
  │
  ├─ RetainsImmortal          an immortal object: nothing is counted
  ├─ OwnerRetains             the running owner
  │   └─ LocalRaised          stores one local reference more
  ├─ FullOwnerRetains         the owner, at the highest local count
  │   └─ SharedRaised         adds one to the shared count
  └─ OtherRetains             any other thread, or an owner that is leaving
      └─ SharedRaised         adds one to the shared count
"""


def draw_release():
    """What giving up a reference can lead to."""
    return """
  ReleaseLoad: the thread reads the local word
  │
  ├─ ReleasesImmortal         an immortal object: nothing is counted
  │
  ├─ OwnerReleases            the running owner: it stores one local reference less
  │   ├─ LocalLowered         it has more local references
  │   └─ LocalReachesZero     that was its last one: it reads the shared word
  │       ├─ NothingShared    (0, default): the object is freed
  │       └─ WasShared        any other word: the owner merges the counts
  │           ├─ LocalTakenOut, MergeRead, Merges         references are left
  │           └─ LocalTakenOut, MergeRead, MergesToZero   none is left: the object is freed
  │
  └─ OtherReleases            any other thread, or an owner that is leaving
      └─ SharedRead           it reads the shared word, and then tries to exchange it
          ├─ ExchangeLost     the word has changed meanwhile: SharedRead again
          ├─ Decrements       one shared reference less
          ├─ DecrementsToZero (1, merged) becomes (0, merged): the object is freed
          └─ Queues           (0, default) becomes (0, queued): the owner is asked to merge
              └─ Marked       the mark is set; the thread reads the owner's thread word
                  ├─ OwnerRuns          the owner will find the mark (next lines)
                  └─ OwnerExits         the thread takes the mark back
                      ├─ MarkTakenBack  it was still set: this thread merges
                      └─ MarkGone       the owner has found it, and merges

  MarkClaimed                 the owner finds the mark outside its calls 
  FoundMarkTaken              the owner finds the mark at its exit
  MarkTakenBack               the releasing thread takes the mark back
  │
  ├─ LocalTakenOut, MergeRead, MergesForHanded   the counts are merged (after
  │                           MergeLost, another thread's exchange, MergeRead again)
  └─ NobodysCount             they were merged already
      └─ SharedRead           both ways end here: the handed reference is given up
          ├─ Decrements       other references are left
          └─ DecrementsToZero it was the last one: the object is freed
"""


def draw_life():
    """The life of a row."""
    want(rules_of(lambda rule: rule.duty == "BirthLocal") == {"Born"}, "a birth ends by another rule")
    want(rules_of(lambda rule: rule.duty == "SettleEnd") == {"Closes"}, "an object is closed by another rule")
    want(changing("Gate") == {"Chained", "Closes", "Locks", "Unlocks"}, f"the rules that change a gate are {sorted(changing('Gate'))}")
    free, closed = NUMBERS["free_word"], power(NUMBERS["closed_word"])
    width = 76
    lines = boxed(width, "unborn", f"    gate {free}, local word 0: the row holds no object yet")
    lines += [
        "     │ KindOfOther, or KindOfResource and then FieldFilled: still unborn",
        "     │ Born: one thread owns the object, with one local reference",
        "     ▼",
    ]
    locked = NUMBERS["locked"]
    lines += boxed(
        width,
        "live: default, queued or merged",
        "",
        f"    gate {free}",
        "     │ Locks by thread t, which holds the object",
        "     ▼",
        f"    gate t + {locked}",
        f"     │ Unlocks by t: gate {free} again. No object dies while it is locked",
    )
    lines += [
        "     │ NothingShared      by the owner, from default",
        "     │ MergesToZero       by the owner, from default by way of (0, merged)",
        "     │ DecrementsToZero   by any thread, from merged",
        "     ▼",
    ]
    lines += boxed(
        width,
        "dying in thread t: no other thread touches its words, but for its mark",
        "",
        f"    gate {free}",
        "     │ Chained: the object becomes the head of t's dying chain",
        "     ▼",
        "    gate: t, and the next object of the chain",
        "     │ ChainRead: t takes the object off its chain",
        "     ▼",
        "     ├─ DyingResource   a file or a socket: FieldEmptied, ResourceClosed",
        "     └─ DyingCells      any other object. Of a list CellEmptied, once for",
        "                        each cell: what was in it is released at once",
    )
    lines += ["     │ Closes", "     ▼"]
    lines += boxed(width, "closed", f"    gate 2^{closed}, for ever: no thread touches its words any more")
    return indented(lines)


def draw_thread():
    """The life of a thread."""
    leaving, gone = (NUMBERS[RULES[name].left] for name in ("SaysLeaving", "SaysGone"))
    running = NUMBERS["RUNNING"]
    want(changing("ThreadWord") == {"SaysLeaving", "SaysGone"}, "other rules change a thread word")
    return f"""
  thread word {running}: running
  ┌────────────────────────────────────────────────────────────────────────┐
  │                                                                        │
  │                       the first instruction of a call                  │
  │   ┌───────────────┐ ──────────────────────────────▶ ┌──────────────┐   │
  │   │     Idle      │                                 │    InCall    │   │
  │   │ between calls │ ◀────────────────────────────── │ at one point │   │
  │   └───────────────┘            ret, fail            └──────────────┘   │
  │      │        │  ▲                                      │      ▲       │
  │      │        └──┘ a claim of one of its rows:          └──────┘       │
  │      │             MarkClaimed, NothingToClaim      any other          │
  │      │                                              instruction        │
  │      │ no call is left                                                 │
  │      ▼                                                                 │
  │   ┌───────────────┐                                                    │
  │   │    Exiting    │ releases the root, and settles what dies by that   │
  │   └───────────────┘                                                    │
  └──────┬─────────────────────────────────────────────────────────────────┘
         │ SaysLeaving
         ▼
  thread word {leaving}: leaving
  ┌────────────────────────────────────────────────────────────────────────┐
  │   ┌───────────────┐ loads each mark word of its used rows: MarksRead.  │
  │   │    Exiting    │ Clears the marks found: FoundMarkTaken,            │
  │   └───────────────┘ FoundMarkGone; merges, settles what dies by that   │
  └──────┬─────────────────────────────────────────────────────────────────┘
         │ SaysGone
         ▼
  thread word {gone}: gone
  ┌────────────────────────────────────────────────────────────────────────┐
  │   takes no step                                                        │
  └────────────────────────────────────────────────────────────────────────┘
"""


def field_row(*fields):
    """One word of 64 bits: each field is its width here, its highest bit, its lowest bit and what it says."""
    want(fields[0][1] == 63 and fields[-1][2] == 0, "the fields aren't 64 bits")
    for above, below in zip(fields, fields[1:]):
        want(above[2] == below[1] + 1, "the fields leave a gap")
    numbers, middle, lines = [], [], []
    for width, high, low, says in fields:
        want(len(says) < width, f"the field is too narrow: {says}")
        numbers.append(f"{high}" + f"{low}".rjust(width - len(f"{high}")))
        middle.append((" " + says).ljust(width))
        lines.append("─" * width)
    return [
        " " + " ".join(numbers),
        "┌" + "┬".join(lines) + "┐",
        "│" + "│".join(middle) + "│",
        "└" + "┴".join(lines) + "┘",
    ]


def draw_bits():
    """The bits of the words of a header."""
    half, bias = power(NUMBERS["half"]), power(NUMBERS["bias"])
    closed = power(NUMBERS["closed_word"])
    want(NUMBERS["immortal_local"] == 2**half - 1, "the immortal count isn't the highest one")
    want(NUMBERS["most_local"] == 2**half - 2, "the owner counts up to another number")
    want(closed == 63, "closed isn't the highest bit")
    state_bits = power(4)
    top = bias + 1 + state_bits
    lines = ["local word"]
    count = f"local count; 2^{half} - 1: immortal"
    lines += field_row((32, 63, half, "owner + 1; 0: nobody"), (45, half - 1, 0, count))
    lines += ["", "shared word"]
    count = f"shared count + 2^{bias}"
    lines += field_row((21, 63, top, "0"), (46, top - 1, state_bits, count), (9, state_bits - 1, 0, "state"))
    lines += ["", "gate word of a dying object"]
    lines += field_row((32, 63, half, "thread + 1"), (45, half - 1, 0, "next of the chain: row + 1; 0: none"))
    free, locked = NUMBERS["free_word"], NUMBERS["locked"]
    lines += ["", f"gate word of any other object: {free} is free, t + {locked} locked by thread t, 2^{closed} closed"]
    kinds = ", ".join(f"{number} {name}" for name, number in KINDS.items() if number)
    lines += ["", "kind word"]
    lines += field_row((32, 63, half, "kind"), (45, half - 1, 0, "argument: a number's value, a list's cells"))
    lines += [f" kinds: {kinds}; 0 until a birth stores the word"]
    return indented(lines)


def draw_values():
    """Some words, with their values."""
    half, bias = NUMBERS["half"], NUMBERS["bias"]

    def local(owner, count):
        return (owner + 1) * half + count

    def shared(count, state):
        return (count + bias) * 4 + STATES[state]

    rows = [
        ("local", "nobody owns the object", 0),
        ("local", "main owns it, with 1 local reference", local(0, 1)),
        ("local", "worker 2 owns it, with 3 local references", local(2, 3)),
        ("local", "none, which is immortal", local(0, NUMBERS["immortal_local"])),
        ("shared", "(0, default), of a new object", shared(0, "default")),
        ("shared", "(1, default)", shared(1, "default")),
        ("shared", "(0, queued)", shared(0, "queued")),
        ("shared", "(-1, queued)", shared(-1, "queued")),
        ("shared", "(1, merged)", shared(1, "merged")),
        ("shared", "(0, merged), of an object that is freed", shared(0, "merged")),
        ("gate", "free", NUMBERS["free_word"]),
        ("gate", "locked by worker 1", 1 + NUMBERS["locked"]),
        ("gate", "dying in worker 1, the last of its chain", 2 * half),
        ("gate", "dying in worker 1, row 6 is the next of the chain", 2 * half + 7),
        ("gate", "closed", NUMBERS["closed_word"]),
        ("kind", "a number whose value is 7", KINDS["num"] * half + 7),
        ("kind", "a list of 8 cells", KINDS["list"] * half + 8),
    ]
    want(shared(0, "default") == NUMBERS["fresh_word"], "fresh_word is another")
    return [f"  {word:<8}{says:<52}{value:#018x}" for word, says, value in rows]


def draw_tile():
    """The words of a table, and one of its tiles."""
    line, front, tile = SIZES["line"], SIZES["front"], SIZES["tile"]
    marks, room = SIZES["marks_front"], SIZES["mark_room"]
    names = {"Local": "local", "Shared": "shared", "Gate": "gate", "KindOf": "kind"}
    want(set(TILE_LINES) == set(names), "a tile has other lines")
    wide, width = 50, 9

    def part(place, says):
        yield f"{place:>6} ├" + "─" * wide + "┤"
        yield " " * 7 + "│" + f" {says}".ljust(wide) + "│"

    lines = [" place ┌" + "─" * wide + "┐"]
    lines.append(f"{0:>6} │" + " thread words: main's at 0, worker t's at t".ljust(wide) + "│")
    lines += part(marks, f"mark words: word w of thread t at {marks} + {room} t + w")
    for number in range(2):
        lines += part(front + tile * number, f"tile {number}: rows {line * number} to {line * number + line - 1}")
    lines += part(front + tile * 2, "and so on")
    lines += part("F", "the cells: cell i of row x at F + c x + i,")
    lines.append(" " * 7 + "│" + " if a list may have c cells: 8, in version 3 64".ljust(wide) + "│")
    lines += [" " * 7 + "└" + "─" * wide + "┘", ""]
    lines.append(f"tile k, from place {front} + {tile} k on; its rows are {line} k to {line} k + {line - 1}")
    columns = "".join(f"+ {i}".ljust(width + 1) for i in (0, 1)) + "..".ljust(7) + f"+ {line - 1}"
    lines.append(" " * 8 + columns)

    def rule(left, middle, right):
        return " " * 6 + left + middle.join(["─" * width, "─" * width, "─" * 6, "─" * width]) + right

    def words(place, says):
        cells = [says(0), says(1), "..", says(line - 1)]
        widths = [width, width, 6, width]
        return f"{'+ ' + str(place):>5} │" + "│".join(f" {c}".ljust(w) for c, w in zip(cells, widths)) + "│"

    lines.append(rule("┌", "┬", "┐"))
    for number, sort in enumerate(TILE_LINES):
        if number:
            lines.append(rule("├", "┼", "┤"))
        lines.append(words(line * number, lambda i: names[sort]) + f" the {names[sort]} word of each row")
    lines.append(rule("└", "┴", "┘"))
    return indented(lines)


# What each crate does with `drop v1`, and the file to look at.
WAY = {
    "brc": ("hands the bytes of the module's file down", "crates/brc/src/disk.rt"),
    "brc_screen": ("for `brc run`: shows how many calls were made", "crates/brc_screen/src/screen.rt"),
    "brc_arguments": ("knows from the command line what is asked for", "crates/brc_arguments/src/command.rt"),
    "brc_command": ("has the text read, checked, run and reported", "crates/brc_command/src/carrying.rt"),
    "brc_explain": ("for `brc explain`: shows the states before and after it", "crates/brc_explain/src/accepted.rt"),
    "brc_pages": ("for `brc explain --code`: what it means if v1 owns none", "crates/brc_pages/src/check_pages.rt"),
    "brc_trace": ("for `brc step --trace`: a line for each of its steps", "crates/brc_trace/src/tracing.rt"),
    "brc_picture": ("for `brc step --svg`: a box in its thread's lane", "crates/brc_picture/src/boxes.rt"),
    "brc_world": ("for `brc step`: dispatches it, and does it step by step", "crates/brc_world/src/dispatch.rt"),
    "brc_explore": ("not on the way: finds a run that goes wrong", "crates/brc_explore/src/search.rt"),
    "brc_replay": ("not on the way: makes a run that goes wrong again", "crates/brc_replay/src/wrong.rt"),
    "brc_plain": ("for `brc step --unchecked`: takes any module's steps", "crates/brc_plain/src/plain.rt"),
    "brc_machine": ("has the words and the agenda of the step world", "crates/brc_machine/src/memory.rt"),
    "brc_effect": ("says of each such step what it stores and what follows", "crates/brc_effect/src/effect/release.rt"),
    "brc_schedule": ("for `brc step`: reads which thread takes the steps", "crates/brc_schedule/src/line.rt"),
    "brc_run": ("for `brc run`: lets workers run, and reads the heap's end", "crates/brc_run/src/running.rt"),
    "brc_work": ("gives up v1's reference by a real thread's hand", "crates/brc_work/src/references.rt"),
    "brc_queue": ("puts the object into its owner's queue, if need be", "crates/brc_queue/src/queue.rt"),
    "brc_free": ("tries until the reference is given up; closes what dies", "crates/brc_free/src/releasing.rt"),
    "brc_list": ("not on the way: locks, and the items of lists", "crates/brc_list/src/lists.rt"),
    "brc_heap": ("answers what became of the release, and what is left", "crates/brc_heap/src/release.rt"),
    "brc_table": ("makes each step, on one word that all threads share", "crates/brc_table/src/step.rt"),
    "brc_os": ("closes the file, if the object was one", "crates/brc_os/src/os_resource.rt"),
    "brc_host": ("says how closes are counted", "crates/brc_host/src/counts.rt"),
    "brc_check": ("asks that v1 owns a reference, and leaves it empty", "crates/brc_check/src/instruction.rt"),
    "brc_model": ("defines all that: conditions, duties, rules, safety", "crates/brc_model/specs/Rules.antt"),
    "brc_report": ("writes the tally, in which the object is closed", "crates/brc_report/src/report.rt"),
    "brc_lang": ("reads the line as the instruction Drop of v1", "crates/brc_lang/src/instruction.rt"),
    "brc_word": ("says what a word is with one reference less", "crates/brc_word/src/choice.rt"),
}


# Crates that have no part in the way of an instruction: those of cases and of C, and what tests begin with.
APART = ("brc_case", "brc_c_", "brc_fixtures")


def below_in_drawing(crate):
    """The repository's crates that this one uses, but for those apart."""
    return [name for name in CRATES[crate] if name in CRATES and not name.startswith(APART)]


def level(crate):
    return 1 + max((level(below) for below in below_in_drawing(crate)), default=0)


def draw_layers():
    """The crates by level, with the way of one instruction. Those of tests, of cases and of C have no part in it."""
    crates = [name for name in CRATES if not name.endswith(("_tests", "_bench")) and not name.startswith(APART)]
    want(set(crates) == set(WAY), f"crates.txt has other crates than the way of drop: {sorted(set(crates) ^ set(WAY))}")
    for crate, (_, path) in WAY.items():
        want((ROOT / path).exists(), f"{path} isn't there")
    width, lines = 80, []
    top = max(level(name) for name in crates)
    for number in range(top, 0, -1):
        if number < top:
            lines.append("├────┼" + "─" * width + "┤")
        else:
            lines.append("┌────┬" + "─" * width + "┐")
        shown = False
        for name in crates:
            if level(name) != number:
                continue
            says, path = WAY[name]
            below = below_in_drawing(name)
            lines.append(f"│ {'' if shown else number:>2} │ " + f"{name:<15}{says}".ljust(width - 1) + "│")
            lines.append("│    │ " + (" " * 15 + path.removeprefix(f"crates/{name}/")).ljust(width - 1) + "│")
            for part in textwrap.wrap("uses " + short(below), width - 16) if below else []:
                lines.append("│    │ " + (" " * 15 + part).ljust(width - 1) + "│")
            shown = True
    lines.append("└────┴" + "─" * width + "┘")
    return indented(lines)


def short(names):
    """Crates without the part of their names that all share."""
    return ", ".join(name.removeprefix("brc_") for name in names)


# ---- the pictures of runs


# Each picture: the options of `brc step`, the module and the schedule, both of examples/, and the status.
RUNS = {
    "queued": ([], "smallest.brc", "queued.schedule", 0),
    "between_mark_and_look": ([], "swap.brc", "between_mark_and_look.schedule", 0),
    "leaked": (["--unchecked"], "from_c/own_reference_kept.brc", "one_worker.schedule", 1),
}


def draw_run(name):
    """The picture that the program saves of a run."""
    options, module, schedule, status = RUNS[name]
    with tempfile.TemporaryDirectory() as folder:
        saved = Path(folder) / "run.svg"
        line = [PROGRAM, "step", "--trace", "--svg", saved, *options, EXAMPLES / module, EXAMPLES / schedule]
        done = subprocess.run(line, capture_output=True, text=True)
        want(done.returncode == status, f"the run {name} ends with status {done.returncode}: {done.stderr}")
        return saved.read_text()


def draw_runs(check):
    """Writes the picture of each run, or compares it with the one that is there."""
    if not PROGRAM.exists():
        print(f"draw.py: no program at {PROGRAM.relative_to(ROOT)}, so the pictures of runs are left as they are")
        return
    for name in RUNS:
        path = Path(__file__).with_name(f"{name}.svg")
        picture = draw_run(name)
        if check:
            want(path.exists() and path.read_text() == picture, f"{path.name} is out of date: run draw.py")
        else:
            path.write_text(picture)


# ---- the page


DRAWINGS = {
    "shared word": draw_shared_word,
    "retain": draw_retain,
    "release": draw_release,
    "life": draw_life,
    "thread": draw_thread,
    "bits": draw_bits,
    "values": draw_values,
    "tile": draw_tile,
    "layers": draw_layers,
}


def lines_of(drawing):
    if isinstance(drawing, str):
        drawing = drawing.strip("\n").split("\n")
    return "\n".join(line.rstrip() for line in drawing)


def check_names(name, text):
    """Each word of two capitals in a drawing is a rule, a duty or a place."""
    for word in re.findall(r"\b[A-Z][a-z]+(?:[A-Z][a-z]+)+\b", text):
        known = word in RULES or word in ADDRESSES or word == "InCall"
        want(known, f"the drawing {name} names {word}, which is no rule")


def main():
    text = page = PAGE.read_text()
    drawn = ""
    for name, draw in DRAWINGS.items():
        drawing = lines_of(draw())
        check_names(name, drawing)
        drawn += drawing
        block = re.compile(rf"(<!-- drawing: {name} -->\n```text\n).*?(```\n)", re.S)
        want(len(block.findall(page)) == 1, f"PICTURES.md has no place for the drawing {name}, or several")
        page = block.sub(lambda found: found.group(1) + drawing + "\n" + found.group(2), page)
    if "--check" in sys.argv[1:]:
        want(page == text, "PICTURES.md is out of date: run draw.py")
    elif page != text:
        PAGE.write_text(page)
    missing = [name for name in RULES if not re.search(rf"\b{name}\b", page)]
    want(not missing, f"PICTURES.md doesn't name the rules {missing}")
    unnamed = [name for name in RUNS if f"pictures/{name}.svg" not in page]
    want(not unnamed, f"PICTURES.md doesn't show the pictures {unnamed}")
    draw_runs("--check" in sys.argv[1:])


main()
