"""Scripts for the benchmark, and the reports that they must have. All are made from a fixed seed."""

import os
import random
from collections import namedtuple

SEED = 20_261_126
MOST_BYTES, MOST_LINES = 16_777_216, 1_000_000  # of a script

Record = namedtuple("Record", "key data")


class Script:
    """A script file, the answers that its report must have (None: a transaction's number), and what must stand at the report's end."""

    def __init__(self, work, name, lines, answers, ending):
        self.path, self.answers, self.ending = os.path.join(work, name), answers, ending
        with open(self.path, "w", encoding="ascii", newline="\n") as out:
            out.writelines(line + "\n" for line in lines)

    def first_wrong_line(self, report):
        """The first line of a report that is not as it must be, or None."""
        with open(report, encoding="ascii", errors="replace") as lines:
            for number, answer in enumerate(self.answers, 1):
                line = lines.readline()
                if answer is None and line.startswith(f"{number} s1 ok txn "):
                    continue
                if line != f"{number} s1 {answer}\n":
                    return line or "its end"
            last = lines.readline()
            if not last.startswith("end commits ") or not last.rstrip("\n").endswith(self.ending):
                return last or "its end"
            return lines.readline() or None


def records_of(count):
    """Records with distinct keys of 8 bytes and data of 32, in random order, as hexadecimal digits."""
    draw = random.Random(SEED)
    keys = set()
    while len(keys) < count:
        keys.add(draw.getrandbits(64))
    keys = sorted(keys)
    draw.shuffle(keys)
    return [Record(f"{key:016x}", f"{draw.getrandbits(256):064x}") for key in keys]


def cut(work, name, lines, answers, ending):
    """Scripts of these lines, each short enough; `ending` gives a script's ending from the lines so far."""
    scripts, first, size = [], 0, 0
    for at, line in enumerate(lines):
        if size + len(line) + 1 > MOST_BYTES or at - first == MOST_LINES:
            scripts.append(Script(work, f"{name}-{len(scripts)}", lines[first:at], answers[first:at], ending(at)))
            first, size = at, 0
        size += len(line) + 1
    return [*scripts, Script(work, f"{name}-{len(scripts)}", lines[first:], answers[first:], ending(len(lines)))]


def empty_script(work):
    return Script(work, "empty", [], [], "")


def create_scripts(work, names):
    return cut(work, f"create-{len(names)}", [f"s1 create {it} plain" for it in names], ["ok"] * len(names), lambda made: f" databases {made} records 0")


def index_scripts(work, name, records):
    """An index of a database with so many records, by the first bytes of their data."""
    return cut(work, f"index-{records}", [f"s1 create i index {name} slice 0 8"], ["ok"], lambda _: f" databases 2 records {2 * records}")


def put_scripts(work, records, names, indexes=0):
    """Each record once; databases take turns. So many indexes have a pair of each."""
    lines = [f"s1 put {names[at % len(names)]} {it.key} {it.data}" for at, it in enumerate(records)]
    ending = lambda made: f" databases {len(names) + indexes} records {made * (1 + indexes)}"
    return cut(work, f"put-{len(records)}-{len(names)}-{indexes}", lines, ["ok"] * len(lines), ending)


def get_scripts(work, records, name):
    """Each record read once, in another random order."""
    asked = list(records)
    random.Random(SEED + 1).shuffle(asked)
    lines, answers = [f"s1 get {name} {it.key}" for it in asked], [f"ok {it.key} {it.data}" for it in asked]
    return cut(work, f"get-{len(records)}", lines, answers, lambda _: f" databases 1 records {len(records)}")


def level_scripts(work, name, level, what, lines, answers, records):
    """One transaction at an isolation level: its calls between `begin` and `commit`."""
    lines = [f"s1 begin {level} sync wait", *lines, "s1 commit"]
    answers = [None, *answers, "ok"]
    return [Script(work, f"{what}-{len(lines)}-{name}-{level}", lines, answers, f" databases 1 records {records}")]


def level_put_scripts(work, records, name, level):
    """Each record once, in one transaction."""
    lines = [f"s1 put {name} {it.key} {it.data}" for it in records]
    return level_scripts(work, name, level, "put", lines, ["ok"] * len(lines), len(records))


def scan_scripts(work, records, name, level):
    """Each record once in byte order, by a cursor of one transaction."""
    lines = [f"s1 open c1 {name}", "s1 cur c1 first", *["s1 cur c1 next"] * (len(records) - 1)]
    answers = ["ok", *[f"ok {it.key} {it.data}" for it in sorted(records)]]
    return level_scripts(work, name, level, "scan", lines, answers, len(records))
