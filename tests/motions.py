#!/usr/bin/env python3
"""Runs every motion of a cursor from every place on the built program, and compares each report with the plain model.

    python3 tests/motions.py                       the whole table; tests/generated.py runs it too
    python3 tests/motions.py --program PATH        another build

The table has a row for each kind of database, each set of records (none, one, and so many that they fill many nodes of four slots),
and each way to come to a place: a cursor that stands nowhere, one at a record, one whose record its own transaction deleted, and one whose
record another session deleted. From each place, each motion is made by a copy of the cursor, which then says where it stands. A
row's records are put by a run of its own, the motions are made by a second one, which reads the trees that a checkpoint logged.
"""

import argparse
import concurrent.futures
import os
import sys
import tempfile

from model import KINDS, Model, PROGRAM, first_wrong, hexed, report_of

MOTIONS = "first last next prev nextdup prevdup nextnodup prevnodup current".split()
ONE_KEY = [bytes([97 + number]) for number in range(12)]
RECORDS = {
    "none": {"p": [], "d": []},
    "one": {"p": [(b"k", b"1")], "d": [(b"k", b"1")]},
    "many": {
        "p": [(b"k" + key, b"1") for key in ONE_KEY + [b"a\x00", b"", b"\xff"]],
        "d": [(b"k" + key, b"%c" % data) for key in ONE_KEY[:4] for data in b"1357"] + [(b"kb1", data) for data in ONE_KEY],
    },
}
# Keys and data at the records, between them, and outside them.
KEYS = [b"", b"k", b"ka", b"kb", b"kb1", b"kbz", b"l"]
DATA = [b"", b"1", b"2", b"\xff"]
WAYS = ["nowhere", "at a record", "deleted", "deleted by another"]


class Script:
    """A script as it grows, what each of its lines is answered, and the model that it leaves."""

    def __init__(self, model):
        self.model, self.lines, self.said = model, [], []

    def give(self, line, said):
        self.lines.append(line)
        self.said.append(said)

    def end(self):
        records = sum(map(len, self.model.records.values()))
        return f"end commits {self.model.commits} databases {len(KINDS)} records {records}"


def putting(db, records):
    """A script that puts the records and then takes a checkpoint."""
    script = Script(Model())
    for name, kind in KINDS.items():
        script.give(f"s1 create {name} {kind}", "ok")
    script.give("s1 begin rr sync wait", script.model.begin())
    for key, data in records:
        script.give(f"s1 put {db} {hexed(key)} {hexed(data)}", script.model.put("", db, key, data))
    script.give("s1 commit", script.model.end(True))
    for step in ["begin"] + ["flush"] * (2 * len(records) + 4) + ["finish"]:
        script.give(f"m {step}", script.model.trees.step(step))
    return script


def motions():
    """Each motion: its words, its name, and the key and data that it is given."""
    for motion in MOTIONS:
        yield motion, motion, None, None
    for key in KEYS:
        yield f"key {hexed(key)}", "key", key, None
        yield f"range {hexed(key)}", "range", key, None
        for data in DATA:
            yield f"both {hexed(key)} {hexed(data)}", "both", key, data
            yield f"bothrange {hexed(key)} {hexed(data)}", "bothrange", key, data


def move_each(script):
    """Makes each motion from where the cursor c1 stands, with a cursor of its own, and asks where that one is then."""
    model = script.model
    for words, motion, key, data in motions():
        script.give("s1 dup c1 c2", model.dup(1, 2))
        script.give(f"s1 cur c2 {words}", model.cur(2, motion, key, data))
        script.give("s1 cur c2 current", model.cur(2, "current"))
        script.give("s1 count c2", model.count(2))
        script.give("s1 close c2", model.close(2))


def delete_by(way, script, record):
    """Takes the record out at which the cursor c1 stands, in one of the ways. Gives the lines that put it back."""
    model = script.model
    db, _ = model.cursors[1]
    pair = f"{db} {hexed(record[0])} {hexed(record[1])}"
    if way == "deleted":
        script.give("s1 cdel c1", model.cdel(1))
        return [(f"s1 put {pair}", "ok")]
    if way == "deleted by another":
        script.give("s2 begin rr nosync wait", "ok txn")
        script.give(f"s2 open c1 {db}", "ok")
        script.give(f"s2 cur c1 both {pair[2:]}", f"ok {pair[2:]}")
        script.give("s2 cdel c1", "ok")
        script.give("s2 commit", "ok")
        model.change(db, [record], [])
        model.commits += 2
        return [(f"s2 put {pair}", "ok")]
    return []


def moving(db, way, model):
    """A script that makes each motion from each place of a way."""
    script = Script(model)
    records = list(model.records[db])
    # at read committed nothing that the first session has read keeps the other one from its delete
    level = "rc" if way == "deleted by another" else "ser"
    script.give(f"s1 begin {level} nosync wait", model.begin())
    for record in [None] if way == "nowhere" else records:
        script.give(f"s1 open c1 {db}", model.open(1, db))
        if record is not None:
            pair = f"{hexed(record[0])} {hexed(record[1])}"
            script.give(f"s1 cur c1 both {pair}", model.cur(1, "both", *record))
            back = delete_by(way, script, record)
        move_each(script)
        script.give("s1 close c1", model.close(1))
        if record is not None:
            for line, said in back:
                script.give(line, said)
                model.change(db, [], [record])
    # what the other session changed is counted already
    model.changed = way == "deleted" and bool(records)
    script.give("s1 commit", model.end(True))
    return script


def tried(program, kind, size, way):
    """What is wrong with the reports of a row; None where nothing is."""
    row = f"{KINDS[kind]}, {size}, {way}"
    with tempfile.TemporaryDirectory() as folder:
        home = os.path.join(folder, "home")
        put = putting(kind, RECORDS[size][kind])
        wrong = first_wrong(put.lines, put.said, put.end(), *report_of(program, home, put.lines))
        if wrong:
            return f"{row}, putting the records: {wrong}"
        put.model.commits = 0
        moved = moving(kind, way, put.model)
        wrong = first_wrong(moved.lines, moved.said, moved.end(), *report_of(program, home, moved.lines))
        return f"{row}: {wrong}" if wrong else None


ROWS = [(kind, size, way) for kind in KINDS for size in RECORDS for way in (WAYS if RECORDS[size][kind] else WAYS[:1])]


def all_tried(program, pool):
    """Runs the table, says how it went, and gives whether all of it is right."""
    wrong = [what for what in pool.map(lambda row: tried(program, *row), ROWS) if what]
    for what in wrong:
        print(what)
    print(f"{len(ROWS) - len(wrong)} of {len(ROWS)} rows of motions are answered as the model does")
    return not wrong


def main():
    parser = argparse.ArgumentParser()
    parser.add_argument("--program", default=PROGRAM)
    arguments = parser.parse_args()
    with concurrent.futures.ThreadPoolExecutor(os.cpu_count()) as pool:
        return 0 if all_tried(arguments.program, pool) else 1


if __name__ == "__main__":
    sys.exit(main())
