#!/usr/bin/env python3
"""Runs generated scripts on the built program and compares each report with a plain model.

    ./jedb; python3 tests/generated.py             builds the program at the first use; then the table of motions.py,
                                                   2,000 scripts of one session and 2,000 of several
    python3 tests/generated.py --seed 7 --scripts 1  the two scripts of one seed, each where its report differs
    python3 tests/generated.py --program PATH      another build

A script of one session has 30 calls on a database of each kind and on indexes: by key, at cursors, with and without a transaction, with
steps of checkpoints between them, each with the one answer that the trees make right (trees.py). Each folder is then opened again, and its records
are read from both ends.

One of two to four sessions has 40 calls on two databases, and half of them on an index, in transactions of all levels: it says which call waits for whom, which goes on
when, and which transaction of a cycle has to abort (sessions.py). Each folder is then opened again, and its records are read.
"""

import argparse
import concurrent.futures
import itertools
import os
import random
import sys
import tempfile

import motions
import sessions
from model import KINDS, Model, PROGRAM, field, first_wrong, hexed, report_of, sliced

KEYS = [b"", b"a", b"a\x00", b"ab", b"b", b"c", b"\xff", b"\xff\xff"]
DATA = [b"", b"1", b"1\x00", b"2", b"\xff", b"2,1", b"1,,\xff"]
INDEXES = {
    "slice 0 1": sliced(0, 1),
    "slice 1 1": sliced(1, 1),
    "slice 0 2": sliced(0, 2),
    "field 0 2c": field(0, b","),
    "field 1 2c": field(1, b","),
    "field 2 2c": field(2, b","),
}
MOTIONS = "first last next prev nextdup prevdup nextnodup prevnodup current".split()
STEPS = ["begin", "flush", "flush", "flush", "finish", "finish", "sync"]


def drawn(chance, model):
    """A call: its line, and what the model answers to it."""
    db, key, data = chance.choice([*"ppd", *model.indexes]), chance.choice(KEYS), chance.choice(DATA)
    if db in model.indexes and chance.random() < 0.8:
        # (a pair that is there, or its key)
        key, data = chance.choice(model.all(db) or [(key, data)])
    index, made_by = chance.choice("ij"), chance.choice(sorted(INDEXES))
    cursor, to = chance.randint(1, 3), chance.randint(1, 3)
    mode = chance.choice(["", "no", "nodup"])
    rmw = chance.choice(["", " rmw"])
    pair = f"{hexed(key)} {hexed(data)}"
    motion = chance.choice(MOTIONS)
    keyed = {
        "key": (hexed(key), (key,)),
        "range": (hexed(key), (key,)),
        "both": (pair, (key, data)),
        "bothrange": (pair, (key, data)),
    }
    by = chance.choice(sorted(keyed))
    level = chance.choice(["ru", "rc", "rr", "ser"])
    calls = [
        (3, f"get {db} {hexed(key)}{rmw}", lambda: model.get(db, key)),
        (2, f"getboth {db} {pair}{rmw}", lambda: model.getboth(db, key, data)),
        (6, f"put{mode} {db} {pair}", lambda: model.put(mode, db, key, data)),
        (3, f"delete {db} {hexed(key)}", lambda: model.delete(db, key)),
        (6, f"open c{cursor} {db}", lambda: model.open(cursor, db)),
        (1, f"close c{cursor}", lambda: model.close(cursor)),
        (2, f"dup c{cursor} c{to}", lambda: model.dup(cursor, to)),
        (2, f"count c{cursor}", lambda: model.count(cursor)),
        (12, f"cur c{cursor} {motion}{rmw}", lambda: model.cur(cursor, motion)),
        (4, f"cur c{cursor} {by} {keyed[by][0]}{rmw}", lambda: model.cur(cursor, by, *keyed[by][1])),
        (4, f"cput{mode} c{cursor} {pair}", lambda: model.cput(mode, cursor, key, data)),
        (2, f"cputcur c{cursor} {hexed(data)}", lambda: model.cputcur(cursor, data)),
        (4, f"cdel c{cursor}", lambda: model.cdel(cursor)),
        (2 if model.committed is None else 0, f"create {index} index p {made_by}", lambda: model.create_index(index, INDEXES[made_by])),
        (1, f"remove {index}", lambda: model.remove_index(index)),
        (1, f"truncate {db}", lambda: model.truncate(db)),
        (2 if model.committed is None else 0, f"begin {level} nosync nowait", model.begin),
        (1, "commit", lambda: model.end(True)),
        (1, "abort", lambda: model.end(False)),
    ]
    _, line, answer = chance.choices(calls, [weight for weight, _, _ in calls])[0]
    said = answer()
    model.after_call()
    return f"s1 {line}", said


def script_of(seed, calls):
    """A script's lines, what each is answered, and the model that they leave."""
    chance = random.Random(seed)
    model = Model()
    lines = [f"s1 create {db} {kind}" for db, kind in KINDS.items()]
    said = ["ok"] * len(lines)
    for _ in range(12):
        db, key, data = chance.choice("pd"), chance.choice(KEYS), chance.choice(DATA)
        lines.append(f"s1 put {db} {hexed(key)} {hexed(data)}")
        said.append(model.put("", db, key, data))
        model.after_call()
        if chance.random() < 0.15:
            index, made_by = chance.choice("ij"), chance.choice(sorted(INDEXES))
            lines.append(f"s1 create {index} index p {made_by}")
            said.append(model.create_index(index, INDEXES[made_by]))
            model.after_call()
    if chance.random() < 0.8:
        lines.append("s1 begin ser nosync wait")
        said.append(model.begin())
    for _ in range(calls):
        if chance.random() < 0.3:
            step = chance.choice(STEPS)
            lines.append(f"m {step}")
            said.append(model.trees.step(step))
        line, answer = drawn(chance, model)
        lines.append(line)
        said.append(answer)
    model.end(False)
    return lines, said, ended(model, model.commits), model


def ended(model, commits):
    return f"end commits {commits} databases {len(KINDS) + len(model.indexes)} records {model.count_all()}"


def read_again(model):
    """A script that reads all records from both ends, and what it is answered."""
    lines, said = ["s1 begin rr nosync wait"], ["ok txn"]
    for db in [*KINDS, *model.indexes]:
        for way, records in (("next", model.all(db)), ("prev", model.all(db)[::-1])):
            lines += [f"s1 open c1 {db}"] + [f"s1 cur c1 {way}"] * (len(records) + 1) + ["s1 close c1"]
            said += ["ok"] + [model.answered(db, r) for r in records] + ["notfound", "ok"]
    return lines, said, ended(model, 0)


def tried(program, seed, calls):
    """What is wrong with the reports of a seed's script; None where nothing is."""
    lines, said, end, model = script_of(seed, calls)
    with tempfile.TemporaryDirectory() as folder:
        home = os.path.join(folder, "home")
        wrong = first_wrong(lines, said, end, *report_of(program, home, lines))
        if wrong:
            return f"seed {seed}: {wrong}"
        wrong = first_wrong(*read_again(model), *report_of(program, home, read_again(model)[0]))
        return f"seed {seed}, opened again: {wrong}" if wrong else None


def differing(told, due):
    """The first line of a report that is not as it is due; None where each is."""
    for number, (line, right) in enumerate(itertools.zip_longest(told, due), 1):
        if line != right:
            return f"line {number} of the report: told {line!r}, due {right!r}"
    return None


def tried_beside(program, seed, calls):
    """The same of a seed's script of several sessions."""
    lines, model = sessions.script_of(seed, calls)
    with tempfile.TemporaryDirectory() as folder:
        home = os.path.join(folder, "home")
        status, report = report_of(program, home, lines)
        wrong = differing(report, model.report) or (f"status {status}" if status else None)
        if wrong:
            return f"seed {seed}, several sessions: {wrong}"
        again, due = sessions.read_again(model)
        wrong = differing(report_of(program, home, again)[1], due)
        return f"seed {seed}, several sessions, opened again: {wrong}" if wrong else None


def tell(found, of_what):
    """Prints what is wrong, and how many scripts are right: whether all are."""
    wrong = [what for what in found if what]
    for what in wrong[:10]:
        print(what)
    print(f"{len(found) - len(wrong)} of {len(found)} scripts of {of_what} are answered as the model does")
    return not wrong


def main():
    parser = argparse.ArgumentParser()
    parser.add_argument("--program", default=PROGRAM)
    parser.add_argument("--scripts", type=int, default=2000)
    parser.add_argument("--calls", type=int, default=30)
    parser.add_argument("--seed", type=int, default=random.randrange(1 << 30))
    arguments = parser.parse_args()
    seeds = range(arguments.seed, arguments.seed + arguments.scripts)
    print(f"seeds {seeds.start} to {seeds.stop - 1}")
    with concurrent.futures.ThreadPoolExecutor(os.cpu_count()) as pool:
        are_moved = arguments.scripts == 1 or motions.all_tried(arguments.program, pool)
        found = list(pool.map(lambda seed: tried(arguments.program, seed, arguments.calls), seeds))
        beside = list(pool.map(lambda seed: tried_beside(arguments.program, seed, arguments.calls + 10), seeds))
    for wrong, made_by, calls in ((found, script_of, arguments.calls), (beside, sessions.script_of, arguments.calls + 10)):
        if arguments.scripts == 1 and any(wrong):
            print("".join(line + "\n" for line in made_by(seeds.start, calls)[0]), end="")
    are_right = [tell(found, "one session"), tell(beside, "several sessions")]
    return 0 if are_moved and all(are_right) else 1


if __name__ == "__main__":
    sys.exit(main())
