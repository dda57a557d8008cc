"""A plain model of an environment of two databases and indexes of one, and how a report of the program is compared with it.

The model keeps the records of each database as a sorted list and walks it. An index is made anew at each look. Beside the records it has the trees
that hold them (trees.py), which say what the steps of checkpoints are answered. It knows nothing of the program.
"""

import os
import subprocess

from trees import FANOUT, Trees

TOP = os.path.dirname(os.path.dirname(os.path.abspath(__file__)))
PROGRAM = os.path.join(TOP, "crates", "jedb", "out", "jedb")
KINDS = {"p": "plain", "d": "dup"}


def hexed(bytes_):
    return bytes_.hex() or "-"


def sliced(offset, length):
    """An index by some bytes of the data."""
    return lambda data: data[offset:offset + length] if offset + length <= len(data) else None


def field(number, separator):
    """An index by a field of the data."""
    return lambda data: dict(enumerate(data.split(separator))).get(number)


class Model:
    """The records of two databases, each a sorted list of keys and data; a transaction's cursors and where they stand."""

    def __init__(self):
        self.records = {db: [] for db in KINDS}
        self.indexes = {}  # of p, by name: what gives the key of a record's data, None where it has none
        self.committed = None  # what was committed before the transaction under way; None outside one
        self.cursors = {}  # by number: the database, and where it stands
        self.changed = False
        self.commits = len(KINDS)
        self.trees = Trees()
        for db in KINDS:
            self.trees.create(db)
            self.trees.end(True)

    def all(self, db):
        """The records of a database. Those of an index are pairs of its key and the record's own."""
        if db not in self.indexes:
            return self.records[db]
        keyed = [(self.indexes[db](data), key) for key, data in self.records["p"]]
        return sorted(pair for pair in keyed if pair[0] is not None)

    def count_all(self):
        return sum(len(self.all(db)) for db in [*KINDS, *self.indexes])

    def answered(self, db, record):
        """An index answers with the data of the record as well."""
        data = [d for key, d in self.records["p"] if key == record[1]] if db in self.indexes else []
        return "ok " + " ".join(map(hexed, [*record, *data]))

    def key_of(self, db, record):
        """What tells a record from the others: its key, and but for a plain database its data."""
        return record[0] if db == "p" else record

    def all_of(self, db, key):
        return [r for r in self.all(db) if r[0] == key]

    def at(self, db, place):
        return [r for r in self.all(db) if self.key_of(db, r) == self.key_of(db, place)]

    def change(self, db, remove, add):
        """Takes records out and puts others in. By an index the primary's records are taken out."""
        if db in self.indexes:
            keys = [key for _, key in remove]
            db, remove = "p", [r for r in self.records["p"] if r[0] in keys]
        self.records[db] = sorted([r for r in self.records[db] if r not in remove] + add)
        self.changed = True
        for name in sorted({self.key_of(db, r) for r in remove + add}):
            self.log_change(db, name, *([r for r in those if self.key_of(db, r) == name] for those in (remove, add)))

    def log_change(self, db, name, old, new):
        """A record's change, and those of its pairs in indexes that it gives another key, in the order of the indexes."""
        self.trees.change(db, (name, b"") if db == "p" else name, bool(new))
        for index, key_in in sorted(self.indexes.items(), key=lambda it: self.trees.numbered[it[0]]) if db == "p" else []:
            pairs = [[(key_in(data), key) for key, data in those if key_in(data) is not None] for those in (old, new)]
            if pairs[0] != pairs[1]:
                for is_there, those in enumerate(pairs):
                    for pair in those:
                        self.trees.change(index, pair, bool(is_there))

    def write(self, db, record):
        self.change(db, self.at(db, record), [record])

    def wants(self, mode, db, key, data):
        """Whether a put of this mode is refused, and how."""
        if db in self.indexes:
            return "readonlyindex"
        if mode == "nodup" and db == "p":
            return "onlyonduplicates"
        if mode == "no" and self.all_of(db, key):
            return "keyexist"
        if mode == "nodup" and (key, data) in self.all(db):
            return "keyexist"
        return None

    # Calls outside a cursor.

    def get(self, db, key):
        found = self.all_of(db, key)
        return self.answered(db, found[0]) if found else "notfound"

    def getboth(self, db, key, data):
        return self.answered(db, (key, data)) if (key, data) in self.all(db) else "notfound"

    def put(self, mode, db, key, data):
        refused = self.wants(mode, db, key, data)
        if refused is None:
            self.write(db, (key, data))
        return refused or "ok"

    def delete(self, db, key):
        found = self.all_of(db, key)
        if not found:
            return "notfound"
        self.change(db, found, [])
        return "ok"

    def create_index(self, db, key_in):
        if self.committed is not None:
            return "intxn"
        if db in self.indexes:
            return "nametaken"
        self.indexes[db] = key_in
        self.changed = True
        self.trees.create(db)
        for pair in self.all(db):
            self.trees.change(db, pair, True)
        return "ok"

    def remove_index(self, db):
        if self.committed is not None:
            return "intxn"
        if self.indexes.pop(db, None) is None:
            return "nodatabase"
        self.changed = True
        self.trees.remove(db)
        return "ok"

    def truncate(self, db):
        if self.committed is not None:
            return "intxn"
        if db in self.indexes:
            return "readonlyindex"
        if db == "p" and self.indexes:
            return "hasindex"
        self.records[db] = []
        self.changed = True
        self.trees.truncate(db)
        return "ok"

    # Calls of cursors.

    def open(self, cursor, db):
        if self.committed is None:
            return "notxn"
        if cursor in self.cursors:
            return "nametaken"
        self.cursors[cursor] = (db, None)
        return "ok"

    def close(self, cursor):
        return "ok" if self.cursors.pop(cursor, None) else "nocursor"

    def dup(self, cursor, to):
        if cursor not in self.cursors:
            return "nocursor"
        if to in self.cursors:
            return "nametaken"
        self.cursors[to] = self.cursors[cursor]
        return "ok"

    def standing(self, cursor):
        """The database and the place of a cursor that has to stand at a record; else why it does not."""
        db, place = self.cursors[cursor]
        if place is None:
            return "noposition"
        if not self.at(db, place):
            return "keyempty"
        return None

    def count(self, cursor):
        if cursor not in self.cursors:
            return "nocursor"
        db, place = self.cursors[cursor]
        return self.standing(cursor) or f"ok {len(self.all_of(db, place[0]))}"

    def moved(self, cursor, motion, key, data):
        """The record that a motion comes to; None where there is none."""
        db, place = self.cursors[cursor]
        records = self.all(db)
        if place is None:
            motion = {"next": "first", "nextnodup": "first", "prev": "last", "prevnodup": "last"}.get(motion, motion)
        here = None if place is None else self.key_of(db, place)
        found = {
            "first": lambda: records[:1],
            "last": lambda: records[-1:],
            "next": lambda: [r for r in records if self.key_of(db, r) > here][:1],
            "prev": lambda: [r for r in records if self.key_of(db, r) < here][-1:],
            "nextdup": lambda: [r for r in records if r[0] == place[0] and self.key_of(db, r) > here][:1],
            "prevdup": lambda: [r for r in records if r[0] == place[0] and self.key_of(db, r) < here][-1:],
            "nextnodup": lambda: [r for r in records if r[0] > place[0]][:1],
            "prevnodup": lambda: [r for r in records if r[0] < place[0]][-1:],
            "current": lambda: self.at(db, place),
            "key": lambda: self.all_of(db, key)[:1],
            "range": lambda: [r for r in records if r[0] >= key][:1],
            "both": lambda: [r for r in records if r == (key, data)],
            "bothrange": lambda: [r for r in self.all_of(db, key) if (r[1] == data if db == "p" else r[1] >= data)][:1],
        }[motion]()
        return found[0] if found else None

    def cur(self, cursor, motion, key=None, data=None):
        if cursor not in self.cursors:
            return "nocursor"
        db, place = self.cursors[cursor]
        if place is None and motion in ("nextdup", "prevdup", "current"):
            return "noposition"
        if motion == "current" and not self.at(db, place):
            return "keyempty"
        found = self.moved(cursor, motion, key, data)
        if found is None:
            return "notfound"
        self.cursors[cursor] = (db, found)
        return self.answered(db, found)

    def cput(self, mode, cursor, key, data):
        if cursor not in self.cursors:
            return "nocursor"
        db, _ = self.cursors[cursor]
        said = self.put(mode, db, key, data)
        if said == "ok":
            self.cursors[cursor] = (db, (key, data))
        return said

    def cputcur(self, cursor, data):
        if cursor not in self.cursors:
            return "nocursor"
        db, place = self.cursors[cursor]
        if db != "p":
            return "notonduplicates" if db == "d" else "readonlyindex"
        refused = self.standing(cursor)
        if refused is None:
            self.write(db, (place[0], data))
        return refused or "ok"

    def cdel(self, cursor):
        if cursor not in self.cursors:
            return "nocursor"
        db, place = self.cursors[cursor]
        refused = self.standing(cursor)
        if refused is None:
            self.change(db, self.at(db, place), [])
        return refused or "ok"

    # Transactions.

    def begin(self):
        if self.committed is not None:
            return "intxn"
        self.committed = {db: list(records) for db, records in self.records.items()}
        return "ok txn"

    def end(self, keeps):
        if self.committed is None:
            return "notxn"
        if keeps:
            self.commits += self.changed
        else:
            self.records = self.committed
        self.committed, self.cursors, self.changed = None, {}, False
        self.trees.end(keeps)
        return "ok"

    def after_call(self):
        """A call outside a transaction is one of its own."""
        if self.committed is None:
            self.commits += self.changed
            self.changed = False
            self.trees.end(True)


def is_answered(report, number, line, said):
    """Whether a report's line is the answer that is due to a script's line."""
    who = line.split()[0]
    prefix = f"{number} {who} "
    if not report.startswith(prefix):
        return False
    text = report[len(prefix):]
    if said in ("ok txn", "intxn"):
        return text.startswith(said)
    return text == said


def report_of(program, home, lines):
    run = subprocess.run(
        [program, "run", "--home", home, "--fanout", str(FANOUT)],
        input="".join(line + "\n" for line in lines).encode(),
        capture_output=True,
        check=False,
    )
    return run.returncode, run.stdout.decode().splitlines()


def first_wrong(lines, said, end, status, report):
    """The first line of a report that is not as it is due; None where each is."""
    due = [*zip(lines, said), (None, end)]
    for number, (line, answer) in enumerate(due, 1):
        told = report[number - 1] if number <= len(report) else f"nothing, and status {status}"
        right = told == answer if line is None else is_answered(told, number, line, answer)
        if not right:
            return f"line {number} ({line}): told {told!r}, due {answer!r}"
    return None if status == 0 else f"status {status}"
