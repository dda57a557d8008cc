"""A plain model of sessions side by side: what a call locks, who waits for whom, who of a cycle has to abort, and what each call is
answered; and scripts of two to four sessions to try it with.

Every look walks all records, owners and waits. It knows nothing of the program: it follows docs/LOCKING.md and docs/ANSWERS.md.
"""

import random

from model import KINDS, hexed, sliced

END = "end"  # the place behind all names of a database
INDEX, KEY_IN = "i", sliced(0, 1)  # an index of p: its name, and what gives the key of a record's data
CONFLICTS = {
    "READ": {"WRITE", "RANGE_WRITE"},
    "WRITE": {"READ", "WRITE", "RANGE_READ", "RANGE_WRITE"},
    "RANGE_READ": {"WRITE", "RANGE_WRITE", "RANGE_INSERT"},
    "RANGE_WRITE": {"READ", "WRITE", "RANGE_READ", "RANGE_WRITE", "RANGE_INSERT"},
}
LEVELS = ["ru", "rc", "rr", "ser"]


def upgraded(held, asked):
    """What a transaction holds that held one lock and was granted another; a RANGE_INSERT is not held."""
    if asked == "RANGE_INSERT":
        return held
    if held is None:
        return asked
    has_range = "RANGE" in held or "RANGE" in asked
    writes = "WRITE" in held or "WRITE" in asked
    return ("RANGE_" if has_range else "") + ("WRITE" if writes else "READ")


class Txn:
    def __init__(self, number, session, level, waits, is_own):
        self.number, self.session, self.level, self.waits = number, session, level, waits
        self.is_own = is_own  # a call outside a transaction, which is one of its own
        self.own = {}  # the value of each name that it wrote, by database and name; None where it deleted the record
        self.cursors = {}  # by number: the database, and the name at which it stands
        self.cycle = None  # as a victim's


class Range:
    """The names that a read may come to, by what is in front of them and what is behind them."""

    def __init__(self, is_before, is_behind, forward=True):
        self.is_before, self.is_behind, self.forward = is_before, is_behind, forward

    def has(self, name):
        return not self.is_before(name) and not self.is_behind(name)


def at_name(at):
    return Range(lambda n: n < at, lambda n: n > at)


def of_key(key):
    return Range(lambda n: n[0] < key, lambda n: n[0] > key)


def range_of(db, motion, at, key, data):
    """The range of a cursor's motion from where it stands, or from nowhere."""
    if at is None:
        motion = {"next": "first", "nextnodup": "first", "prev": "last", "prevnodup": "last"}.get(motion, motion)
    never = lambda n: False
    name = (key, b"" if db == "p" else data)
    return {
        "first": lambda: Range(never, never),
        "last": lambda: Range(never, never, False),
        "next": lambda: Range(lambda n: n <= at, never),
        "nextdup": lambda: Range(lambda n: n <= at, lambda n: n[0] > at[0]),
        "nextnodup": lambda: Range(lambda n: n[0] <= at[0], never),
        "prev": lambda: Range(never, lambda n: n >= at, False),
        "prevdup": lambda: Range(lambda n: n[0] < at[0], lambda n: n >= at, False),
        "prevnodup": lambda: Range(never, lambda n: n[0] >= at[0], False),
        "current": lambda: at_name(at),
        "key": lambda: of_key(key),
        "range": lambda: Range(lambda n: n[0] < key, never),
        "both": lambda: at_name(name),
        "bothrange": lambda: at_name(name) if db == "p" else Range(lambda n: n < name, lambda n: n[0] > key),
    }[motion]()


class Sessions:
    """The environment, and the report so far."""

    def __init__(self):
        self.committed = {db: {} for db in KINDS}
        self.commits = 0
        self.last = 0  # transaction number
        self.logged = 0  # the last transaction that has an entry in the log
        self.active = {}  # transactions by number
        self.current = {}  # a session's transaction
        self.owners = {}  # by place, which is a database and a name or its end: what each transaction holds there
        self.queues = {}  # by place: the waits in the order of their arrival, each a transaction's number and what it asked for
        self.ready = set()  # transactions whose wait was granted
        self.waiting = []  # calls in the order in which they began to wait: session, line, call and transaction
        self.report = []

    # Records.

    def view(self, txn, db):
        records = dict(self.committed[db])
        for seen in self.active.values() if txn.level == "ru" else [txn]:
            for (of, name), value in seen.own.items():
                if of == db:
                    records[name] = value
        return {name: value for name, value in records.items() if value is not None}

    def occupied(self, db):
        written = {name for txn in self.active.values() for of, name in txn.own if of == db}
        return sorted(written | set(self.committed[db]))

    def change(self, txn, db, name, value):
        """A transaction sets a record or deletes it, and its pair in the index with it."""
        for pair in self.pairs_changed(txn, db, name, value):
            txn.own[INDEX, pair] = None if pair in self.view(txn, INDEX) else b""
        txn.own[db, name] = value

    def pairs_changed(self, txn, db, name, value):
        """The old pair of a record and the new one, where they are not the same; none where there is no index of it."""
        if db != "p" or INDEX not in self.committed:
            return []
        keys = [None if data is None else KEY_IN(data) for data in (self.view(txn, db).get(name), value)]
        return [(key, name[0]) for key in keys if key is not None] if keys[0] != keys[1] else []

    def place_behind(self, db, is_behind):
        return db, next((n for n in self.occupied(db) if is_behind(n)), END)

    # What a call needs: places and what is asked for there, in order.

    def read_needs(self, txn, db, way, found, held, behind):
        """The locks of a read: `held` on the names that it passes, and at serializable `behind` on the next one."""
        passed = [n for n in self.occupied(db) if way.has(n)]
        if found is not None:
            passed = [n for n in passed if (n <= found if way.forward else n >= found)]
        prefix = "RANGE_" if txn.level == "ser" else ""
        needs = [((db, n), prefix + held) for n in passed]
        if txn.level == "ser" and (found is None or not way.forward):
            needs.append((self.place_behind(db, way.is_behind), "RANGE_" + behind))
        return needs

    def write_needs(self, txn, db, name, value):
        """The locks of a change: on the name, on the next place where it has no record, and so on its pairs in the index."""
        needs = []
        for of, at in [(db, name), *((INDEX, pair) for pair in self.pairs_changed(txn, db, name, value))]:
            needs.append(((of, at), "RANGE_WRITE" if txn.level == "ser" else "WRITE"))
            if at not in self.view(txn, of):
                needs.append((self.place_behind(of, lambda n, at=at: n > at), "RANGE_INSERT"))
        return needs

    # Calls on records. Each gives a refusal, or what it needs and what it does once it has that.

    def read(self, txn, db, way, rmw, value=None, cursor=None):
        """The first name of a range that has a record, in a plain database only if it has the value that is asked for."""
        records = self.view(txn, db)
        names = sorted((n for n in records if way.has(n) and value in (None, records[n])), reverse=not way.forward)
        found = names[0] if names else None
        held = "WRITE" if rmw else "READ"
        needs = [] if txn.level == "ru" and not rmw else self.read_needs(txn, db, way, found, held, held)
        record = (found[1], b"") if db == INDEX and found else None  # by an index: the primary's
        if record and needs:
            needs.append((("p", record), ("RANGE_" if txn.level == "ser" else "") + held))

        def done():
            if found is None:
                return "notfound"
            if cursor is not None:
                txn.cursors[cursor] = (db, found)
            shown = [found[0], records[found]] if db == "p" else list(found)
            if record:
                shown.append(self.view(txn, "p")[record])
            return "ok " + " ".join(map(hexed, shown))

        return None, needs, done

    def write(self, txn, mode, db, key, data, cursor=None):
        if db == INDEX:
            return "readonlyindex", None, None
        if mode == "nodup" and db == "p":
            return "onlyonduplicates", None, None
        name = (key, b"" if db == "p" else data)
        needs, is_there = [], False
        if mode:
            way = of_key(key) if mode == "no" else at_name(name)
            there = [n for n in self.view(txn, db) if way.has(n)]
            is_there = bool(there)
            # (with duplicates a `putno` looks at all records of the key, else at the one that there may be)
            needs = self.read_needs(txn, db, way, max(there, default=None) if mode == "nodup" or db == "p" else None, "WRITE", "READ")
        value = data if db == "p" else b""
        if not is_there:
            needs = needs + self.write_needs(txn, db, name, value)

        def done():
            if is_there:
                return "keyexist"
            self.change(txn, db, name, value)
            if cursor is not None:
                txn.cursors[cursor] = (db, name)
            return "ok"

        return None, needs, done

    def delete(self, txn, db, way, is_whole_key):
        there = sorted(n for n in self.view(txn, db) if way.has(n))
        found = None if is_whole_key and db != "p" else max(there, default=None)
        needs = self.read_needs(txn, db, way, found, "WRITE", "READ")
        # (by an index the primary's records are deleted)
        of, gone = ("p", [(key, b"") for _, key in there]) if db == INDEX else (db, there)
        for name in gone:
            needs += self.write_needs(txn, of, name, None)

        def done():
            for name in gone:
                self.change(txn, of, name, None)
            return "ok" if gone else "notfound"

        return None, needs, done

    def at_cursor(self, txn, number, call):
        db, at = txn.cursors[number]
        kind = call[0]
        if kind == "cput":
            return self.write(txn, call[1], db, *call[3:], cursor=number)
        if kind == "cputcur" and db != "p":
            return "notonduplicates" if db == "d" else "readonlyindex", None, None
        records = self.view(txn, db)
        if kind != "cur" or call[2] in ("current", "nextdup", "prevdup"):
            if at is None:
                return "noposition", None, None
            if (kind != "cur" or call[2] == "current") and at not in records:
                return "keyempty", None, None
        if kind == "cur":
            _, _, motion, key, data, rmw = call
            value = data if db == "p" and motion in ("both", "bothrange") else None
            return self.read(txn, db, range_of(db, motion, at, key, data), rmw, value, number)
        if kind == "cdel":
            return self.delete(txn, db, at_name(at), False)
        if kind == "cputcur":
            def done():
                self.change(txn, db, at, call[2])
                return "ok"

            return None, self.write_needs(txn, db, at, call[2]), done
        way = of_key(at[0])
        count = sum(way.has(n) for n in records)
        needs = [] if txn.level == "ru" else self.read_needs(txn, db, way, at if db == "p" else None, "READ", "READ")
        return None, needs, lambda: f"ok {count}"

    def planned(self, txn, call):
        kind = call[0]
        if kind == "get":
            _, db, key, rmw = call
            return self.read(txn, db, of_key(key), rmw)
        if kind == "getboth":
            _, db, key, data, rmw = call
            return self.read(txn, db, range_of(db, "both", None, key, data), rmw, data if db == "p" else None)
        if kind == "put":
            return self.write(txn, *call[1:])
        if kind == "delete":
            return self.delete(txn, call[1], of_key(call[2]), True)
        if kind == "list":
            return None, [], lambda: "ok " + " ".join(sorted(self.committed))
        if kind == "truncate":
            return self.truncate(call[1])
        if kind == "open":
            _, number, db = call
            return ("nametaken", None, None) if number in txn.cursors else (None, [], lambda: self.stand(txn, number, (db, None)))
        number = call[2] if kind == "cput" else call[1]
        if number not in txn.cursors:
            return "nocursor", None, None
        if kind == "close":
            return None, [], lambda: self.close(txn, number)
        if kind == "dup":
            to = call[2]
            return ("nametaken", None, None) if to in txn.cursors else (None, [], lambda: self.stand(txn, to, txn.cursors[number]))
        return self.at_cursor(txn, number, call)

    def stand(self, txn, number, place):
        txn.cursors[number] = place
        return "ok"

    def close(self, txn, number):
        del txn.cursors[number]
        return "ok"

    def truncate(self, db):
        if db == "p" and INDEX in self.committed:
            return "hasindex", None, None
        users = {t for (of, _), held in self.owners.items() if of == db for t in held}
        users |= {t.number for t in self.active.values() if any(of == db for of, _ in t.cursors.values())}
        if users:
            return f"inuse {min(users)}", None, None
        if db == INDEX:
            return "readonlyindex", None, None

        def done():
            self.committed[db] = {}
            self.commits += 1
            return "ok"

        return None, [], done

    # Locks.

    def in_the_way(self, number, place, asked):
        return [owner for owner, held in self.owners.get(place, {}).items() if owner != number and asked in CONFLICTS[held]]

    def grant(self, number, place, asked):
        held = self.owners.setdefault(place, {})
        becomes = upgraded(held.get(number), asked)
        if becomes is not None:
            held[number] = becomes

    def locked(self, txn, needs):
        """Takes what a call needs; the first place at which another transaction is in the way, what was asked for, and the least such one."""
        for place, asked in needs:
            others = self.in_the_way(txn.number, place, asked)
            if others:
                return place, asked, min(others)
            self.grant(txn.number, place, asked)
        return None

    def release(self, number, goes=lambda held: True):
        for held in self.owners.values():
            if number in held and goes(held[number]):
                del held[number]

    def cancel(self, number):
        for queue in self.queues.values():
            queue[:] = [wait for wait in queue if wait[0] != number]

    def grant_waits(self):
        for place, queue in self.queues.items():
            for number, asked in list(queue):
                if not self.in_the_way(number, place, asked):
                    self.grant(number, place, asked)
                    queue.remove((number, asked))
                    self.ready.add(number)

    def waits_for(self, number):
        return sorted({other for place, queue in self.queues.items() for n, asked in queue if n == number for other in self.in_the_way(n, place, asked)})

    def cycle_from(self, start):
        """The first way back to a transaction, by lesser numbers first; what led nowhere is not tried again."""
        seen = set()

        def way(path):
            for other in self.waits_for(path[-1]):
                if other == start:
                    return path
                if other not in seen:
                    seen.add(other)
                    found = way(path + [other])
                    if found:
                        return found
            return None

        return way([start])

    def victims(self, start):
        """The youngest of each cycle that a new wait closes, one after another, with its cycle from the least number on."""
        found = []
        while True:
            cycle = self.cycle_from(start)
            if cycle is None:
                return found
            victim, least = max(cycle), cycle.index(min(cycle))
            found.append((victim, cycle[least:] + cycle[:least]))
            self.cancel(victim)

    # Events.

    def tell(self, line, session, text):
        self.report.append(f"{line} s{session} {text}")

    def answered(self, txn):
        """What goes with an answer: at read committed READ locks, and of a call of its own all."""
        if txn.is_own:
            self.end(txn)
        elif txn.level == "rc":
            self.release(txn.number, lambda held: held == "READ")

    def end(self, txn, keeps=False):
        if keeps and txn.own:
            for (db, name), value in txn.own.items():
                self.committed[db].pop(name, None)
                if value is not None:
                    self.committed[db][name] = value
            self.commits += 1
        self.release(txn.number)
        self.cancel(txn.number)
        self.ready.discard(txn.number)
        del self.active[txn.number]
        if self.current.get(txn.session) is txn:
            del self.current[txn.session]

    def begin(self, session, level, waits, is_own):
        self.last += 1
        txn = self.active[self.last] = Txn(self.last, session, level, waits, is_own)
        if not is_own:
            self.current[session] = txn
        return txn

    def wait(self, line, txn, call, place, asked, owner):
        """A call begins to wait: it is told so, or that it is a victim; then other victims are told."""
        self.queues.setdefault(place, []).append((txn.number, asked))
        self.waiting.append((txn.session, line, call, txn))
        victims = self.victims(txn.number)
        if txn.number not in [victim for victim, _ in victims]:
            db, at = place
            name = at if at == END else " ".join(map(hexed, at[: 1 if db == "p" else 2]))
            self.tell(line, txn.session, f"waiting {db} {name} by {owner}")
        for victim, cycle in sorted(victims, key=lambda it: it[0] != txn.number):
            of = next(wait for wait in self.waiting if wait[3].number == victim)
            self.waiting.remove(of)
            of[3].cycle = cycle
            self.tell(of[1], of[0], "deadlock " + " ".join(map(str, cycle)))
            self.answered(of[3])

    def perform(self, line, txn, call):
        refusal, needs, done = self.planned(txn, call)
        blocked = None if refusal else self.locked(txn, needs)
        if blocked and txn.waits:
            self.wait(line, txn, call, *blocked)
        else:
            text = refusal or (f"unavailable {blocked[2]}" if blocked else done())
            self.tell(line, txn.session, text)
            if txn.own or (call[0] == "truncate" and text == "ok"):
                self.logged = max(self.logged, txn.number)
            if txn.is_own and not refusal:
                self.end(txn, True)
            else:
                self.answered(txn)
        self.grant_waits()

    def go_on(self):
        while True:
            first = next((wait for wait in self.waiting if wait[3].number in self.ready), None)
            if first is None:
                return
            self.waiting.remove(first)
            self.ready.remove(first[3].number)
            self.perform(first[1], first[3], first[2])

    def early(self, session, call):
        """The refusals that come before a call's transaction has a number."""
        txn, kind = self.current.get(session), call[0]
        if any(wait[0] == session for wait in self.waiting):
            return "sessionwaits"
        if txn and txn.cycle and kind != "abort":
            return "mustabort " + " ".join(map(str, txn.cycle))
        if txn and kind in ("begin", "truncate"):
            return f"intxn {txn.number}"
        if not txn and kind in ("commit", "abort", "open"):
            return "notxn"
        return None

    def give(self, line, session, call):
        refusal = self.early(session, call)
        txn, kind = self.current.get(session), call[0]
        if refusal:
            self.tell(line, session, refusal)
        elif kind == "begin":
            txn = self.begin(session, call[1], call[3] == "wait", False)
            self.tell(line, session, f"ok txn {txn.number}")
        elif kind in ("commit", "abort"):
            self.tell(line, session, "ok")
            self.end(txn, kind == "commit")
            self.grant_waits()
        else:
            self.perform(line, txn or self.begin(session, "rr", True, True), call)
        self.go_on()

    def end_all(self, count):
        """Ends each session, by rising number: its call that waits is withdrawn, and its transaction aborted."""
        for session in range(1, count + 1):
            of = [wait[3] for wait in self.waiting if wait[0] == session]
            self.waiting = [wait for wait in self.waiting if wait[0] != session]
            for txn in of or [it for it in [self.current.get(session)] if it]:
                self.end(txn)
            self.grant_waits()
            self.go_on()
        records = sum(map(len, self.committed.values()))
        self.report.append(f"end commits {self.commits} databases {len(self.committed)} records {records}")

    def create_index(self):
        """Makes and fills the index, while no transaction is under way."""
        self.committed[INDEX] = {(KEY_IN(data), key): b"" for (key, _), data in self.committed["p"].items() if KEY_IN(data) is not None}
        self.last += 1
        self.logged = self.last
        self.commits += 1


# Scripts.

KEYS = [b"a", b"b", b"c", b"d"]
DATA = [b"1", b"2", b"3"]
MOTIONS = "first last next prev nextdup prevdup nextnodup prevnodup current key range both bothrange".split()


def text_of(call):
    """A call as a line of the script has it."""
    kind, *rest = call
    words = [kind]
    if kind in ("put", "cput"):
        words[0] += rest.pop(0)
    if kind == "cur":
        number, motion, key, data, rmw = rest
        given = {"key": [key], "range": [key], "both": [key, data], "bothrange": [key, data]}.get(motion, [])
        rest = [number, motion, *given, rmw]
    for it in rest:
        if isinstance(it, bytes):
            words.append(hexed(it))
        elif isinstance(it, bool):
            words += ["rmw"] if it else []
        else:
            words.append(f"c{it}" if isinstance(it, int) else it)
    return " ".join(words)


def drawn(chance, txn, has_index):
    """A call that a session may make; txn is its transaction, or None."""
    db, key, data = chance.choice(["p", "p", "d", *has_index * [INDEX]]), chance.choice(KEYS), chance.choice(DATA)
    if db == INDEX:
        key, data = data, key
    is_open = sorted(txn.cursors) if txn else []
    cursor = chance.choice(is_open) if is_open and chance.random() < 0.95 else chance.randint(1, 3)
    to, rmw = chance.randint(1, 3), chance.random() < 0.2
    of = txn.cursors[cursor][0] if cursor in is_open else db
    mode, cmode = (chance.choice(["", "", "no", "nodup"] if it == "d" or chance.random() < 0.1 else ["", "no"]) for it in (db, of))
    level = chance.choice(LEVELS)
    durability, waits = chance.choice(["nosync", "nosync", "nosync", "wsync", "sync"]), chance.choice(["wait"] * 5 + ["nowait"])
    if txn and txn.cycle and chance.random() < 0.7:
        return ("abort",)
    inside, outside = (1, 0.03) if txn else (0.03, 1)
    moving = inside if is_open else 0.03
    calls = [
        (5 * outside, ("begin", level, durability, waits)),
        (0.4 * inside, ("commit",)),
        (0.2 * inside, ("abort",)),
        (2, ("get", db, key, rmw)),
        (1, ("getboth", db, key, data, rmw)),
        (4, ("put", mode, db, key, data)),
        (1.5, ("delete", db, key)),
        (0.1, ("list",)),
        (0.2 * outside, ("truncate", db)),
        (2 * inside if len(is_open) < 2 else 0.1, ("open", to, db)),
        (0.2 * moving, ("close", cursor)),
        (0.3 * moving, ("dup", cursor, to)),
        (0.7 * moving, ("count", cursor)),
        (5 * moving, ("cur", cursor, chance.choice(MOTIONS), key, data, rmw)),
        (1 * moving, ("cput", cmode, cursor, key, data)),
        (0.5 * moving, ("cputcur", cursor, data)),
        (1 * moving, ("cdel", cursor)),
    ]
    return chance.choices([call for _, call in calls], [weight for weight, _ in calls])[0]


def drawn_in_a_crowd(chance, txn, has_index):
    """One of few calls on few records, so that a wait may close several cycles."""
    if txn is None:
        return ("begin", chance.choice(["rc", "rr", "rr", "ser"]), "nosync", "wait")
    if txn.cycle:
        return ("abort",)
    key, data = chance.choice(KEYS[:3]), chance.choice(DATA)
    calls = [(6, ("get", "p", key, False)), (2 * has_index, ("get", INDEX, data, False)), (4, ("put", "", "p", key, data)), (1, ("delete", "p", key)), (0.7, ("commit",))]
    return chance.choices([call for _, call in calls], [weight for weight, _ in calls])[0]


def script_of(seed, calls):
    """A script's lines, and the model with the report that it makes. In every third one four sessions crowd on few records."""
    chance = random.Random(seed)
    model, count, draw = Sessions(), chance.randint(2, 4), drawn
    if seed % 3 == 0:
        count, draw = 4, drawn_in_a_crowd
    lines = [f"s1 create {db} {kind}" for db, kind in KINDS.items()]
    model.report = [f"{at} s1 ok" for at in range(1, len(lines) + 1)]
    model.last = model.logged = model.commits = len(lines)

    def give(session, call):
        lines.append(f"s{session} {text_of(call)}")
        model.give(len(lines), session, call)

    for _ in range(chance.randint(0, 6)):
        give(1, ("put", "", chance.choice("pd"), chance.choice(KEYS), chance.choice(DATA)))
    if chance.random() < 0.5:
        lines.append(f"s1 create {INDEX} index p slice 0 1")
        model.tell(len(lines), 1, "ok")
        model.create_index()
    for _ in range(calls):
        # (mostly a session that does not wait)
        free = [s for s in range(1, count + 1) if all(wait[0] != s for wait in model.waiting)]
        session = chance.choice(free) if free and chance.random() < 0.95 else chance.randint(1, count)
        give(session, draw(chance, model.current.get(session), INDEX in model.committed))
    model.end_all(count)
    return lines, model


def read_again(model):
    """A script that reads all records of what the model has committed, and its report."""
    lines, report = ["s1 begin ser nosync wait"], [f"1 s1 ok txn {model.logged + 1}"]
    for db, records in model.committed.items():
        lines += [f"s1 open c1 {db}"] + ["s1 cur c1 next"] * (len(records) + 1) + ["s1 close c1"]
        shown = {"p": lambda n: (n[0], records[n]), "d": lambda n: n, INDEX: lambda n: (*n, model.committed["p"][n[1], b""])}[db]
        texts = ["ok"] + ["ok " + " ".join(map(hexed, shown(name))) for name in sorted(records)] + ["notfound", "ok"]
        report += [f"{len(report) + at} s1 {text}" for at, text in enumerate(texts, 1)]
    return lines, [*report, f"end commits 0 databases {len(model.committed)} records {sum(map(len, model.committed.values()))}"]
