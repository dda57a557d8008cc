#!/usr/bin/env python3
"""Makes what a crash of the system may leave of a folder, from the calls that the program made on it, and checks that each opens with a first part of
the commits.

    ./jedb; python3 tests/images.py              builds the program at the first use; then 20 runs
    python3 tests/images.py --seed 7 --runs 1    other scripts and images
    python3 tests/images.py --program PATH       another build

It needs `strace` (Debian's package of that name); nothing is installed from here. A run is a generated script of commits of all durabilities and steps of
checkpoints, with small files, and strace tells each call on the folder. Behind each of them images are made. In an image each file is as it was at
a moment of its own since its last sync: cut short there, with other bytes behind what is stable, with a cut undone, missing where its name is not
synced, or there again where it was removed. Each image has to open with the store after so many of the commits, and with each one whose sync had ended.
One of these images is then opened under strace too, and so images are made of each moment of an opening: each has to open with what it opens with.

Last, files that an environment needs no more are taken out and brought back as they were, in every mix: it has to open with the same records.
"""

import argparse
import itertools
import os
import random
import re
import shutil
import subprocess
import sys
import tempfile

from kill import COMMIT, entries_of
from model import KINDS, PROGRAM, Model, hexed, sliced

CALL = re.compile(r"^\d+ +(\w+)\((.*)\) += (-?\d+)")
TEXT = re.compile(r'"((?:\\x[0-9a-f]{2})*)"')
HELD = re.compile(r"^(\d+)<([^>]*)>")
CALLS = "openat,write,pwrite64,ftruncate,lseek,fsync,fdatasync,unlink,rename"
OPTIONS = ("--file-max", "4096", "--fanout", "4")
KEYS = [bytes([key]) for key in range(97, 105)]


def wrong(text):
    sys.exit(f"images: {text}")


def told(text):
    return bytes.fromhex(text.replace("\\x", ""))


class File:
    """A file as it reads, its bytes at its last sync, and between which lengths it was since."""

    def __init__(self):
        self.reads, self.synced, self.low, self.high = bytearray(), b"", 0, 0
        self.is_named = False  # the folder was synced since it was made

    def has_len(self, length):
        self.low, self.high = min(self.low, length), max(self.high, length)

    def write(self, at, bytes_):
        if at < self.low:
            self.low = at
        self.reads[at:at + len(bytes_)] = bytes_
        self.has_len(len(self.reads))

    def cut(self, length):
        self.reads = self.reads[:length] + bytes(max(length - len(self.reads), 0))
        self.has_len(length)

    def sync(self):
        self.synced = bytes(self.reads)
        self.low = self.high = len(self.reads)

    def image(self, chance):
        """What a crash may leave of it; None where it leaves no file."""
        if not self.is_named and chance.random() < 0.3:
            return None
        stable = self.synced[:self.low]
        behind = max((bytes(self.reads), self.synced), key=len)[len(stable):] if chance.random() < 0.8 else bytes(self.reads)[len(stable):]
        length = chance.choice([0, len(behind), chance.randint(0, len(behind))])
        spoiled = chance.choice([0, 0, chance.randint(0, self.high - len(stable))])
        other = chance.choice([bytes, chance.randbytes])
        made = behind[:length] + other(min(spoiled, max(self.high - len(stable) - length, 0)))
        return stable + made


class Disk:
    """A folder as the calls on it leave it."""

    def __init__(self, home):
        self.home, self.files, self.removed, self.places = home, {}, {}, {}

    def name_of(self, path):
        folder, name = os.path.split(path)
        return name if folder == self.home and name.endswith(".jdb") else None

    def find(self, image):
        """It has these files, all of them synced."""
        for name, bytes_ in image.items():
            file = self.files[name] = File()
            file.write(0, bytes_)
            file.sync()
            file.is_named = True

    def take(self, line):
        """Takes a call: whether it did something to the folder."""
        found = CALL.match(line)
        if not found or int(found[3]) < 0:
            return False
        call, given = found[1], found[2]
        if call in ("openat", "unlink", "rename"):
            return self.take_named(call, given, int(found[3]))
        held = HELD.match(given)
        fd, path = held[1], told(held[2]).decode() if "\\x" in held[2] else held[2]
        if call == "fsync" and path == self.home:
            self.removed = {}
            for file in self.files.values():
                file.is_named = True
            return True
        file = self.files.get(self.name_of(path))
        if file is None:
            return False
        rest = given[held.end():].split(", ")
        if call == "lseek":
            self.places[fd] = int(found[3])
        elif call in ("write", "pwrite64"):
            at = int(rest[-1]) if call == "pwrite64" else self.places.get(fd, 0)
            bytes_ = told(TEXT.search(given)[1])[:int(found[3])]
            file.write(at, bytes_)
            self.places[fd] = at + len(bytes_)
        elif call == "ftruncate":
            file.cut(int(rest[1]))
        else:
            file.sync()
        return call != "lseek"

    def take_named(self, call, given, answer):
        path = told(TEXT.search(given)[1]).decode()
        name = self.name_of(os.path.abspath(path))
        if call == "rename":
            wrong("a file got another name")
        if name is None:
            return False
        if call == "unlink":
            file = self.files.pop(name)
            if file.is_named:
                self.removed[name] = file
            return True
        self.places[str(answer)] = 0
        if "O_CREAT" in given and name not in self.files:
            self.files[name] = File()
            return True
        return False

    def image(self, chance):
        back = {name: file for name, file in self.removed.items() if chance.random() < 0.5}
        made = {name: file.image(chance) for name, file in {**back, **self.files}.items()}
        return {name: bytes_ for name, bytes_ in made.items() if bytes_ is not None}


class Script:
    """A script, the store after each number of commits, and at which of them a sync had ended before the next line."""

    def __init__(self, chance):
        self.lines, self.model, self.synced = [], Model(), set()
        self.states = [{}, {"p": []}, {"p": [], "d": []}]
        for db, kind in KINDS.items():
            self.give(f"s1 create {db} {kind}", True)
        self.synced = {1, 2}
        for _ in range(chance.randint(10, 30)):
            self.draw(chance)

    def give(self, line, is_synced):
        self.lines.append(line)
        self.model.after_call()
        is_commit = self.model.commits == len(self.states)
        if is_commit:
            self.states.append({db: self.model.all(db) for db in [*KINDS, *self.model.indexes]})
        # (what changes nothing is not logged, and no sync follows)
        if is_synced and (is_commit or line == "m sync"):
            self.synced.add(self.model.commits)

    def draw(self, chance):
        if chance.random() < 0.25:
            step = chance.choice(["begin", "flush", "flush", "flush", "finish", "sync"])
            return self.give(f"m {step}", step == "sync")
        if chance.random() < 0.1 and "i" not in self.model.indexes:
            self.model.create_index("i", sliced(0, 1))
            return self.give("s1 create i index p slice 0 1", True)
        if chance.random() < 0.3:
            return self.change(chance, True)
        durability, keeps = chance.choice(["sync", "wsync", "nosync", "nosync"]), chance.random() < 0.85
        self.model.begin()
        self.lines.append(f"s1 begin rr {durability} wait")
        for _ in range(chance.randint(1, 5)):
            self.change(chance, False)
        self.model.end(keeps)
        return self.give(f"s1 {'commit' if keeps else 'abort'}", keeps and durability == "sync")

    def change(self, chance, is_alone):
        db, key, data = chance.choice("pd"), chance.choice(KEYS), chance.choice(b"xyz").to_bytes(1, "big") * chance.choice([1, 300, 900])
        if chance.random() < 0.2:
            self.model.delete(db, key)
            return self.give(f"s1 delete {db} {hexed(key)}", is_alone)
        self.model.put("", db, key, data)
        return self.give(f"s1 put {db} {hexed(key)} {hexed(data)}", is_alone)


def run(program, home, lines, before=()):
    script = "".join(line + "\n" for line in lines).encode()
    ran = subprocess.run([*before, program, "run", "--home", home, *OPTIONS], input=script, capture_output=True, check=False)
    return ran.returncode, ran.stdout.decode().splitlines()


def opened(program, home, most):
    """The records of each database, as they are read; or what the opening answers."""
    lines = ["s1 begin rr nosync wait"] + [line for db in (*KINDS, "i") for line in (f"s1 open c1 {db}", *["s1 cur c1 next"] * most, "s1 close c1")]
    status, report = run(program, home, ["s1 list", *lines])
    if status:
        return status, report
    store, answers = {db: [] for db in report[0].split()[3:]}, report[2:-1]
    for at, db in enumerate((*KINDS, "i")):
        found = [line.split()[3:] for line in answers[at * (most + 2) + 1:][:most] if line.split()[2] == "ok"]
        if db in store:
            store[db] = [tuple(b"" if it == "-" else bytes.fromhex(it) for it in words[:2]) for words in found]
    return store


def commits_in(files, sync_points):
    """How many commits a log has, and the last of these at which a sync had ended: something stands behind it."""
    count = last = ended = 0
    for name in sorted(files):
        for kind, _ in entries_of(bytes(files[name]), 0):
            if count in sync_points and count and kind != 1:
                ended = count
            if kind == COMMIT:
                count += 1
    return count, ended


def write_image(folder, image):
    shutil.rmtree(folder, ignore_errors=True)
    os.mkdir(folder)
    for name, bytes_ in image.items():
        with open(os.path.join(folder, name), "wb") as file:
            file.write(bytes_)


def store_of(program, folder, image, states):
    """What an image opens with."""
    write_image(folder, image)
    return opened(program, folder, max(len(rows) for state in states for rows in state.values()) + 1)


def check_image(program, folder, image, states, due, of_what):
    """An image opens with one of the stores that are due."""
    store = store_of(program, folder, image, states)
    if store not in due:
        kept = folder + "-wrong"
        write_image(kept, image)
        wrong(f"{of_what}: {kept} opens as {store}, and not as one of the {len(due)} stores that are due")


def moments(program, work, disk, lines, of_what):
    """Runs a script, and gives each moment at which a call did something to the folder."""
    log = os.path.join(work, "calls")
    status, _ = run(program, disk.home, lines, ("strace", "-f", "-y", "-xx", "-s", "4000000", "-e", f"trace={CALLS}", "-o", log))
    if status:
        wrong(f"{of_what}: status {status}")
    with open(log, encoding="ascii") as calls:
        for number, line in enumerate(calls, 1):
            if "unfinished" in line:
                wrong("calls of several threads")
            if disk.take(line):
                yield f"{of_what}, call {number}"


def check_end(disk, of_what):
    """Behind the last sync there is one image alone."""
    for name, file in disk.files.items():
        if any(file.image(random.Random(at)) != bytes(file.reads) for at in range(20)):
            wrong(f"{of_what}: the last sync left {name} open")


def crash(program, work, seed):
    """Runs a script, opens images of each moment, and then one of them again: how many there were."""
    chance = random.Random(seed)
    script = Script(chance)
    disk, image, made = Disk(os.path.join(work, "home")), os.path.join(work, "image"), []
    for moment in moments(program, work, disk, script.lines, f"seed {seed}"):
        most, least = commits_in({name: file.reads for name, file in disk.files.items()}, script.synced)
        for _ in range(2):
            made.append(disk.image(chance))
            check_image(program, image, made[-1], script.states, script.states[least:most + 1], moment)
    check_end(disk, f"seed {seed}")
    made.append({name: bytes(file.reads) for name, file in disk.files.items()})
    check_image(program, image, made[-1], script.states, script.states[-1:], f"seed {seed}, end")
    shutil.rmtree(disk.home)
    return len(made) + open_again(program, work, chance, chance.choice(made), script.states, f"seed {seed}, opened again")


def open_again(program, work, chance, found, states, of_what):
    """Opens an image, and images of each moment of that: how many there were."""
    disk, image, made = Disk(os.path.join(work, "home")), os.path.join(work, "image"), 0
    store = store_of(program, image, found, states)
    write_image(disk.home, found)
    disk.find(found)
    for moment in moments(program, work, disk, ["s1 list"], of_what):
        for _ in range(3):
            check_image(program, image, disk.image(chance), states, [store], moment)
            made += 1
    check_end(disk, of_what)
    shutil.rmtree(disk.home)
    return made


def bring_back(program, work):
    """Files that are not needed any more, taken out and brought back in every mix: how many mixes there are."""
    home, image = os.path.join(work, "old"), os.path.join(work, "image")
    puts = lambda db, byte: [f"s1 put {db} {hexed(key)} {byte * 1500}" for key in KEYS]
    status, _ = run(program, home, ["s1 create a plain", *puts("a", "31")])
    old = sorted(os.listdir(home))[:-1]
    # a new name, and each record again: no entry of the old files is needed behind a checkpoint
    steps = ["m begin", *["m flush"] * 30, "m finish", "m sync"]
    again, report = run(program, home, ["s1 rename a b", *puts("b", "32"), *steps])
    if status or again or len(old) < 2 or "m ok" not in report[-3]:
        wrong(f"no checkpoint: {report}")
    files = {name: read(home, name) for name in sorted(os.listdir(home))}
    due = [f"{at} s1 ok {hexed(key)} {'32' * 1500}" for at, key in enumerate(KEYS, 1)] + [f"end commits 0 databases 1 records {len(KEYS)}"]
    mixes = [mix for count in range(len(old) + 1) for mix in itertools.combinations(old, count)]
    for gone in mixes:
        write_image(image, {name: bytes_ for name, bytes_ in files.items() if name not in gone})
        status, report = run(program, image, [f"s1 get b {hexed(key)}" for key in KEYS])
        if status or report != due:
            wrong(f"without {gone}: status {status}, {report[:2]}")
    return len(mixes)


def read(folder, name):
    with open(os.path.join(folder, name), "rb") as file:
        return file.read()


def main():
    p = argparse.ArgumentParser(description=__doc__, formatter_class=argparse.RawDescriptionHelpFormatter)
    p.add_argument("--program", default=PROGRAM, help="the program (without it, the one that ./jedb built)")
    p.add_argument("--runs", type=int, default=20, help="how many scripts are run (20)")
    p.add_argument("--seed", type=int, default=1, help="of the first script (1)")
    p.add_argument("--folder", help="where the folders are made, as one in memory")
    args = p.parse_args()
    program = os.path.abspath(args.program)
    if not os.access(program, os.X_OK):
        wrong(f"no program at {args.program}; ./jedb builds it")
    if not shutil.which("strace"):
        wrong("there is no strace: `apt-get install strace`")
    work = tempfile.mkdtemp(prefix="jedb-images-", dir=args.folder)
    made = sum(crash(program, work, seed) for seed in range(args.seed, args.seed + args.runs))
    mixes = bring_back(program, work)
    shutil.rmtree(work)  # a folder in which something was wrong stays
    print(f"{made:,} images of {args.runs} runs open with a first part of the commits; {mixes} mixes of old files open with the same records")


if __name__ == "__main__":
    main()
