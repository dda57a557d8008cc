#!/usr/bin/env python3
"""Kills the built program in the middle of puts, again and again on one folder, and checks that the folder opens with every
acknowledged put.

    ./jedb; python3 tests/kill.py               builds the program at the first use; then 50 rounds
    python3 tests/kill.py --rounds 5 --seed 7   fewer, with other moments
    python3 tests/kill.py --program PATH        another build

A round starts the program on a script of puts, stops it at a random moment, and kills it there (SIGKILL). The report is printed
after the last call, so a killed run prints none. But a put's bytes are written only after the sync of the put before has
ended, and that is when the put before is acknowledged. So the bytes that the process has written (wchar of /proc/PID/io, read
while it is stopped) tell how many puts were acknowledged at least: as many as these bytes have commits, images of nodes that were
split between them. Then the folder is opened, and the round's keys are read:
the first of them must be there, at least as many as were acknowledged, each with its data, and no others; and the records of
all rounds must be there. Every second round has small files, so that the log goes on in next files while it is killed.

A put survives such a kill once it is written, since the system keeps what was written. A crash of the system is not tried.
"""

import argparse
import hashlib
import os
import random
import shutil
import signal
import struct
import subprocess
import sys
import tempfile
import time
import zlib

TOP = os.path.dirname(os.path.dirname(os.path.abspath(__file__)))
PROGRAM = os.path.join(TOP, "crates", "jedb", "out", "jedb")

HEADER = 26  # the bytes of a file's header
PUT = 30 + 8 + 32 + 22  # those of a put's entry with 8 bytes of key and 32 of data, and of its commit
HEAD = struct.Struct(">IBBII")  # of an entry: the checksum of what follows, the kind, flags, the entry before, and the body's size
COMMIT = 5  # the kind of a commit
PUTS = 20_000  # in the script of a round: more than a round comes to
ROOM = 1 << 20  # the disk sets room aside behind the last file's entries up to a multiple of this
SMALL_FILES = ("--file-max", "100000")


def key_of(round_, number):
    return struct.pack(">II", round_, number)


def data_of(key):
    return hashlib.sha256(key).digest()


def entries_of(bytes_, at):
    """The kinds and sizes of a file's entries from a place on, up to the first that is none."""
    while at + HEAD.size <= len(bytes_):
        sum_, kind, _, _, body = HEAD.unpack_from(bytes_, at)
        size = HEAD.size + body
        if at + size > len(bytes_) or zlib.adler32(bytes_[at + 4:at + size]) != sum_:
            return
        yield kind, size
        at += size


def wrong(text):
    sys.exit(f"kill: {text}")


class Folder:
    """An environment, and how many puts of each round it has."""

    def __init__(self, program, work):
        self.program, self.work, self.home = program, work, os.path.join(work, "home")
        self.found = []
        self.acknowledged = self.rooms = 0
        self.read("s1 create t plain\n", ["1 s1 ok", "end commits 1 databases 1 records 0"])

    def args(self, options=()):
        return [self.program, "run", "--home", self.home, *options]

    def path(self, name, text):
        path = os.path.join(self.work, name)
        with open(path, "w", encoding="ascii") as file:
            file.write(text)
        return path

    def read(self, script, want):
        """Runs a script to its end: the lines of its report, which are these where they are given."""
        with open(self.path("script", script), encoding="ascii") as lines:
            ran = subprocess.run(self.args(), stdin=lines, capture_output=True, text=True, check=False)
        report = ran.stdout.splitlines()
        if ran.returncode != 0 or (want is not None and report != want):
            wrong(f"status {ran.returncode}: {report[-3:]}, and not {want}")
        return report

    def files(self):
        return sorted(it for it in os.listdir(self.home) if it.endswith(".jdb"))

    def bytes_of(self, name):
        with open(os.path.join(self.home, name), "rb") as file:
            return file.read()

    def end(self):
        """Where the log ends: its last file, and the place behind the last entry there."""
        name = self.files()[-1]
        return name, sum(size for _, size in entries_of(self.bytes_of(name), 0))

    def commits(self, start, written):
        """How many commits the bytes have that were written from a place on."""
        commits = 0
        for name in self.files():
            if name < start[0]:
                continue
            for kind, size in entries_of(self.bytes_of(name), start[1] if name == start[0] else 0):
                written -= size
                if written < 0:
                    return commits
                commits += kind == COMMIT
        return commits

    def has_room(self):
        """Whether the last file has zeros behind its entries, as it was left by the kill."""
        path = os.path.join(self.home, self.files()[-1])
        size = os.path.getsize(path)
        with open(path, "rb") as file:
            file.seek(max(size - PUT, 0))
            return size % ROOM == 0 and not any(file.read())

    def kill_in_puts(self, round_, wait, options):
        """Kills a run so many seconds after its first put was written: how many puts it had written."""
        puts = "".join(f"s1 put t {key.hex()} {data_of(key).hex()}\n" for key in (key_of(round_, it) for it in range(PUTS)))
        start = self.end()
        with open(self.path("puts", puts), encoding="ascii") as lines, open(os.path.join(self.work, "report"), "wb") as report:
            run = subprocess.Popen(self.args(options), stdin=lines, stdout=report)
            try:
                while run.poll() is None and written_by(run.pid) < HEADER + PUT:
                    time.sleep(0.001)
                time.sleep(wait)
                if run.poll() is not None:
                    wrong(f"round {round_}: the run ended by itself, with status {run.returncode}")
                run.send_signal(signal.SIGSTOP)
                os.waitid(os.P_PID, run.pid, os.WSTOPPED | os.WNOWAIT)
                written = written_by(run.pid)
            finally:
                run.kill()
                run.wait()
        return self.commits(start, written)

    def check(self, round_, written):
        """Opens the folder, and reads the keys of a round around the place where it was killed."""
        keys = [key_of(round_, it) for it in range(written + 2)]
        report = self.read("".join(f"s1 get t {it.hex()}\n" for it in keys), None)
        found = sum(line.split()[2] == "ok" for line in report[:-1])
        lines = [f"{at + 1} s1 ok {key.hex()} {data_of(key).hex()}" if at < found else f"{at + 1} s1 notfound" for at, key in enumerate(keys)]
        total = f"end commits 0 databases 1 records {sum(self.found) + found}"
        if report != [*lines, total]:
            at = next(it for it, (line, want) in enumerate(zip(report, [*lines, total])) if line != want)
            wrong(f"round {round_}: '{report[at]}', and not '{[*lines, total][at]}'")
        if not written - 1 <= found <= written + 1:
            wrong(f"round {round_}: {written} puts were written, so {written - 1} were acknowledged, and {found} are there")
        self.found.append(found)
        self.acknowledged += max(written - 1, 0)

    def round(self, round_, wait, options):
        written = self.kill_in_puts(round_, wait, options)
        self.rooms += self.has_room()
        self.check(round_, written)

    def check_all(self):
        """Reads every put of every round once more."""
        for round_, found in enumerate(self.found):
            keys = [key_of(round_, it) for it in range(found)]
            lines = [f"{at + 1} s1 ok {key.hex()} {data_of(key).hex()}" for at, key in enumerate(keys)]
            self.read("".join(f"s1 get t {it.hex()}\n" for it in keys), [*lines, f"end commits 0 databases 1 records {sum(self.found)}"])


def written_by(pid):
    """How many bytes a process has written; 0 where it has ended."""
    try:
        with open(f"/proc/{pid}/io", encoding="ascii") as lines:
            return next(int(line.split()[1]) for line in lines if line.startswith("wchar:"))
    except (OSError, StopIteration):
        return 0


def read_args():
    p = argparse.ArgumentParser(description=__doc__, formatter_class=argparse.RawDescriptionHelpFormatter)
    p.add_argument("--program", default=PROGRAM, help="the program (without it, the one that ./jedb built)")
    p.add_argument("--rounds", type=int, default=50, help="how often it is killed (50)")
    p.add_argument("--seed", type=int, default=1, help="of the moments at which it is killed (1)")
    p.add_argument("--longest", type=float, default=0.3, help="the longest time from the first put to the kill, in seconds (0.3)")
    p.add_argument("--disk", default=os.path.join(TOP, "tests", "build"), help="a folder on disk (tests/build)")
    return p.parse_args()


def main():
    args = read_args()
    if not os.access(args.program, os.X_OK):
        wrong(f"no program at {args.program}; ./jedb builds it")
    moments = random.Random(args.seed)
    os.makedirs(args.disk, exist_ok=True)
    work = tempfile.mkdtemp(prefix="jedb-kill-", dir=args.disk)
    folder = Folder(os.path.abspath(args.program), work)
    for round_ in range(args.rounds):
        folder.round(round_, moments.uniform(0, args.longest), SMALL_FILES if round_ % 2 else ())
    folder.check_all()
    files = len(folder.files())
    shutil.rmtree(work)  # a folder in which something was wrong stays
    print(f"{args.rounds} kills: {folder.acknowledged:,} puts acknowledged at least, {sum(folder.found):,} there, in {files} files; room behind the last file {folder.rooms} times")


if __name__ == "__main__":
    main()
