#!/usr/bin/env python3
"""Measures the built program, and prints one table. bench/README.md says what is measured.

    python3 bench/bench.py                      all of it
    python3 bench/bench.py --quick              a tenth of the sizes, two turns
    python3 bench/bench.py --bdb COMMAND        beside a driver of Berkeley DB, on the same scripts
"""

import argparse
import math
import os
import shlex
import shutil
import statistics
import sys
import tempfile

from child import run_child
from scripts import create_scripts, empty_script, get_scripts, index_scripts, level_put_scripts, put_scripts, records_of, scan_scripts

TOP = os.path.dirname(os.path.dirname(os.path.abspath(__file__)))
PROGRAM = os.path.join(TOP, "crates", "jedb", "out", "jedb")
LOCKS = os.path.join(TOP, "crates", "lock_bench", "out", "lock_bench")
TUNABLES = "GLIBC_TUNABLES"  # by which ./jedb asks for large pages; left as it is

PARTS = ["memory", "disk", "levels", "databases", "indexes", "opening", "files", "locks"]
LEVELS = ["ru", "rc", "rr", "ser"]
PROCESSORS = sorted(os.sched_getaffinity(0))
MANY_FILES = ("--file-max", "100000")

# the case of lock_bench, the case whose time is taken off it, the sizes, and how many locks one of a size is
LOCK_CASES = [("own", None, (25_000, 100_000), 1), ("many", None, (250, 1_000), 100), ("chain", "made", (1_000, 4_000), 1)]


def say(text):
    print(text, file=sys.stderr, flush=True)


class System:
    """A program that takes `run --home DIR < script`, on one processor of the turn or on all."""

    def __init__(self, name, args, on_all=False):
        self.name, self.args, self.on_all = name, args, on_all

    def run(self, home, scripts, work, options=()):
        """Runs scripts on a folder, one after another: their seconds, and the greatest peak memory."""
        report, seconds, peak = os.path.join(work, "report"), 0.0, 0
        for script in scripts:
            processors = PROCESSORS if self.on_all else os.sched_getaffinity(0)
            ran = run_child([*self.args, "run", "--home", home, *options], script.path, report, processors)
            wrong = script.first_wrong_line(report)
            if ran.status != 0 or wrong is not None:
                sys.exit(f"bench: {self.name}: {script.path}: status {ran.status}, the report is wrong at: {wrong}")
            seconds, peak = seconds + ran.seconds, max(peak, ran.peak)
        return seconds, peak


class Case:
    """One work at one size: what each turn of it took, and what the same without the work took."""

    def __init__(self, work, size, per_line=1):
        self.work, self.size, self.lines = work, size, size * per_line
        self.system, self.beside, self.log, self.runs = "jedb", None, 0, 1
        self.wholes, self.bases = [], []

    def turn(self):
        for _ in range(self.runs):
            base, whole = self.once()
            self.bases.append(base)
            self.wholes.append(whole)

    def seconds_of(self, times=slice(None)):
        """The least time less the least of the base. It is never nothing, since a logarithm is taken of it."""
        return max(min(it[0] for it in self.wholes[times]) - min(it[0] for it in self.bases[times]), 1e-6)

    def turns(self):
        return [self.seconds_of(slice(at, at + self.runs)) for at in range(0, len(self.wholes), self.runs)]

    def memory(self):
        return max(it[1] for it in self.wholes) - max(it[1] for it in self.bases)


class StoreCase(Case):
    """Puts into new folders, gets from a folder or a scan of it, an index made of its records (fill), or an empty script on it (reopen).
    With a level, the puts or the scan are one transaction."""

    def __init__(self, bench, folder, work, size, system, names=("t",), options=(), note="", indexes=0, level=None):
        super().__init__(work + note, size)
        self.bench, self.folder, self.kind, self.program, self.options = bench, folder, work, system, options
        self.system = system.name
        self.create, self.puts = create_scripts(bench.work, names), put_scripts(bench.work, bench.records(size), names, indexes)
        self.create += index_scripts(bench.work, names[0], 0) if indexes else []
        self.index = index_scripts(bench.work, names[0], size) if work == "fill" else []
        self.gets = get_scripts(bench.work, bench.records(size), names[0]) if work == "get" else []
        if level and work == "put":
            self.puts = level_put_scripts(bench.work, bench.records(size), names[0], level)
        elif level:
            self.gets = scan_scripts(bench.work, bench.records(size), names[0], level)
        self.bare = self.full = None

    def ran(self, home, scripts):
        return self.program.run(home, scripts, self.bench.work, self.options)

    def made(self, *scripts):
        home = tempfile.mkdtemp(dir=self.folder)
        for it in scripts:
            self.ran(home, it)
        return home

    def once(self):
        empty = [self.bench.empty]
        if self.kind == "put":
            home = self.made(self.create)
            times = self.ran(home, empty), self.ran(home, self.puts)
            self.log = sum(os.path.getsize(os.path.join(at, name)) for at, _, names in os.walk(home) for name in names)
            shutil.rmtree(home)
            return times
        if self.kind == "fill":
            home = self.made(self.create, self.puts)
            times = self.ran(home, empty), self.ran(home, self.index)
            shutil.rmtree(home)
            return times
        if self.full is None:
            self.bare, self.full = self.made(self.create), self.made(self.create, self.puts)
        return (self.ran(self.full, empty), self.ran(self.full, self.gets)) if self.gets else (self.ran(self.bare, empty), self.ran(self.full, empty))


class LockCase(Case):
    def __init__(self, bench, case, base, size, each):
        super().__init__("locks: " + case, size, each)
        self.case, self.report = case, os.path.join(bench.work, "report")
        self.base, self.base_size = base or case, size if base else 0

    def ran(self, case, size, count):
        ran = run_child([LOCKS, case, str(size)], os.devnull, self.report, os.sched_getaffinity(0))
        with open(self.report, encoding="ascii") as report:
            printed = report.read().strip()
        if ran.status != 0 or printed != str(count):
            sys.exit(f"bench: lock_bench {case} {size}: status {ran.status}, {printed} for {count}")
        return ran.seconds, ran.peak

    def once(self):
        return self.ran(self.base, self.base_size, 0), self.ran(self.case, self.size, self.size + 1 if self.case == "chain" else self.lines)


class Bench:
    def __init__(self, args, systems, work):
        self.args, self.systems, self.work = args, systems, work
        self.empty, self.known = empty_script(work), {}
        self.scale = 10 if args.quick else 1
        self.turns = args.turns or (2 if args.quick else 0)

    def records(self, count):
        return self.known.setdefault(count, records_of(count))

    def sizes(self, *sizes):
        return [it // self.scale for it in sizes]

    def measured(self, cases, turns):
        """Runs the cases in turns: all of a turn on one processor, the next turn on the next, as many lines of each size."""
        most = {case.work: max(it.size for it in cases if it.work == case.work) for case in cases}
        for case in cases:
            case.runs = most[case.work] // case.size
        for turn in range(self.turns or turns):
            os.sched_setaffinity(0, {PROCESSORS[turn % len(PROCESSORS)]})
            for case in cases:
                say(f"{case.system}: {case.work}, {case.size:,}, turn {turn + 1}")
                case.turn()
        return cases

    def part(self, part, folder):
        """The cases of a part, and how many turns they take."""
        own = self.systems[0]
        store = lambda work, size, system=own, **more: StoreCase(self, folder, work, size, system, **more)
        if part in ("memory", "disk"):
            works = ["put", "get", "reopen"]
            return [store(work, size, it) for work in works for it in self.systems for size in self.sizes(40_000, 80_000, 160_000)], 20 if part == "memory" else 5
        if part == "levels":
            size = self.sizes(100_000)[0]
            return [store(work, size, it, level=level, note=f", {level}") for work in ("put", "scan") for level in LEVELS for it in self.systems], 5
        if part == "opening":
            return [store("reopen", size) for size in self.sizes(250_000, 500_000, 1_000_000)], 20
        if part == "files":
            few, many = (store("put", self.sizes(160_000)[0], options=it, note=note) for it, note in (((), ""), (MANY_FILES, ", small files")))
            many.beside = few
            return [few, many], 5
        if part == "indexes":
            size = self.sizes(100_000)[0]
            plain, indexed, filled = store("put", size), store("put", size, indexes=1, note=", an index"), store("fill", size)
            indexed.beside = filled.beside = plain
            return [plain, indexed, filled], 5
        if part == "databases":
            names, size = [f"d{it}" for it in range(self.sizes(1_000)[0])], self.sizes(100_000)[0]
            pairs = [(store(work, size), store(work, size, names=names, note=f", {len(names):,} databases")) for work in ("put", "reopen")]
            for one, many in pairs:
                many.beside = one
            return [it for pair in pairs for it in pair], 5
        return [LockCase(self, case, base, size, each) for case, base, sizes, each in LOCK_CASES for size in sizes], 25


def exponent(points):
    """The slope of log time over log size, by least squares."""
    logs = [(math.log(size), math.log(seconds)) for size, seconds in points]
    x, y = (sum(it[at] for it in logs) / len(logs) for at in (0, 1))
    return sum((a - x) * (b - y) for a, b in logs) / sum((a - x) ** 2 for a, _ in logs)


def rows_of(part, cases):
    """A row for each case. The last size of a work has the exponents: the median of those of the turns, and that of the least times."""
    for case in cases:
        alike = [it for it in cases if (it.system, it.work) == (case.system, case.work)]
        against = case.beside or next((it for it in cases if it.system == "jedb" != case.system and (it.work, it.size) == (case.work, case.size)), None)
        seconds, exponents = case.seconds_of(), ""
        if len(alike) > 1 and case is alike[-1]:
            turns = zip(*(it.turns() for it in alike))
            middle = statistics.median(exponent(zip([it.size for it in alike], times)) for times in turns)
            exponents = f"{middle:.2f}, {exponent([(it.size, it.seconds_of()) for it in alike]):.2f}"
        yield [part, case.work, case.system, f"{case.size:,}", f"{seconds:.4f}", f"{case.lines / seconds:,.0f}", f"{case.memory() / case.lines:,.0f}",
               f"{case.log:,}" if case.log else "", exponents, f"{seconds / against.seconds_of():.2f}" if against else ""]


def read_args():
    p = argparse.ArgumentParser(description=__doc__, formatter_class=argparse.RawDescriptionHelpFormatter)
    p.add_argument("--program", default=PROGRAM, help="the program (without it, the one that ./jedb built)")
    p.add_argument("--quick", action="store_true", help="a tenth of the sizes, two turns")
    p.add_argument("--turns", type=int, help="how many turns each case takes")
    p.add_argument("--only", choices=PARTS, action="append", help="a part; repeat it for more")
    p.add_argument("--memory", default="/dev/shm", help="a folder in memory (/dev/shm)")
    p.add_argument("--disk", default=os.path.join(TOP, "bench", "build"), help="a folder on disk (bench/build)")
    p.add_argument("--bdb", default=os.environ.get("JEDB_BENCH_BDB", ""), help="command of a driver of Berkeley DB")
    p.add_argument("--je", default=os.environ.get("JEDB_BENCH_JE", ""), help="command of a driver of Berkeley DB Java Edition")
    return p.parse_args()


def main():
    args = read_args()
    parts = args.only or [it for it in PARTS if it != "locks" or os.access(LOCKS, os.X_OK)]
    for program, hint in ((args.program, "run ./jedb once"), *([(LOCKS, "`rt run` in crates/lock_bench")] if "locks" in parts else [])):
        if not os.access(program, os.X_OK):
            sys.exit(f"bench: no program at {program}; {hint} builds it")
    systems = [System("jedb", [os.path.abspath(args.program)])]
    systems += [System("bdb", shlex.split(args.bdb))] if args.bdb else []
    systems += [System("je", shlex.split(args.je), on_all=True)] if args.je else []  # a Java machine compiles and collects beside its program
    if TUNABLES in os.environ:
        print(f"{TUNABLES}={os.environ[TUNABLES]}\n")
    os.makedirs(args.disk, exist_ok=True)
    rows = [["part", "work", "system", "N", "net s", "a second", "bytes each", "log bytes", "exponents", "ratio"]]
    with tempfile.TemporaryDirectory(prefix="jedb-bench-", dir=args.memory) as work:
        bench = Bench(args, systems, work)
        for part in parts:
            with tempfile.TemporaryDirectory(prefix="jedb-bench-", dir=args.disk if part == "disk" else args.memory) as folder:
                rows += rows_of(part, bench.measured(*bench.part(part, folder)))
    widths = [max(len(row[at]) for row in rows) for at in range(len(rows[0]))]
    for row in rows:
        print("  ".join([*(cell.ljust(width) for cell, width in zip(row[:3], widths)), *(cell.rjust(width) for cell, width in zip(row[3:], widths[3:]))]).rstrip())


if __name__ == "__main__":
    main()
