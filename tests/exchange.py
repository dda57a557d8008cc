#!/usr/bin/env python3
"""Exchanges databases with Berkeley DB's db_dump and db_load, and compares the lines of their pairs.

    ./jedb; python3 tests/exchange.py            builds the program at the first use
    python3 tests/exchange.py --program PATH     another build
    python3 tests/exchange.py --seed 7           other pairs

It needs Debian's package db5.3-util (`apt-get install db5.3-util`); nothing is installed from here. For each kind of database and each
format, 400 pairs are put with `run`, among them an empty key, empty data and bytes of all values. What `dump` prints goes through
db5.3_load into a file, and db5.3_dump has to print the same lines for it; these go through `load` into another folder, from which `dump` has to
print them again.
"""

import argparse
import os
import random
import shutil
import subprocess
import sys
import tempfile

TOP = os.path.dirname(os.path.dirname(os.path.abspath(__file__)))
PROGRAM = os.path.join(TOP, "crates", "jedb", "out", "jedb")
PAIRS = 400


def wrong(text):
    sys.exit(f"exchange: {text}")


def run(words, given=b""):
    """Runs a command, which has to succeed, and gives what it printed."""
    it = subprocess.run(words, input=given, capture_output=True)
    if it.returncode != 0:
        wrong(f"{' '.join(words)}: status {it.returncode}: {it.stdout[-200:]!r} {it.stderr[-200:]!r}")
    return it.stdout


def spelled(data):
    return data.hex() or "-"


def pairs_of(kind, chance):
    """Pairs whose keys are apart in a plain database, and come several times with other data in one with duplicates."""
    keys = [b"", b"\\", b"\x00", b"\xff", b" ", b"\n", bytes(range(256))]
    keys += [chance.randbytes(chance.randrange(12)) for _ in range(PAIRS)]
    if kind == "plain":
        keys = list(dict.fromkeys(keys))
    else:
        keys = [chance.choice(keys[:80]) for _ in range(PAIRS)] + keys[:7]
    data = [b"", bytes(range(256)), b"\\\\", b"\x00\x00"]
    return [(key, chance.choice(data) if chance.random() < 0.2 else chance.randbytes(chance.randrange(40))) for key in keys]


def script_of(kind, pairs):
    lines = [f"s1 create t {kind}", "s1 begin rr sync wait"]
    lines += [f"s1 put t {spelled(key)} {spelled(data)}" for key, data in pairs]
    return "\n".join([*lines, "s1 commit", ""]).encode()


def data_lines(dump):
    """The lines of a dump's pairs."""
    lines = dump.split(b"\n")
    return lines[lines.index(b"HEADER=END") + 1 : lines.index(b"DATA=END")]


def lines_of(kind, pairs, printed):
    """The lines of these pairs as a dump has them, worked out here."""
    held = sorted(set(pairs)) if kind == "dup" else sorted(dict(pairs).items())

    def shown(data):
        if not printed:
            return data.hex().encode()
        plain = lambda b: b"\\\\" if b == 92 else bytes([b]) if 32 <= b < 127 else b"\\%02x" % b
        return b"".join(plain(b) for b in data)

    return [b" " + shown(part) for pair in held for part in pair]


def same(what, found, wanted):
    if found != wanted:
        at = next((i for i, (a, b) in enumerate(zip(found, wanted)) if a != b), min(len(found), len(wanted)))
        wrong(f"{what}: {len(found)} lines for {len(wanted)}; the first that differs is {at}: {found[at:at + 1]} for {wanted[at:at + 1]}")


def exchange(program, kind, printed, chance, place):
    home, file = os.path.join(place, "home"), os.path.join(place, "file.db")
    pairs = pairs_of(kind, chance)
    run([program, "run", "--home", home], script_of(kind, pairs))
    dump = run([program, "dump", "--home", home, "--db", "t"] + ["--print"] * printed)
    what = f"{kind}, {'print' if printed else 'bytevalue'}"
    wanted = lines_of(kind, pairs, printed)
    same(f"{what}: dump", data_lines(dump), wanted)
    run(["db5.3_load", file], dump)
    back = run(["db5.3_dump"] + ["-p"] * printed + [file])
    same(f"{what}: db5.3_dump", data_lines(back), wanted)
    count, load = len(wanted) // 2, [program, "load", "--home", os.path.join(place, "other"), "--db", "t"]
    for words, text in ((load, b"loaded %d kept 0\n" % count), (load + ["--no-overwrite"], b"loaded 0 kept %d\n" % count)):
        said = run(words, back)
        if said != text:
            wrong(f"{what}: load: {said!r} for {text!r}")
    same(f"{what}: load", data_lines(run([program, "dump", *load[2:]] + ["--print"] * printed)), wanted)
    return count


def main():
    parser = argparse.ArgumentParser()
    parser.add_argument("--program", default=PROGRAM)
    parser.add_argument("--seed", type=int, default=1)
    args = parser.parse_args()
    for name in ("db5.3_load", "db5.3_dump"):
        if not shutil.which(name):
            wrong(f"{name} is not in the path: apt-get install db5.3-util")
    chance, count = random.Random(args.seed), 0
    for kind in ("plain", "dup"):
        for printed in (False, True):
            with tempfile.TemporaryDirectory() as place:
                count += exchange(os.path.abspath(args.program), kind, printed, chance, place)
    print(f"exchange: {count} pairs in 4 databases went to Berkeley DB and came back the same")


if __name__ == "__main__":
    main()
