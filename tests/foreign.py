#!/usr/bin/env python3
"""Runs the built program on folders that are not its own, and checks that it refuses each and changes nothing there.

    ./jedb; python3 tests/foreign.py             builds the program at the first use
    python3 tests/foreign.py --program PATH      another build
    python3 tests/foreign.py --without-je        no folder of Berkeley DB Java Edition, only folders made by hand

A folder of Berkeley DB Java Edition is made by that program itself. This needs Debian's packages libdb-je-java and
default-jdk-headless (`apt-get install` them); nothing is installed from here. It is opened by that program again afterwards.
The other folders have its lock file alone, or under a log file's name a symbolic link, a folder, a pipe or a device. One is locked by
another process, as each is that the program has open.
"""

import argparse
import fcntl
import hashlib
import os
import shutil
import stat
import subprocess
import sys
import tempfile

TOP = os.path.dirname(os.path.dirname(os.path.abspath(__file__)))
PROGRAM = os.path.join(TOP, "crates", "jedb", "out", "jedb")
JAR = "/usr/share/java/db-je.jar"
SCRIPT = b"s1 create t plain\ns1 put t 61 31\nm sync\n"
REFUSED = (4, b"fault disk\n")

# Puts a record into an environment, which it makes at the first call, or reads it.
JAVA = """
import com.sleepycat.je.*;
import java.io.File;

public class OneRecord {
    public static void main(String[] words) throws DatabaseException {
        EnvironmentConfig how = new EnvironmentConfig();
        how.setAllowCreate(true);
        Environment environment = new Environment(new File(words[1]), how);
        DatabaseConfig kind = new DatabaseConfig();
        kind.setAllowCreate(true);
        Database database = environment.openDatabase(null, "fruit", kind);
        DatabaseEntry key = new DatabaseEntry("apple".getBytes()), data = new DatabaseEntry("12".getBytes());
        if (words[0].equals("put")) {
            database.put(null, key, data);
        } else {
            data = new DatabaseEntry();
            OperationStatus found = database.get(null, key, data, null);
            System.out.println(found + " " + new String(data.getData()));
        }
        database.close();
        environment.close();
    }
}
"""


def wrong(text):
    sys.exit(f"foreign: {text}")


def run(program, home):
    ran = subprocess.run([program, "run", "--home", home], input=SCRIPT, capture_output=True, check=False, timeout=60)
    return ran.returncode, ran.stdout


def state_of(folder):
    """All that is in a folder and below: each path, its type, size, time and bytes. No link is followed."""
    found = {}
    for at, folders, files in os.walk(folder):
        for name in folders + files:
            path = os.path.join(at, name)
            held = os.lstat(path)
            text = os.readlink(path) if stat.S_ISLNK(held.st_mode) else hashlib.sha256(bytes_of(path)).hexdigest() if stat.S_ISREG(held.st_mode) else ""
            found[os.path.relpath(path, folder)] = (held.st_mode, held.st_size, held.st_mtime_ns, text)
    return found


def bytes_of(path):
    with open(path, "rb") as file:
        return file.read()


def write(path, bytes_):
    with open(path, "wb") as file:
        file.write(bytes_)


def made_by_hand(program, work):
    """Folders that are not ours: the name of each and its path. What links name stands in `work` too."""
    write(os.path.join(work, "behind"), b"of someone else")
    makers = {
        "its lock file": lambda path: write(os.path.join(path, "je.lck"), b""),
        "its lock file, and a log as it writes": lambda path: [write(os.path.join(path, "je.lck"), b""), write(log_in(path), bytes(range(256)) * 8)],
        "its lock file beside our log": lambda path: [run(program, path), write(os.path.join(path, "je.lck"), b"")],
        "a folder as its lock file": lambda path: os.mkdir(os.path.join(path, "je.lck")),
        "a symbolic link": lambda path: os.symlink("../behind", log_in(path)),
        "a symbolic link to nothing": lambda path: os.symlink("../nothing", log_in(path)),
        "a symbolic link to a folder": lambda path: os.symlink("..", log_in(path)),
        "a symbolic link behind our log": lambda path: [run(program, path), os.symlink("../behind", log_in(path, 1))],
        "a folder": lambda path: os.mkdir(log_in(path)),
        "a pipe": lambda path: os.mkfifo(log_in(path)),
        "a link to a device": lambda path: os.symlink("/dev/null", log_in(path, 7)),
    }
    for number, (name, make) in enumerate(makers.items()):
        path = os.path.join(work, f"folder{number}")
        os.mkdir(path)
        make(path)
        yield name, path


def locked(program, work):
    """A folder of ours is refused while this process has its lock, and taken afterwards."""
    home = os.path.join(work, "locked")
    if run(program, home)[0] != 0:
        wrong("a new folder is not taken")
    handle = os.open(home, os.O_RDONLY)
    fcntl.flock(handle, fcntl.LOCK_EX)
    refused(program, work, "a locked folder", home)
    os.close(handle)
    if run(program, home)[0] != 0:
        wrong("a folder is not taken whose lock is free")


def log_in(path, number=0):
    return os.path.join(path, f"{number:08x}.jdb")


def refused(program, work, name, home):
    before = state_of(work)
    told = run(program, home)
    if told != REFUSED:
        wrong(f"{name}: told {told}, and not {REFUSED}")
    after = state_of(work)
    changed = sorted(path for path in before.keys() | after.keys() if before.get(path) != after.get(path))
    if changed:
        wrong(f"{name}: changed {changed}")


class Java:
    """Berkeley DB Java Edition, by a program of its own."""

    def __init__(self, jar, work):
        self.jar, self.source = jar, os.path.join(work, "OneRecord.java")
        write(self.source, JAVA.encode())

    def tell(self, word, home):
        ran = subprocess.run(["java", "-cp", self.jar, self.source, word, home], capture_output=True, text=True, check=False)
        if ran.returncode != 0:
            wrong(f"java answers {ran.returncode}: {ran.stderr[-500:]}")
        return ran.stdout


def check_java(jar):
    if not shutil.which("java") or not os.path.exists(jar):
        wrong(f"there is no java or no {jar}: `apt-get install libdb-je-java default-jdk-headless`, or give --without-je")


def read_args():
    p = argparse.ArgumentParser(description=__doc__, formatter_class=argparse.RawDescriptionHelpFormatter)
    p.add_argument("--program", default=PROGRAM, help="the program (without it, the one that ./jedb built)")
    p.add_argument("--jar", default=JAR, help="of Berkeley DB Java Edition")
    p.add_argument("--without-je", action="store_true", help="only folders that are made by hand")
    return p.parse_args()


def main():
    args = read_args()
    program = os.path.abspath(args.program)
    if not os.access(program, os.X_OK):
        wrong(f"no program at {args.program}; ./jedb builds it")
    if not args.without_je:
        check_java(args.jar)
    with tempfile.TemporaryDirectory(prefix="jedb-foreign-") as work:
        folders = list(made_by_hand(program, work))
        for name, home in folders:
            refused(program, work, name, home)
        print(f"{len(folders)} folders made by hand are refused, and nothing in them is changed")
        locked(program, work)
        print("so is a folder that another process has locked, until it lets it go")
        if args.without_je:
            return
        java, home = Java(args.jar, work), os.path.join(work, "environment")
        os.mkdir(home)
        java.tell("put", home)
        files = sorted(os.listdir(home))
        if "je.lck" not in files or "00000000.jdb" not in files:
            wrong(f"an environment has {files}")
        refused(program, work, "its own environment", home)
        told = java.tell("get", home)
        if told != "OperationStatus.SUCCESS 12\n":
            wrong(f"afterwards it reads {told!r}")
        print("so is an environment of Berkeley DB Java Edition, which it opens again")


if __name__ == "__main__":
    main()
