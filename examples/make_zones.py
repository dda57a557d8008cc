#!/usr/bin/env python3
"""Writes the script of examples/zones.script, from the zone table of the tz database.

    python3 examples/make_zones.py [TABLE] > examples/zones.script

TABLE is the file zone.tab; without it, the one that Debian's package tzdata installs. Each zone is a
record: its name is the key, its country code and coordinates are the data.
"""

import sys

TABLE = "/usr/share/zoneinfo/zone.tab"
READ = ["Europe/Berlin", "Asia/Tokyo", "America/New_York", "Africa/Cairo", "Pacific/Auckland"]
NOT_THERE = "Atlantis/Capital"

HEAD = """\
# The time zones of the world: 418 records are put, those with a comment are put again with it, the zones
# of Antarctica are deleted, and some zones are read. Keys are names of zones; data are the country
# code, the coordinates and, in the second put, the comment; all as hexadecimal digits.
#
# The data are those of the file zone.tab of the tz database (Debian's package tzdata), which is in the
# public domain. examples/make_zones.py wrote this script.
#
# Run again on the same folder, create is answered `nametaken`, and the rest as before.
"""


def zones(path):
    """The table's rows: name, country code and coordinates, comment (empty where there is none)."""
    with open(path, encoding="ascii") as table:
        for line in table:
            if line.strip() and not line.startswith("#"):
                code, place, name, *comment = line.rstrip("\n").split("\t")
                yield name, f"{code} {place}", comment[0] if comment else ""


def digits(text):
    return text.encode("ascii").hex()


def script(rows):
    yield "s1 create zones plain"
    yield "# the zones in the order of the table"
    for name, data, _ in rows:
        yield f"s1 put zones {digits(name)} {digits(data)}"
    yield "# those with a comment"
    for name, data, comment in rows:
        if comment:
            yield f"s2 put zones {digits(name)} {digits(data + ' ' + comment)}"
    yield "# the zones of Antarctica"
    for name, _, _ in rows:
        if name.startswith("Antarctica/"):
            yield f"s3 delete zones {digits(name)}"
    yield "# " + ", ".join(READ) + ", a deleted zone, and one that never was"
    deleted = next(name for name, _, _ in rows if name.startswith("Antarctica/"))
    for name in [*READ, deleted, NOT_THERE]:
        yield f"s4 get zones {digits(name)}"


def main():
    rows = list(zones(sys.argv[1] if len(sys.argv) > 1 else TABLE))
    head = HEAD.replace("418", str(len(rows)))
    sys.stdout.write(head + "".join(line + "\n" for line in script(rows)))


if __name__ == "__main__":
    main()
