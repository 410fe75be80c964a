#!/usr/bin/env python3
"""Times `check` on a table of a million records with a primary key, beside sqlite3's import into a table with the same
key where it is installed.

    bench/keys.py [PROGRAM] [RECORDS]

PROGRAM is crates/joinplan/out/joinplan where it isn't given. The keys stand in a shuffled order.
"""
import os
import random
import shutil
import sys
import tempfile
from pathlib import Path

from timing import least, peak_memory, program_path

CATALOGUE = """version = 1
[tables.t]
file = "t.csv"
rows = 1000000
columns = [{name = "id", type = "number"}, {name = "a", type = "number"}, {name = "b", type = "number"}]
primary_key = ["id"]
"""


def make_table(path, records):
    numbers = random.Random(7)
    keys = list(range(1, records + 1))
    numbers.shuffle(keys)
    with open(path, "w", encoding="ascii") as table:
        table.write("id,a,b\n")
        for key in keys:
            table.write(f"{key},{numbers.randrange(1000000)},{numbers.randrange(1000000)}\n")


def main(arguments):
    program = program_path(arguments)
    records = int(arguments[1]) if len(arguments) > 1 else 1000000
    with tempfile.TemporaryDirectory() as folder:
        make_table(Path(folder) / "t.csv", records)
        (Path(folder) / "K").write_text(CATALOGUE)
        size = os.path.getsize(Path(folder) / "t.csv") / 2**20
        command = [program, "check", "K"]
        ours = least(command, folder)
        memory = peak_memory(command, folder)
        print(f"joinplan check: {records} records, {size:.1f} MiB: {ours:.2f} s, {memory:.0f} MiB peak, {memory / size:.1f} times the file")
        if shutil.which("sqlite3") is None:
            print("sqlite3 isn't installed: no ratio")
            return 0
        given = b".mode csv\ncreate table t (id integer primary key, a integer, b integer);\n.import --skip 1 t.csv t\n"
        theirs = least(["sqlite3", ":memory:"], folder, given)
        print(f"sqlite3 .import: {theirs:.2f} s; joinplan takes {ours / theirs:.2f} of it")
    return 0


if __name__ == "__main__":
    sys.exit(main(sys.argv[1:]))
