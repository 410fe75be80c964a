#!/usr/bin/env python3
"""Times the program on filters over tables of a million rows, beside sqlite3 where it is installed.

    bench/filter.py [PROGRAM] [ROWS]

PROGRAM is crates/joinplan/out/joinplan where it isn't given. The one table has three columns of numbers, the other a
number and a text. Prints for each filter the seconds and the peak memory of the run; of sqlite3 the seconds of .import
with the same query, and the ratio.
"""
import os
import random
import shutil
import sys
import tempfile
from pathlib import Path

from timing import least, peak_memory, program_path, timed

TABLES = {
    "numbers": [("a", "number"), ("b", "number"), ("c", "number")],
    "texts": [("a", "number"), ("name", "text")],
}
FILTERS = [
    ("numbers", "one row in a hundred", "b >= 9910000"),
    ("numbers", "no row", "b >= 99999999"),
    ("texts", "equal texts, one row in a thousand", "name = 'customer-000123-of-the-region'"),
    ("texts", "equal texts, no row", "name = 'customer-nobody-of-the-region'"),
]
SQLITE_TYPES = {"number": "integer", "text": "text"}


def catalogue(rows):
    lines = ["version = 1"]
    for table, columns in TABLES.items():
        listed = ", ".join(f'{{name = "{name}", type = "{kind}"}}' for name, kind in columns)
        lines += [f"[tables.{table}]", f'file = "{table}.csv"', f"rows = {rows}", f"columns = [{listed}]"]
    return "\n".join(lines) + "\n"


def field(kind, numbers):
    if kind == "number":
        return str(numbers.randrange(1000000, 10000000))
    return f"customer-{numbers.randrange(1000):06}-of-the-region"


def make_table(path, columns, rows):
    numbers = random.Random(7)
    with open(path, "w", encoding="ascii") as table:
        table.write(",".join(name for name, _ in columns) + "\n")
        for _ in range(rows):
            table.write(",".join(field(kind, numbers) for _, kind in columns) + "\n")


def sqlite_seconds(folder, table, condition):
    columns = ", ".join(f"{name} {SQLITE_TYPES[kind]}" for name, kind in TABLES[table])
    given = f".mode csv\ncreate table {table} ({columns});\n.import --skip 1 {table}.csv {table}\nselect a from {table} where {condition};\n"
    return least(["sqlite3", ":memory:"], folder, given.encode())


def measure(program, folder, table, name, condition):
    size = os.path.getsize(Path(folder) / f"{table}.csv") / 2**20
    (Path(folder) / "q.sql").write_text(f"SELECT a FROM {table} WHERE {condition}\n")
    command = [program, "run", "K", "q.sql"]
    seconds = least(command, folder)
    memory = peak_memory(command, folder)
    lines = timed(command, folder)[1].count(b"\n") - 1
    print(f"{table} ({size:.1f} MiB), {name}: {seconds:.2f} s, {memory:.0f} MiB peak, {memory / size:.1f} times the file, {lines} rows")
    if shutil.which("sqlite3") is not None:
        theirs = sqlite_seconds(folder, table, condition)
        print(f"  sqlite3: {theirs:.2f} s with .import; joinplan takes {seconds / theirs:.2f} of it")


def main(arguments):
    program = program_path(arguments)
    rows = int(arguments[1]) if len(arguments) > 1 else 1000000
    with tempfile.TemporaryDirectory() as folder:
        (Path(folder) / "K").write_text(catalogue(rows))
        for table, columns in TABLES.items():
            make_table(Path(folder) / f"{table}.csv", columns, rows)
        for table, name, condition in FILTERS:
            measure(program, folder, table, name, condition)
    return 0


if __name__ == "__main__":
    sys.exit(main(sys.argv[1:]))
