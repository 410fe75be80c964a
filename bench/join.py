#!/usr/bin/env python3
"""Times joins, from CSV to CSV: beside sqlite3 and PostgreSQL, where they are installed, on the same statements.

    bench/join.py [PROGRAM] [FACTOR]

PROGRAM is crates/joinplan/out/joinplan where it isn't given. Each row is divided by FACTOR, which is 1 where it isn't given.
Three tables of one chain of numbers, at 20,000, 100,000 and 400,000 rows each; a star of 200,000 facts with four dimensions of
1,000 rows; and a correlated EXISTS under OR, which no join stands for, over 2,000 by 2,000 rows. For sqlite3 a run imports the
files into memory, asks, and writes CSV; for PostgreSQL, whose server is started first and isn't timed, it copies them into
unlogged tables without indexes, asks, and copies out. Wanted is at most sqlite3's time on each, and at most 300 MiB at 400,000.
"""
import os
import shutil
import subprocess
import sys
import tempfile
from pathlib import Path

from timing import least, peak_memory, program_path, timed


def chain(rows):
    columns = {"m": ("id", "ref")}
    data = {"m": ((number, number + 1) for number in range(1, rows + 1))}
    return f"chain of three, {rows} rows each", columns, data, "SELECT p.id, q.id, r.id FROM m p, m q, m r WHERE p.ref = r.id AND r.ref = q.id"


def star(rows):
    few = 1000
    columns = {"f": ("id", "a", "b", "c", "d"), **{name: ("id", "w") for name in "ghij"}}
    data = {"f": ((n, n % few, n * 7 % few, n * 11 % few, n * 13 % few) for n in range(rows))}
    data |= {name: ((n, n * 3) for n in range(few)) for name in "ghij"}
    asked = "SELECT f.id, g.w, h.w, i.w, j.w FROM f, g, h, i, j WHERE f.a = g.id AND f.b = h.id AND f.c = i.id AND f.d = j.id AND i.w < 1500"
    return f"star of {rows} facts", columns, data, asked


def exists(rows):
    columns = {"p": ("id", "x"), "q": ("pid", "y")}
    data = {"p": ((n, n % 10) for n in range(rows)), "q": ((n * 2, n % 3) for n in range(rows))}
    return f"EXISTS under OR, {rows} by {rows} rows", columns, data, "SELECT p.id FROM p WHERE p.x = 1 OR EXISTS (SELECT 1 FROM q WHERE q.pid = p.id AND q.y > 0)"


def written(folder, columns, data, asked):
    catalogue = "version = 1\n"
    for name, names in columns.items():
        lines = [",".join(map(str, row)) + "\n" for row in data[name]]
        (folder / f"{name}.csv").write_text(",".join(names) + "\n" + "".join(lines), encoding="utf-8")
        listed = ", ".join(f'{{name = "{column}", type = "number"}}' for column in names)
        catalogue += f'[tables.{name}]\nfile = "{name}.csv"\nrows = {len(lines)}\ncolumns = [{listed}]\n'
    (folder / "K").write_text(catalogue, encoding="utf-8")
    (folder / "q.sql").write_text(asked + "\n", encoding="utf-8")


def by_sqlite(folder, columns, asked):
    tables = "".join(
        f"create table {name} ({', '.join(f'{column} integer' for column in names)});\n.import --skip 1 {name}.csv {name}\n" for name, names in columns.items()
    )
    given = f".mode csv\n{tables}.headers on\n{asked};\n".encode()
    return least(["sqlite3", ":memory:"], folder, given)


class Server:
    """A PostgreSQL server of this run's own, over a socket in a folder, or none."""

    def __init__(self, folder):
        self.at = folder / "server"
        self.as_user = ["runuser", "-u", "postgres", "--"] if os.geteuid() == 0 else []
        self.is_there = all(shutil.which(word) for word in ("initdb", "pg_ctl", "psql"))
        if self.is_there:
            os.chmod(folder, 0o755)
            self.at.mkdir(mode=0o777)
            os.chmod(self.at, 0o777)
            self.is_there = self.does(["initdb", "-D", f"{self.at}/data", "-A", "trust"]) and self.does(
                ["pg_ctl", "-D", f"{self.at}/data", "-w", "-l", f"{self.at}/log", "-o", f"-k {self.at} -c listen_addresses='' -c fsync=off", "start"]
            )

    def does(self, words):
        return subprocess.run([*self.as_user, *words], cwd=self.at, capture_output=True, check=False).returncode == 0

    def seconds(self, folder, columns, asked):
        tables = "".join(
            f"drop table if exists {name};\ncreate unlogged table {name} ({', '.join(f'{column} integer' for column in names)});\n\\copy {name} from '{folder}/{name}.csv' csv header\n"
            for name, names in columns.items()
        )
        given = f"set client_min_messages = error;\n{tables}copy ({asked}) to stdout csv header;\n".encode()
        return least([*self.as_user, "psql", "-q", "-h", str(self.at), "-d", "postgres"], folder, given)

    def stop(self):
        if self.is_there:
            self.does(["pg_ctl", "-D", f"{self.at}/data", "-m", "immediate", "stop"])


def main(arguments):
    program = program_path(arguments)
    factor = int(arguments[1]) if len(arguments) > 1 else 1
    with tempfile.TemporaryDirectory() as top:
        server = Server(Path(top))
        for what, columns, data, asked in [*(chain(rows // factor) for rows in (20_000, 100_000, 400_000)), star(200_000 // factor), exists(2_000 // factor)]:
            folder = Path(tempfile.mkdtemp(dir=top))
            os.chmod(folder, 0o755)
            written(folder, columns, data, asked)
            command = [program, "run", "K", "q.sql"]
            lines = timed(command, folder)[1].count(b"\n") - 1
            told = f"{what}, {lines} rows: joinplan {least(command, folder):.2f} s, {peak_memory(command, folder):.0f} MiB"
            if shutil.which("sqlite3"):
                told += f"; sqlite3 {by_sqlite(folder, columns, asked):.2f} s"
            if server.is_there:
                told += f"; PostgreSQL {server.seconds(folder, columns, asked):.2f} s"
            print(told, flush=True)
        server.stop()
    return 0


if __name__ == "__main__":
    sys.exit(main(sys.argv[1:]))
