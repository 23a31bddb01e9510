#!/usr/bin/env python3
"""Times the heap store beside SQLite in memory, on a table of two INTEGER columns.

    bench/stores.py [--program PROGRAM] [--rows 1000000] [--changes 100000] [--times 3]

The program is crates/sq_store_trials, which is proved and built first unless another is named. Each of its changes is an
`apply` of its own. SQLite does the same work twice: in one statement, and by a prepared statement for each row, which
includes what Python's sqlite3 takes for a call. Milliseconds, the least of so many times; and the bytes of memory for each
row. Run it while nothing else runs.
"""
import argparse
import os
import sqlite3
import subprocess
import tempfile
import time
from pathlib import Path

CRATE = Path(__file__).resolve().parent.parent / "crates" / "sq_store_trials"


def built():
    """The program, proved and built from what earlier checks kept."""
    with tempfile.TemporaryFile() as log:
        subprocess.run(["rt", "run", "--", "0", "0", "0"], cwd=CRATE, stdout=log, stderr=log, check=True)
    return CRATE / "out" / "sq_store_trials"


def heap(program, rows, changes, keys):
    """Milliseconds of each piece of work, by its first name."""
    words = [program, str(rows), str(changes), str(keys), "time"]
    done = subprocess.run(words, stdout=subprocess.PIPE, check=True, text=True)
    figures = {}
    for line in done.stdout.splitlines():
        name, _, micros = line.rsplit(" ", 2)
        figures.setdefault(name, int(micros) / 1000)
    return figures


def memory(program, rows, keys):
    """The greatest memory of a run that inserts and commits so many rows, in bytes."""
    words = ["/usr/bin/time", "-f", "%M", program, str(rows), "0", str(keys), "fill"]
    done = subprocess.run(words, stdout=subprocess.DEVNULL, stderr=subprocess.PIPE, check=True, text=True)
    return int(done.stderr.split()[-1]) * 1024


class Lite:
    """SQLite's table with the same rows and keys."""

    def __init__(self, rows, changes, keys):
        self.rows, self.changes, self.keys = rows, changes, keys
        self.base = sqlite3.connect(":memory:", isolation_level=None)
        # UNIQUE on a column that is no INTEGER PRIMARY KEY has an index of its own, as a key has here.
        words = ["A INTEGER NOT NULL", "B INTEGER NOT NULL"]
        columns = ", ".join(word + (" UNIQUE" if at < keys else "") for at, word in enumerate(words))
        self.base.execute(f"CREATE TABLE T ({columns})")

    def timed(self, work):
        start = time.perf_counter()
        work()
        return (time.perf_counter() - start) * 1000

    def do(self, statement):
        return self.timed(lambda: self.base.execute(statement).fetchall())

    def each(self, statement, values):
        return self.timed(lambda: self.base.executemany(statement, values))

    def numbers(self):
        return f"WITH RECURSIVE N(X) AS (SELECT 0 UNION ALL SELECT X + 1 FROM N WHERE X < {self.rows - 1}) "

    def run(self, in_one):
        rows, changes = self.rows, self.changes
        figures = {}
        self.base.execute("BEGIN")
        if in_one:
            figures["insert"] = self.do(self.numbers() + "INSERT INTO T SELECT X, X FROM N")
        else:
            figures["insert"] = self.each("INSERT INTO T VALUES (?, ?)", ((x, x) for x in range(rows)))
        figures["commit"] = self.do("COMMIT")
        if self.keys and in_one:
            figures["find_key"] = self.do(self.numbers() + f"SELECT sum(T.B) FROM N CROSS JOIN T WHERE T.A = N.X * 7919 % {rows}")
        self.base.execute("BEGIN")
        if in_one:
            figures["replace"] = self.do(f"UPDATE T SET A = A + {rows}, B = B + {rows} WHERE ROWID <= {changes}")
        else:
            moved = ((rows + x, rows + x, x + 1) for x in range(changes))
            figures["replace"] = self.each("UPDATE T SET A = ?, B = ? WHERE ROWID = ?", moved)
        figures["rollback"] = self.do("ROLLBACK")
        figures["walk"] = self.do("SELECT sum(B) FROM T NOT INDEXED")
        self.base.execute("DELETE FROM T WHERE ROWID % 2 = 0")
        figures["walk half"] = self.do("SELECT sum(B) FROM T NOT INDEXED")
        return figures

    def bytes(self):
        size = "SELECT page_count * page_size FROM pragma_page_count(), pragma_page_size()"
        self.base.execute(self.numbers() + "INSERT INTO T SELECT X, X FROM N")
        return self.base.execute(size).fetchone()[0]


def least(times, run):
    """Of each figure the least of so many runs."""
    runs = [run() for _ in range(times)]
    return {name: min(figures[name] for figures in runs) for name in runs[0]}


def shown(figures, name):
    return "%.1f" % figures[name] if name in figures else ""


def compare(program, rows, changes, keys, times):
    ours = least(times, lambda: heap(program, rows, changes, keys))
    one = least(times, lambda: Lite(rows, changes, keys).run(True))
    each = least(times, lambda: Lite(rows, changes, keys).run(False))
    print(f"\n| {rows} rows, {keys} keys, {changes} changes | store | SQLite, one statement | SQLite, a statement for each row |")
    print("|---|---|---|---|")
    for name in ours:
        if keys or name != "find_key":
            print(f"| {name} | {shown(ours, name)} | {shown(one, name)} | {shown(each, name)} |")
    empty = memory(program, 0, keys)
    ours_bytes = (memory(program, rows, keys) - empty) / rows
    print(f"| bytes for a row | {ours_bytes:.0f} | {Lite(rows, changes, keys).bytes() / rows:.0f} | |")


def main():
    words = argparse.ArgumentParser()
    words.add_argument("--program", type=Path)
    words.add_argument("--rows", type=int, default=1_000_000)
    words.add_argument("--changes", type=int, default=100_000)
    words.add_argument("--times", type=int, default=3)
    asked = words.parse_args()
    program = (asked.program or built()).resolve()
    print(f"processors {os.cpu_count()}, SQLite {sqlite3.sqlite_version}")
    for keys in range(3):
        compare(program, asked.rows, asked.changes, keys, asked.times)
    print("\n| Changes, each with its take_back, 1 key | microseconds for each |\n|---|---|")
    for rows in (1_000, asked.rows):
        figures = least(asked.times, lambda: heap(program, rows, 1_000, 1))
        print(f"| at {rows} rows | {figures['attempt']:.2f} |")


main()
