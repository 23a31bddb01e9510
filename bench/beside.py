#!/usr/bin/env python3
"""Times calls of the built program beside SQLite in C, in the same minute.

    bench/beside.py [--program crates/sqmod/out/sqmod] [--rows 100000] [--times 5]

SQLite's side is bench/beside.c: statements that are prepared once, on a database in memory. `cc` compiles it; it wants libsqlite3-dev.
The program's side reads its script and writes its report in the time that counts. A run that fills the tables alone is taken off; the
C program's clock starts after the filling. Times are of the processor, those in the system included; each is the least of so many runs,
in which the sides take turns. Both sides must give the same numbers in the same order.
"""
import argparse
import resource
import subprocess
import sys
import tempfile
from pathlib import Path
from typing import NamedTuple

import growth
from growth import ELEMENTS, JOINS, Row, answers_in, calls, cursor, keys, one_more, pairs, sums_of, to_themselves, write_texts

ROOT = Path(__file__).resolve().parent.parent
MASK = (1 << 64) - 1


class Work(NamedTuple):
    """A row of the table: the program's texts, and what SQLite does."""
    row: Row
    # The statements of a turn, the values of each turn, and the statements at the end.
    statements: list
    values: list
    last: list = []


def sums(tables):
    return [query.prepared() for query in sums_of(tables)]


def plain(procedures, calls_made, filled):
    return Row(filled, procedures, calls_made, None)


def inserted(n):
    return Work(growth.inserted(n), ["INSERT INTO R VALUES (?1, ?2)"], pairs(n), sums("R"))


def updated(n):
    return Work(growth.updated(n), ["UPDATE R SET A = 5 WHERE K = ?1"], keys(n), sums("R"))


def selected_and_deleted(n):
    procedures = (growth.select_from("R") + "PROCEDURE DEL (SQLCODE, :K INTEGER); DELETE FROM R WHERE K = :K;\n")
    made = calls("ONE ({0}, *); CALL M.DEL ({0})", keys(n), "R")
    return Work(plain(procedures, made, {"R": one_more(n)}),
                ["SELECT A FROM R WHERE K = ?1", "DELETE FROM R WHERE K = ?1"], keys(n), sums("R"))


def fetched(n):
    return Work(growth.fetched(n), [], [], ["SELECT K, A FROM R"])


def fetched_and_updated(n):
    return Work(growth.fetched_and_updated(n), [], [],
                ["SELECT K, A FROM R", "> UPDATE R SET A = A + 1 WHERE K = ?1", *sums("R")])


def updated_all(n):
    procedure = "PROCEDURE UPA (SQLCODE); UPDATE R SET A = A + 1;\n"
    return Work(plain(procedure, calls("UPA", [()] * JOINS, "R"), {"R": pairs(n)}),
                ["UPDATE R SET A = A + 1"], [()] * JOINS, sums("R"))


def rolled_back(n):
    procedures = ("PROCEDURE INS (SQLCODE, :K INTEGER, :A INTEGER); INSERT INTO R VALUES (:K, :A);\n"
                  "PROCEDURE BACK (SQLCODE); ROLLBACK;\n")
    made = "".join(f"CALL M.INS ({key}, {number});\n" for key, number in pairs(n)) + "CALL M.BACK;\n"
    return Work(plain(procedures, made + "CALL M.INS (1, 1);\nCALL F.SUM_R (*, *, *);\n", {}),
                ["INSERT INTO R VALUES (?1, ?2)"], pairs(n), ["ROLLBACK", "INSERT INTO R VALUES (1, 1)", *sums("R")])


def one_query(columns, rest, filled, turns):
    """A SELECT INTO of one number, asked for each of the values."""
    procedure = f"PROCEDURE ONE (SQLCODE, :K INTEGER, :A INTEGER); SELECT {columns} INTO :A {rest.format(':K')};\n"
    return Work(plain(procedure, calls("ONE ({}, *)", turns), filled), [f"SELECT {columns} {rest.format('?1')}"], turns)


def opened(query, filled, fetches, turns):
    """A cursor that is opened for each of the values, and its rows fetched."""
    procedures = (f"DECLARE X CURSOR FOR {query.format(':K')}\nPROCEDURE OPX (SQLCODE, :K INTEGER); OPEN X;\n"
                  "PROCEDURE FEX (SQLCODE, :K INTEGER, :A INTEGER); FETCH X INTO :K, :A;\nPROCEDURE CLX (SQLCODE); CLOSE X;\n")
    made = calls("OPX ({})" + "; CALL M.FEX (*, *)" * fetches + "; CALL M.CLX", turns)
    return Work(plain(procedures, made, filled), [query.format("?1")], turns)


def joined_and_grouped(n):
    query = "SELECT R.A, COUNT(*) FROM P, R WHERE R.K = P.A GROUP BY R.A"
    return opened(query + " ORDER BY 1", {"P": pairs(n), "R": pairs(n)}, min(n, 97), [(0,)])


def found_by_exists(n):
    rest = "FROM P WHERE EXISTS (SELECT K FROM R WHERE R.K = P.A)"
    return Work(growth.found_by_exists(n), [f"SELECT COUNT(*) {rest}"], [()] * JOINS)


def had(n):
    return opened("SELECT A, COUNT(*) FROM P WHERE K = {0} GROUP BY A HAVING A = (SELECT A FROM R WHERE R.K = {0})",
                  {"P": one_more(n), "R": one_more(n)}, 1, keys(n))


def united(n):
    words = "SELECT K, A FROM R WHERE K = {0} UNION SELECT K, 1000 FROM P WHERE K = {0}"
    return opened(words, {"R": one_more(n), "P": one_more(n)}, 2, keys(n))


def viewed(n):
    return one_query("A", "FROM V WHERE K = {}", {"R": one_more(n)}, keys(n))


def nested(n):
    rest = ("FROM P WHERE K = {} AND EXISTS (SELECT K FROM R WHERE R.K = P.A AND EXISTS "
            "(SELECT K FROM C WHERE C.K = R.A AND EXISTS (SELECT P.K FROM P WHERE P.K = C.A)))")
    return one_query("A", rest, {"P": to_themselves(n), "R": to_themselves(n), "C": to_themselves(n)}, keys(n))


WORKS = {
    "INSERT with a key": inserted,
    "UPDATE by key": updated,
    "SELECT INTO and DELETE by key": selected_and_deleted,
    "FETCH of each row of a cursor (in C a step)": fetched,
    "FETCH and positioned UPDATE": fetched_and_updated,
    f"UPDATE of all rows, {JOINS} calls": updated_all,
    "ROLLBACK of all INSERTs, with these": rolled_back,
    "join with GROUP BY, once": joined_and_grouped,
    f"EXISTS, {JOINS} calls": found_by_exists,
    "subquery by key in HAVING": had,
    "UNION of two lookups": united,
    "lookup through a view": viewed,
    "three levels of subqueries by key": nested,
}


# ---- SQLite's side


def lite_text(work):
    """What bench/beside.c reads."""
    schema = [*ELEMENTS, "CREATE INDEX REFERRING ON C (A)", "PRAGMA foreign_keys = ON", "BEGIN"]
    filling = [f"INSERT INTO {table} VALUES ({key}, {number})"
               for table, rows in work.row.filled.items() for key, number in rows]
    # A ROLLBACK undoes the calls, not the filling.
    parts = [schema + filling + ["COMMIT", "BEGIN"], work.statements, work.last]
    values = [" ".join(map(str, value)) for value in work.values]
    return "".join("\n".join([*part, "."]) + "\n" for part in parts) + "".join(value + "\n" for value in values)


def checksum(numbers):
    """As bench/beside.c makes it."""
    sum_ = 14695981039346656037
    for number in numbers:
        sum_ = (sum_ ^ (number & MASK)) * 1099511628211 & MASK
    return [str(len(numbers)), str(sum_)]


class Lite:
    """The compiled C program."""

    def __init__(self, room):
        self.path = Path(room, "beside")
        subprocess.run(["cc", "-O2", "-o", self.path, ROOT / "bench/beside.c", "-lsqlite3"], check=True)

    def run(self, text):
        """The seconds of the work, and its answers."""
        done = subprocess.run([self.path], input=text, capture_output=True, text=True)
        if done.returncode:
            sys.exit(f"SQLite's side ends with {done.returncode}: {done.stderr}")
        seconds, *answers = done.stdout.split()
        return float(seconds), answers


# ---- the program's side


def program_run(program, words, folder):
    """The seconds of a run, those in the system included, and its report."""
    before = resource.getrusage(resource.RUSAGE_CHILDREN)
    done = subprocess.run([program, *words], cwd=folder, capture_output=True, text=True)
    after = resource.getrusage(resource.RUSAGE_CHILDREN)
    if done.returncode:
        sys.exit(f"{words} ends with {done.returncode}: {done.stderr}")
    return after.ru_utime + after.ru_stime - before.ru_utime - before.ru_stime, done.stdout


def measured(program, lite, work, times):
    """The least seconds of both sides."""
    text = lite_text(work)
    own, fill, others = [], [], []
    with tempfile.TemporaryDirectory() as folder:
        filling, whole = write_texts(work.row, folder)
        for _ in range(times):
            fill.append(program_run(program, filling, folder)[0])
            seconds, report = program_run(program, whole, folder)
            own.append(seconds)
            seconds, answers = lite.run(text)
            others.append(seconds)
    if checksum(answers_in(report)) != answers:
        sys.exit("the sides give other numbers")
    return max(min(own) - min(fill), 0.0), min(others)


def main():
    parser = argparse.ArgumentParser(description="Times calls beside SQLite in C.")
    parser.add_argument("--program", default=str(ROOT / "crates/sqmod/out/sqmod"))
    parser.add_argument("--rows", type=int, default=100_000)
    parser.add_argument("--times", type=int, default=5)
    parser.add_argument("--only", help="the rows whose names have this word")
    options = parser.parse_args()
    program = str(Path(options.program).resolve())
    print("| | sqmod, s | SQLite in C, s | times |\n|---|---|---|---|")
    with tempfile.TemporaryDirectory() as room:
        lite = Lite(room)
        for name, make in WORKS.items():
            if options.only and options.only not in name:
                continue
            own, other = measured(program, lite, make(options.rows), options.times)
            print(f"| {name} | {own:.3f} | {other:.3f} | {own / other if other else 0:.2f} |", flush=True)


if __name__ == "__main__":
    main()
