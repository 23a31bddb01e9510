#!/usr/bin/env python3
"""Times the built program on large texts, beside sqlite3 in memory on the same rows.

    bench/language.py [--program crates/sqmod/out/sqmod] [--times 1] [NAME..]
    bench/language.py --growth [--rows 1000] [--chain 100] [--limit 60] [--program crates/sqmod/out/sqmod] [NAME..]

The first is for the workloads below, or those with one of the names in theirs; the second for the rows of bench/growth.py, each at
two sizes, of which the second is four times the first, so that it shows how the time grows.

For each workload it prints the user seconds of the processor, the least of so many runs, beside them the program's seconds in the
system and its greatest memory, and sqlite3's user seconds where the work can be said in it. The program's time includes reading the
texts and writing the report; sqlite3 runs in this process over prepared statements, with the tables made before the clock starts.
What can't be said in it: modules and grants, and a text as long as the longest here.

A second time of sqlite3 is that of the same statements written out as one text, with their values in it, which it parses one
after the other in one transaction, as the program reads its script. That is given for inserts and changes; rows can't be
fetched by such a text.
"""
import argparse
import resource
import sqlite3
import subprocess
import sys
import tempfile
from pathlib import Path
from typing import Callable, NamedTuple, Optional

from growth import print_growth, user_seconds

ROOT = Path(__file__).resolve().parent.parent
SCHEMA = "CREATE SCHEMA AUTHORIZATION U\n"
MODULE = "MODULE M LANGUAGE C AUTHORIZATION U\n"
KEYED = SCHEMA + "CREATE TABLE T (K INTEGER NOT NULL PRIMARY KEY, A INTEGER CHECK (A >= 0), C CHAR(5))\n"
NUMBERS = SCHEMA + "CREATE TABLE D (D INTEGER)\nCREATE TABLE T (N INTEGER, A INTEGER)\n"
INSERT = "PROCEDURE INS (SQLCODE, :K INTEGER, :A INTEGER); INSERT INTO T VALUES (:K, :A, 'ABC');\n"


class Workload(NamedTuple):
    schema: str
    modules: list
    script: str
    # The same work on a database of sqlite3.
    lite: Optional[Callable] = None
    # The same statements as a text for sqlite3.
    lite_text: Optional[str] = None


def calls(count, call):
    return "".join(call(i) + ";\n" for i in range(count))


def inserts(count):
    return calls(count, lambda i: f"CALL M.INS ({i}, {i % 97})")


def insert_in_lite(db, count=100_000):
    db.executemany("INSERT INTO T VALUES (?, ?, 'ABC')", ((i, i % 97) for i in range(count)))


def inserts_as_text(count):
    return calls(count, lambda i: f"INSERT INTO T VALUES ({i}, {i % 97}, 'ABC')")


# ---- statements on rows


def keyed(statement="", run="", lite=lambda db: None, lite_text=None):
    """100,000 inserts, and then a run of the procedures of a text; sqlite3 does what `lite` or `lite_text` says after its inserts."""
    def work(db):
        insert_in_lite(db)
        lite(db)

    def workload():
        text = None if lite_text is None else inserts_as_text(100_000) + lite_text
        return Workload(KEYED, [MODULE + INSERT + statement], inserts(100_000) + run, work, text)
    return workload


keyed_inserts = keyed(lite_text="")

keyed_updates = keyed(
    "PROCEDURE UPD (SQLCODE, :K INTEGER, :A INTEGER); UPDATE T SET A = :A WHERE K = :K;\n",
    calls(100_000, lambda i: f"CALL M.UPD ({i}, 5)"),
    lambda db: db.executemany("UPDATE T SET A = ? WHERE K = ?", ((5, i) for i in range(100_000))),
    calls(100_000, lambda i: f"UPDATE T SET A = 5 WHERE K = {i}"))

keyed_deletes = keyed(
    "PROCEDURE DEL (SQLCODE, :K INTEGER); DELETE FROM T WHERE K = :K;\n",
    calls(100_000, lambda i: f"CALL M.DEL ({i})"),
    lambda db: db.executemany("DELETE FROM T WHERE K = ?", ((i,) for i in range(100_000))),
    calls(100_000, lambda i: f"DELETE FROM T WHERE K = {i}"))

moved_keys = keyed(
    "PROCEDURE SHK (SQLCODE); UPDATE T SET K = K - 1;\n",
    "CALL M.SHK;\n",
    lambda db: db.execute("UPDATE T SET K = K - 1"),
    "UPDATE T SET K = K - 1;\n")

rollback = keyed("PROCEDURE RBK (SQLCODE); ROLLBACK;\n", "CALL M.RBK;\n", lambda db: db.rollback(), "ROLLBACK;\n")


# ---- cursors

CURSOR = ("DECLARE X CURSOR FOR SELECT K, A FROM T\nPROCEDURE OPX (SQLCODE); OPEN X;\n"
          "PROCEDURE FEX (SQLCODE, :K INTEGER, :A INTEGER); FETCH X INTO :K, :A;\n"
          "PROCEDURE UPX (SQLCODE); UPDATE T SET A = A + 1 WHERE CURRENT OF X;\n")


def fetched_in_lite(db):
    for _row in db.execute("SELECT K, A FROM T"):
        pass


def updated_in_lite(db):
    for row, _k, _a in db.execute("SELECT rowid, K, A FROM T"):
        db.execute("UPDATE T SET A = A + 1 WHERE rowid = ?", (row,))


fetches = keyed(CURSOR, "CALL M.OPX;\n" + "CALL M.FEX (*, *);\n" * 100_000, fetched_in_lite)
positioned_updates = keyed(CURSOR, "CALL M.OPX;\n" + "CALL M.FEX (*, *); CALL M.UPX;\n" * 100_000, updated_in_lite)


def many_cursors():
    modules = []
    for m in range(10):
        text = f"MODULE M{m} LANGUAGE C AUTHORIZATION U\n"
        for c in range(10):
            text += (f"DECLARE X{c} CURSOR FOR SELECT K, A FROM T WHERE A >= {c}\nPROCEDURE OP{c} (SQLCODE); OPEN X{c};\n"
                     f"PROCEDURE FE{c} (SQLCODE, :K INTEGER, :A INTEGER); FETCH X{c} INTO :K, :A;\n")
        modules.append(text)
    script = inserts(1000) + "".join(f"CALL M{m}.OP{c};\n" for m in range(10) for c in range(10))
    script += "".join(f"CALL M{m}.FE{c} (*, *);\n" for _ in range(1000) for m in range(10) for c in range(10))

    def lite(db):
        insert_in_lite(db, 1000)
        cursors = [db.execute(f"SELECT K, A FROM T WHERE A >= {c}") for _ in range(10) for c in range(10)]
        for _ in range(1000):
            for cursor in cursors:
                cursor.fetchone()
    return Workload(KEYED, [MODULE + INSERT, *modules], script, lite)


# ---- queries over a table T (N, A) of the numbers from 0 on, which a procedure makes from a table of digits


def numbers(power, rows):
    """The first so many numbers of `power` digits, as a query, without its SELECT."""
    number = " + ".join(f"{10 ** i} * D{i}.D" for i in range(power))
    tables = ", ".join(f"D D{i}" for i in range(power))
    return f"{number}, ({number}) - 97 * (({number}) / 97) FROM {tables} WHERE {number} < {rows}"


def queried(query, power, rows=None):
    """The table is filled, and then the query's rows are made, if there is a query."""
    fill = f"INSERT INTO T SELECT {numbers(power, rows or 10 ** power)}"
    module = (MODULE + "PROCEDURE DIG (SQLCODE, :D INTEGER); INSERT INTO D VALUES (:D);\n"
              + f"PROCEDURE FILL (SQLCODE); {fill};\n")
    script = calls(10, lambda i: f"CALL M.DIG ({i})") + "CALL M.FILL;\n"
    if query:
        module += f"DECLARE X CURSOR FOR {query}\nPROCEDURE RUN (SQLCODE); OPEN X;\n"
        script += "CALL M.RUN;\n"

    def lite(db):
        db.executemany("INSERT INTO D VALUES (?)", ((i,) for i in range(10)))
        db.execute(fill)
        if query:
            for _row in db.execute(query):
                pass
    return lambda: Workload(NUMBERS, [module], script, lite)


def join_of(count):
    names = [f"P{i}" for i in range(count)]
    tests = " AND ".join(f"{a}.N = {b}.N" for a, b in zip(names, names[1:]))
    return f"SELECT COUNT(*) FROM {', '.join('T ' + n for n in names)} WHERE {tests}"


def nested(depth):
    return "SELECT N FROM T" if depth == 0 else f"SELECT N FROM T WHERE N IN ({nested(depth - 1)})"


# ---- large texts


def large_catalog():
    schema = SCHEMA + "".join(f"CREATE TABLE T{i} (A INTEGER)\n" for i in range(900))
    schema += "CREATE VIEW V0 AS SELECT A FROM T0\n" + "".join(f"CREATE VIEW V{i} AS SELECT A FROM V{i - 1}\n" for i in range(1, 100))
    schema += "".join(f"GRANT SELECT ON T{i % 900} TO W{i}\n" for i in range(10_000))
    module = MODULE + "".join(f"PROCEDURE P{i} (SQLCODE); INSERT INTO T{i % 900} VALUES ({i});\n" for i in range(10_000))
    return Workload(schema, [module], calls(10_000, lambda i: f"CALL M.P{9_999 - i}"))


def large_module():
    tests = " AND ".join(["A = B + 1 * (C - 1)"] * 900_000)
    module = MODULE + f"PROCEDURE P (SQLCODE); DELETE FROM T WHERE {tests};\n"
    return Workload(SCHEMA + "CREATE TABLE T (A INTEGER, B INTEGER, C INTEGER)\n", [module], "CALL M.P;\n")


def large_script():
    module = MODULE + "PROCEDURE INS (SQLCODE, :K INTEGER, :A INTEGER); INSERT INTO T VALUES (:K, :A);\n"

    def lite(db):
        db.executemany("INSERT INTO T VALUES (?, ?)", ((i, i % 100000) for i in range(1_000_000)))
    script = calls(1_000_000, lambda i: f"CALL M.INS ({i:09}, {i % 100000:05})")
    text = calls(1_000_000, lambda i: f"INSERT INTO T VALUES ({i:09}, {i % 100000:05})")
    return Workload(SCHEMA + "CREATE TABLE T (K INTEGER, A INTEGER)\n", [module], script, lite, text)


WORKLOADS = {
    "100,000 inserts, primary key and CHECK": keyed_inserts,
    "the same, and 100,000 keyed updates": keyed_updates,
    "the same inserts, and 100,000 keyed deletes": keyed_deletes,
    "the same inserts, and 100,000 FETCHes": fetches,
    "the same with a positioned UPDATE of each row": positioned_updates,
    "the same inserts, and an UPDATE that moves all keys by one": moved_keys,
    "the same inserts, and ROLLBACK": rollback,
    "a million rows filled by a query with arithmetic": queried(None, 6),
    "GROUP BY of a million rows": queried("SELECT A, COUNT(*), SUM(N) FROM T GROUP BY A", 6),
    "100,000 rows filled so": queried(None, 5),
    "DISTINCT of 100,000 rows": queried("SELECT DISTINCT A FROM T", 5),
    "UNION of 100,000 and 100,000 rows": queried("SELECT N FROM T UNION SELECT A FROM T", 5),
    "ORDER BY of 100,000 rows": queried("SELECT A, N FROM T ORDER BY 1 DESC", 5),
    "join of 100,000 and 100,000 rows by an equality, grouped":
        queried("SELECT P.A, COUNT(*) FROM T P, T Q WHERE P.N = Q.N GROUP BY P.A", 5),
    "correlated EXISTS over 2,000 by 2,000 rows":
        queried("SELECT COUNT(*) FROM T P WHERE EXISTS (SELECT N FROM T Q WHERE Q.N > P.N AND Q.A = P.A)", 4, 2_000),
    "ten tables of 100 rows joined by equalities": queried(join_of(10), 2),
    "IN subqueries nested ten deep, 1,000 rows": queried(nested(10), 3),
    "100 cursors of 10 modules, 100,000 FETCHes in turn": many_cursors,
    "900 tables, 100 views in a chain, 10,000 grants, 10,000 procedures": large_catalog,
    "a module text of 20 MB": large_module,
    "a script of a million calls": large_script,
}


# Runs a command, its output in a file, and prints its user seconds, its seconds in the system, its kilobytes and its exit
# status. It is a process of its own, since the greatest memory of a command counts that of the process that started it.
MEASURE = """
import os, subprocess, sys
process = subprocess.Popen(sys.argv[2:], stdout=open(sys.argv[1], "w"))
_, status, usage = os.wait4(process.pid, 0)
print(usage.ru_utime, usage.ru_stime, usage.ru_maxrss, os.waitstatus_to_exitcode(status))
"""


def check_report(report):
    """Ends the benchmark where a call has another status than done or no row."""
    with open(report) as lines:
        found = {line.split(maxsplit=2)[1] for line in lines}
    if not found <= {"00000", "02000"}:
        sys.exit(f"calls have the statuses {found}")


def timed(program, schema, modules, script):
    """User seconds, seconds in the system and megabytes of a run."""
    with tempfile.TemporaryDirectory() as folder:
        words = []
        for number, (kind, text) in enumerate([("schema", schema), *(("module", m) for m in modules), ("script", script)]):
            file = Path(folder, f"{kind}{number}")
            file.write_text(text)
            words += [f"--{kind}", str(file)]
        report = Path(folder, "report")
        run = [report, program, "run", *words, "--rows", "1000000000"]
        measured = subprocess.run([sys.executable, "-S", "-c", MEASURE, *run], capture_output=True, text=True, check=True)
        seconds, system, kilobytes, status = measured.stdout.split()
        if int(status):
            sys.exit(f"the program ends with {status}")
        check_report(report)
        return float(seconds), float(system), int(kilobytes) / 1024


def timed_lite(schema, work):
    """User seconds of the same work in sqlite3."""
    db = sqlite3.connect(":memory:")
    db.executescript(schema.replace(SCHEMA, "").replace(")\n", ");\n"))
    start = user_seconds(resource.RUSAGE_SELF)
    work(db)
    return user_seconds(resource.RUSAGE_SELF) - start


def least_lite(schema, work, times):
    """The least of so many times, to print; none where the work can't be said there."""
    return f"{min(timed_lite(schema, work) for _ in range(times)):.2f}" if work else ""


def as_one_transaction(text):
    """The work of running a text's statements, one after the other, in one transaction."""
    return None if text is None else lambda db: db.executescript("BEGIN;\n" + text)


def print_workloads(program, names, times):
    print("| Workload | sqmod, s | in the system, s | MB | sqlite3, s | from a text, s |\n|---|---|---|---|---|---|")
    for name, workload in WORKLOADS.items():
        if names and not any(word in name for word in names):
            continue
        schema, modules, script, lite, lite_text = workload()
        runs = [timed(program, schema, modules, script) for _ in range(times)]
        seconds, system, megabytes = (min(figures) for figures in zip(*runs))
        beside = least_lite(schema, lite, times)
        from_text = least_lite(schema, as_one_transaction(lite_text), times)
        print(f"| {name} | {seconds:.2f} | {system:.2f} | {megabytes:.0f} | {beside} | {from_text} |", flush=True)


def main():
    parser = argparse.ArgumentParser(description="Times the built program beside sqlite3.")
    parser.add_argument("--program", default=str(ROOT / "crates/sqmod/out/sqmod"))
    parser.add_argument("--times", type=int, default=1, help="the least of so many runs is printed")
    parser.add_argument("--growth", action="store_true", help="the rows of bench/growth.py, at two sizes")
    parser.add_argument("--rows", type=int, default=1000, help="the first size")
    parser.add_argument("--chain", type=int, default=100, help="the first length of the chain of UNION ALL, at most 125")
    parser.add_argument("--limit", type=float, default=60, help="seconds by the clock after which a run is given up")
    parser.add_argument("names", nargs="*")
    options = parser.parse_args()
    program = str(Path(options.program).resolve())
    if options.growth:
        print_growth(program, options.names, options.rows, options.chain, options.limit)
    else:
        print_workloads(program, options.names, options.times)


if __name__ == "__main__":
    sys.exit(main())
