"""Calls with n and with 4n rows, so that it shows how the time of each grows, beside sqlite3 in memory on the same rows.

`bench/language.py --growth` prints the table. There are n calls on tables of n rows, or as many calls as the row's name says. A run
that fills the tables alone is timed, too, and taken off; sqlite3's clock starts behind the filling. Either side's answers are
compared: what its queries give, in order, the sums of the tables that it changed, and how many calls a constraint refused.
"""
import re
import resource
import sqlite3
import subprocess
import sys
import tempfile
import time
from collections import Counter
from pathlib import Path
from typing import Callable, NamedTuple, Optional

MOST_GROWTH = 4.5
SCANS, JOINS, CHAINED = 100, 10, 100

TABLES = ("R", "P", "C", "S")
ELEMENTS = (
    "CREATE TABLE R (K INTEGER NOT NULL PRIMARY KEY, A INTEGER)",
    "CREATE TABLE P (K INTEGER NOT NULL PRIMARY KEY, A INTEGER)",
    "CREATE TABLE C (K INTEGER NOT NULL PRIMARY KEY, A INTEGER REFERENCES P)",
    "CREATE TABLE S (K INTEGER, A INTEGER)",
    "CREATE VIEW V AS SELECT K, A FROM R WHERE A >= 0",
    "CREATE VIEW W AS SELECT K, A FROM S WHERE A >= 0",
    "CREATE VIEW G (K, A) AS SELECT K, COUNT(*) FROM R GROUP BY K",
)
SCHEMA = "CREATE SCHEMA AUTHORIZATION U\n" + "\n".join(ELEMENTS) + "\n"
# Without an index over the referring column sqlite3 reads the whole table for each parent that is deleted.
LITE_SCHEMA = ";\n".join((*ELEMENTS, "CREATE INDEX REFERRING ON C (A)", "PRAGMA foreign_keys = ON"))
# Fills the tables, and sums them up.
FILLING = "MODULE F LANGUAGE C AUTHORIZATION U\n" + "".join(
    f"PROCEDURE PUT_{table} (SQLCODE, :K INTEGER, :A INTEGER); INSERT INTO {table} VALUES (:K, :A);\n"
    f"PROCEDURE SUM_{table} (SQLCODE, :N INTEGER, :K NUMERIC(18), :A NUMERIC(18));\n"
    f"  SELECT COUNT(*), SUM(K), SUM(A) INTO :N, :K, :A FROM {table};\n" for table in TABLES)
MODULE = "MODULE M LANGUAGE C AUTHORIZATION U\n"


class Beside(NamedTuple):
    """The same work for sqlite3, on a database; both give the answers."""
    prepared: Callable
    from_text: Optional[Callable]


class Row(NamedTuple):
    """A row of the table."""
    # The pairs of K and A that are in each table before.
    filled: dict
    # Cursors and procedures of module M, and the script of their calls.
    procedures: str
    calls: str
    beside: Beside


# ---- what sqlite3 does


class Statement(NamedTuple):
    """A statement with `{0}` and `{1}` for its values; a query has its columns apart."""
    words: str
    columns: str = ""

    def prepared(self):
        return self.selecting(self.columns) + self.words.format("?1", "?2")

    def as_text(self, values):
        """The statement with its values in it; what a query gives is handed to the function SEEN."""
        return self.selecting(f"SEEN({self.columns})") + self.words.format(*values) + ";\n"

    def selecting(self, columns):
        return f"SELECT {columns} " if self.columns else ""


def sums_of(tables):
    return [Statement(f"FROM {table}", "COUNT(*), SUM(K), SUM(A)") for table in tables]


def answers_to(db, statements, values=()):
    """What prepared statements give for these values, one statement after the other."""
    return [number for words in statements for row in db.execute(words, values) for number in row]


def seen_in(db, text):
    """What the queries of a text give, all of it run in one transaction."""
    seen = []
    db.create_function("SEEN", -1, lambda *numbers: seen.extend(numbers))
    db.executescript(text)
    return seen


def one_text(statements, values, tables):
    """For each of the values each statement, and then the sums."""
    texts = [statement.as_text(value) for value in values for statement in statements]
    return "BEGIN;\n" + "".join(texts) + "".join(query.as_text(()) for query in sums_of(tables))


def in_turn(statements, values, tables=()):
    """For each of the values each statement, one after the other."""
    prepared = [statement.prepared() for statement in statements]
    sums = [query.prepared() for query in sums_of(tables)]
    text = one_text(statements, values, tables)

    def work(db):
        answers = []
        for value in values:
            answers += answers_to(db, prepared, value)
        return answers + answers_to(db, sums)
    return Beside(work, lambda db: seen_in(db, text))


def asked(columns, words, values):
    """A query for each of the values."""
    prepared = Statement(words, columns).prepared()
    text = one_text([Statement(words, columns)], values, ())

    def work(db):
        answers = []
        for value in values:
            answers.extend(db.execute(prepared, value).fetchone())
        return answers
    return Beside(work, lambda db: seen_in(db, text))


def changed(words, values, tables):
    """One change for all of the values."""
    prepared = Statement(words).prepared()
    sums = [query.prepared() for query in sums_of(tables)]
    text = one_text([Statement(words)], values, tables)

    def work(db):
        db.executemany(prepared, values)
        return answers_to(db, sums)
    return Beside(work, lambda db: seen_in(db, text))


def refusals(db, changes):
    """How many of the changes, each with its values, are refused by a constraint."""
    count = 0
    for words, values in changes:
        try:
            db.execute(words, values)
        except sqlite3.IntegrityError:
            count += 1
    return count


def refused(words, values, tables):
    """One change for each of the values, refused each time. That ends a text, so that each is a text of its own."""
    statement = Statement(words)
    sums = [query.prepared() for query in sums_of(tables)]
    prepared = [(statement.prepared(), value) for value in values]
    texts = [(statement.as_text(value), ()) for value in values]

    def work(changes):
        def refuse(db):
            count = refusals(db, changes)
            return [*answers_to(db, sums), count]
        return refuse
    return Beside(work(prepared), work(texts))


# ---- the rows of the table


def keys(n):
    return [(i,) for i in range(n)]


def pairs(n):
    return [(i, i % 97) for i in range(n)]


def one_more(n):
    """Rows with one more key than is asked for, so that no sum is of no rows."""
    return pairs(n + 1)


def to_themselves(n):
    """Rows that refer to the row with their own key."""
    return [(i, i) for i in range(n + 1)]


def calls(call, values, tables=()):
    """A call for each of the values, and then one for the sums of each table."""
    items = [f"CALL M.{call};\n".format(*value) for value in values]
    return "".join(items) + "".join(f"CALL F.SUM_{table} (*, *, *);\n" for table in tables)


def inserted(n):
    return Row({}, "PROCEDURE INS (SQLCODE, :K INTEGER, :A INTEGER); INSERT INTO R VALUES (:K, :A);\n",
               calls("INS ({}, {})", pairs(n), "R"), changed("INSERT INTO R VALUES ({}, {})", pairs(n), "R"))


def updated(n, where="K = {}"):
    procedure = f"PROCEDURE UPD (SQLCODE, :K INTEGER, :A INTEGER); UPDATE R SET A = :A WHERE {where.format(':K')};\n"
    return Row({"R": one_more(n)}, procedure, calls("UPD ({}, 5)", keys(n), "R"),
               changed(f"UPDATE R SET A = 5 WHERE {where}", keys(n), "R"))


def deleted(n):
    return Row({"R": one_more(n)}, "PROCEDURE DEL (SQLCODE, :K INTEGER); DELETE FROM R WHERE K = :K;\n",
               calls("DEL ({})", keys(n), "R"), changed("DELETE FROM R WHERE K = {}", keys(n), "R"))


def cursor(query):
    return (f"DECLARE X CURSOR FOR {query}\nPROCEDURE OPX (SQLCODE); OPEN X;\n"
            "PROCEDURE FEX (SQLCODE, :K INTEGER, :A INTEGER); FETCH X INTO :K, :A;\n")


def fetched(n):
    return Row({"R": pairs(n)}, cursor("SELECT K, A FROM R"), "CALL M.OPX;\n" + calls("FEX (*, *)", keys(n)),
               in_turn([Statement("FROM R", "K, A")], [()]))


def fetched_and_updated(n):
    update = "PROCEDURE UPX (SQLCODE); UPDATE R SET A = A + 1 WHERE CURRENT OF X;\n"

    def work(db):
        answers = []
        for key, number in db.execute("SELECT K, A FROM R"):
            answers += [key, number]
            db.execute("UPDATE R SET A = A + 1 WHERE K = ?", (key,))
        return answers + answers_to(db, [query.prepared() for query in sums_of("R")])
    return Row({"R": pairs(n)}, cursor("SELECT K, A FROM R") + update,
               "CALL M.OPX;\n" + calls("FEX (*, *); CALL M.UPX", keys(n), "R"), Beside(work, None))


def opened_and_updated(n):
    """The cursor's condition reads the column that the positioned UPDATE assigns, and is true of each row."""
    query = "SELECT K, A FROM R WHERE A >= 0"
    procedures = "PROCEDURE UPX (SQLCODE); UPDATE R SET A = A + 1 WHERE CURRENT OF X;\nPROCEDURE CLX (SQLCODE); CLOSE X;\n"

    def work(db):
        answers = []
        for _ in keys(n):
            key, number = db.execute(query).fetchone()
            answers += [key, number]
            db.execute("UPDATE R SET A = A + 1 WHERE K = ?", (key,))
        return answers + answers_to(db, [query.prepared() for query in sums_of("R")])
    return Row({"R": pairs(n)}, cursor(query) + procedures,
               calls("OPX; CALL M.FEX (*, *); CALL M.UPX; CALL M.CLX", keys(n), "R"), Beside(work, None))


def select_from(table):
    return f"PROCEDURE ONE (SQLCODE, :K INTEGER, :A INTEGER); SELECT A INTO :A FROM {table} WHERE K = :K;\n"


def selected(table, n):
    return Row({"R": one_more(n)}, select_from(table),
               calls("ONE ({}, *)", keys(n)), asked("A", f"FROM {table} WHERE K = {{}}", keys(n)))


def opened(table, n):
    procedures = (f"DECLARE X CURSOR FOR SELECT A FROM {table} WHERE K = :K\nPROCEDURE OPX (SQLCODE, :K INTEGER); OPEN X;\n"
                  "PROCEDURE FEX (SQLCODE, :A INTEGER); FETCH X INTO :A;\nPROCEDURE CLX (SQLCODE); CLOSE X;\n")
    return Row({"R": one_more(n)}, procedures, calls("OPX ({}); CALL M.FEX (*); CALL M.CLX", keys(n)),
               asked("A", f"FROM {table} WHERE K = {{}}", keys(n)))


def united(n):
    """Each term has one row."""
    words = "SELECT K, A FROM R WHERE K = {0} UNION SELECT K, 1000 FROM P WHERE K = {0}"
    procedures = (f"DECLARE X CURSOR FOR {words.format(':K')}\nPROCEDURE OPX (SQLCODE, :K INTEGER); OPEN X;\n"
                  "PROCEDURE FEX (SQLCODE, :K INTEGER, :A INTEGER); FETCH X INTO :K, :A;\nPROCEDURE CLX (SQLCODE); CLOSE X;\n")
    return Row({"R": one_more(n), "P": one_more(n)}, procedures,
               calls("OPX ({}); CALL M.FEX (*, *); CALL M.FEX (*, *); CALL M.CLX", keys(n)),
               Beside(lambda db: [number for key in keys(n) for number in answers_to(db, [words.format("?1")], key)], None))


def updated_through_a_view(n):
    """sqlite3's views are read only; it gets the statement that this one stands for."""
    return Row({"R": one_more(n)}, "PROCEDURE UPV (SQLCODE, :K INTEGER, :A INTEGER); UPDATE V SET A = :A WHERE K = :K;\n",
               calls("UPV ({}, 5)", keys(n), "R"), changed("UPDATE R SET A = 5 WHERE K = {} AND A >= 0", keys(n), "R"))


def inserted_from_a_query(n):
    return Row({"P": one_more(n)}, "PROCEDURE CPY (SQLCODE, :K INTEGER); INSERT INTO R SELECT :K, A FROM P WHERE K = :K;\n",
               calls("CPY ({})", keys(n), "R"), changed("INSERT INTO R SELECT {0}, A FROM P WHERE K = {0}", keys(n), "R"))


DELETE_CHILD = "PROCEDURE DEL_C (SQLCODE, :K INTEGER); DELETE FROM C WHERE K = :K;\n"
DELETE_PARENT = "PROCEDURE DEL_P (SQLCODE, :K INTEGER); DELETE FROM P WHERE K = :K;\n"


def child_and_parent_deleted(n):
    statements = [Statement("DELETE FROM C WHERE K = {}"), Statement("DELETE FROM P WHERE K = {}")]
    return Row({"P": one_more(n), "C": to_themselves(n)}, DELETE_CHILD + DELETE_PARENT,
               calls("DEL_C ({0}); CALL M.DEL_P ({0})", keys(n), "PC"), in_turn(statements, keys(n), "PC"))


def parent_refused(n):
    return Row({"P": one_more(n), "C": to_themselves(n)}, DELETE_PARENT,
               calls("DEL_P ({})", keys(n), "P"), refused("DELETE FROM P WHERE K = {}", keys(n), "P"))


def child_inserted(n):
    children = to_themselves(n - 1)
    return Row({"P": one_more(n)}, "PROCEDURE INC (SQLCODE, :K INTEGER, :A INTEGER); INSERT INTO C VALUES (:K, :A);\n",
               calls("INC ({}, {})", children, "C"), changed("INSERT INTO C VALUES ({}, {})", children, "C"))


def parent_without_children_deleted(n):
    """The rows of C refer to the last ten of P, the others are deleted."""
    return Row({"P": pairs(n + 10), "C": [(i, n + i % 10) for i in range(n)]}, DELETE_PARENT,
               calls("DEL_P ({})", keys(n), "P"), changed("DELETE FROM P WHERE K = {}", keys(n), "P"))


def parent_updated(n):
    return Row({"P": one_more(n), "C": to_themselves(n)},
               "PROCEDURE UPP (SQLCODE, :K INTEGER, :A INTEGER); UPDATE P SET A = :A WHERE K = :K;\n",
               calls("UPP ({}, 5)", keys(n), "P"), changed("UPDATE P SET A = 5 WHERE K = {}", keys(n), "P"))


def scanned(table, n):
    wanted = [(i * n // SCANS,) for i in range(SCANS)]
    return Row({"S": pairs(n)}, select_from(table),
               calls("ONE ({}, *)", wanted), asked("A", f"FROM {table} WHERE K = {{}}", wanted))


def counted(rest, filled):
    """A query that counts, and is asked several times."""
    return Row(filled, f"PROCEDURE HOW (SQLCODE, :N INTEGER); SELECT COUNT(*) INTO :N {rest};\n",
               calls("HOW (*)", [()] * JOINS), asked("COUNT(*)", rest, [()] * JOINS))


def sought(columns, rest, filled, n):
    """A query of one number, asked for each key."""
    return Row(filled, f"PROCEDURE ONE (SQLCODE, :K INTEGER, :A INTEGER); SELECT {columns} INTO :A {rest.format(':K')};\n",
               calls("ONE ({}, *)", keys(n)), asked(columns, rest, keys(n)))


def one_of_two(n):
    return sought("COUNT(*)", "FROM R WHERE K IN ({}, 0)", {"R": one_more(n)}, n)


def one_or_another(n):
    return sought("COUNT(*)", "FROM R WHERE K = {} OR K = 0", {"R": one_more(n)}, n)


def by_a_sum(n):
    return sought("A", "FROM R WHERE K = {} + 1", {"R": one_more(n)}, n)


def joined_by_one_of_two(n):
    return sought("COUNT(*)", "FROM P, R WHERE P.K IN ({}, 0) AND R.K = P.A", {"P": one_more(n), "R": one_more(n)}, n)


def children(n):
    return sought("COUNT(*)", "FROM C WHERE A = {}", {"P": one_more(n), "C": to_themselves(n)}, n)


def parent_and_children(n):
    return sought("COUNT(*)", "FROM P, C WHERE P.K = {} AND C.A = P.K", {"P": one_more(n), "C": to_themselves(n)}, n)


def by_a_subquery(test, n):
    rest = f"FROM R WHERE K {test} (SELECT A FROM P WHERE P.K = {{}})"
    return sought("COUNT(*)", rest, {"P": to_themselves(n), "R": one_more(n)}, n)


def sought_in_having(n):
    rest = "FROM P WHERE K = {0} HAVING COUNT(*) <= (SELECT COUNT(*) FROM R WHERE R.K = {0})"
    return sought("COUNT(*)", rest, {"P": one_more(n), "R": one_more(n)}, n)


def joined_by_key(n):
    rest = "FROM P, R WHERE P.K = {} AND R.K = P.A"
    return Row({"P": pairs(n), "R": pairs(n)},
               f"PROCEDURE ONE (SQLCODE, :K INTEGER, :A INTEGER); SELECT R.A INTO :A {rest.format(':K')};\n",
               calls("ONE ({}, *)", keys(n)), asked("R.A", rest, keys(n)))


def selected_where_there(n):
    rest = "FROM P WHERE K = {} AND EXISTS (SELECT K FROM R WHERE R.K = P.A)"
    return Row({"P": pairs(n), "R": pairs(n)},
               f"PROCEDURE ONE (SQLCODE, :K INTEGER, :A INTEGER); SELECT A INTO :A {rest.format(':K')};\n",
               calls("ONE ({}, *)", keys(n)), asked("A", rest, keys(n)))


def updated_where_there(n):
    rest = "WHERE K = {} AND EXISTS (SELECT P.K FROM P WHERE P.K = R.A)"
    return Row({"R": one_more(n), "P": pairs(n)},
               f"PROCEDURE UPD (SQLCODE, :K INTEGER, :A INTEGER); UPDATE R SET A = :A {rest.format(':K')};\n",
               calls("UPD ({}, 5)", keys(n), "R"), changed(f"UPDATE R SET A = 5 {rest}", keys(n), "R"))


def selected_where_there_twice(n):
    rest = ("FROM P WHERE K = {} AND (A < 0 OR EXISTS (SELECT K FROM R WHERE R.K = P.A "
            "AND EXISTS (SELECT K FROM C WHERE C.K = R.A)))")
    return Row({"P": pairs(n), "R": pairs(n), "C": pairs(n)},
               f"PROCEDURE ONE (SQLCODE, :K INTEGER, :A INTEGER); SELECT A INTO :A {rest.format(':K')};\n",
               calls("ONE ({}, *)", keys(n)), asked("A", rest, keys(n)))


def joined(n):
    return counted("FROM P, R WHERE R.K = P.A", {"P": to_themselves(n), "R": pairs(n)})


def found_by_exists(n):
    return counted("FROM P WHERE EXISTS (SELECT K FROM R WHERE R.K = P.A)", {"P": to_themselves(n), "R": pairs(n)})


def thinned(n):
    return counted("FROM S X, S Y WHERE Y.K = 0", {"S": pairs(n)})


def chained(n):
    """The program reads the chain in the time that counts, as sqlite3 does."""
    query, text = (" UNION ALL ".join([f"SELECT {columns} FROM R"] * n) for columns in ("K, A", "SEEN(K, A)"))
    return Row({"R": pairs(CHAINED)}, cursor(query), "CALL M.OPX;\n" + calls("FEX (*, *)", keys(n * CHAINED)),
               Beside(lambda db: answers_to(db, [query]), lambda db: seen_in(db, f"BEGIN;\n{text};\n")))


CHAIN = f"OPEN and FETCHes of n SELECTs of {CHAINED} rows, joined by UNION ALL"
ROWS = {
    "INSERT with a key": inserted,
    "UPDATE by key": updated,
    "UPDATE by key in brackets, after another test": lambda n: updated(n, "A >= 0 AND (K = {})"),
    "UPDATE by a sum that is a key": lambda n: updated(n, "K = {} + 0"),
    "DELETE by key": deleted,
    "FETCH": fetched,
    "FETCH, then positioned UPDATE": fetched_and_updated,
    "SELECT INTO by key": lambda n: selected("R", n),
    "SELECT INTO by key from a view": lambda n: selected("V", n),
    "OPEN, FETCH, CLOSE by key": lambda n: opened("R", n),
    "OPEN, FETCH, CLOSE of a group of a view, by key": lambda n: opened("G", n),
    "OPEN, FETCH, positioned UPDATE of the tested column, CLOSE": opened_and_updated,
    "OPEN, two FETCHes, CLOSE of a UNION of two lookups by key": united,
    "UPDATE by key through a view": updated_through_a_view,
    "INSERT from a query by key": inserted_from_a_query,
    "INSERT of a child": child_inserted,
    "DELETE of a child by key, then of its parent": child_and_parent_deleted,
    "DELETE of a parent without children": parent_without_children_deleted,
    "DELETE of a parent that is referred to (23000)": parent_refused,
    "UPDATE of a parent, not of its key": parent_updated,
    f"scan with one test, {SCANS} calls": lambda n: scanned("S", n),
    f"the same of a view, {SCANS} calls": lambda n: scanned("W", n),
    "join of two tables by key": joined_by_key,
    "SELECT INTO by IN with two keys": one_of_two,
    "SELECT INTO by OR of two keys": one_or_another,
    "SELECT INTO by a sum that is a key": by_a_sum,
    "join of two tables by IN with two keys": joined_by_one_of_two,
    "SELECT INTO of the children of a row": children,
    "join of a row with its children": parent_and_children,
    "SELECT INTO by the value of a subquery": lambda n: by_a_subquery("=", n),
    "SELECT INTO by IN with a subquery": lambda n: by_a_subquery("IN", n),
    "SELECT INTO where HAVING has a subquery by key": sought_in_having,
    "SELECT INTO by key where a subquery has a row by key": selected_where_there,
    "UPDATE by key where a subquery has a row by key": updated_where_there,
    "the same under OR, with a subquery in the subquery": selected_where_there_twice,
    f"join of all rows by a key, {JOINS} calls": joined,
    f"EXISTS by a key, {JOINS} calls": found_by_exists,
    f"product with a test of its second table, {JOINS} calls": thinned,
    CHAIN: chained,
}


# ---- measuring

BATCHES, BATCH_SECONDS, MOST_RUNS, ENOUGH = 3, 0.1, 200, 1.0


class GivenUp(Exception):
    """A run passed the time limit."""


def user_seconds(who):
    return resource.getrusage(who).ru_utime


def mean_of_batch(measure):
    """The mean of so many runs that the clock's steps don't matter, and their sum."""
    times = [measure()]
    while sum(times) < BATCH_SECONDS and len(times) < MOST_RUNS:
        times.append(measure())
    return sum(times) / len(times), sum(times)


def least_mean(measure):
    """The least of a few batches; of long runs fewer are made."""
    means, total = [], 0.0
    while len(means) < BATCHES and total < ENOUGH:
        mean, seconds = mean_of_batch(measure)
        means.append(mean)
        total += seconds
    return min(means)


def filling_calls(filled):
    return "".join(f"CALL F.PUT_{table} ({key}, {number});\n" for table, rows in filled.items() for key, number in rows)


def write_texts(row, folder):
    """Writes the texts of a row to a folder, and gives the words of two runs: the filling alone, and all."""
    filling = filling_calls(row.filled)
    texts = {"schema": SCHEMA, "filling": FILLING, "module": MODULE + row.procedures,
             "before": filling, "script": filling + row.calls}
    for name, text in texts.items():
        Path(folder, name).write_text(text)
    words = ["run", "--rows", "1000000000", "--schema", "schema", "--module", "filling"]
    return [*words, "--script", "before"], [*words, "--module", "module", "--script", "script"]


class Program:
    """The built program, run on the texts of a folder; it keeps its last report."""

    def __init__(self, path, folder, limit):
        self.path, self.folder, self.limit = path, folder, limit
        self.report = ""

    def seconds(self, words):
        """User seconds of a run."""
        before = user_seconds(resource.RUSAGE_CHILDREN)
        try:
            done = subprocess.run([self.path, *words], cwd=self.folder, capture_output=True, text=True, timeout=self.limit)
        except subprocess.TimeoutExpired as late:
            raise GivenUp from late
        if done.returncode:
            sys.exit(f"{words} ends with {done.returncode}: {done.stderr}")
        self.report = done.stdout
        return user_seconds(resource.RUSAGE_CHILDREN) - before


def answers_in(report):
    """The numbers that the calls of a report give, and how many calls a constraint refused, if any."""
    statuses = Counter(line.split()[1] for line in report.splitlines())
    count = statuses.pop("23000", 0)
    if set(statuses) != {"00000"}:
        sys.exit(f"statuses that no call should have: {statuses}")
    numbers = [int(number) for number in re.findall(r"=(-?\d+)", report)]
    return [*numbers, count] if count else numbers


def time_program(row, path, limit):
    """User seconds of a row's calls, and their answers."""
    with tempfile.TemporaryDirectory() as folder:
        filling, whole = write_texts(row, folder)
        program = Program(path, folder, limit)
        before = least_mean(lambda: program.seconds(filling))
        seconds = least_mean(lambda: program.seconds(whole))
        return max(seconds - before, 0.0), answers_in(program.report)


def filled_base(filled, limit):
    """A database with these rows, in a transaction, which gives up where a statement passes the limit."""
    db = sqlite3.connect(":memory:", isolation_level=None)
    db.executescript(LITE_SCHEMA)
    db.execute("BEGIN")
    for table, rows in filled.items():
        db.executemany(f"INSERT INTO {table} VALUES (?, ?)", rows)
    db.execute("COMMIT")
    db.execute("BEGIN")
    end = time.monotonic() + limit
    db.set_progress_handler(lambda: time.monotonic() > end, 1_000_000)
    return db


def time_lite(row, work, limit):
    """User seconds of sqlite3's work, and its answers."""
    answers = []

    def measure():
        db = filled_base(row.filled, limit)
        before = user_seconds(resource.RUSAGE_SELF)
        answers[:] = work(db)
        seconds = user_seconds(resource.RUSAGE_SELF) - before
        db.close()
        return seconds
    try:
        return least_mean(measure), answers
    except sqlite3.OperationalError as fault:
        if str(fault) != "interrupted":
            raise
        raise GivenUp from fault


# ---- the table


def compare(name, answers, others):
    """Ends the benchmark where two sides don't answer the same."""
    if answers != others:
        place = next((at for at, (one, other) in enumerate(zip(answers, others)) if one != other), min(len(answers), len(others)))
        sys.exit(f"{name}: {len(answers)} and {len(others)} answers, which differ from number {place} on: "
                 f"{answers[place:place + 3]} and {others[place:place + 3]}")


class Column:
    """The times of one side at n and at 4n; none from where it gave up."""

    def __init__(self):
        self.times, self.answers = [], None

    def measure(self, timed):
        """Adds the time at the next size, and keeps its answers, unless this side gave up before."""
        seconds, self.answers = None, None
        if None not in self.times:
            try:
                seconds, self.answers = timed()
            except GivenUp:
                pass
        self.times.append(seconds)

    def shown(self, limit):
        """Milliseconds at 4n, and the growth, unless nothing was to be measured at n; one that is too great is marked."""
        if not self.times:
            return " | "
        small, large = self.times
        if small is None:
            return f"given up after {limit:g} s, at n | "
        if large is None:
            return f"{small * 1000:.1f} at n, given up after {limit:g} s | "
        if not small:
            return f"{large * 1000:.1f} | "
        growth = large / small
        mark = "**" if growth > MOST_GROWTH else ""
        return f"{large * 1000:.1f} | {mark}{growth:.1f}{mark}"


def measure_row(name, make, n, path, limit):
    """The columns of a row: the program, prepared statements, and a text."""
    columns = [Column(), Column(), Column()]
    program, prepared, text = columns
    for size in (n, 4 * n):
        row = make(size)
        program.measure(lambda: time_program(row, path, limit))
        prepared.measure(lambda: time_lite(row, row.beside.prepared, limit))
        if row.beside.from_text:
            text.measure(lambda: time_lite(row, row.beside.from_text, limit))
        known = [column.answers for column in columns if column.answers is not None]
        for answers in known[1:]:
            compare(name, known[0], answers)
    return columns


def print_growth(path, names, rows, chain, limit):
    """Prints the table: of the rows whose name has one of the names in it, or of all."""
    print(f"n = {rows}, in the chain {chain}\n")
    print("| At 4n | sqmod, ms | growth | sqlite3, ms | growth | from a text, ms | growth |\n|---|---|---|---|---|---|---|")
    for name, make in ROWS.items():
        if not names or any(word in name for word in names):
            columns = measure_row(name, make, chain if name == CHAIN else rows, path, limit)
            print(f"| {name} | " + " | ".join(column.shown(limit) for column in columns) + " |", flush=True)
