"""SQLite, as Python has it. A table T of the schema U is called [U.T], and T wherever a FROM names it. There are no users and no SQLSTATEs: what
SQLite refuses to prepare is given 42000 here, its constraints 23000, and a few messages what they say.
"""

import sqlite3
from decimal import Decimal

from system import Refused, Result, System
from trees import Bracket, Union
from writing import CorrelatedWriter, Unsayable

# What is in a message, and the state of it.
STATES = (
    ("22019", ("ESCAPE expression must be",)),
    ("22000", ("datatype mismatch",)),
    ("22003", ("integer overflow", "too large to convert")),
    ("42000", ("no such", "ambiguous", "syntax error", "misuse of", "number of arguments", "has no column", "values for", "values were supplied", "columns assigned",
               "number of result columns", "it is a view", "ORDER BY term", "sub-select returns", "too many", "HAVING", "GROUP BY", "foreign key mismatch",
               "Expression tree", "aggregate functions")),
)


class SqliteWriter(CorrelatedWriter):
    """Names stand in square brackets: in double quotes, one that isn't there would be a text."""

    def name(self, name):
        return f"[{name}]"

    def table(self, table):
        return f"[{table.schema or self.user}.{table.name}]"

    def placed(self, domain, value):
        return "?"

    def current_user(self):
        raise Unsayable("USER")

    def comparison(self, left, sign, quantifier, right):
        if quantifier:
            raise Unsayable("ALL, ANY and SOME")
        return super().comparison(left, sign, quantifier, right)

    def query(self, tree):
        return self.query(tree.of) if isinstance(tree, Bracket) else super().query(tree)

    def operand(self, tree):
        nested = isinstance(tree, Bracket) and isinstance(tree.of, (Union, Bracket))
        return f"SELECT * FROM ({self.query(tree)})" if nested else self.query(tree)

    def check_option(self):
        """Its views can't be changed, so that none of them is asked for its option."""
        return ""


def sent(value):
    """A value as SQLite takes it."""
    if isinstance(value, Decimal):
        return int(value) if value == value.to_integral_value() and value.as_tuple().exponent >= 0 else float(value)
    return value


def come(value):
    if isinstance(value, (int, float)):
        return Decimal(repr(value))
    return value


class Sqlite(System):
    name = "SQLite"
    writer = SqliteWriter

    def version(self):
        return sqlite3.sqlite_version

    def begin(self, users):
        self.connection = sqlite3.connect(":memory:", isolation_level=None)
        self.connection.execute("PRAGMA foreign_keys = ON")
        self.cursors = {}
        self.connection.execute("BEGIN")

    def end(self):
        self.connection.close()

    def run(self, words, values):
        try:
            return self.connection.execute(words, [sent(value) for _, value in values])
        except (sqlite3.Error, OverflowError) as fault:
            raise refused(fault) from fault

    def command(self, user, words):
        self.run(words, [])

    def change(self, user, words, values):
        return self.run(words, values).rowcount

    def rows(self, user, words, values):
        done = self.run(words, values)
        return Result([None for _ in done.description], list(fetched(done.fetchall)))

    def open(self, user, name, cursor, words, values):
        if cursor.scrolls:
            raise Unsayable("SCROLL")
        self.cursors[name] = self.run(words, values)

    def fetch(self, user, name, orientation, amount):
        cursor = self.cursors[name]
        kinds = [None for _ in cursor.description]
        return Result(kinds, list(fetched(lambda: [row for row in [cursor.fetchone()] if row is not None])))

    def close(self, user, name):
        self.cursors.pop(name).close()

    def change_current(self, user, name, statement, writer):
        raise Unsayable("WHERE CURRENT OF")

    def commit(self, user):
        self.finish("COMMIT")

    def rollback(self, user):
        self.finish("ROLLBACK")

    def finish(self, word):
        for cursor in self.cursors.values():
            cursor.close()
        self.cursors = {}
        self.run(word, [])
        self.run("BEGIN", [])


def fetched(fetch):
    try:
        return [tuple(map(come, row)) for row in fetch()]
    except sqlite3.Error as fault:
        raise refused(fault) from fault


def refused(fault):
    message = str(fault)
    if getattr(fault, "sqlite_errorname", "").startswith("SQLITE_CONSTRAINT"):
        return Refused("23000", message)
    return Refused(next((state for state, words in STATES if any(each in message for each in words)), "HY000"), message)
