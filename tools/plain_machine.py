"""The table machine of SQL-92 modules as its rules say it: every statement reads whole tables, a change checks every
constraint on every row, OPEN lists, and COMMIT copies the database. `random_runs.py` holds the program against this.
"""

from __future__ import annotations

import copy
from dataclasses import dataclass, field
from typing import NamedTuple

from plain_queries import (
    NO_DATA,
    OUT_OF_RANGE,
    TOO_LONG,
    Column,
    Kind,
    Number,
    Query,
    Status,
    Union,
    identity,
    in_order,
    truncated,
)

INTEGRITY = "23000 -2300"
CURSOR_STATE = "24000 -2400"
CHECK_OPTION = "44000 -4400"
DONE = "00000 0"


class Domain(NamedTuple):
    """SMALLINT, INTEGER, NUMERIC, CHARACTER or CHARACTER VARYING; digits, or length, and scale."""

    name: str
    size: int = 0
    scale: int = 0

    @property
    def kind(self):
        names = {"CHARACTER": "fixed", "CHARACTER VARYING": "varying"}
        if self.name in names:
            return Kind(names[self.name], self.size)
        return Kind("number", self.scale)

    @property
    def text(self):
        if self.name == "NUMERIC":
            return f"NUMERIC({self.size}, {self.scale})"
        return f"{self.name}({self.size})" if self.size else self.name

    def stored(self, value):
        """A value as it is stored: trailing digits are truncated, then the range is tested; texts are padded or cut of
        blanks."""
        if value is None:
            return None
        if isinstance(value, Number):
            return self.stored_number(value)
        if value[self.size :].strip(" "):
            raise Status(TOO_LONG)
        text = value[: self.size]
        return text.ljust(self.size) if self.name == "CHARACTER" else text

    def stored_number(self, value):
        unscaled = truncated(value.unscaled * 10**self.scale, 10**value.scale)
        greatest = {"SMALLINT": 2**15 - 1, "INTEGER": 2**31 - 1}.get(self.name, 10**self.size - 1)
        least = -greatest if self.name == "NUMERIC" else -greatest - 1
        if not least <= unscaled <= greatest:
            raise Status(OUT_OF_RANGE)
        return Number(unscaled, self.scale)


@dataclass
class BaseTable:
    """Its first column is its key, and not null. A reference is a column and the table whose key it refers to."""

    domains: dict
    checks: list = field(default_factory=list)
    reference: tuple | None = None


@dataclass
class View:
    """An updatable view: its columns with those of the table under it, and its condition."""

    under: str
    item: str
    columns: dict
    condition: object
    checks: bool

    def query(self):
        columns = [Column(self.item, column) for column in self.columns.values()]
        return Query(False, columns, [(self.under, self.item)], self.condition, False, [], None)


@dataclass
class Cursor:
    """With a table it is over its rows: of an item, those of which the condition is true, some columns of them. Else it is
    over the rows of a query, in the order of keys."""

    name: str
    kinds: list
    table: str | None = None
    item: str = ""
    condition: object = None
    columns: list = field(default_factory=list)
    union: Union | None = None
    keys: list = field(default_factory=list)


@dataclass
class OpenCursor:
    """The numbers of rows, or rows; how many are passed, and the number that it is on."""

    items: list
    place: int = 0
    on: int | None = None


@dataclass
class Rows:
    """Rows by their numbers, and the next number."""

    rows: dict = field(default_factory=dict)
    next: int = 1

    def add(self, row):
        self.rows[self.next] = row
        self.next += 1

    def listed(self):
        return [self.rows[n] for n in sorted(self.rows)]


# ---- statements


class Open(NamedTuple):
    cursor: Cursor


class Fetch(NamedTuple):
    """The orientation is a word, and for ABSOLUTE and RELATIVE a number."""

    cursor: Cursor
    orientation: tuple = ("NEXT", 0)


class Close(NamedTuple):
    cursor: Cursor


class Insert(NamedTuple):
    """`source` is a list of expressions, None for NULL, or a query."""

    table: str
    columns: list
    source: list | Query


class Update(NamedTuple):
    """`on` is a cursor or a condition, which may be None."""

    table: str
    assignments: list
    on: object


class Delete(NamedTuple):
    table: str
    on: object


class Commit(NamedTuple):
    pass


class Rollback(NamedTuple):
    pass


class Machine:
    def __init__(self, database, bases, views):
        self.database, self.bases, self.views = database, bases, views
        self.tables = {name: Rows() for name in bases}
        self.committed = copy.deepcopy(self.tables)
        self.cursors = {}

    def call(self, statement, parameters):
        """What a report says of a call behind the procedure's name."""
        self.database.parameters = parameters
        self.database.rows = {name: table.listed() for name, table in self.tables.items()}
        try:
            return DONE + (self.perform(statement) or "")
        except Status as status:
            return str(status)

    def perform(self, statement):
        match statement:
            case Open(cursor):
                return self.open(cursor)
            case Fetch(cursor, orientation):
                return self.fetch(cursor, orientation)
            case Close(cursor):
                self.opened(cursor)
                del self.cursors[cursor.name]
            case Insert(table, columns, source):
                return self.insert(table, columns, source)
            case Update(table, assignments, on):
                return self.update(table, assignments, on)
            case Delete(table, on):
                return self.delete(table, on)
            case Commit():
                self.committed, self.cursors = copy.deepcopy(self.tables), {}
            case Rollback():
                self.tables, self.cursors = copy.deepcopy(self.committed), {}

    # ---- tables and views

    def base(self, table):
        while table in self.views:
            table = self.views[table].under
        return table

    def levels(self, table):
        """The views between a table and its base table, from inside out."""
        levels = []
        while table in self.views:
            levels.insert(0, self.views[table])
            table = self.views[table].under
        return levels

    def position(self, table, column):
        """The position in the base table of a column of a table or view."""
        while table in self.views:
            column, table = self.views[table].columns[column], self.views[table].under
        return list(self.bases[table].domains).index(column)

    def shown(self, table, row):
        """A row of the base table as a table or view shows it."""
        return {c: row[self.position(table, c)] for c, _ in self.database.columns[table]}

    def holds(self, view, row):
        scope = {view.item: self.shown(view.under, row)}
        return self.database.is_true(view.condition, [scope])

    def chosen(self, table, item, condition):
        """The numbers of the rows for which each condition in turn is true, over all rows."""
        rows = self.tables[self.base(table)].rows
        numbers = sorted(rows)
        for view in self.levels(table):
            numbers = [n for n in numbers if self.holds(view, rows[n])]
        scopes = {n: [{item: self.shown(table, rows[n])}] for n in numbers}
        return [n for n in numbers if self.database.is_true(condition, scopes[n])]

    def demanded(self, table):
        """The views whose conditions a new or changed row must meet: the outermost one with a check option, and all below."""
        levels = self.levels(table)
        while levels and not levels[-1].checks:
            levels.pop()
        return levels

    # ---- cursors

    def opened(self, cursor):
        if cursor.name not in self.cursors:
            raise Status(CURSOR_STATE)
        return self.cursors[cursor.name]

    def open(self, cursor):
        if cursor.name in self.cursors:
            raise Status(CURSOR_STATE)
        if cursor.table:
            items = self.chosen(cursor.table, cursor.item, cursor.condition)
        else:
            items = in_order(self.database.union(cursor.union)[0], cursor.keys)
        self.cursors[cursor.name] = OpenCursor(items)

    def fetch(self, cursor, orientation):
        state = self.opened(cursor)
        row = self.next_row(cursor, state) if cursor.table else reached_row(state, orientation)
        return "".join(
            f" P{i}={written(value, kind)} N{i}={-1 if value is None else 0}"
            for i, (value, kind) in enumerate(zip(row, cursor.kinds))
        )

    def next_row(self, cursor, state):
        """The row under the next number under which there is one now."""
        rows = self.tables[self.base(cursor.table)].rows
        state.on = None
        while state.place < len(state.items) and state.on is None:
            if state.items[state.place] in rows:
                state.on = state.items[state.place]
            state.place += 1
        if state.on is None:
            raise Status(NO_DATA)
        row = self.shown(cursor.table, rows[state.on])
        return [row[column] for column in cursor.columns]

    # ---- changes

    def insert(self, table, columns, source):
        base = self.base(table)
        domains = list(self.bases[base].domains.values())
        places = [self.position(table, column) for column in columns]
        after = copy.copy(self.tables[base])
        after.rows, first = dict(after.rows), after.next
        for values in self.sources(source):
            row = [None] * len(domains)
            for place, value in zip(places, values):
                row[place] = domains[place].stored(value)
            after.add(tuple(row))
        self.finish(table, after, range(first, after.next))

    def sources(self, source):
        """The rows of values of an INSERT; those of VALUES are evaluated as they are stored."""
        if isinstance(source, list):
            return [(None if e is None else self.database.value(e, []) for e in source)]
        rows = self.database.query(source, [])
        if not rows:
            raise Status(NO_DATA)
        return rows

    def numbers(self, table, on):
        """The numbers of the rows that an UPDATE or DELETE means."""
        if isinstance(on, Cursor):
            state = self.cursors.get(on.name)
            rows = self.tables[self.base(table)].rows
            if state is None or state.on is None or state.on not in rows:
                raise Status(CURSOR_STATE)
            return [state.on]
        numbers = self.chosen(table, table, on)
        if not numbers:
            raise Status(NO_DATA)
        return numbers

    def update(self, table, assignments, on):
        base = self.base(table)
        domains = list(self.bases[base].domains.values())
        numbers = self.numbers(table, on)
        before = self.tables[base]
        after = Rows(dict(before.rows), before.next)
        for n in numbers:
            row, scope = list(before.rows[n]), {table: self.shown(table, before.rows[n])}
            for column, expr in assignments:
                place = self.position(table, column)
                value = None if expr is None else self.database.value(expr, [scope])
                row[place] = domains[place].stored(value)
            after.rows[n] = tuple(row)
        self.finish(table, after, numbers)

    def delete(self, table, on):
        base = self.base(table)
        numbers = self.numbers(table, on)
        before = self.tables[base]
        rows = {n: row for n, row in before.rows.items() if n not in numbers}
        self.finish(table, Rows(rows, before.next), [])
        if isinstance(on, Cursor):
            self.cursors[on.name].on = None

    def finish(self, table, after, changed):
        """Puts a changed base table in place, if its rows meet the check option and all constraints hold."""
        for n in changed:
            if not all(self.holds(view, after.rows[n]) for view in self.demanded(table)):
                raise Status(CHECK_OPTION)
        base = self.base(table)
        self.check_rows(base, after)
        tables = {**self.tables, base: after}
        self.check_keys(tables)
        self.tables = tables

    def check_rows(self, base, after):
        columns = list(self.bases[base].domains)
        for row in after.listed():
            if row[0] is None:
                raise Status(INTEGRITY)
            for check in self.bases[base].checks:
                if self.database.truth(check, [{base: dict(zip(columns, row))}]) is False:
                    raise Status(INTEGRITY)

    def check_keys(self, tables):
        keys = {name: [identity(row[0]) for row in t.listed()] for name, t in tables.items()}
        if any(len(set(found)) < len(found) for found in keys.values()):
            raise Status(INTEGRITY)
        for name, base in self.bases.items():
            if base.reference:
                column, referenced = base.reference
                place = list(base.domains).index(column)
                values = [row[place] for row in tables[name].listed()]
                if any(v is not None and identity(v) not in keys[referenced] for v in values):
                    raise Status(INTEGRITY)

    def report(self, table):
        """The lines of a table of the user U."""
        kinds = [domain.kind for domain in self.bases[table].domains.values()]
        rows = self.tables[table].listed()
        lines = ["  " + " ".join(map(written, row, kinds)) for row in rows]
        return [f"TABLE U.{table} {len(rows)}"] + lines


def reached_row(state, orientation):
    """The row of a cursor over rows at the place that an orientation means, from 1 to their number."""
    word, n = orientation
    count = len(state.items)
    wanted = {
        "NEXT": state.place + 1,
        "PRIOR": state.place - 1,
        "FIRST": 1,
        "LAST": count,
        "ABSOLUTE": n if n >= 0 else count + 1 + n,
        "RELATIVE": state.place + n,
    }[word]
    state.place = min(max(wanted, 0), count + 1)
    if not 1 <= state.place <= count:
        raise Status(NO_DATA)
    return state.items[state.place - 1]


def written(value, kind):
    """A value as a report has it."""
    if value is None:
        return "NULL"
    if isinstance(value, str):
        text = value.ljust(kind.size) if kind.name == "fixed" else value
        return "'" + text.replace("'", "''") + "'"
    unscaled = value.unscaled * 10 ** (kind.size - value.scale)
    digits = str(abs(unscaled)).rjust(kind.size + 1, "0")
    point = len(digits) - kind.size
    text = digits[:point] + ("." + digits[point:] if kind.size else "")
    return "-" + text if unscaled < 0 else text
