#!/usr/bin/env python3
"""Random runs, and the reports that the rules want for them.

    tools/random_runs.py compare PROGRAM queries|changes FIRST COUNT    runs the program and says where its reports differ
    tools/random_runs.py write queries|changes FIRST COUNT              prints the runs as data of sq_cases

A run is made from its number, and the wanted report by `plain_queries.py` and `plain_machine.py`.
"""

import random
import subprocess
import sys
import tempfile
from pathlib import Path

from plain_machine import (
    BaseTable,
    Close,
    Commit,
    Cursor,
    Delete,
    Domain,
    Fetch,
    Insert,
    Machine,
    Open,
    Rollback,
    Update,
    View,
)
from plain_queries import (
    Between,
    Bracketed,
    Column,
    Compare,
    CompareQuery,
    Database,
    Exists,
    InList,
    InQuery,
    IsNull,
    Joined,
    Like,
    Literal,
    Negated,
    Not,
    Number,
    Operation,
    Parameter,
    Query,
    SetFunction,
    Union,
    common,
    functions_in,
)

# ---- trees as texts


def expr_text(expr, level=0):
    match expr:
        case Literal(Number(unscaled, scale)):
            digits = str(unscaled).rjust(scale + 1, "0")
            return f"{digits[:-scale]}.{digits[-scale:]}" if scale else digits
        case Literal(text):
            return "'" + text.replace("'", "''") + "'"
        case Parameter(name):
            return ":" + name
        case Column(item, name):
            return f"{item}.{name}"
        case Bracketed(operand):
            return f"({expr_text(operand)})"
        case Negated(operand):
            return "- " + expr_text(operand, 3)
        case SetFunction(name, distinct, operand):
            inside = "*" if operand is None else expr_text(operand)
            return f"{name}({'DISTINCT ' if distinct else ''}{inside})"
        case Operation(operator, left, right):
            own = 1 if operator in "+-" else 2
            text = f"{expr_text(left, own)} {operator} {expr_text(right, own + 1)}"
            return f"({text})" if own < level else text


def list_text(exprs):
    return ", ".join("NULL" if expr is None else expr_text(expr) for expr in exprs)


def in_brackets(part):
    text = condition_text(part)
    return f"({text})" if isinstance(part, (Joined, Not)) else text


def condition_text(condition):
    match condition:
        case Joined(word, parts):
            return f" {word} ".join(map(in_brackets, parts))
        case Not(part):
            return "NOT " + in_brackets(part)
        case Compare(operator, left, right):
            return f"{expr_text(left)} {operator} {expr_text(right)}"
        case CompareQuery(operator, quantifier, left, query):
            words = f"{operator} {quantifier}".strip()
            return f"{expr_text(left)} {words} ({query_text(query)})"
        case Exists(query):
            return f"EXISTS ({query_text(query)})"
    is_not = "NOT " if condition.negated else ""
    operand = expr_text(condition.operand)
    match condition:
        case Between(_, _, low, high):
            return f"{operand} {is_not}BETWEEN {expr_text(low)} AND {expr_text(high)}"
        case InList(_, _, exprs):
            return f"{operand} {is_not}IN ({list_text(exprs)})"
        case InQuery(_, _, query):
            return f"{operand} {is_not}IN ({query_text(query)})"
        case Like(_, _, pattern, escape):
            behind = f" ESCAPE {expr_text(escape)}" if escape else ""
            return f"{operand} {is_not}LIKE {expr_text(pattern)}{behind}"
        case IsNull():
            return f"{operand} IS {is_not}NULL"


def where_text(condition, word="WHERE"):
    return "" if condition is None else f" {word} {condition_text(condition)}"


def query_text(query):
    text = "SELECT DISTINCT " if query.distinct else "SELECT "
    text += "*" if query.select is None else list_text(query.select)
    text += " FROM " + ", ".join(f"{table} {item}" for table, item in query.items)
    text += where_text(query.where)
    if query.by:
        text += " GROUP BY " + list_text(query.by)
    return text + where_text(query.having, "HAVING")


def cursor_text(union, keys):
    text = query_text(union.first)
    for is_all, query in union.others:
        text += (" UNION ALL " if is_all else " UNION ") + query_text(query)
    if keys:
        text += " ORDER BY " + ", ".join(f"{p + 1}{' DESC' if d else ''}" for p, d in keys)
    return text


def kind_text(kind):
    names = {"fixed": "CHARACTER", "varying": "CHARACTER VARYING"}
    if kind.is_number:
        return Domain("NUMERIC", 18, kind.size).text
    return Domain(names[kind.name], kind.size).text


# ---- random trees

OPERATORS = ["=", "=", "=", "<>", "<", ">", "<=", ">="]
TEXTS = ["a", "b", "ab", "ba", "a ", "b  ", "c", "'", "%", "a_"]
PATTERNS = ["%", "a%", "_", "a_%", "%b%", "ab", "!%%", "b  "]


class Maker:
    """Trees over the tables of a database. `scopes` are dicts from correlation names to tables, the nearest first. In a
    grouped query `by` has its grouping columns, else it is None. `grouped` has those of the queries around that are
    grouped, by how far out they are: a subquery reads no other of their columns."""

    def __init__(self, seed, database):
        self.random, self.database = random.Random(seed), database
        self.item_count, self.parameters = 0, []

    def chance(self, probability):
        return self.random.random() < probability

    def new_item(self):
        self.item_count += 1
        return f"X{self.item_count}"

    def is_number(self, expr, scopes):
        return self.database.kind(expr, scopes).is_number

    def columns(self, scopes, numbers, grouped=None):
        found = []
        for depth, scope in enumerate(scopes):
            for item, table in scope.items():
                for name, kind in self.database.columns[table]:
                    column = Column(item, name)
                    is_open = depth not in (grouped or {}) or column in grouped[depth]
                    if kind.is_number == numbers and is_open:
                        found.append(column)
        return found

    def literal(self, numbers):
        if not numbers:
            return Literal(self.random.choice(TEXTS))
        if self.parameters and self.chance(0.3):
            return Parameter(self.random.choice(self.parameters))
        if self.chance(0.85):
            return Literal(Number(self.random.randint(0, 4), 0))
        return Literal(Number(self.random.randint(0, 40), 1))

    def operand(self, numbers, scopes, by, grouped):
        """An expression without operators."""
        if by is None:
            columns = self.columns(scopes, numbers, grouped)
            return self.random.choice(columns) if columns and self.chance(0.8) else self.literal(numbers)
        columns = [column for column in by if self.is_number(column, scopes) == numbers]
        if columns and self.chance(0.45):
            return self.random.choice(columns)
        if self.chance(0.75):
            function = self.set_function(numbers, scopes)
            if function:
                return function
        return self.literal(numbers)

    def set_function(self, numbers, scopes):
        own = scopes[:1]
        if not numbers:
            columns = self.columns(own, False)
            name = self.random.choice(["MIN", "MAX"])
            return SetFunction(name, False, self.random.choice(columns)) if columns else None
        name = self.random.choice(["COUNT(*)", "COUNT", "SUM", "AVG", "MIN", "MAX"])
        if name == "COUNT(*)":
            return SetFunction("COUNT", False, None)
        numbers = name != "COUNT" or self.chance(0.6)
        return SetFunction(name, self.chance(0.3), self.expr(numbers, own, int(self.chance(0.3))))

    def expr(self, numbers, scopes, height=1, by=None, grouped=None):
        if not numbers or height == 0 or self.chance(0.65):
            return self.operand(numbers, scopes, by, grouped)
        if self.chance(0.15):
            inner = self.expr(True, scopes, height - 1, by, grouped)
            return Bracketed(inner) if isinstance(inner, (Operation, Negated)) else Negated(inner)
        left, right = (self.expr(True, scopes, height - 1, by, grouped) for _ in "lr")
        operation = Operation(self.random.choice("+-**/"), left, right)
        return operation if self.has_room(operation, scopes) else left

    def has_room(self, operation, scopes):
        """Whether no scale passes 18."""
        s = self.database.kind(operation.left, scopes).size
        t = self.database.kind(operation.right, scopes).size
        needed = {"*": s + t, "/": max(s, t) + t - s}.get(operation.operator, 0)
        return needed <= 18

    def condition(self, scopes, height, queries, by=None, grouped=None):
        if height > 0 and self.chance(0.45):
            count = self.random.randint(2, 3)
            parts = [self.condition(scopes, height - 1, queries, by, grouped) for _ in range(count)]
            return Joined(self.random.choice(["AND", "AND", "OR"]), parts)
        if height > 0 and self.chance(0.15):
            return Not(self.condition(scopes, height - 1, queries, by, grouped))
        if queries > 0 and self.chance(0.35):
            return self.with_subquery(scopes, queries - 1, by, grouped)
        return self.plain(scopes, by, grouped)

    def with_subquery(self, scopes, queries, by, grouped):
        within = {depth + 1: columns for depth, columns in (grouped or {}).items()}
        if by is not None:
            within[1] = by
        if self.chance(0.3):
            return Exists(self.query(scopes, queries, grouped=within))
        numbers = self.chance(0.75)
        query = self.query(scopes, queries, numbers=numbers, grouped=within)
        left = self.expr(numbers, scopes, 1, by, grouped)
        if self.chance(0.35):
            return InQuery(self.chance(0.4), left, query)
        quantifier = self.random.choice(["ALL", "ANY", "SOME", ""])
        return CompareQuery(self.random.choice(OPERATORS), quantifier, left, query)

    def plain(self, scopes, by, grouped):
        numbers = self.chance(0.75)

        def expr(height=1):
            return self.expr(numbers, scopes, height, by, grouped)

        match self.random.choice(["compare"] * 4 + ["between", "list", "null", "like"]):
            case "compare":
                return Compare(self.random.choice(OPERATORS), expr(), expr())
            case "between":
                return Between(self.chance(0.3), expr(), expr(), expr())
            case "list":
                exprs = [expr() for _ in range(self.random.randint(1, 3))]
                return InList(self.chance(0.3), expr(), exprs)
            case "null":
                return IsNull(self.chance(0.4), expr(0))
        escape = Literal(self.random.choice(["!", "!", "%", "ab"])) if self.chance(0.2) else None
        pattern = Literal(self.random.choice(PATTERNS))
        return Like(self.chance(0.3), self.expr(False, scopes, 0, by, grouped), pattern, escape)

    def query(self, outer, queries, numbers=None, grouped=None, items=None):
        """A query specification. With `numbers` it has one column, of numbers or of texts."""
        count = items or self.random.choice([1, 1, 2] if outer else [1, 1, 1, 2, 2, 3])
        tables = list(self.database.columns)
        items = [(self.random.choice(tables), self.new_item()) for _ in range(count)]
        scopes = [{item: table for table, item in items}] + outer
        where = self.condition(scopes, 2, queries, None, grouped) if self.chance(0.75) else None
        query = Query(self.chance(0.2), None, items, where, self.chance(0.3), [], None)
        if query.grouped:
            self.group(query, scopes, queries, numbers, grouped)
        elif numbers is not None or self.chance(0.85):
            query.select = self.select(scopes, numbers, None, grouped)
        return query

    def select(self, scopes, numbers, by, grouped):
        if numbers is not None:
            return [self.expr(numbers, scopes, 2, by, grouped)]
        count = self.random.randint(1, 3)
        return [self.expr(self.chance(0.7), scopes, 2, by, grouped) for _ in range(count)]

    def group(self, query, scopes, queries, numbers, grouped):
        own = self.columns(scopes[:1], True) + self.columns(scopes[:1], False)
        query.by = self.random.sample(own, min(len(own), self.random.choice([0, 1, 1, 2])))
        query.select = self.select(scopes, numbers, query.by, grouped)
        if self.chance(0.5):
            query.having = self.condition(scopes, 1, queries, query.by, grouped)
        is_grouped = query.by or query.having or any(map(functions_in, query.select))
        if not is_grouped:
            query.having = Compare(">=", SetFunction("COUNT", False, None), Literal(Number(0, 0)))

    def union(self, first):
        """A query expression: others are joined to a first query, as far as their kinds allow."""
        kinds, others = self.database.kinds(first, []), []
        for _ in range(40 if self.chance(0.25) else 0):
            query = self.query([], 1)
            own = self.database.kinds(query, [])
            if len(own) == len(kinds) and all(map(common, kinds, own)):
                others.append((self.chance(0.5), query))
                kinds = list(map(common, kinds, own))
                if len(others) == 2:
                    break
        return Union(first, others), kinds

    def keys(self, kinds, count):
        return [(self.random.randrange(len(kinds)), self.chance(0.5)) for _ in range(count)]


# ---- runs


class Run:
    """The texts of a run, and the lines of the report that is wanted."""

    def __init__(self):
        self.schema = ["CREATE SCHEMA AUTHORIZATION U"]
        self.module = ["MODULE M LANGUAGE C AUTHORIZATION U"]
        self.procedures, self.script, self.report = [], [], []

    def procedure(self, name, parameters, statement):
        words = ", ".join([*parameters, "SQLCODE"])
        self.procedures.append(f"PROCEDURE {name} ({words}); {statement};")

    def call(self, name, values, answer):
        arguments = f" ({', '.join(values)})" if values else ""
        self.script.append(f"CALL M.{name}{arguments};")
        self.report.append(f"M.{name} {answer}")

    def table(self, name, lines):
        self.script.append(f"TABLE U.{name};")
        self.report += lines

    def texts(self):
        return {
            "schema": self.schema,
            "module": self.module + self.procedures,
            "script": self.script,
        }


def table_text(name, base, constraints=""):
    columns = [f"{column} {domain.text}" for column, domain in base.domains.items()]
    return f"CREATE TABLE {name} ({', '.join(columns)}{constraints})"


def fetch_procedure(run, name, cursor, orientation=""):
    parameters = [f":P{i} {kind_text(k)}, :N{i} INTEGER" for i, k in enumerate(cursor.kinds)]
    targets = ", ".join(f":P{i}:N{i}" for i in range(len(cursor.kinds)))
    run.procedure(name, parameters, f"FETCH {orientation}{cursor.name} INTO {targets}")


def call_fetch(run, machine, name, statement):
    answer = machine.call(statement, {})
    run.call(name, ["*"] * (2 * len(statement.cursor.kinds)), answer)
    return answer


INT, SMALL = Domain("INTEGER"), Domain("SMALLINT")

QUERY_TABLES = {
    "T1": BaseTable({"A": INT, "B": SMALL, "C": Domain("CHARACTER", 3)}),
    "T2": BaseTable({"A": INT, "D": Domain("NUMERIC", 5, 1), "E": Domain("CHARACTER", 2)}),
    "T3": BaseTable({"F": INT, "G": Domain("CHARACTER VARYING", 3)}),
}


def random_row(maker, base):
    row = []
    for domain in base.domains.values():
        if maker.chance(0.2):
            row.append(None)
        elif domain.kind.is_number:
            tenths = maker.random.choice([0, 5]) if domain.scale else 0
            row.append(Number(maker.random.randint(-1, 3) * 10**domain.scale + tenths, domain.scale))
        else:
            row.append(domain.stored(maker.random.choice(["a", "b", "ab", "ba", "'", "c"])))
    return tuple(row)


def value_text(value):
    if isinstance(value, Number) and value.unscaled < 0:
        return "-" + expr_text(Literal(Number(-value.unscaled, value.scale)))
    return "NULL" if value is None else expr_text(Literal(value))


class UnkeyedMachine(Machine):
    """Tables without a key."""

    def finish(self, table, after, changed):
        self.tables[table] = after


def query_run(seed, count=15):
    """Cursors over random queries, each fetched to its end, over three small tables and two views."""
    run, database = Run(), Database()
    maker = Maker(seed, database)
    for name, base in QUERY_TABLES.items():
        run.schema.append(table_text(name, base))
        database.columns[name] = [(c, domain.kind) for c, domain in base.domains.items()]
    machine = UnkeyedMachine(database, QUERY_TABLES, {})
    fill(run, machine, maker)
    for name in ("V1", "V2"):
        add_view(run, database, maker, name)
    for number in range(count):
        add_cursor(run, machine, maker, f"C{number}")
    return run


def fill(run, machine, maker):
    for name, base in QUERY_TABLES.items():
        for number in range(maker.random.choice([0, 2, 4, 5, 6])):
            row = random_row(maker, base)
            machine.tables[name].add(row)
            statement = f"INSERT INTO {name} VALUES ({', '.join(map(value_text, row))})"
            run.procedure(f"I{name}{number}", [], statement)
            run.call(f"I{name}{number}", [], "00000 0")


def add_view(run, database, maker, name):
    query = maker.query([], 1, items=maker.random.choice([1, 1, 2]))
    kinds = database.kinds(query, [])
    columns = [f"{name}C{i}" for i in range(len(kinds))]
    run.schema.append(f"CREATE VIEW {name} ({', '.join(columns)}) AS {query_text(query)}")
    database.views[name], database.columns[name] = query, list(zip(columns, kinds))


def add_cursor(run, machine, maker, name):
    union, kinds = maker.union(maker.query([], 2))
    keys = maker.keys(kinds, maker.random.choice([0, 0, 0, 1, 2]))
    cursor = Cursor(name, kinds, union=union, keys=keys)
    run.module.append(f"DECLARE {name} CURSOR FOR {cursor_text(union, keys)}")
    run.procedure(f"O{name}", [], f"OPEN {name}")
    fetch_procedure(run, f"F{name}", cursor)
    answer = machine.call(Open(cursor), {})
    run.call(f"O{name}", [], answer)
    while answer.startswith("00000"):
        answer = call_fetch(run, machine, f"F{name}", Fetch(cursor))


class ChangeRun:
    """Random changes, by conditions and by cursors, of two tables with constraints and of updatable views over them."""

    def __init__(self, seed, length):
        self.run, self.database = Run(), Database()
        self.maker = Maker(seed, self.database)
        self.random, self.chance = self.maker.random, self.maker.chance
        self.bases, self.views = self.make_bases(), {}
        for name in ("W1", "W2", "W3"):
            self.add_view(name)
        self.machine = Machine(self.database, self.bases, self.views)
        self.maker.parameters = ["X", "Y"]
        self.calls = []
        self.cursors = [self.add_cursor(f"C{i}") for i in range(6)]
        self.add_query_cursor("C6")
        for number in range(34):
            self.add_change(f"S{number}")
        self.add_transactions()
        self.play(length)

    def make_bases(self):
        bases = {
            "P": BaseTable(
                {"K": INT, "A": SMALL, "N": Domain("NUMERIC", 3, 1), "C": Domain("CHARACTER", 2)}
            ),
            "Q": BaseTable(
                {"K": INT, "R": INT, "C": Domain("CHARACTER VARYING", 2)}, reference=("R", "P")
            ),
        }
        for name, base in bases.items():
            self.database.columns[name] = [(c, d.kind) for c, d in base.domains.items()]
        for name, base in bases.items():
            base.checks = [self.check(name) for _ in range(self.random.choice([0, 1, 2]))]
            reference = ", FOREIGN KEY (R) REFERENCES P" if base.reference else ""
            checks = "".join(f", CHECK ({condition_text(check)})" for check in base.checks)
            text = table_text(name, base, ", UNIQUE (K)" if base.reference else ", PRIMARY KEY (K)")
            text = text.replace("K INTEGER", "K INTEGER NOT NULL")
            self.run.schema.append(text[:-1] + reference + checks + ")")
        return bases

    def check(self, table):
        condition = self.maker.condition([{table: table}], 0, 0)
        if self.chance(0.4):
            return condition
        return Joined("OR", [condition, Compare(">=", Column(table, "K"), self.maker.literal(True))])

    def add_view(self, name):
        under = self.random.choice(list(self.database.columns))
        item = self.maker.new_item()
        columns = self.database.columns[under]
        kept = self.random.sample(columns, max(1, len(columns) - self.random.randint(0, 1)))
        condition = self.maker.condition([{item: under}], 1, 0) if self.chance(0.8) else None
        checks = condition is not None and self.chance(0.4)
        view = View(under, item, {name + c: c for c, _ in kept}, condition, checks)
        self.database.columns[name] = [(name + c, kind) for c, kind in kept]
        self.views[name], self.database.views[name] = view, view.query()
        option = " WITH CHECK OPTION" if checks else ""
        names = ", ".join(view.columns)
        query = query_text(view.query())
        self.run.schema.append(f"CREATE VIEW {name} ({names}) AS {query}{option}")

    # ---- cursors

    def add_cursor(self, name):
        """A cursor over a table or an updatable view."""
        table = self.random.choice(list(self.database.columns))
        item = self.maker.new_item()
        columns = self.database.columns[table]
        kept = self.random.sample(columns, self.random.randint(1, len(columns)))
        condition = self.maker.condition([{item: table}], 1, 0) if self.chance(0.85) else None
        cursor = Cursor(name, [k for _, k in kept], table, item, condition, [c for c, _ in kept])
        select = list_text([Column(item, column) for column in cursor.columns])
        self.declare(cursor, f"CURSOR FOR SELECT {select} FROM {table} {item}{where_text(condition)}")
        fetch_procedure(self.run, f"F{name}", cursor)
        self.calls += [(f"F{name}", Fetch(cursor))] * 8
        return cursor

    def add_query_cursor(self, name):
        """A scrolling cursor over the rows of a query."""
        union, kinds = self.maker.union(self.maker.query([], 1))
        cursor = Cursor(name, kinds, union=union, keys=self.maker.keys(kinds, 1))
        self.declare(cursor, f"SCROLL CURSOR FOR {cursor_text(union, cursor.keys)}")
        for word in ("NEXT", "PRIOR", "FIRST", "LAST"):
            self.add_fetch(cursor, f"{word[0]}{word[1]}", word, 0)
        for number in range(3):
            distance = self.random.randint(-4, 4)
            word = self.random.choice(["ABSOLUTE", "RELATIVE"])
            self.add_fetch(cursor, f"M{number}", word, distance)

    def add_fetch(self, cursor, letters, word, distance):
        words = f"{word} {distance} FROM " if word in ("ABSOLUTE", "RELATIVE") else f"{word} FROM "
        fetch_procedure(self.run, f"F{letters}{cursor.name}", cursor, words)
        statement = Fetch(cursor, (word, distance))
        self.calls += [(f"F{letters}{cursor.name}", statement)] * 2

    def declare(self, cursor, text):
        name = cursor.name
        self.run.module.append(f"DECLARE {name} {text}")
        self.add(f"O{name}", f"OPEN {name}", Open(cursor), 3)
        self.run.procedure(f"D{name}", [], f"CLOSE {name}")
        self.calls.append((f"D{name}", Close(cursor)))

    # ---- changes

    def add(self, name, text, statement, weight):
        """A procedure with the parameters X and Y."""
        self.run.procedure(name, [":X INTEGER", ":Y INTEGER"], text)
        self.calls += [(name, statement)] * weight

    def add_change(self, name):
        table = self.random.choice(["P", "P", "Q", "Q", *self.database.columns])
        if self.chance(0.4):
            self.add_insert(name, table)
        elif self.chance(0.45):
            cursor = self.random.choice(self.cursors)
            where = f" WHERE CURRENT OF {cursor.name}"
            self.add_update_or_delete(name, cursor.table, cursor, where)
        else:
            condition = self.search_condition(table)
            self.add_update_or_delete(name, table, condition, where_text(condition))

    def search_condition(self, table):
        if table in self.bases and self.chance(0.35):
            return Compare("=", Column(table, "K"), Parameter("X"))
        return self.maker.condition([{table: table}], 1, 1) if self.chance(0.9) else None

    def add_insert(self, name, table):
        columns = self.database.columns[table]
        if self.chance(0.7):
            source = [self.inserted(kind) for _, kind in columns]
            text = f"VALUES ({list_text(source)})"
        else:
            source = self.fitting_query([kind for _, kind in columns])
            columns = columns[: len(self.database.kinds(source, []))]
            text = query_text(source)
        names = [column for column, _ in columns]
        statement = Insert(table, names, source)
        self.add(name, f"INSERT INTO {table} ({', '.join(names)}) {text}", statement, 6)

    def inserted(self, kind):
        if self.chance(0.07):
            return None
        if not kind.is_number:
            return Literal(self.random.choice(["a", "b", "ab", "b ", ""]))
        if kind.size == 0 and self.chance(0.7):
            return Parameter(self.random.choice("XY"))
        return self.maker.expr(True, [])

    def fitting_query(self, kinds):
        """A query whose columns can be stored in the first columns of these kinds."""
        while True:
            query = self.maker.query([], 1, items=self.random.choice([1, 1, 2]))
            own = self.database.kinds(query, [])
            if len(own) <= len(kinds) and all(a.is_number == b.is_number for a, b in zip(own, kinds)):
                return query

    def add_update_or_delete(self, name, table, on, where):
        if self.chance(0.35):
            self.add(name, f"DELETE FROM {table}{where}", Delete(table, on), 1)
            return
        columns = self.database.columns[table]
        assignments = []
        for column, kind in self.random.sample(columns, self.random.randint(1, min(2, len(columns)))):
            value = self.maker.expr(kind.is_number, [{table: table}])
            assignments.append((column, None if self.chance(0.05) else value))
        sets = ", ".join(f"{column} = {list_text([value])}" for column, value in assignments)
        self.add(name, f"UPDATE {table} SET {sets}{where}", Update(table, assignments, on), 4)

    def add_transactions(self):
        self.run.procedure("CM", [], "COMMIT WORK")
        self.run.procedure("RB", [], "ROLLBACK WORK")
        self.calls += [("CM", Commit()), ("RB", Rollback())]

    # ---- the script

    def play(self, length):
        self.add_rows()
        self.run.call("CM", [], self.machine.call(Commit(), {}))
        for number in range(length):
            if number % 40 == 39:
                self.show_tables()
            self.play_call(*self.random.choice(self.calls))
        self.show_tables()

    def add_rows(self):
        half = Operation("/", Parameter("Y"), Literal(Number(20, 1)))
        rest = {"P": [half, Literal("ab")], "Q": [Literal("b")]}
        for name, base in self.bases.items():
            values = [Parameter("X"), Parameter("Y"), *rest[name]]
            statement = Insert(name, list(base.domains), values)
            text = f"INSERT INTO {name} VALUES ({list_text(values)})"
            self.run.procedure(f"Z{name}", [":X INTEGER", ":Y INTEGER"], text)
            for number in range(12):
                self.call_with(f"Z{name}", statement, number - 1, self.random.randint(-1, 6))

    def play_call(self, name, statement):
        if isinstance(statement, Fetch):
            call_fetch(self.run, self.machine, name, statement)
        elif isinstance(statement, (Close, Commit, Rollback)):
            self.run.call(name, [], self.machine.call(statement, {}))
        else:
            x, y = self.random.randint(-1, 8), self.random.randint(0, 4)
            self.call_with(name, statement, x, y)

    def call_with(self, name, statement, x, y):
        values = {"X": Number(x, 0), "Y": Number(y, 0)}
        self.run.call(name, [str(x), str(y)], self.machine.call(statement, values))

    def show_tables(self):
        for name in self.bases:
            self.run.table(name, self.machine.report(name))


def change_run(seed, length=200):
    return ChangeRun(seed, length).run


# ---- the two commands

RUNS = {"queries": query_run, "changes": change_run}


def compare(program, what, first, count):
    """Runs the program, and shows the first line of each report that differs."""
    lines = differing = 0
    for seed in range(first, first + count):
        run = RUNS[what](seed)
        report = program_report(program, run)
        lines += len(run.report)
        if report != run.report:
            differing += 1
            show_difference(what, seed, run, report)
    print(f"{count} runs of {what}, {lines} lines wanted; {differing} runs differ")
    return differing


def program_report(program, run):
    with tempfile.TemporaryDirectory() as folder:
        words = [program, "run"]
        for kind, lines in run.texts().items():
            file = Path(folder, kind)
            file.write_text("\n".join(lines) + "\n")
            words += [f"--{kind}", str(file)]
        done = subprocess.run(words, capture_output=True, text=True, check=False)
    return done.stdout.splitlines() if done.returncode == 0 else [done.stderr.strip()]


def show_difference(what, seed, run, report):
    pairs = zip(run.report + ["(nothing)"], report + ["(nothing)"])
    number, (want, got) = next((n, pair) for n, pair in enumerate(pairs) if pair[0] != pair[1])
    print(f"{what} {seed}, line {number + 1}: want {want}\n  got {got}")
    name = want.split()[0].removeprefix("M.")
    for line in run.module + run.procedures:
        if f"PROCEDURE {name} " in line or f"DECLARE {name[1:]} " in line:
            print("  " + line)


def write(what, first, count):
    for seed in range(first, first + count):
        run = RUNS[what](seed)
        print(f"\nrun random_{what}_{seed}")
        for kind, lines in [*run.texts().items(), ("report", run.report)]:
            print(kind, *(f"|{line}" for line in lines), sep="\n")


def main(words):
    match words:
        case ["compare", program, what, first, count]:
            return 1 if compare(program, what, int(first), int(count)) else 0
        case ["write", what, first, count]:
            write(what, int(first), int(count))
            return 0
    print(__doc__, file=sys.stderr)
    return 2


if __name__ == "__main__":
    sys.exit(main(sys.argv[1:]))
