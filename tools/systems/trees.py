"""The trees of texts, of values and conditions up to schemas, modules and scripts."""

from __future__ import annotations

from dataclasses import dataclass, field
from typing import NamedTuple

# ---- values


class Domain(NamedTuple):
    """SMALLINT, INTEGER, NUMERIC, CHARACTER or CHARACTER VARYING; digits or length, and scale."""

    name: str
    size: int = 0
    scale: int = 0

    @property
    def is_text(self):
        return self.name.startswith("CHAR")


class Number(NamedTuple):
    spelled: str


class Text(NamedTuple):
    """A literal with its quotes, as it is written."""

    spelled: str


class Null(NamedTuple):
    pass


class User(NamedTuple):
    pass


class Parameter(NamedTuple):
    name: str
    indicator: str | None


class TableName(NamedTuple):
    """The schema is None where it isn't written."""

    schema: str | None
    name: str


class Column(NamedTuple):
    table: TableName | None
    name: str


class SetFunction(NamedTuple):
    """The argument is None for COUNT(*)."""

    name: str
    distinct: bool
    argument: object


class Signed(NamedTuple):
    sign: str
    of: object


class Binary(NamedTuple):
    left: object
    sign: str
    right: object


class Bracket(NamedTuple):
    """An expression, a condition or a query in brackets."""

    of: object


# ---- conditions


class Joined(NamedTuple):
    """Conditions with AND or OR between them."""

    word: str
    parts: list


class Not(NamedTuple):
    of: object


class Comparison(NamedTuple):
    """The right side is an expression or a query; the quantifier is ALL, ANY, SOME or None."""

    left: object
    sign: str
    quantifier: str | None
    right: object


class Between(NamedTuple):
    of: object
    negated: bool
    low: object
    high: object


class In(NamedTuple):
    """`among` is a list of expressions or a query."""

    of: object
    negated: bool
    among: object


class Like(NamedTuple):
    of: object
    negated: bool
    pattern: object
    escape: object


class IsNull(NamedTuple):
    of: object
    negated: bool


class Exists(NamedTuple):
    query: Select


# ---- queries


class Select(NamedTuple):
    """`values` is None for `*`; `tables` are pairs of a name and a correlation name, which may be None."""

    distinct: bool
    values: list | None
    tables: list
    where: object
    groups: list
    having: object


class Union(NamedTuple):
    left: object
    all: bool
    right: object


# ---- schemas


class ColumnElement(NamedTuple):
    name: str
    domain: Domain
    default: object
    constraints: list


class NotNull(NamedTuple):
    pass


class Key(NamedTuple):
    """A UNIQUE or PRIMARY KEY; no columns where it is a column's constraint."""

    words: str
    columns: list


class Reference(NamedTuple):
    columns: list
    table: TableName
    referred: list


class Check(NamedTuple):
    condition: object


class Table(NamedTuple):
    name: TableName
    elements: list


class View(NamedTuple):
    name: TableName
    columns: list
    query: Select
    checks: bool


class Grant(NamedTuple):
    """Actions are pairs of a word and columns."""

    actions: list
    table: TableName
    grantees: list
    with_option: bool


class Schema(NamedTuple):
    user: str
    elements: list


# ---- modules


class Cursor(NamedTuple):
    """Sort keys are pairs of a name or number and whether it descends."""

    name: str
    insensitive: bool
    scrolls: bool
    query: object
    keys: list


class Open(NamedTuple):
    cursor: str


class Close(NamedTuple):
    cursor: str


class Fetch(NamedTuple):
    """The amount is a whole number, a parameter or None."""

    cursor: str
    orientation: str
    amount: object
    targets: list


class SelectInto(NamedTuple):
    query: Select
    targets: list


class Insert(NamedTuple):
    """The source is a list of values or a query."""

    table: TableName
    columns: list
    source: object


class CurrentOf(NamedTuple):
    cursor: str


class Update(NamedTuple):
    """`where` is a condition, None or a `CurrentOf`."""

    table: TableName
    assignments: list
    where: object


class Delete(NamedTuple):
    table: TableName
    where: object


class Commit(NamedTuple):
    pass


class Rollback(NamedTuple):
    pass


@dataclass
class Procedure:
    name: str
    parameters: dict
    statement: object


@dataclass
class Module:
    name: str
    user: str
    cursors: dict = field(default_factory=dict)
    procedures: dict = field(default_factory=dict)


class Call(NamedTuple):
    """Arguments are spelled numbers, literals with quotes, or `*`."""

    module: str
    procedure: str
    arguments: list


class Show(NamedTuple):
    table: TableName


def within(tree, kind):
    """All trees of a kind in a tree."""
    if isinstance(tree, kind):
        yield tree
    elif isinstance(tree, (tuple, list)):
        for part in tree:
            yield from within(part, kind)
