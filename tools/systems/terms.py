"""Reads names, types, expressions, conditions and queries. Tokens are read by `plain_reading.py`; the grammar is that of docs/LANGUAGE.md, of
whose texts each has one tree. Only texts that sqmod takes are meant to be read: one that isn't of the grammar raises `Misplaced`.
"""

from plain_reading import behind_literal, tokens_of
from trees import (
    Between, Binary, Bracket, Column, Comparison, Domain, Exists, In, IsNull, Joined, Like, Not, Number, Parameter, Select, SetFunction,
    Signed, TableName, Text, Union, User,
)


class Misplaced(Exception):
    """A token that can't stand where it does."""


COMPARISONS = ("=", "<>", "<", ">", "<=", ">=")
SET_FUNCTIONS = ("COUNT", "SUM", "AVG", "MIN", "MAX")


class Terms:
    """Reads trees from the tokens of a text, from left to right: what schemas, modules and scripts are made of."""

    def __init__(self, text):
        self.text, self.place = text, 0
        self.tokens = tokens_of(text)

    # tokens

    @property
    def spelled(self):
        return self.tokens[self.place].spelled if self.place < len(self.tokens) else None

    def is_called(self, kind):
        return self.place < len(self.tokens) and kind in self.tokens[self.place].called

    def take(self):
        self.place += 1
        return self.tokens[self.place - 1].spelled

    def has(self, *words):
        """Passes these words, if they are the next ones."""
        found = [token.spelled for token in self.tokens[self.place : self.place + len(words)]]
        if found != list(words):
            return False
        self.place += len(words)
        return True

    def need(self, *words):
        if not self.has(*words):
            raise Misplaced(f"{' '.join(words)} is wanted, {self.spelled} is there")

    def name(self):
        if not self.is_called("name"):
            raise Misplaced(f"a name is wanted, {self.spelled} is there")
        return self.take()

    def number(self):
        if not self.is_called("number"):
            raise Misplaced(f"a number is wanted, {self.spelled} is there")
        return self.take()

    def literal(self):
        at = self.tokens[self.place].at
        self.place += 1
        return self.text[at : behind_literal(self.text, at)].decode()

    def signed_number(self):
        sign = self.take() if self.spelled in ("+", "-") else ""
        return sign + self.number()

    def several(self, read):
        """What `read` reads, once and behind each comma."""
        found = [read()]
        while self.has(","):
            found.append(read())
        return found

    def bracketed(self, read):
        self.need("(")
        found = read()
        self.need(")")
        return found

    def columns(self):
        return self.bracketed(lambda: self.several(self.name)) if self.spelled == "(" else []

    def table_name(self):
        first = self.name()
        return TableName(first, self.name()) if self.has(".") else TableName(None, first)

    def domain(self):
        word = self.take()
        if word in ("SMALLINT", "INTEGER", "INT"):
            return Domain("INTEGER" if word == "INT" else word)
        if word in ("CHAR", "CHARACTER", "VARCHAR"):
            varies = word == "VARCHAR" or self.has("VARYING")
            return Domain("CHARACTER VARYING" if varies else "CHARACTER", *(self.sizes() or [1]))
        return Domain("NUMERIC", *(self.sizes() or [18]))

    def sizes(self):
        if self.spelled != "(":
            return []
        return [int(size) for size in self.bracketed(lambda: self.several(self.number))]

    # expressions

    def expression(self):
        left = self.term()
        while self.spelled in ("+", "-"):
            left = Binary(left, self.take(), self.term())
        return left

    def term(self):
        left = self.factor()
        while self.spelled in ("*", "/"):
            left = Binary(left, self.take(), self.factor())
        return left

    def factor(self):
        if self.spelled in ("+", "-"):
            return Signed(self.take(), self.primary())
        return self.primary()

    def primary(self):
        if self.is_called("number"):
            return Number(self.take())
        if self.is_called("text"):
            return Text(self.literal())
        if self.spelled == ":":
            return self.parameter()
        if self.has("USER"):
            return User()
        if self.spelled in SET_FUNCTIONS:
            return self.set_function()
        if self.spelled == "(":
            return Bracket(self.bracketed(self.expression))
        return self.column()

    def column(self):
        names = [self.name()]
        while self.has("."):
            names.append(self.name())
        if len(names) == 1:
            return Column(None, names[0])
        return Column(TableName(names[0] if len(names) == 3 else None, names[-2]), names[-1])

    def parameter(self):
        self.need(":")
        name, indicator = self.name(), None
        if self.has("INDICATOR") or self.spelled == ":":
            self.need(":")
            indicator = self.name()
        return Parameter(name, indicator)

    def set_function(self):
        word = self.take()
        self.need("(")
        distinct, argument = False, None
        if not self.has("*"):
            distinct = self.has("DISTINCT")
            self.has("ALL")
            argument = self.expression()
        self.need(")")
        return SetFunction(word, distinct, argument)

    # conditions

    def condition(self):
        return self.joined("OR", lambda: self.joined("AND", self.test))

    def joined(self, word, read):
        parts = [read()]
        while self.has(word):
            parts.append(read())
        return parts[0] if len(parts) == 1 else Joined(word, parts)

    def test(self):
        if self.has("NOT"):
            return Not(self.test_of())
        return self.test_of()

    def test_of(self):
        start = self.place
        try:
            return self.predicate()
        except Misplaced:
            self.place = start
            if self.spelled != "(":
                raise
        return Bracket(self.bracketed(self.condition))

    def predicate(self):
        if self.has("EXISTS"):
            return Exists(self.bracketed(self.select))
        left = self.expression()
        if self.spelled in COMPARISONS:
            return self.comparison(left)
        if self.has("IS"):
            negated = self.has("NOT")
            self.need("NULL")
            return IsNull(left, negated)
        negated = self.has("NOT")
        if self.has("BETWEEN"):
            low = self.expression()
            self.need("AND")
            return Between(left, negated, low, self.expression())
        if self.has("IN"):
            return In(left, negated, self.bracketed(lambda: self.select() if self.spelled == "SELECT" else self.several(self.expression)))
        self.need("LIKE")
        return Like(left, negated, self.expression(), self.expression() if self.has("ESCAPE") else None)

    def comparison(self, left):
        sign = self.take()
        quantifier = self.take() if self.spelled in ("ALL", "ANY", "SOME") else None
        ahead = self.tokens[self.place + 1].spelled if self.place + 1 < len(self.tokens) else None
        is_query = self.spelled == "(" and ahead == "SELECT"
        return Comparison(left, sign, quantifier, self.bracketed(self.select) if is_query else self.expression())

    # queries

    def query(self):
        left = self.query_term()
        while self.has("UNION"):
            left = Union(left, self.has("ALL"), self.query_term())
        return left

    def query_term(self):
        return Bracket(self.bracketed(self.query)) if self.spelled == "(" else self.select()

    def select(self):
        self.need("SELECT")
        distinct, values = self.select_list()
        return self.rest_of_select(distinct, values)

    def select_list(self):
        distinct = self.has("DISTINCT")
        self.has("ALL")
        return distinct, None if self.has("*") else self.several(self.expression)

    def rest_of_select(self, distinct, values):
        self.need("FROM")
        tables = self.several(self.table_reference)
        where = self.condition() if self.has("WHERE") else None
        groups = self.several(self.column) if self.has("GROUP", "BY") else []
        having = self.condition() if self.has("HAVING") else None
        return Select(distinct, values, tables, where, groups, having)

    def table_reference(self):
        name = self.table_name()
        with_as = self.has("AS")
        return name, self.name() if with_as or self.is_called("name") else None
