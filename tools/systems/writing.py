"""Trees written in a system's words. A `Writer` writes standard SQL with each name in quotes and each table with its schema; what a system
writes otherwise is a method of a class below it, in the system's own file.
"""

from trees import (
    Between,
    Binary,
    Bracket,
    Check,
    Column,
    ColumnElement,
    Comparison,
    CurrentOf,
    Delete,
    Exists,
    In,
    Insert,
    IsNull,
    Joined,
    Key,
    Like,
    Not,
    NotNull,
    Null,
    Number,
    Parameter,
    Reference,
    Select,
    SetFunction,
    Signed,
    Text,
    Union,
    Update,
    User,
)


class Unsayable(Exception):
    """What the system has no words for."""


class Faulty(Exception):
    """What is no statement of the module language, so that there is nothing to put to a system."""


class Writer:
    """Writes for one user. `values` are those of the parameters, in the order in which they are written."""

    def __init__(self, user, parameters=None):
        self.user, self.parameters, self.values = user, parameters or {}, []

    # names

    def name(self, name):
        return f'"{name}"'

    def names(self, names):
        return "(" + ", ".join(map(self.name, names)) + ")"

    def table(self, table):
        return f"{self.name(table.schema or self.user)}.{self.name(table.name)}"

    def domain(self, domain):
        if domain.name == "NUMERIC":
            return f"NUMERIC({domain.size}, {domain.scale})"
        return f"{domain.name}({domain.size})" if domain.size else domain.name

    # expressions

    def expression(self, tree):
        match tree:
            case Number(spelled):
                return self.number(spelled)
            case Text(spelled):
                return self.text(spelled)
            case Null():
                return "NULL"
            case User():
                return self.current_user()
            case Parameter(name, indicator):
                return self.parameter(name, indicator)
            case Column(table, name):
                return self.column(table, name)
            case SetFunction(word, distinct, argument):
                inside = "*" if argument is None else ("DISTINCT " if distinct else "") + self.expression(argument)
                return f"{word}({inside})"
            case Signed(sign, of):
                return f"{sign} {self.expression(of)}"
            case Binary(left, sign, right):
                return f"{self.expression(left)} {sign} {self.expression(right)}"
            case Bracket(of):
                return f"({self.expression(of)})"
        raise TypeError(tree)

    def number(self, spelled):
        whole, _, part = spelled.partition(".")
        return f"{whole or '0'}.{part}" if part else whole

    def text(self, spelled):
        return spelled

    def current_user(self):
        return "USER"

    def column(self, table, name):
        if table is None:
            return self.name(name)
        front = f"{self.name(table.schema)}." if table.schema else ""
        return f"{front}{self.name(table.name)}.{self.name(name)}"

    def parameter(self, name, indicator):
        if name not in self.parameters or indicator is not None and indicator not in self.parameters:
            raise Faulty("a parameter that isn't there")
        domain, value = self.parameters[name]
        if indicator is not None and self.indicates_null(indicator):
            value = None
        self.values.append((domain, value))
        return self.placed(domain, value)

    def indicates_null(self, indicator):
        domain, value = self.parameters[indicator]
        if domain.is_text or domain.scale or domain.name == "NUMERIC" and domain.size < 3:
            raise Faulty("an indicator of another type")
        return value < 0

    def placed(self, domain, value):
        """How a parameter of a type stands in a statement."""
        return f"CAST(? AS {self.domain(domain)})"

    # conditions

    def condition(self, tree):
        match tree:
            case Joined(word, parts):
                return f" {word} ".join(map(self.condition, parts))
            case Not(of):
                return f"NOT {self.condition(of)}"
            case Bracket(of):
                return f"({self.condition(of)})"
            case Comparison(left, sign, quantifier, right):
                return self.comparison(left, sign, quantifier, right)
            case Between(of, negated, low, high):
                return f"{self.tested(of, negated)} BETWEEN {self.expression(low)} AND {self.expression(high)}"
            case In(of, negated, among):
                tested = self.tested(of, negated)
                return f"{tested} IN ({self.query(among) if isinstance(among, Select) else ', '.join(map(self.expression, among))})"
            case Like(of, negated, pattern, escape):
                behind = "" if escape is None else f" ESCAPE {self.expression(escape)}"
                return f"{self.tested(of, negated)} LIKE {self.expression(pattern)}{behind}"
            case IsNull(of, negated):
                return f"{self.expression(of)} IS {'NOT ' if negated else ''}NULL"
            case Exists(query):
                return f"EXISTS ({self.query(query)})"
        raise TypeError(tree)

    def tested(self, of, negated):
        return self.expression(of) + (" NOT" if negated else "")

    def comparison(self, left, sign, quantifier, right):
        before = f"{self.expression(left)} {sign} "
        if isinstance(right, Select):
            return f"{before}{quantifier + ' ' if quantifier else ''}({self.query(right)})"
        return before + self.expression(right)

    # queries

    def query(self, tree):
        match tree:
            case Union(left, is_all, right):
                return f"{self.operand(left)} UNION{' ALL' if is_all else ''} {self.operand(right)}"
            case Bracket(of):
                return f"({self.query(of)})"
        return self.select(tree)

    def operand(self, tree):
        return self.query(tree)

    def select(self, tree):
        values = "*" if tree.values is None else ", ".join(map(self.expression, tree.values))
        tables = ", ".join(self.item(name, alias) for name, alias in tree.tables)
        groups = ", ".join(map(self.expression, tree.groups))
        return (f"SELECT {'DISTINCT ' if tree.distinct else ''}{values} FROM {tables}{self.where(tree.where)}"
                + (f" GROUP BY {groups}" if groups else "") + (f" HAVING {self.condition(tree.having)}" if tree.having else ""))

    def item(self, table, alias):
        """An item of FROM."""
        return self.table(table) + (f" {self.name(alias)}" if alias else "")

    def where(self, condition):
        if isinstance(condition, CurrentOf):
            return f" WHERE CURRENT OF {self.name(condition.cursor)}"
        return f" WHERE {self.condition(condition)}" if condition else ""

    def ordered(self, cursor):
        """The query of a cursor."""
        keys = ", ".join((by if by.isdigit() else self.name(by)) + (" DESC" if descends else "") for by, descends in cursor.keys)
        return self.query(cursor.query) + (f" ORDER BY {keys}" if keys else "")

    # changes

    def target(self, table):
        """The table of an UPDATE or DELETE."""
        return self.table(table)

    def change(self, tree):
        match tree:
            case Insert(table, columns, source):
                into = f"INSERT INTO {self.table(table)} {self.names(columns) + ' ' if columns else ''}"
                return into + (f"VALUES ({', '.join(map(self.expression, source))})" if isinstance(source, list) else self.query(source))
            case Update(table, assignments, CurrentOf() as where):
                return f"UPDATE {self.table(table)} SET {self.assigned(assignments)}{self.where(where)}"
            case Delete(table, CurrentOf() as where):
                return f"DELETE FROM {self.table(table)}{self.where(where)}"
            case Update(table, assignments, where):
                return f"UPDATE {self.target(table)} SET {self.assigned(assignments)}{self.where(where)}"
            case Delete(table, where):
                return f"DELETE FROM {self.target(table)}{self.where(where)}"
        raise TypeError(tree)

    def assigned(self, assignments):
        return ", ".join(f"{self.name(column)} = {self.expression(value)}" for column, value in assignments)

    # schemas

    def definition(self, element):
        """CREATE TABLE, with the columns in front and every constraint but NOT NULL behind them."""
        columns = [each for each in element.elements if isinstance(each, ColumnElement)]
        constraints = [of_column(each.name, constraint) for each in columns for constraint in each.constraints if not isinstance(constraint, NotNull)]
        constraints += [each for each in element.elements if not isinstance(each, ColumnElement)]
        elements = [self.column_element(each) for each in columns] + [self.constraint(each) for each in self.kept(constraints)]
        return f"CREATE TABLE {self.table(element.name)} ({', '.join(elements)})"

    def kept(self, constraints):
        """The constraints that are written, in their order."""
        return constraints

    def column_element(self, tree):
        default = "" if tree.default is None else f" DEFAULT {self.expression(tree.default).removeprefix('+')}"
        return f"{self.name(tree.name)} {self.domain(tree.domain)}{default}{' NOT NULL' if NotNull() in tree.constraints else ''}"

    def constraint(self, tree):
        match tree:
            case Key(words, columns):
                return f"{words} {self.names(columns)}"
            case Reference(columns, table, referred):
                return f"FOREIGN KEY {self.names(columns)} REFERENCES {self.table(table)}" + (f" {self.names(referred)}" if referred else "")
            case Check(condition):
                return f"CHECK ({self.condition(condition)})"
        raise TypeError(tree)

    def view(self, tree):
        columns = f" {self.names(tree.columns)}" if tree.columns else ""
        return f"CREATE VIEW {self.table(tree.name)}{columns} AS {self.query(tree.query)}{self.check_option() if tree.checks else ''}"

    def check_option(self):
        return " WITH CHECK OPTION"

    def grant(self, tree):
        actions = ", ".join(word + (f" {self.names(columns)}" if columns else "") for word, columns in tree.actions)
        grantees = ", ".join(name if name == "PUBLIC" else self.name(name) for name in tree.grantees)
        return f"GRANT {actions} ON {self.table(tree.table)} TO {grantees}{' WITH GRANT OPTION' if tree.with_option else ''}"


class CorrelatedWriter(Writer):
    """Names each item of FROM by a correlation name, so that no column's name needs a schema."""

    in_table = False

    def item(self, table, alias):
        return f"{self.table(table)} AS {self.name(alias or table.name)}"

    def target(self, table):
        return self.item(table, None)

    def column(self, table, name):
        return self.name(name) if table is None or self.in_table else f"{self.name(table.name)}.{self.name(name)}"

    def definition(self, element):
        self.in_table = True
        return super().definition(element)


def without_repeats(constraints):
    """Constraints of which no two are keys of the same columns."""
    found = {}
    for place, each in enumerate(constraints):
        mark = frozenset(each.columns) if isinstance(each, Key) else place
        if mark not in found or isinstance(each, Key) and each.words == "PRIMARY KEY":
            found[mark] = each
    return list(found.values())


def of_column(name, constraint):
    """A column's constraint as one of its table."""
    return constraint if isinstance(constraint, Check) else constraint._replace(columns=[name])
