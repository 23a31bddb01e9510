"""A case performed on a system, item by item. What no system has is done here as the module language says it: parameters start at their
arguments, indicators say what is null, values are retrieved into parameters of their types, and SQLCODE, 02000 and 21000 follow from the
number of rows. Where a system doesn't know cursors by name, it is also known here which are open.
"""

from decimal import ROUND_DOWN, Decimal, getcontext
from typing import NamedTuple

from system import Refused
from texts import Reader
from trees import Call, CurrentOf, Number
from writing import Faulty, Unsayable

CODES = {"00000": 0, "01004": 0, "02000": 100, "21000": -2100, "22001": -2201, "22002": -2202, "22003": -2203, "22012": -2212, "22019": -2219,
         "22025": -2225, "23000": -2300, "24000": -2400, "42000": -4200, "44000": -4400}
ANOTHER = -1
getcontext().prec = 60
RANGES = {"SMALLINT": (-(2**15), 2**15 - 1), "INTEGER": (-(2**31), 2**31 - 1)}


class Answer(NamedTuple):
    """What came of an item: a status with the parameters that were set, or the rows of a table; or why it couldn't be put to the system. The
    message is the system's."""

    status: str = ""
    values: str = ""
    rows: list | None = None
    unsaid: str | None = None
    message: str = ""

    def lines(self, item):
        if isinstance(item, Call):
            if self.unsaid is not None:
                return [f"{item.module}.{item.procedure} not tried: {self.unsaid}"]
            return [f"{item.module}.{item.procedure} {self.status} {code_of(self.status)}{self.values}"]
        if self.unsaid is not None:
            return [f"TABLE {item.table.schema}.{item.table.name} not tried: {self.unsaid}"]
        if self.rows is None:
            return [f"TABLE {item.table.schema}.{item.table.name} {self.status}"]
        return [f"TABLE {item.table.schema}.{item.table.name} {len(self.rows)}", *self.rows]


def code_of(status):
    return CODES.get(status, CODES.get(status[:2] + "000", ANOTHER))


class Stopped(Exception):
    """A statement that ends with a status."""

    def __init__(self, status):
        super().__init__(status)
        self.status = status


# ---- values of parameters


def whole(domain, value):
    """A text in the length of its type. Of an argument that is longer, only blanks go."""
    value = value[: domain.size]
    return value.ljust(domain.size) if domain.name == "CHARACTER" else value


def started(domain, argument):
    """The value with which a parameter starts."""
    if domain.is_text:
        return whole(domain, "" if argument == "*" else argument[1:-1].replace("''", "'"))
    return stored_number(domain, Decimal(0 if argument == "*" else argument))


def stored_number(domain, value):
    value = value.quantize(Decimal(1).scaleb(-domain.scale), rounding=ROUND_DOWN)
    greatest = (Decimal(10) ** domain.size - 1).scaleb(-domain.scale)
    low, high = RANGES.get(domain.name, (-greatest, greatest))
    if not low <= value <= high:
        raise Stopped("22003")
    return value


def retrieved(domain, value):
    """A value as a parameter of a type takes it, and the length of a text that was cut, else 0."""
    if domain.is_text != isinstance(value, str):
        raise Stopped("22005")
    if not domain.is_text:
        return stored_number(domain, value), 0
    return whole(domain, value), len(value) if len(value) > domain.size else 0


def written(value):
    if value is None:
        return "NULL"
    if isinstance(value, str):
        return "'" + value.replace("'", "''") + "'"
    return format(abs(value) if value == 0 else value, "f")


class Trial:
    """One case on one system, which is begun and ended around it."""

    def __init__(self, system, case):
        self.system = system
        self.schemas = [schema for text in case.schemas for schema in Reader(text).schemas()]
        self.modules = {module.name: module for module in (Reader(text).module() for text in case.modules)}
        self.script = Reader(case.script).script()
        self.opened, self.unknown = set(), set()

    def users(self):
        grantees = {name for schema in self.schemas for element in schema.elements for name in getattr(element, "grantees", [])}
        return sorted({schema.user for schema in self.schemas} | {module.user for module in self.modules.values()} | grantees - {"PUBLIC"})

    def begin(self):
        """Defines the schemas. Why they can't be defined is raised as `Unsayable`."""
        self.system.begin(self.users())
        for schema in self.schemas:
            for element in schema.elements:
                try:
                    self.system.define(schema.user, element)
                except Refused as refused:
                    raise Unsayable(f"in a schema: {refused.message}") from refused
        self.domains = {(schema.user, element.name.name): [column.domain for column in element.elements if hasattr(column, "domain")]
                        for schema in self.schemas for element in schema.elements if hasattr(element, "elements")}
        self.system.commit(self.schemas[0].user if self.schemas else None)

    # ---- items

    def answer(self, item):
        """What comes of an item."""
        try:
            return self.called(item) if isinstance(item, Call) else self.shown(item)
        except Stopped as stopped:
            return Answer(stopped.status)
        except Faulty as fault:
            return Answer("42000", message=str(fault))
        except Unsayable as reason:
            return Answer(unsaid=str(reason))
        except Refused as refused:
            return Answer(refused.state, unsaid=self.system.lacks(refused), message=refused.message)

    def statement(self, item):
        return self.modules[item.module].procedures[item.procedure].statement

    def cursor_name(self, item):
        """The name of the cursor that a call is about, or None."""
        statement = self.statement(item)
        where = getattr(statement, "where", None)
        cursor = where.cursor if isinstance(where, CurrentOf) else getattr(statement, "cursor", None)
        return None if cursor is None else f"{item.module}.{cursor}"

    def shown(self, item):
        user, name = item.table
        writer = self.system.writer(user)
        rows = self.system.rows(user, f"SELECT * FROM {writer.table(item.table)}", []).rows
        domains = self.domains[(user, name)]
        return Answer(rows=["  " + " ".join(map(shown_value, domains, row)) for row in rows])

    def called(self, item):
        module = self.modules[item.module]
        procedure = module.procedures[item.procedure]
        parameters = {name: (domain, started(domain, argument)) for (name, domain), argument in zip(procedure.parameters.items(), item.arguments)}
        return getattr(self, "perform_" + type(procedure.statement).__name__.lower())(module, procedure, parameters)

    # ---- statements

    def perform_commit(self, module, procedure, parameters):
        self.system.commit(module.user)
        self.opened.clear()
        return Answer("00000")

    def perform_rollback(self, module, procedure, parameters):
        self.system.rollback(module.user)
        self.opened.clear()
        return Answer("00000")

    def perform_insert(self, module, procedure, parameters):
        return self.changed(module, procedure.statement, parameters)

    def perform_update(self, module, procedure, parameters):
        return self.changed(module, procedure.statement, parameters)

    def perform_delete(self, module, procedure, parameters):
        return self.changed(module, procedure.statement, parameters)

    def changed(self, module, statement, parameters):
        writer = self.system.writer(module.user, parameters)
        where = getattr(statement, "where", None)
        if isinstance(where, CurrentOf):
            name = self.needed(module, where.cursor)
            statement = statement._replace(where=CurrentOf(name))
            count = self.system.change_current(module.user, name, statement, writer)
        else:
            count = self.system.change(module.user, writer.change(statement), writer.values)
        return Answer("00000" if count else "02000")

    def perform_selectinto(self, module, procedure, parameters):
        statement = procedure.statement
        check_targets(statement.targets, procedure.parameters)
        writer = self.system.writer(module.user, parameters)
        words = writer.query(statement.query)
        result = self.system.rows(module.user, words, writer.values)
        check_kinds(result.kinds, statement.targets, procedure.parameters)
        if len(result.rows) > 1:
            raise Stopped("21000")
        return self.retrieved(result, statement.targets, procedure.parameters)

    def perform_open(self, module, procedure, parameters):
        cursor = self.cursor(module, procedure.statement.cursor)
        name = f"{module.name}.{cursor.name}"
        if name in self.opened and not self.system.has_cursors:
            raise Stopped("24000")
        writer = self.system.writer(module.user, parameters)
        words = writer.ordered(cursor)
        self.system.open(module.user, name, cursor, words, writer.values)
        self.opened.add(name)
        return Answer("00000")

    def perform_close(self, module, procedure, parameters):
        name = self.needed(module, procedure.statement.cursor)
        self.system.close(module.user, name)
        self.opened.discard(name)
        return Answer("00000")

    def perform_fetch(self, module, procedure, parameters):
        statement = procedure.statement
        check_targets(statement.targets, procedure.parameters)
        if statement.orientation != "NEXT" and not self.cursor(module, statement.cursor).scrolls:
            raise Faulty("an orientation without SCROLL")
        amount = self.amount(statement.amount, parameters)
        name = self.needed(module, statement.cursor)
        result = self.system.fetch(module.user, name, statement.orientation, amount)
        check_kinds(result.kinds, statement.targets, procedure.parameters)
        return self.retrieved(result, statement.targets, procedure.parameters)

    def amount(self, tree, parameters):
        """The number behind ABSOLUTE and RELATIVE."""
        if tree is None or isinstance(tree, Number) and "." not in tree.spelled:
            return None if tree is None else int(tree.spelled)
        domain, value = parameters.get(getattr(tree, "name", None), (None, None))
        if domain is None or domain.is_text or domain.scale:
            raise Faulty("a number that isn't whole")
        return int(value)

    def cursor(self, module, name):
        if name not in module.cursors:
            raise Faulty("a cursor that isn't there")
        return module.cursors[name]

    def needed(self, module, cursor):
        """The system's name of a cursor that has to be open."""
        name = f"{module.name}.{self.cursor(module, cursor).name}"
        if name not in self.opened and not self.system.has_cursors:
            raise Stopped("24000")
        return name

    def retrieved(self, result, targets, domains):
        """The row of a result as its targets take it."""
        if not result.rows:
            raise Stopped("02000")
        found, cut = {}, False
        for target, value in zip(targets, result.rows[0]):
            length = 0
            if value is None and target.indicator is None:
                raise Stopped("22002")
            if value is not None:
                value, length = retrieved(domains[target.name], value)
            cut = cut or length > 0
            found[target.name] = value
            if target.indicator is not None:
                indicates = -1 if value is None else length
                found[target.indicator] = stored_number(domains[target.indicator], Decimal(indicates))
        values = "".join(f" {name}={written(found[name])}" for name in domains if name in found)
        return Answer("01004" if cut else "00000", values)


def performed(system, case):
    """The lines of a system's report of a case."""
    trial = Trial(system, case)
    try:
        trial.begin()
        for item in trial.script:
            yield from trial.answer(item).lines(item)
    except Unsayable as reason:
        yield f"not tried: {reason}"
    finally:
        system.end()


def shown_value(domain, value):
    """A value of a table as the report shows it: a number in its column's scale, if that says it."""
    if isinstance(value, Decimal) and not domain.is_text and value == (scaled := round(value, domain.scale)):
        return written(scaled)
    return written(value)


def check_targets(targets, domains):
    """Whether the parameters of a FETCH or SELECT INTO are there, each once."""
    names = [target.name for target in targets] + [target.indicator for target in targets if target.indicator is not None]
    if len(set(names)) < len(names) or not set(names) <= set(domains):
        raise Faulty("a target that isn't there, or is there twice")
    for target in targets:
        domain = domains.get(target.indicator)
        if domain is not None and (domain.is_text or domain.scale or domain.name == "NUMERIC" and domain.size < 3):
            raise Faulty("an indicator of another type")


def check_kinds(kinds, targets, domains):
    if len(kinds) != len(targets):
        raise Faulty("another number of targets")
    for kind, target in zip(kinds, targets):
        if kind is not None and (kind == "text") != domains[target.name].is_text:
            raise Faulty("a target of another kind")
