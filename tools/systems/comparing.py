"""What a system answers to a case beside what is wanted of it, call by call.

A status is the same where class and subclass are, and where the system gives a subclass of its own (one that begins with 5 to 9 or I to Z, as the
standard keeps them for implementers) in a class whose subclass 000 is wanted. The rows of `TABLE` may come in any order. The comparison of a case goes on
behind a difference as long as the tables of both must still be the same.
"""

import re
from collections import Counter
from dataclasses import dataclass, field
from typing import NamedTuple

from performing import Answer, Trial
from trees import Call, Close, CurrentOf, Delete, Fetch, Insert, Open, SelectInto, TableName, Update, within
from writing import Unsayable

DONE = ("00000", "01004", "02000")
OF_THE_MODULE = {"UnknownCursor", "UnknownParameter", "BadIndicator", "TargetTwice", "BadOrientation"}
NUMBERS_OF_ROWS = "the number of rows of a run is sqmod's own"
PRIVILEGES = "users and their privileges"


class Wanted(NamedTuple):
    """What is wanted of an item: a status and values, or the rows of a table."""

    status: str
    values: str
    rows: list | None


class Difference(NamedTuple):
    """`kind` is `status` or `value`; `line` is that of the wanted report, from 1."""

    kind: str
    line: int
    item: object
    statement: object
    wanted: Wanted
    found: Answer
    fault: str | None
    cursor: object
    after_change: bool
    peers: set

    @property
    def lines(self):
        front = f"{self.item.module}.{self.item.procedure} " if isinstance(self.item, Call) else "TABLE "
        if self.wanted.rows is not None:
            return front + " /".join(self.wanted.rows), front + (self.found.status if self.found.rows is None else " /".join(self.found.rows))
        return front + self.wanted.status + self.wanted.values, front + self.found.status + self.found.values


@dataclass
class Outcome:
    """What came of a case: its differences, why calls couldn't be put to the system, and how many items came to what."""

    differences: list = field(default_factory=list)
    unsaid: list = field(default_factory=list)
    counts: Counter = field(default_factory=Counter)

    @property
    def verdict(self):
        if self.differences:
            return self.differences[0].kind
        return "not tried" if self.unsaid else "same"


def wanted_items(script, report):
    """What a report has for each item, with the line where it begins."""
    lines = report.split("\n")[:-1]
    at = 0
    for item in script:
        if isinstance(item, Call):
            _, status, _, *values = lines[at].split(" ", 3)
            yield at + 1, Wanted(status, "".join(" " + value for value in values), None)
            at += 1
        else:
            count = int(lines[at].rsplit(" ", 1)[1])
            yield at + 1, Wanted("00000", "", lines[at + 1 : at + 1 + count])
            at += 1 + count


def same_status(wanted, found):
    return wanted == found or wanted[:2] == found[:2] and wanted[2:] == "000" and bool(re.match("[5-9I-Z]|000", found[2:]))


class Comparison:
    """The walk through one case."""

    def __init__(self, system, case):
        self.trial, self.case, self.outcome = Trial(system, case), case, Outcome()
        self.lost, self.changed = set(), {}
        self.items = list(zip(self.trial.script, wanted_items(self.trial.script, case.wanted)))

    def run(self):
        system = self.trial.system
        try:
            self.trial.begin()
            self.walk()
        except Unsayable as reason:
            self.outcome.unsaid.append(str(reason))
        finally:
            system.end()
        return self.outcome

    def walk(self):
        calls = 0
        for item, (line, wanted) in self.items:
            calls += isinstance(item, Call)
            if not self.step(item, line, wanted, self.case.faults.get(calls) if isinstance(item, Call) else None):
                break

    def step(self, item, line, wanted, fault):
        """Compares one item, and says whether the next one may be compared."""
        statement = self.trial.statement(item) if isinstance(item, Call) else None
        cursor = self.trial.cursor_name(item) if isinstance(item, Call) else None
        if wanted.status == "42000" and self.is_of_the_module(statement, cursor, fault):
            self.outcome.counts["module"] += 1
            return True
        reason = self.untried(item, wanted, cursor, fault)
        found = self.trial.answer(item) if reason is None else Answer(unsaid=reason)
        if found.unsaid is not None and not (wanted.status == "42000" and same_status("42000", found.status)):
            return self.untold(found.unsaid, statement, wanted, cursor)
        self.note(statement, cursor, wanted)
        return self.told(Difference(self.kind_of(wanted, found), line, item, statement, wanted, found, fault, self.declared(item, statement),
                                    self.changed.get(cursor, False), self.peers(cursor)))

    def note(self, statement, cursor, wanted):
        """Keeps of each open cursor whether tables were changed since."""
        if isinstance(statement, Open) and wanted.status == "00000":
            self.changed[cursor] = False
        elif isinstance(statement, (Insert, Update, Delete)) and wanted.status == "00000":
            self.changed = dict.fromkeys(self.changed, True)

    def peers(self, cursor):
        """All rows that are wanted of a cursor's FETCHes."""
        return {wanted.values for item, (_, wanted) in self.items
                if cursor is not None and isinstance(item, Call) and isinstance(self.trial.statement(item), Fetch) and self.trial.cursor_name(item) == cursor}

    def is_of_the_module(self, statement, cursor, fault):
        """Whether a fault is one of the module language, which the system isn't asked about."""
        not_open = isinstance(statement, (Fetch, Close)) or isinstance(getattr(statement, "where", None), CurrentOf)
        return fault in OF_THE_MODULE or not_open and cursor not in self.trial.opened

    def untried(self, item, wanted, cursor, fault):
        """Why an item isn't put to the system."""
        if wanted.status == "S1L00":
            return NUMBERS_OF_ROWS
        if cursor in self.lost:
            return "a cursor of which a call before was not the same"
        if wanted.status == "42000" and not self.trial.system.has_users and (fault == "PrivilegeMissing" or fault is None and self.is_of_others(item)):
            return PRIVILEGES
        return None

    def is_of_others(self, item):
        """Whether a call names tables of other users than its module's, and none of its own."""
        schemas = {table.schema for table in within(self.trial.statement(item), TableName)} - {None}
        return bool(schemas) and self.trial.modules[item.module].user not in schemas

    def declared(self, item, statement):
        where = getattr(statement, "where", None)
        name = where.cursor if isinstance(where, CurrentOf) else getattr(statement, "cursor", None)
        return self.trial.modules[item.module].cursors.get(name) if name else None

    def kind_of(self, wanted, found):
        if wanted.rows is not None and found.rows is None:
            return "status"
        if wanted.rows is not None:
            return "same" if sorted(wanted.rows) == sorted(found.rows or []) else "value"
        if not same_status(wanted.status, found.status):
            return "status"
        return "same" if wanted.values == found.values else "value"

    def untold(self, reason, statement, wanted, cursor):
        self.outcome.unsaid.append(reason)
        self.outcome.counts["not tried"] += 1
        if isinstance(statement, (Open, Fetch, Close)):
            self.lost.add(cursor)
        return wanted.status not in DONE or wanted.status == "02000" or isinstance(statement, (Open, Fetch, Close, SelectInto, type(None)))

    def told(self, difference):
        self.outcome.counts[difference.kind] += 1
        if difference.kind == "same":
            return True
        self.outcome.differences.append(difference)
        done = [status in DONE for status in (difference.wanted.status, difference.found.status)]
        if isinstance(difference.statement, (Fetch, Open, Close)):
            if difference.kind == "value" or done != [False, False]:
                self.lost.add(self.trial.cursor_name(difference.item))
            return True
        if isinstance(difference.statement, (Insert, Update, Delete)):
            return done == [False, False]
        return isinstance(difference.statement, SelectInto)


def compared(system, case):
    """What comes of a case; one that the system's users are in the way of is done again by one of them."""
    outcome = Comparison(system, case).run()
    if system.wants_one_user in outcome.unsaid:
        try:
            system.has_users = False
            outcome = Comparison(system, case).run()
        finally:
            system.has_users = True
    return outcome
