"""What a difference is about, and the rule that decides it."""

import re
from typing import NamedTuple

from trees import CurrentOf, Delete, Fetch, Insert, Open, Select, SelectInto, Union, Update, User, within

PIECE = re.compile(r"(?:\w+=)?(?:'(?:[^']|'')*'|[^ ]+)")
DONE = ("00000", "01004", "02000")


class Topic(NamedTuple):
    """Whose the rule is: the standard's, one of sqmod's own where the standard leaves it open, or else its own."""

    title: str
    whose: str
    rule: str


STANDARD, OPEN, OWN = "standard", "left open", "own"
TOPICS = {
    "statement-end": Topic(
        "Keys and references at the end of the statement", STANDARD,
        "A constraint is effectively checked at the end of each SQL statement, and not row by row (4.10.1): `K = K + 1` moves "
        "all keys together.",
    ),
    "padding": Topic(
        "Texts of different lengths", STANDARD,
        "In a comparison the shorter text is extended with blanks (8.2), so in keys and references too (8.9, 11.8); LIKE alone "
        "doesn't (8.5). That the order of characters pads is left open, and sqmod's own.",
    ),
    "stored-texts": Topic(
        "CHARACTER(n) is n characters", STANDARD,
        "Storing pads a shorter text with blanks, and cuts only blanks of a longer one (9.2); retrieving gives all n characters "
        "(9.1).",
    ),
    "too-long": Topic(
        "Texts that are too long", STANDARD,
        "Where a text is longer than its column, blanks are cut without a word, and anything else is 22001 (9.2).",
    ),
    "ranges": Topic(
        "Ranges of numbers", STANDARD,
        "A number whose leading digits would go is 22003 (9.2, 6.12). How large SMALLINT, INTEGER and the result of an "
        "operation may be is left open, and sqmod's own.",
    ),
    "digits": Topic(
        "Digits past the scale", OPEN,
        "Whether storing rounds or truncates is implementation-defined (4.4.1); sqmod truncates.",
    ),
    "quotients": Topic(
        "Quotients and means", OPEN,
        "The scale of a quotient and of AVG is implementation-defined (6.12, 6.5); sqmod's is the larger one, and that of the "
        "argument.",
    ),
    "zero": Topic(
        "Division by zero", STANDARD,
        "It is 22012 (6.12).",
    ),
    "evaluation": Topic(
        "Operands and rows that need not be evaluated", OPEN,
        "Whether an operand is evaluated that can't change the result, and so may raise a condition, is "
        "implementation-dependent (3.3.4.4). sqmod goes from left to right, over all rows, and stops where "
        "[LANGUAGE.md](LANGUAGE.md#queries) says.",
    ),
    "at-open": Topic(
        "A cursor's query is evaluated by OPEN", OPEN,
        "OPEN evaluates the query (13.2). sqmod raises its conditions there; where rows are computed as they are fetched, FETCH "
        "raises them. What need not be evaluated is implementation-dependent (3.3.4.4).",
    ),
    "fault-order": Topic(
        "Which of several faults is told", OPEN,
        "Where a statement has several faults, the order in which they are found is left open; sqmod's "
        "[order](LANGUAGE.md#what-a-call-does) is its own.",
    ),
    "one-row": Topic(
        "Subqueries of several rows", STANDARD,
        "A subquery beside a comparison that has several rows is 21000 (7.11).",
    ),
    "escape": Topic(
        "Faults in the escape of LIKE", STANDARD,
        "An escape that isn't one character is 22019; one before another character than `%`, `_` and itself is 22025 (8.5).",
    ),
    "check-option": Topic(
        "Check options", STANDARD,
        "A new or changed row that the view's condition isn't true of is 44000 (11.19, 13.8 to 13.10).",
    ),
    "constraints": Topic(
        "NOT NULL, CHECK, keys and references", STANDARD,
        "A constraint that isn't met is 23000, and the statement has no effect (4.10.1, 11.6 to 11.9). A value that was stored "
        "otherwise may meet it otherwise.",
    ),
    "cursor-states": Topic(
        "Open and closed cursors", STANDARD,
        "OPEN on an open cursor, FETCH and CLOSE on a closed one are 24000 (13.2, 13.3, 13.4).",
    ),
    "cursor-changes": Topic(
        "Cursors over rows that change", OPEN,
        "Whether a cursor that isn't INSENSITIVE sees changes that were not made through it is implementation-dependent (4.21, "
        "13.1); in sqmod it shows a row as it is, and skips one that is gone.",
    ),
    "order": Topic(
        "Order without ORDER BY, and of ties", OPEN,
        "It is implementation-dependent (13.1); in sqmod it is that of the row numbers.",
    ),
    "nulls": Topic(
        "Nulls in ORDER BY", OPEN,
        "Whether null comes before or behind all values is implementation-defined (13.1); in sqmod it is lowest.",
    ),
    "privileges": Topic(
        "Privileges", STANDARD,
        "A statement for which the module's user lacks a privilege is 42000 (access rules of 6.3, 13.6 to 13.10). That UPDATE "
        "and DELETE which read need SELECT is sqmod's own.",
    ),
    "kinds": Topic(
        "Numbers beside texts", STANDARD,
        "What is compared or stored is of comparable types: a number beside a text is 42000 (8.2, 9.2).",
    ),
    "grouped": Topic(
        "Columns outside of groups", STANDARD,
        "A column of a grouped query is one that it groups by, or stands in a set function; else 42000 (7.8, 7.9).",
    ),
    "updatable": Topic(
        "What can be changed", STANDARD,
        "To change what isn't updatable is 42000 (7.9, 13.6 to 13.10).",
    ),
    "lists": Topic(
        "Lists of columns and values", STANDARD,
        "There are as many values as columns, and no column twice; else 42000 (13.8 to 13.10).",
    ),
    "names": Topic(
        "Names", STANDARD,
        "A name that isn't there, or that means two things, is 42000 (6.3, 6.4).",
    ),
    "set-functions": Topic(
        "Where set functions stand", STANDARD,
        "They stand in a select list or in HAVING, and not one in another; else 42000 (6.5, 7.6).",
    ),
    "limits": Topic(
        "Limits", OWN,
        "How many columns, items of FROM and digits behind the point there may be is the implementer's; past sqmod's own the "
        "status is 42000.",
    ),
    "user": Topic(
        "USER as a text", OPEN,
        "Its type and length are implementation-defined (6.2); in sqmod it is a text of 18 with blanks.",
    ),
    "errors": Topic(
        "Errors inside the system", "",
        "The system says that something went wrong inside it.",
    ),
    "other": Topic(
        "Other", "",
        "What is none of these.",
    ),
}
OF_FAULTS = {
    "LimitExceeded": "limits", "KindMismatch": "kinds", "UngroupedColumn": "grouped", "ColumnTwice": "lists",
    "CountMismatch": "lists", "NotUpdatable": "updatable", "PrivilegeMissing": "privileges", "AmbiguousName": "names",
    "UnknownColumn": "names", "UnknownTable": "names", "MisplacedSetFunction": "set-functions",
}
# Runs whose constraints fail or hold by the comparison of texts, and by digits past the scale.
WITH_TEXTS = ("equal_keys", "varying_texts", "03-equal", "random_changes_6")
WITH_DIGITS = ("digits-in-keys", "random_changes_5", "random_changes_12", "accepted_110", "accepted_113")
OWN_ERRORS = ("S1", "HY", "XX", "50", "XJ")
# The faults of runs that don't say them, by the names of the runs.
OF_RUNS = (
    ("text_against_number", "kinds"), ("scale_above", "limits"), ("set_twice", "lists"), ("outside_of_groups", "grouped"),
    ("too_few", "lists"), ("items_17", "limits"), ("list_65", "limits"), ("grouping_column", "grouped"), ("why-42000", "kinds"),
    ("privilege", "privileges"), ("granted", "privileges"), ("twice_in_from", "names"), ("one-name-twice", "names"),
    ("grouped-by", "grouped"), ("set_function", "set-functions"),
)


def topic(system, case, difference):
    """The topic of a difference."""
    if difference.kind == "value":
        key = of_values(difference)
        return "user" if key == "stored-texts" and is_of_user(system, case, difference) else key
    wanted, found = difference.wanted.status, difference.found.status
    if wanted == "42000":
        named = next((key for part, key in OF_RUNS if part in case.name), "other")
        return OF_FAULTS.get(difference.fault, named)
    if found in ("42501", "42502"):
        return "privileges"
    if found[:2] in OWN_ERRORS:
        return "errors"
    if "24" in (wanted[:2], found[:2]) or found[:2] == "34":
        at_row = isinstance(getattr(difference.statement, "where", None), CurrentOf) and not difference.found.message
        return "cursor-changes" if at_row else "cursor-states"
    if wanted in DONE and found in DONE:
        return of_rows(difference)
    if "23" in (wanted[:2], found[:2]) and (wanted in DONE or found in DONE):
        return of_constraints(case, difference, found)
    if wanted[:3] == found[:3] == "220":
        return "escape" if wanted in ("22019", "22025") else "ranges" if found != "22012" and wanted == "22003" else "fault-order"
    if wanted not in DONE and found not in DONE:
        return "fault-order"
    return of_one_sided(system, difference, wanted, found)


def of_constraints(case, difference, found):
    """Where a constraint holds by one and not by the other."""
    if case.name.endswith(WITH_DIGITS):
        return "digits"
    if isinstance(difference.statement, Update) or found not in DONE and isinstance(difference.statement, Delete):
        return "statement-end"
    is_reference = found == "23503" or "FOREIGN" in difference.found.message
    return "padding" if is_reference or any(part in case.name for part in WITH_TEXTS) else "constraints"


def of_one_sided(system, difference, wanted, found):
    """Where one of both fails."""
    if wanted in DONE:
        return "ranges" if found == "22003" else "too-long" if found == "22001" else "evaluation"
    if wanted[:2] in ("22", "21") and isinstance(difference.statement, Open):
        return "at-open"
    if wanted == "22012":
        return "zero" if system == "SQLite" else "evaluation"
    return {"22001": "too-long", "22003": "ranges", "21000": "one-row", "44000": "check-option", "22019": "escape", "22025": "escape"}.get(wanted, "other")


def of_rows(difference):
    """Where one finds a row and the other doesn't, or where a text is cut by one alone."""
    if "02000" not in (difference.wanted.status, difference.found.status):
        return "user" if next(within(difference.statement, User), None) is not None else "stored-texts"
    if isinstance(difference.statement, Fetch):
        return "cursor-changes" if difference.after_change else "order" if difference.found.values in difference.peers else "padding"
    if isinstance(getattr(difference.statement, "where", None), CurrentOf):
        return "cursor-changes"
    return "padding" if isinstance(difference.statement, (Delete, Update, Insert, SelectInto)) else "other"


def of_values(difference):
    if isinstance(difference.statement, Fetch) and difference.wanted.status == difference.found.status:
        if difference.found.values in difference.peers or set(names_gone(difference.found.values)) == set(names_gone(difference.wanted.values)):
            return "cursor-changes" if difference.after_change and not difference.cursor.keys else "nulls" if is_of_null(difference) else "order"
        if difference.after_change:
            return "cursor-changes"
    pairs = differing(difference)
    return of_pair(*pairs[0], difference) if pairs else "other"


def is_of_null(difference):
    """Whether two rows of a cursor with ORDER BY differ by a null in what it sorts by first."""
    if not difference.cursor.keys:
        return False
    by, query = difference.cursor.keys[0][0], difference.cursor.query
    while not isinstance(query, Select):
        query = query.left if isinstance(query, Union) else query.of
    names = [getattr(value, "name", None) for value in query.values or []]
    place = int(by) - 1 if by.isdigit() else names.index(by) if by in names else 0
    mark = f" {difference.statement.targets[place].name}=NULL"
    return (mark in difference.wanted.values) != (mark in difference.found.values)


def is_of_user(system, case, difference):
    """Whether a text differs by the blanks that USER has here."""
    wanted, found = differing(difference)[0]
    says_user = any(re.search(rb"\buser\b", text, re.I) for text in [*case.schemas, *case.modules])
    return system != "SQLite" and says_user and len(wanted) == 20 and found == "'" + wanted.strip("' ") + "'"


def names_gone(values):
    return [piece.split("=", 1)[-1] for piece in PIECE.findall(values)]


def differing(difference):
    """The pairs of values that differ."""
    if difference.wanted.rows is None:
        return [(one, other) for one, other in zip(names_gone(difference.wanted.values), names_gone(difference.found.values)) if one != other]
    left = [row for row in difference.wanted.rows if row not in difference.found.rows]
    right = [row for row in difference.found.rows if row not in difference.wanted.rows]
    return [(one, other) for rows in zip(left, right) for one, other in zip(*map(PIECE.findall, rows)) if one != other]


def of_pair(wanted, found, difference):
    if "NULL" in (wanted, found):
        return "order" if isinstance(difference.statement, Fetch) else "other"
    if "'" in wanted + found:
        return "stored-texts" if wanted.rstrip("' ") == found.rstrip("' ") else "order" if isinstance(difference.statement, Fetch) else "other"
    if difference.wanted.rows is not None:
        return "digits"
    return "quotients" if abs(float(wanted) - float(found)) < 1 else "padding" if isinstance(difference.statement, SelectInto) else "order"
