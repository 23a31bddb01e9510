"""Makes docs/SYSTEMS.md of the results."""

import textwrap
from collections import Counter
from pathlib import Path

from results import SYSTEMS, results_of
from topics import TOPICS

PAGE = Path(__file__).resolve().parents[2] / "docs/SYSTEMS.md"
VERDICTS = ("same", "status", "value", "not tried")
CELL = 52
WIDTH = 128
REASONS = 8
AGREEING = 3
FRONT = """# Other systems

Here other systems are held to the reports of this repository's runs: each accepted run of `crates/sq_cases/data` and each case
of `examples` was performed on them, and what they answered stands beside what SQL-92 and, where it leaves things open,
[LANGUAGE.md](LANGUAGE.md) wants. Nothing here is written by hand: `tools/systems/run.py --page` makes the page from
`tools/systems/results`, which come of real runs. Your own cases are tried likewise, by the same folders that
[SUITES.md](SUITES.md) describes:

```
python3 tools/systems/run.py examples/suite --system sqlite
```

prints TAP. For the other systems, `tools/systems/try.sh` installs what they need from Debian's packages, and says whether they
still answer what stands here.

## At a glance

*Another status* and *another value* are said of a run by its first difference. *Not tried* are runs without a difference in
which the system has no words for at least one call; the calls that it could be given were the same. *Said whole* are runs of
which every call that was reached could be put to the system.
"""
BEHIND_TABLE = """
A run is compared call by call, and behind a difference as long as the tables of both must still be the same. The calls:

"""
TOOL = """
## What is compared, and what is not

- A text is read by `tools/plain_reading.py` and written in the system's words: each name in quotes, each table with its schema,
  constraints but NOT NULL behind the columns, parameters as `CAST(? AS type)` (SQLite: `?`; PostgreSQL: the value in place of
  `?`). A PostgreSQL session becomes the module's user for each call, one of HSQLDB between transactions. SQLite, H2 and Derby,
  and HSQLDB where users alternate in a transaction, are asked by one user; there a call that a privilege decides is not tried.
- OPEN and FETCH are DECLARE and FETCH in PostgreSQL, and a result that is read row by row elsewhere; WHERE CURRENT OF is a
  statement in PostgreSQL and Derby, and a change of the result's row in HSQLDB and H2. SQLite has none.
- No system has the module language. So `tools/systems/performing.py` does what belongs to parameters: their types, indicators,
  01004, 22002 and 22003 in retrieving, 02000 and 21000 from the number of rows, SQLCODE, and, but for PostgreSQL, 24000 where a
  cursor is open or closed. Faults of parameters, targets and cursors' names are not put to a system.
- SQLSTATE is the system's. It is the same where class and subclass are, and where a system gives a subclass of its own in a
  class whose subclass 000 is wanted: 23505 is 23000. SQLite has none: its errors of preparing count as 42000, its constraints
  as 23000.
- A statement that is wanted to be taken and that a system refuses as no statement (class 42, 0A and the like) is one that it
  can't say. The rows of TABLE may come in any order.

"""
BY_TOPIC = """## By topic

The number of runs that show a topic; a run may show several. *Left open* is what the standard leaves to the implementer: there
the rule is sqmod's own.

"""
OTHERWISE = f"""
## Where all systems answer otherwise

Lines at which each system that could be asked, at least {AGREEING} of them, answers with the same class, and not with the wanted one.

"""


def table(head, rows):
    lines = ["| " + " | ".join(map(str, row)) + " |" for row in [head, ["---"] * len(head), *rows]]
    return "\n".join(lines) + "\n"


def cell(text):
    """A text in a table's cell, cut."""
    short = text if len(text) <= CELL else text[: CELL - 2] + ".."
    return "`" + short.replace("|", "\\|").replace("`", "'") + "`" if short else ""


def counted(record):
    counts = Counter(case["verdict"] for case in record["cases"].values())
    counts["same"] = len(record["same"])
    whole = len(record["same"]) + sum(not case["unsaid"] for case in record["cases"].values())
    return [*(counts[verdict] for verdict in VERDICTS), whole]


def glance(records):
    names = {name for each in records for name in [*each["same"], *each["cases"]]}
    examples = sum(name.startswith("examples/") for name in names)
    told = f"\nThere are {len(names) - examples} runs of the data and {examples} examples.\n\n"
    rows = [[each["system"], each["version"], each["day"], *counted(each)] for each in records]
    calls = [[each["system"], *(each["calls"].get(kind, 0) for kind in VERDICTS), each["calls"].get("module", 0)] for each in records]
    return (told + table(["System", "Version", "Day", "Same", "Another status", "Another value", "Not tried", "Said whole"], rows) + BEHIND_TABLE
            + table(["System", "Same", "Another status", "Another value", "Not tried", "Of the module language"], calls))


def showing(record, key):
    """The cases that show a topic, the smallest first."""
    return sorted((case["size"], name, case["topics"][key]) for name, case in record["cases"].items() if key in case["topics"])


def matrix(records):
    used = [key for key in TOPICS if any(showing(each, key) for each in records)]
    rows = [[f"[{TOPICS[key].title}](#{anchor(TOPICS[key].title)})", TOPICS[key].whose, *(len(showing(each, key)) or "" for each in records)] for key in used]
    return used, table(["Topic", "Whose rule", *(each["system"] for each in records)], rows)


def anchor(title):
    return "".join(letter for letter in title.lower().replace(" ", "-") if letter.isalnum() or letter == "-")


def section(key, records):
    """A topic: its rule, and the smallest run of each system that shows it."""
    rows = []
    for each in records:
        if found := showing(each, key):
            _, name, (line, wanted, answered, message) = found[0]
            rows.append([each["system"], len(found), cell(f"{name}:{line}"), cell(wanted), cell(answered), cell(message)])
    rule = textwrap.fill(TOPICS[key].rule, WIDTH, break_long_words=False, break_on_hyphens=False)
    return f"### {TOPICS[key].title}\n\n{rule}\n\n" + table(["System", "Runs", "Smallest run, line", "Wanted", "Found", "Its words"], rows)


def untried(record):
    """Why calls could not be put to a system."""
    reasons = Counter(reason for case in record["cases"].values() for reason in case["unsaid"])
    rows = [[number, reason.replace("|", "\\|")] for reason, number in sorted(reasons.items(), key=lambda each: (-each[1], each[0]))[:REASONS]]
    return f"### {record['system']}: not tried\n\n" + table(["Runs", "Why"], rows)


def answers_at(record, name):
    """The lines of a case at which a system differs, with topic and what it found; None where it says nothing about the case."""
    case = record["cases"].get(name)
    if case is None:
        return {} if name in record["same"] else None
    found = {line: (key, wanted, answered) for key, (line, wanted, answered, _) in case["topics"].items()}
    return found if found or case["verdict"] != "not tried" else None


def against_all(records):
    """Lines at which every system that could be asked answers the same, and otherwise than is wanted."""
    rows = []
    for name in sorted({name for each in records for name in each["cases"]}):
        asked = [found for each in records if (found := answers_at(each, name)) is not None]
        lines = set.intersection(*(set(found) for found in asked)) if len(asked) >= AGREEING else set()
        for line in sorted(lines):
            answers = {found[line][2].split(" ")[1][:2] for found in asked}
            if len(answers) == 1:
                key = Counter(found[line][0] for found in asked).most_common(1)[0][0]
                _, wanted, answered = asked[0][line]
                rows.append([cell(f"{name}:{line}"), TOPICS[key].title, cell(wanted), cell(answered), len(asked)])
    return table(["Run, line", "Topic", "Wanted", "Found", "Systems"], rows) if rows else "There is none.\n"


def made_page():
    records = [results_of(name) for name in SYSTEMS]
    used, topics = matrix(records)
    parts = [FRONT, glance(records), TOOL, BY_TOPIC, topics, "\n", "\n".join(section(key, records) for key in used), OTHERWISE, against_all(records),
             "\n## What could not be said\n\n", "\n".join(map(untried, records))]
    return "".join(parts)
