"""What came of a system's runs, as it is kept in results/: each case that isn't the same, with the first difference of each topic."""

import json
import re
from datetime import date
from pathlib import Path

from comparing import compared
from topics import topic

FOLDER = Path(__file__).resolve().parent / "results"
SYSTEMS = {"sqlite": "Sqlite", "postgresql": "Postgresql", "hsqldb": "Hsqldb", "h2": "H2", "derby": "Derby"}
LONGEST = 160


def record_of(system, cases):
    """Runs the cases and keeps what came of them."""
    counts, found, same = {}, {}, []
    for case in cases:
        outcome = compared(system, case)
        for kind, number in outcome.counts.items():
            counts[kind] = counts.get(kind, 0) + number
        if outcome.verdict == "same":
            same.append(case.name)
        else:
            found[case.name] = kept(system, case, outcome)
    return {"system": system.name, "version": system.version(), "day": date.today().isoformat(), "calls": counts, "same": same, "cases": found}


def kept(system, case, outcome):
    """A case's verdict, its size, the first difference of each topic, and why calls weren't tried."""
    topics = {}
    for difference in outcome.differences:
        wanted, found = (line[:LONGEST] for line in difference.lines)
        topics.setdefault(topic(system.name, case, difference), [difference.line, wanted, found, without_numbers(difference.found.message)[:LONGEST]])
    return {"verdict": outcome.verdict, "size": case.size, "topics": topics, "unsaid": sorted({reason_of(reason) for reason in outcome.unsaid})}


def without_numbers(message):
    """A message without the names that a system makes up."""
    return re.sub(r"SYS_[A-Z]+_\d+|SQL\d{6,}|CONSTRAINT_[0-9A-F]+\w*|@\w+|in statement \[.*|; SQL statement:.*", "..", message)


def reason_of(message):
    """A reason without what is the case's own."""
    front = without_numbers(message)
    return re.sub(r"\"[^\"]*\"(\.\"[^\"]*\")*|'[^']*'|\[[^\]]*\]|\b[A-Z]\w*\.\w+(\.\w+)*|\b\d{2,}\b", "..", front).strip()[:100]


def write_results(name, record):
    FOLDER.mkdir(exist_ok=True)
    cases = ",\n".join(f"{json.dumps(case)}: {json.dumps(found)}" for case, found in record["cases"].items())
    front = json.dumps({key: value for key, value in record.items() if key != "cases"})
    (FOLDER / f"{name}.json").write_text(f'{front[:-1]},\n"cases": {{\n{cases}\n}}}}\n')


def results_of(name):
    return json.loads((FOLDER / f"{name}.json").read_text())


def changes(kept_record, found_record):
    """What is said of each case that didn't come to what was kept; a case of which nothing was kept is none of them."""
    told = []
    for name in kept_record["same"] + list(kept_record["cases"]):
        before, after = said(kept_record, name), said(found_record, name)
        if after is not None and before != after:
            told += [f"{name}:", f"  kept:  {before}", f"  found: {after}"]
    return told


def unknown(kept_record, found_record):
    """The cases of which nothing was kept."""
    known = {*kept_record["same"], *kept_record["cases"]}
    return [name for name in [*found_record["same"], *found_record["cases"]] if name not in known]


def said(record, name):
    """What a record says of a case, but for the system's words; None where the case isn't there."""
    case = record["cases"].get(name)
    if case is None:
        return "the same" if name in record["same"] else None
    topics = {key: difference[:-1] for key, difference in case["topics"].items()}
    return f"{case['verdict']} {json.dumps(topics)} {case['unsaid']}"
