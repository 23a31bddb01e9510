#!/usr/bin/env python3
"""Performs cases on another system, and says where it differs from the reports that are wanted.

run.py FOLDER.. --system NAME     the cases below these folders (docs/SUITES.md), in TAP; a case that can't be said to the system is skipped.
                                  The status is 0 if none differs. `--report` writes the system's reports in place of TAP. In place of a
                                  folder there may be a file of runs of crates/sq_cases/data.
run.py --check NAME               the accepted runs of crates/sq_cases/data and the cases of examples: what comes has to be what results/NAME.json
                                  has, difference by difference, and docs/SYSTEMS.md what the results make
run.py --record NAME              writes results/NAME.json anew
run.py --page                     writes docs/SYSTEMS.md from the results

NAME is one of sqlite, postgresql, hsqldb, h2 and derby.
"""

import argparse
import json
import sys
from contextlib import contextmanager
from importlib import import_module
from pathlib import Path

from cases import ROOT, all_data_cases, data_cases, folder_cases
from comparing import compared
from page import PAGE, made_page
from performing import performed
from plain_reading import Refusal
from results import SYSTEMS, changes, record_of, results_of, unknown, write_results
from terms import Misplaced


@contextmanager
def started(name):
    system = getattr(import_module(name), SYSTEMS[name])()
    try:
        system.start()
        yield system
    finally:
        system.stop()


def known_cases():
    """The cases of which results are kept."""
    examples = [case._replace(name=str(Path(case.name).relative_to(ROOT)) if case.name.startswith("/") else case.name) for case in folder_cases([ROOT / "examples"])]
    return [*all_data_cases(), *[case for case in examples if case.wanted is not None]]


def tap(system, cases):
    """Prints TAP for cases, and gives how many differ."""
    print("TAP version 13", f"1..{len(cases)}", sep="\n")
    differing = 0
    for number, case in enumerate(cases, 1):
        if case.wanted is None:
            print(f"ok {number} - {case.name} # SKIP a refusal of sqmod's")
            continue
        outcome = compared(system, case)
        differing += bool(outcome.differences)
        skip = f" # SKIP not tried: {outcome.unsaid[0]}" if outcome.verdict == "not tried" else ""
        print(f"{'not ok' if outcome.differences else 'ok'} {number} - {case.name}{skip}", flush=True)
        for difference in outcome.differences[:1]:
            wanted, found = difference.lines
            says = {"of": difference.kind, "line": difference.line, "wanted": wanted, "found": found, "message": difference.found.message}
            print("  ---", *(f"  {key}: {json.dumps(value)}" for key, value in says.items()), "  ...", sep="\n")
    print(f"# {system.name} {system.version()}: {len(cases)} cases, {differing} differ")
    return differing


def reports(system, cases):
    for case in cases:
        print(f"# {case.name}")
        try:
            print(*performed(system, case), sep="\n")
        except (Misplaced, Refusal):
            print("not tried: a text that sqmod refuses")


def check(name):
    """Whether a system comes to its results, and the page to all of them."""
    with started(name) as system:
        found = record_of(system, known_cases())
    kept = results_of(name)
    told = changes(kept, found)
    print(*told, sep="\n", end="\n" if told else "")
    print(f"{found['system']} {found['version']}: {len(found['same'])} cases the same, {len(found['cases'])} not, {len(told) // 3} otherwise than on {kept['day']}"
          f" with {kept['version']}, {len(unknown(kept, found))} new ones without results (--record)")
    stale = PAGE.read_text() != made_page()
    if stale:
        print("docs/SYSTEMS.md isn't what the results make: tools/systems/run.py --page")
    return bool(told) or stale


def main():
    parser = argparse.ArgumentParser(description="Performs cases on another system.")
    parser.add_argument("folders", nargs="*", type=Path, metavar="FOLDER")
    parser.add_argument("--system", choices=SYSTEMS)
    parser.add_argument("--report", action="store_true")
    parser.add_argument("--check", choices=SYSTEMS)
    parser.add_argument("--record", choices=SYSTEMS)
    parser.add_argument("--page", action="store_true")
    asked = parser.parse_args()
    if asked.check:
        sys.exit(1 if check(asked.check) else 0)
    if asked.record:
        with started(asked.record) as system:
            write_results(asked.record, record_of(system, known_cases()))
    elif asked.page:
        PAGE.write_text(made_page())
    elif asked.folders and asked.system:
        cases = [case for path in asked.folders for case in (data_cases(path) if path.is_file() else folder_cases([path]))]
        if not cases:
            sys.exit(f"Bail out! no case below {' '.join(map(str, asked.folders))}")
        with started(asked.system) as system:
            sys.exit(reports(system, cases) if asked.report else 1 if tap(system, cases) else 0)
    else:
        parser.error("FOLDER.. with --system, --check, --record or --page is wanted")


if __name__ == "__main__":
    main()
