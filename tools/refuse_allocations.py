#!/usr/bin/env python3
"""Refuses each allocation of a program, one in each run of it.

refuse_allocations.py [TRIALS [SQMOD [ARCHIVE]]]: two built programs and the proved archive of crates/sq_host_c, by default those that
the gate leaves in crates/*/out. A small C library between a program and `malloc` refuses the allocation of one number; `cc` compiles it.

The trials of the stores (crates/sq_store_trials): where an `apply` is refused memory, the trial looks whether the store shows
what it showed before, and makes the `apply` once more, so what the program prints is as ever. Where something else is refused,
the program ends with an error, and what it printed is the beginning of that.

`sqmod run`, on seven runs of crates/sq_cases/data and on the examples: it prints what it prints as ever; or it ends with
status 3, says after how many items memory ran out, and has written the lines of exactly those items; or memory ran out
while a file was read, which then can't be read, and nothing is written.

A host program (host/tests/calls.c), on the same seven runs, which reads the tables by cursors after the last call: where a call is
refused memory it is made again, and what is printed is as ever: the lines that `sqmod` writes. Where something else is refused, the
program ends with an error, and has printed the lines of the first calls. The allocations of opening the session, which `sqmod` makes
as well, are passed over.

Anything else is a fault.
"""

import os
import re
import subprocess
import sys
import tempfile
from collections import Counter
from concurrent.futures import ThreadPoolExecutor
from pathlib import Path

import build_library
from print_runs import runs_of
from run_program import written

ROOT = Path(__file__).resolve().parent.parent
RUNS = ("keys_move_together", "no_row_of_a_refused_copy", "changes_below_open_cursors",
        "cut_text_and_null_without_indicator", "rollback_closes_cursors", "references", "walking_cursor_under_changes")
EXAMPLES = ("first", "constraints", "cursors", "grants")
# The tables of the kit, and the columns of each with their domains.
TABLES = {
    "T": {"K": "INTEGER", "A": "INTEGER", "C": "CHAR(5)"},
    "N": {"X": "NUMERIC(18,0)", "I": "INTEGER"},
    "F": {"K": "INTEGER", "Q": "NUMERIC(5,2)"},
}
SHOW_TABLES = "".join(f"TABLE U1.{name};" for name in TABLES)
CALL = re.compile(r"CALL (\w+)\.(\w+)(?: \(([^)]*)\))?;")
AS_EVER, ENDED, MADE_AGAIN = "as ever", "ended", "made again"
LIBRARY = """
#include <stdio.h>
#include <stdlib.h>
extern void *__libc_malloc(size_t), *__libc_realloc(void *, size_t);
static long count, wanted = -1;
static int is_refused(void) {
    if (wanted < 0) wanted = atol(getenv("REFUSED"));
    return ++count == wanted;
}
void *malloc(size_t size) { return is_refused() ? 0 : __libc_malloc(size); }
void *realloc(void *old, size_t size) { return is_refused() ? 0 : __libc_realloc(old, size); }
__attribute__((destructor)) static void tell(void) { fprintf(stderr, "allocations %ld\\n", count); }
"""


def library(room):
    """The compiled library."""
    source, made = Path(room) / "refuse.c", Path(room) / "refuse.so"
    source.write_text(LIBRARY)
    subprocess.run(["cc", "-shared", "-fPIC", "-O1", "-o", made, source], check=True)
    return made


def run(words, made, number, folder=None):
    """What a program prints, its status and its lines on standard error, where the allocation of that number is refused."""
    done = subprocess.run(words, cwd=folder, env={"LD_PRELOAD": str(made), "REFUSED": str(number)}, capture_output=True, text=True)
    return done.stdout, done.returncode, done.stderr


def allocations(words, made, wanted, folder=None):
    """How many allocations a program makes where none is refused."""
    printed, status, errors = run(words, made, 0, folder)
    if status or printed != wanted:
        sys.exit(f"{words} doesn't print what is wanted")
    return int(errors.split()[-1])


def endings(words, made, numbers, ending, folder=None):
    """How often a program ends in each way where one of these allocations is refused; one way that is none ends this program."""

    def ends(number):
        printed, status, errors = run(words, made, number, folder)
        way = ending(printed, status, errors)
        if way is None:
            raise RuntimeError(f"{words}, allocation {number} refused: status {status}, {errors!r}, and it prints\n{printed}")
        return way

    try:
        with ThreadPoolExecutor(os.cpu_count()) as pool:
            return Counter(pool.map(ends, numbers))
    except RuntimeError as fault:
        sys.exit(str(fault))


def words_of(case):
    """The command line for a case of docs/SUITES.md without a setup."""
    names = sorted(path.name for path in case.glob("*.sql"))
    schemas = [name for name in names if name.startswith("schema")]
    words = ["run"]
    words += [word for name in schemas for word in ("--schema", name)]
    words += [word for name in names if name not in schemas for word in ("--module", name)]
    return words + ["--script", "script.txt"]


def items_of(report):
    """The lines of each item: a call has one, a table one and one for each row, which begins with two blanks."""
    return re.findall(r"^\S.*\n(?:  .*\n)*", report, re.MULTILINE)


def after_items(report):
    """How `sqmod` may end: with this report; or for want of memory, with exactly the items that it says."""
    items = items_of(report)

    def ending(printed, status, errors):
        line = errors.split("\n")[0]
        unread = re.fullmatch(r"sqmod: \S+: cannot be read", line)
        after = re.fullmatch(r"sqmod: want of memory after (\d+) items", line)
        if status == 0 and printed == report:
            return AS_EVER
        if status == 1 and unread and printed == "":
            return ENDED
        is_in_time = status == 3 and after and int(after[1]) < max(len(items), 1) and printed == "".join(items[:int(after[1])])
        return ENDED if is_in_time else None

    return ending


def after_calls(report):
    """How the host program may end: with these lines; or with an error behind the first of them."""
    items = items_of(report)
    fronts = {"".join(items[:count]) for count in range(len(items))}

    def ending(printed, status, errors):
        if status == 0 and printed == report:
            return MADE_AGAIN if errors.startswith("a call is made again\n") else AS_EVER
        return ENDED if status == 1 and printed in fronts else None

    return ending


def after_actions(report):
    def ending(printed, status, _):
        if status == 0 and printed == report:
            return AS_EVER
        return ENDED if status == 1 and report.startswith(printed) else None

    return ending


def trials(program, made):
    stored = (ROOT / "crates/sq_store_trials/stdout").read_text()
    wanted = stored[:stored.index("insert ")]
    count = allocations([program], made, wanted)
    ended = endings([program], made, range(1, count + 1), after_actions(wanted))[ENDED]
    print(f"The trials of the stores: {count} allocations: {count - ended} refused within an `apply` or where nothing is lost, "
          f"and the report is as ever; at {ended} the program ends")


def runs_of_sqmod(room):
    """The runs of `sqmod`: words, report, folder."""
    worked = {found.name: found for found in runs_of(ROOT / "crates/sq_cases/data/runs-worked.txt")}
    for name in RUNS:
        folder = Path(room, name)
        folder.mkdir()
        yield written(worked[name], folder), worked[name].report, folder
    for name in EXAMPLES:
        folder = ROOT / "examples" / name
        yield words_of(folder), (folder / "report.txt").read_text(), folder


def whole_program(program, made, room):
    total, ended, runs = 0, 0, list(runs_of_sqmod(room))
    for words, report, folder in runs:
        words = [program, *words]
        count = allocations(words, made, report, folder)
        total += count
        ended += endings(words, made, range(1, count + 1), after_items(report), folder)[ENDED]
    print(f"sqmod: {len(runs)} runs, {total} allocations, each refused once: at {ended} it ends after exactly the items that it says, "
          f"else the report is as ever")


def reading_module():
    """A module that reads each table by a cursor."""
    lines = ["MODULE M9 LANGUAGE C AUTHORIZATION U1"]
    lines += [f"DECLARE C{name} CURSOR FOR SELECT {', '.join(columns)} FROM {name}" for name, columns in TABLES.items()]
    for name, columns in TABLES.items():
        parameters = ", ".join(f":{column} {domain}, :I{column} SMALLINT" for column, domain in columns.items())
        targets = ", ".join(f":{column} :I{column}" for column in columns)
        lines += [f"PROCEDURE OPEN{name} (SQLSTATE); OPEN C{name};",
                  f"PROCEDURE NEXT{name} (SQLSTATE, {parameters}); FETCH C{name} INTO {targets};"]
    return "\n".join(lines) + "\n"


def read_row(columns, row):
    """What a FETCH sets for a row that `sqmod` shows."""
    values = re.findall(r"'[^']*'|\S+", row)
    return "".join(f" {column}={value} I{column}={-1 if value == 'NULL' else 0}" for column, value in zip(columns, values))


def reading_calls(shown):
    """The calls that read the tables as `sqmod` shows them, and their lines."""
    for name, item in zip(TABLES, shown):
        yield f"M9\tOPEN{name}", f"M9.OPEN{name} 00000 0\n"
        call = f"M9\tNEXT{name}" + "\t*" * (2 * len(TABLES[name]))
        for row in item.splitlines()[1:]:
            yield call, f"M9.NEXT{name} 00000 0{read_row(TABLES[name], row)}\n"
        yield call, f"M9.NEXT{name} 02000 100\n"


def value_of(argument):
    """A value as host/tests/calls.c has it."""
    kind = "t" if argument.startswith("'") else "" if argument == "*" else "n"
    return kind + argument.strip("'")


def calls_in(script):
    found = CALL.findall(script)
    if len(found) != script.count("CALL"):
        sys.exit(f"a call isn't read in\n{script}")
    return ["\t".join([module, name, *map(value_of, filter(None, values.split(",")))]) for module, name, values in found]


def runs_of_calls(sqmod, room):
    """The runs of the host program: words, what it is to print, folder."""
    worked = {found.name: found for found in runs_of(ROOT / "crates/sq_cases/data/runs-worked.txt")}
    for name in RUNS:
        run, folder = worked[name], Path(room, name)
        folder.mkdir()
        calls = calls_in(run.script)
        run.script += SHOW_TABLES
        shown = subprocess.run([sqmod, *written(run, folder)], cwd=folder, capture_output=True, text=True, check=True).stdout
        if not shown.startswith(run.report):
            sys.exit(f"{name} has another report where its tables are shown")
        reading = list(reading_calls(items_of(shown)[-len(TABLES):]))
        lines = [item for item in items_of(run.report) if not item.startswith("TABLE ")] + [line for _, line in reading]
        (folder / "reading").write_text(reading_module())
        (folder / "calls").write_text("".join(call + "\n" for call in calls + [call for call, _ in reading]))
        schemas, modules = ([f"{kind}{number + 1}" for number in range(len(texts))] for kind, texts in (("schema", run.schemas), ("module", run.modules)))
        yield [run.rows, *schemas, "--", *modules, "reading", "--", "calls"], "".join(lines), folder


def allocations_before(words, made, folder):
    """How many allocations are made where no call is."""
    file = folder / "calls"
    text = file.read_text()
    file.write_text("")
    count = allocations(words, made, "", folder)
    file.write_text(text)
    return count


def host_program(archive, room):
    """The built program of host/tests/calls.c."""
    archive = archive or (build_library.ARCHIVE if build_library.ARCHIVE.exists() else None)
    program = Path(room, "program")
    words = [build_library.COMPILER, *build_library.FLAGS, f"-I{ROOT / 'host'}", ROOT / "host/tests/calls.c"]
    subprocess.run([*words, build_library.build(room, archive), "-o", program], check=True)
    return str(program)


def calls(program, sqmod, made, room):
    ways, total = Counter(), 0
    for words, report, folder in runs_of_calls(sqmod, room):
        words = [program, *words]
        count, before = allocations(words, made, report, folder), allocations_before(words, made, folder)
        total += count - before
        ways += endings(words, made, range(before + 1, count + 1), after_calls(report), folder)
    if not ways[MADE_AGAIN]:
        sys.exit("no call was made again")
    print(f"Calls: {len(RUNS)} runs, {total} allocations, each refused once: at {ways[MADE_AGAIN]} a call is made again, and all replies "
          f"are as ever; at {ways[ENDED]} the program ends while it prints; else all is as ever")


def main():
    built = [str(Path(word).resolve()) for word in sys.argv[1:]]
    built += [str(ROOT / "crates" / name / "out" / name) for name in ("sq_store_trials", "sqmod")[len(built):]]
    with tempfile.TemporaryDirectory() as room, tempfile.TemporaryDirectory() as other:
        made = library(room)
        trials(built[0], made)
        whole_program(built[1], made, room)
        calls(host_program(built[2] if len(built) > 2 else None, other), built[1], made, other)


if __name__ == "__main__":
    main()
