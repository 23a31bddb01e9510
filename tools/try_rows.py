#!/usr/bin/env python3
"""Tries each row of docs/COMING_FROM.md: what is not to be written has the answer of its row, and what is has another.

try_rows.py [PROGRAM]: without a word the program is ./sqmod.
"""

import re
import subprocess
import sys
import tempfile
from pathlib import Path

ROOT = Path(__file__).resolve().parent.parent
MODULE = "MODULE M LANGUAGE C AUTHORIZATION U\n"
TABLES = """CREATE SCHEMA AUTHORIZATION U
CREATE TABLE T (A INTEGER, B INTEGER, C VARCHAR(20))
CREATE TABLE S (A INTEGER, B INTEGER)
"""
DECLARED = "(SQLSTATE, :X INTEGER, :Y INTEGER, :Z VARCHAR(20), :IX SMALLINT)"
CALL = "CALL M.P (*, *, *, *);\n"
CALLED = """PROCEDURE ADD (SQLSTATE, :X INTEGER, :IX SMALLINT); INSERT INTO T (A) VALUES (:X :IX);
PROCEDURE P (SQLSTATE); COMMIT;
"""

# The schema, module and script around a row's text, by the heading over its table.
TEXTS = {
    "Schemas": lambda text: (f"CREATE SCHEMA AUTHORIZATION U {text}\n", MODULE, ""),
    "Modules": lambda text: (TABLES, f"{MODULE}{text}\n", ""),
    "Old modules": lambda text: (TABLES, f"{text}\n", ""),
    "Statements": lambda text: (TABLES, f"{MODULE}PROCEDURE P {DECLARED}; {text};\n", CALL),
    "Queries of cursors": lambda text: (TABLES, f"{MODULE}DECLARE K CURSOR FOR {text}\nPROCEDURE P {DECLARED}; OPEN K;\n", CALL),
    "Scripts": lambda text: (TABLES, MODULE + CALLED, f"{text}\n"),
}


def answer(program, texts):
    """The name of a refusal; or 42000 if a call answers it; or else nothing."""
    with tempfile.TemporaryDirectory() as room:
        words = [program, "run"]
        for kind, text in zip(("schema", "module", "script"), texts):
            Path(room, kind).write_text(text)
            words += [f"--{kind}", kind]
        done = subprocess.run(words, cwd=room, capture_output=True, text=True, timeout=300)
    if done.returncode != 0:
        return done.stderr.split()[-1]
    return "42000" if " 42000 " in done.stdout else ""


def rows_of(page):
    """The rows of the page's tables, each with the heading over its table."""
    for line in page.split("\n"):
        if line.startswith("## "):
            heading = line[3:]
        elif line.startswith("| `"):
            wrong, named, right, _ = (cell.strip().strip("`").replace("\\|", "|") for cell in re.split(r"(?<!\\)\|", line)[1:-1])
            yield heading, wrong, named, right


def main():
    program = str(Path(sys.argv[1] if len(sys.argv) > 1 else ROOT / "sqmod").resolve())
    rows = list(rows_of((ROOT / "docs/COMING_FROM.md").read_text()))
    false = []
    for heading, wrong, named, right in rows:
        found = answer(program, TEXTS[heading](wrong)), answer(program, TEXTS[heading](right))
        if found != (named, ""):
            false.append(f"{wrong} -> {found[0] or 'taken'}; {right} -> {found[1] or 'taken'}")
    print(f"COMING_FROM: {len(rows)} rows, {len(false)} false")
    sys.exit("\n".join(false) if false else 0)


if __name__ == "__main__":
    main()
