#!/usr/bin/env python3
"""Runs the built program on words that it takes and words that it refuses, on files that can't be read, on texts that it refuses,
and on an output that takes nothing.

try_words.py PROGRAM: the status is 0 if standard output, standard error and the status of each run are as wanted, byte for byte.
"""

import subprocess
import sys
import tempfile
from pathlib import Path
from typing import NamedTuple

SECONDS = 120
# The row numbers of a table without `--rows`.
USUAL = 1_000_000
# An output that takes nothing.
FULL = "/dev/full"
SEE_HELP = "\nFor more information, try '--help'.\n"


class Run(NamedTuple):
    """The words of a run, and what is wanted of it; a file for its standard output, if it is not read."""

    words: str
    out: str = ""
    errors: str = ""
    status: int = 0
    to: str = ""


def adds(count):
    return "".join(f"CALL M.ADD ({number}); " for number in range(count))


def fills(count):
    """A script that makes so many rows, as far as possible by doubling, and one more."""
    script, made = "CALL M.ADD (0); ", 1
    while 2 * made <= count:
        script, made = script + f"CALL M.SHIFT ({made}); ", 2 * made
    return script + f"CALL M.REST ({count - made}); CALL M.ADD (-1);\n"


FILES = {
    "a": "CREATE SCHEMA AUTHORIZATION U CREATE TABLE T (K INTEGER)\n  CREATE VIEW S AS SELECT K FROM T\n",
    "b": "CREATE SCHEMA AUTHORIZATION V CREATE TABLE W (K INTEGER)\n  CREATE VIEW D AS SELECT DISTINCT K FROM W\n",
    "m": "MODULE M LANGUAGE C AUTHORIZATION U\nPROCEDURE ADD (SQLSTATE, :K INTEGER); INSERT INTO T VALUES (:K);\n"
         "PROCEDURE SHIFT (SQLSTATE, :N INTEGER); INSERT INTO T SELECT K + :N FROM T;\n"
         "PROCEDURE REST (SQLSTATE, :N INTEGER); INSERT INTO T SELECT K FROM T WHERE K < :N;\n",
    "n": "MODULE N LANGUAGE C AUTHORIZATION V\n PROCEDURE ADD (SQLSTATE); INSERT INTO X VALUES (1);\n",
    "c": "TABLE U.T; TABLE V.W;\n",
    "five": adds(6),
    "seven": adds(8),
    "fill": fills(USUAL),
    "bad-schema": "CREATE SCHEMA AUTHORIZATION U\n CREATE  TABLES T (K INTEGER)\n",
    "bad-module": "MODULE P LANGUAGE C AUTHORIZATION U\n PROCEDURE P (:A INTEGER); COMMIT;\n",
    "bad-script": "CALL M.ADD (1);\n         CALL M.ADD (1, 2);\n",
}
ADDED, NO_NUMBER = "M.ADD 00000 0\n", "M.ADD S1L00 -9001\n"
FILLED = ADDED + "M.SHIFT 00000 0\n" * 19 + "M.REST 00000 0\n"
NO_ROWS = "TABLE U.T 0\nTABLE V.W 0\n"

# Options in any order, with and without `=`; files are read in the order of the words; so many rows get a number.
TAKEN = (
    Run("run --schema a --module m --script c --schema b", NO_ROWS),
    Run("run --schema b --module n --script c --module m --schema a", NO_ROWS),
    Run("run --schema a --module m --script five --schema b --rows 1", ADDED + NO_NUMBER * 5),
    Run("run --schema a --schema=b --module=m --script five --rows +5", ADDED * 5 + NO_NUMBER),
    Run("run --rows 007 --schema a --module m --schema b --script=seven", ADDED * 7 + NO_NUMBER),
    Run("run --script fill --module m --schema a --schema b", FILLED + NO_NUMBER),
    Run("run --script fill --module m --schema a --schema b --rows 1000000000", FILLED + ADDED),
    Run("check --schema a --module m --schema=b", "a:2:3: U.S: updatable\nb:2:3: V.D: not updatable: DISTINCT\n"),
    Run("check --quiet --schema b --module n --module m --schema a", "n:2:2: N.ADD: UnknownTable X\n", "", 4),
    Run("check --json --schema b --schema a --script c",
        '{"file":"b","line":2,"column":3,"weight":"remark","part":"V.D","says":"not updatable: DISTINCT"}\n'
        '{"file":"a","line":2,"column":3,"weight":"remark","part":"U.S","says":"updatable"}\n'),
    Run("check"),
    Run("trace --rows 1 --stop --schema a --module m --script five --schema b",
        ADDED + "  -- CALL M.ADD (0)\n  -- U.T row 1 is new: K=0\n" + NO_NUMBER
        + "  -- CALL M.ADD (1)\n  -- too few row numbers are left in U.T\n", "", 5),
    Run("trace --schema a --schema b --script c --html page --tables", NO_ROWS),
    Run("trace --schema a --schema b --script c --html /dev/null/page", NO_ROWS, "sqmod: /dev/null/page: cannot be written\n", 1),
)
RUN_OPTIONS = """\
Options:
      --schema <F>  A file with schemas
      --module <F>  A file with a module
      --script <F>  The file with the script
      --rows <N>    The row numbers of each table, 1000000 when omitted
  -h, --help        Print help
"""
CHECK_OPTIONS = """\
Options:
      --schema <F>  A file with schemas
      --module <F>  A file with a module
      --script <F>  A file with a script
      --quiet       Says nothing but refusals and faults
      --json        Prints an object of JSON for each line
      --ways        Says how the rows of tables are found
  -h, --help        Print help
"""
SHELL_OPTIONS = """\
Options:
      --schema <F>  A file with schemas
      --module <F>  A file with a module
      --rows <N>    The row numbers of each table, 1000000 when omitted
  -h, --help        Print help
"""


def bad_rows(value, why):
    return f"error: invalid value '{value}' for '--rows <N>': {why}\n{SEE_HELP}"


WORDS = (
    ("run", "error: the following required arguments were not provided:\n  --script <F>\n\nUsage: sqmod run --script <F>\n" + SEE_HELP),
    ("run --script c --rows 0", bad_rows("0", "0 is not in 1..=1000000000")),
    ("run --script c --rows 1000000001", bad_rows("1000000001", "1000000001 is not in 1..=1000000000")),
    ("run --script c --rows=-5", bad_rows("-5", "invalid digit found in string")),
    ("run --script c --rows 5.0", bad_rows("5.0", "invalid digit found in string")),
    ("run --script c --script d",
     "error: the argument '--script <F>' cannot be used multiple times\n\nUsage: sqmod run [OPTIONS] --script <F>\n" + SEE_HELP),
    ("walk", "error: unrecognized subcommand 'walk'\n\nUsage: sqmod <COMMAND>\n" + SEE_HELP),
    ("", "error: 'sqmod' requires a subcommand but one was not provided\n  [subcommands: run, check, trace, shell, explain, test, bind-c, bind-cobol, new, help]\n\n"
         "Usage: sqmod <COMMAND>\n" + SEE_HELP),
    ("--help", """\
Processes SQL-92 schemas and modules, and runs a script of procedure calls

Usage: sqmod <COMMAND>

Commands:
  run         Runs a script
  check       Says what is wrong in texts, and which cursors and views are updatable
  trace       Runs a script, and says beside the report what each call did, and why it failed
  shell       Makes the calls that are typed, and writes what each one answers
  explain     Explains a status, a refusal or a fault, or lists their names
  test        Runs the cases below folders, and says which come to what they want
  bind-c      Prints a header for C with a function for each procedure
  bind-cobol  Prints a copybook for COBOL with a paragraph for each procedure
  new         Writes a schema, a module and a script to begin with
  help        Print this message or the help of the given subcommand(s)

Options:
  -h, --help     Print help
  -V, --version  Print version
"""),
    ("run --help", "Runs a script\n\nUsage: sqmod run [OPTIONS] --script <F>\n\n" + RUN_OPTIONS),
    ("check --help", "Says what is wrong in texts, and which cursors and views are updatable\n\n"
                     "Usage: sqmod check [OPTIONS]\n\n" + CHECK_OPTIONS),
    ("shell --help", "Makes the calls that are typed, and writes what each one answers\n\nUsage: sqmod shell [OPTIONS]\n\n" + SHELL_OPTIONS),
    ("shell --rows 0", bad_rows("0", "0 is not in 1..=1000000000")),
    ("explain --help", """\
Explains a status, a refusal or a fault, or lists their names

Usage: sqmod explain [NAME]

Arguments:
  [NAME]  An SQLSTATE, or a name that sqmod prints

Options:
  -h, --help  Print help
"""),
    ("run --script \udcff", "error: a word is not UTF-8\n"),
)


def unread(words, file):
    return Run(words, "", f"sqmod: {file}: cannot be read\n", 1)


def refused(words, fault):
    return Run(words, "", f"sqmod: {fault}\n", 2)


# Files are read before any text is: schemas, modules, the script. `/dev/null` is empty, and no file is below it.
UNREAD = (
    refused("run --schema /dev/null --module /dev/null --script /dev/null", "/dev/null:1:1: EndOfText"),
    unread("run --script /dev/null/a --module /dev/null/b --schema /dev/null/c --schema /dev/null/d", "/dev/null/c"),
    unread("run --schema /dev/null --schema /dev/null/a --schema /dev/null/b --module /dev/null/c --script /dev/null/d", "/dev/null/a"),
    unread("run --script /dev/null/a --module /dev/null/b --schema /dev/null --module /dev/null/c", "/dev/null/b"),
    unread("run --module /dev/null --module /dev/null/a --script /dev/null/b", "/dev/null/a"),
    unread("run --script /dev/null/a --schema /dev/null --module /dev/null", "/dev/null/a"),
    unread("run --schema a --schema t --module m --script c", "t"),
    unread("check --module /dev/null/a --schema /dev/null/b", "/dev/null/b"),
    unread("trace --schema a --module m --script /dev/null/a --html /dev/null/page", "/dev/null/a"),
    unread("check --schema a --module m --module /dev/null/a", "/dev/null/a"),
    unread("check --schema a --module m --script /dev/null/a", "/dev/null/a"),
)
REFUSED = (
    refused("run --schema bad-schema --schema b --module m --script c", "bad-schema:2:10: Unexpected"),
    refused("run --schema a --schema bad-schema --module bad-module --script c", "bad-schema:2:10: Unexpected"),
    refused("run --schema a --module m --module bad-module --script bad-script", "bad-module:2:2: StatusParameter"),
    refused("run --schema a --module m --script bad-script", "bad-script:2:10: BadArguments"),
    refused("check --quiet --schema a --module m --module bad-module", "bad-module:2:2: StatusParameter"),
    refused("check --quiet --schema a --module m --script bad-script", "bad-script:2:10: BadArguments"),
    refused("trace --schema a --module m --script bad-script --html /dev/null/page", "bad-script:2:10: BadArguments"),
)
# A refusal writes nothing, so no output can fail.
FULL_OUTPUT = tuple(
    Run(words, "", "sqmod: output fault\n", 1, FULL)
    for words in ("run --schema a --schema b --script c", "check --schema a", "explain", "explain 22001",
                  "trace --schema a --schema b --script c --html /dev/null/page")
) + (refused("run --schema a --module m --script bad-script", "bad-script:2:10: BadArguments")._replace(to=FULL),)

RUNS = (*TAKEN, *(Run(words, "", text, 2) for words, text in WORDS), *UNREAD, *REFUSED, *FULL_OUTPUT)


def outcome(program, run, room):
    words = [program, *run.words.encode("utf-8", "surrogateescape").split()]
    with open(run.to or "/dev/null", "wb") as output:
        to = output if run.to else subprocess.PIPE
        done = subprocess.run(words, cwd=room, stdin=subprocess.DEVNULL, stdout=to, stderr=subprocess.PIPE, timeout=SECONDS)
    return run._replace(out=(done.stdout or b"").decode(), errors=done.stderr.decode(), status=done.returncode)


def main():
    program = str(Path(sys.argv[1]).resolve())
    with tempfile.TemporaryDirectory() as room:
        for name, text in FILES.items():
            Path(room, name).write_text(text)
        wrong = [(run, came) for run in RUNS if (came := outcome(program, run, room)) != run]
    for run, came in wrong:
        print(f"sqmod {run.words!r}\n  wanted {run[1:]}\n  came   {came[1:]}")
    print(f"Words, files and outputs: {len(RUNS)} runs, {len(wrong)} differ")
    sys.exit(1 if wrong else 0)


if __name__ == "__main__":
    main()
