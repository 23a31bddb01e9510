#!/usr/bin/env python3
"""Tries scripts of several parts: how a script's items stand in lines changes neither the report nor a refusal.

try_long_scripts.py [PROGRAM]: a script of some 300,000 bytes is read in parts that end with a line. Its items are written in one line
(so it is read at once), an item a line, with CR and LF, over several lines, and with comments and literals that have semicolons. All
come to one report. Then an item near the end is spoilt, or two are, and the first refusal has to stand where the text says.
"""

import subprocess
import sys
import tempfile
from pathlib import Path

ROOT = Path(__file__).resolve().parent.parent
SCHEMA = "CREATE SCHEMA AUTHORIZATION U CREATE TABLE T (K INTEGER NOT NULL, C VARCHAR(20), UNIQUE (K))\n"
MODULE = """MODULE M LANGUAGE C AUTHORIZATION U
PROCEDURE INS (SQLSTATE, :K INTEGER, :C VARCHAR(20)); INSERT INTO T VALUES (:K, :C);
"""
COUNT = 8000
ITEMS = [f"CALL M.INS ({number % (COUNT - 3)}, 'a;{number}')" for number in range(COUNT)] + ["TABLE U.T"]


def over_lines(item):
    """The item in three lines, with a line that ends with a semicolon in a comment."""
    return item.replace(" (", "\n  -- brackets;\n  (") + ";\n"


LAYOUTS = {
    "one line": lambda items: "".join(f"{item}; " for item in items),
    "an item a line": lambda items: "".join(f"{item};\n" for item in items),
    "CR and LF": lambda items: "".join(f"{item};\r\n" for item in items),
    "without a last line end": lambda items: ";\n".join(items) + ";",
    "two items a line": lambda items: "".join(f"{item};{'' if number % 2 else chr(10)}" for number, item in enumerate(items)),
    "comments behind": lambda items: "".join(f"{item}; -- to be;\n" for item in items),
    "over lines": lambda items: "".join(map(over_lines, items)),
}

# What is put in place of items at these numbers, and the refusal: the number of the line, its column, and its name.
SPOILT = {
    "no comma": ({7900: "CALL M.INS (1 'a')"}, (7901, 15, "Unexpected")),
    "no procedure": ({7900: "CALL M.DEL (1)"}, (7901, 1, "UnknownProcedure")),
    "too few values": ({7900: "CALL M.INS (1)"}, (7901, 1, "BadArguments")),
    "an open text": ({7900: "CALL M.INS (1, 'a)"}, (7901, 16, "OpenText")),
    "grammar before meaning": ({5: "CALL M.DEL (1)", 7900: "CALL M.INS (1 'a')"}, (7901, 15, "Unexpected")),
    "bytes before grammar": ({5: "CALL M.INS (1 'a')", 7900: "CALL M.INS (1, #)"}, (7901, 16, "BadByte")),
    "the first of two": ({5: "CALL M.DEL (1)", 7900: "CALL M.INS (1)"}, (6, 1, "UnknownProcedure")),
}


def answer(program, script):
    """What the program writes, says and ends with."""
    with tempfile.TemporaryDirectory() as room:
        for name, text in (("s", SCHEMA), ("m", MODULE), ("c", script)):
            Path(room, name).write_bytes(text.encode())
        words = [program, "run", "--schema", "s", "--module", "m", "--script", "c"]
        done = subprocess.run(words, cwd=room, capture_output=True, timeout=300)
    return done.stdout, done.stderr.decode(), done.returncode


def wrong_layouts(program):
    """The layouts with another report than the first one."""
    wanted = answer(program, LAYOUTS["one line"](ITEMS))
    if wanted[1:] != ("", 0) or wanted[0].count(b"23000") != 3:
        return ["one line"]
    return [name for name, layout in LAYOUTS.items() if answer(program, layout(ITEMS)) != wanted]


def wrong_refusals(program):
    """The spoilt scripts that are not refused as they should be."""
    wrong = []
    for name, (changes, (line, column, fault)) in SPOILT.items():
        items = [changes.get(number, item) for number, item in enumerate(ITEMS)]
        found = answer(program, LAYOUTS["an item a line"](items))
        if found != (b"", f"sqmod: c:{line}:{column}: {fault}\n", 2):
            print(f"{name}: {found[1:]}")
            wrong.append(name)
    return wrong


def main():
    program = str(Path(sys.argv[1] if len(sys.argv) > 1 else ROOT / "sqmod").resolve())
    wrong = wrong_layouts(program) + wrong_refusals(program)
    print(f"Long scripts: {len(LAYOUTS)} layouts and {len(SPOILT)} refusals, {len(wrong)} wrong")
    sys.exit("these are wrong: " + ", ".join(wrong) if wrong else 0)


if __name__ == "__main__":
    main()
