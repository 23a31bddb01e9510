#!/usr/bin/env python3
"""Finds the least stack with which the built program runs texts with 32 brackets open.

    bench/least_stack.py [--program crates/sqmod/out/sqmod] [DEPTH]

Each is a statement or cursor over a table of one row. The stack is that of the process, as `ulimit -s` sets it, and is found to
4 KB by halving.
"""
import argparse
import resource
import subprocess
import tempfile
from functools import partial
from pathlib import Path

ROOT = Path(__file__).resolve().parent.parent
SCHEMA = "CREATE SCHEMA AUTHORIZATION U CREATE TABLE D (A INTEGER)"
MODULE = "MODULE M LANGUAGE C AUTHORIZATION U\nPROCEDURE ADD (SQLCODE); INSERT INTO D VALUES (1);\n"
SCRIPT = "CALL M.ADD; CALL M.P;"
MOST, STEP = 8192, 4


def nested(front, inner, back, depth):
    return front * depth + inner + back * depth


def deleted(front, inner, back, depth):
    return f"PROCEDURE P (SQLCODE); DELETE FROM D WHERE {nested(front, inner, back, depth)};"


def set_to(front, inner, back, depth):
    return f"PROCEDURE P (SQLCODE); UPDATE D SET A = {nested(front, inner, back, depth)};"


def opened(front, inner, back, depth):
    return f"DECLARE X CURSOR FOR {nested(front, inner, back, depth)}\nPROCEDURE P (SQLCODE); OPEN X;"


KINDS = {
    "scalar subqueries": partial(deleted, "1 = (SELECT A FROM D WHERE ", "A = 1", ")"),
    "subqueries of ALL": partial(deleted, "1 = ALL (SELECT A FROM D WHERE ", "A = 1", ")"),
    "subqueries of IN": partial(deleted, "1 IN (SELECT A FROM D WHERE ", "A = 1", ")"),
    "EXISTS": partial(deleted, "EXISTS (SELECT * FROM D WHERE ", "A = 1", ")"),
    "EXISTS, each with a column of the query around": partial(
        deleted, "EXISTS (SELECT * FROM D D1 WHERE D1.A = D.A AND ", "A = 1", ")"),
    "UNION": partial(opened, "(SELECT A FROM D UNION ", "SELECT A FROM D", ")"),
    "NOT": partial(deleted, "NOT (", "A = 1", ")"),
    "conditions": partial(deleted, "(", "A = 1", ")"),
    "expressions": partial(set_to, "-(", "A", ")"),
}


def runs(program, room, stack):
    """Whether the program does all calls with this stack, in KB."""
    size = stack * 1024
    done = subprocess.run([program, "run", "--schema", "schema", "--module", "module", "--script", "script"], cwd=room,
                          capture_output=True, preexec_fn=lambda: resource.setrlimit(resource.RLIMIT_STACK, (size, size)))
    return done.returncode == 0


def least(program, room, text):
    Path(room, "module").write_text(MODULE + text + "\n")
    if not runs(program, room, MOST):
        return None
    low, high = 0, MOST
    while high - low > STEP:
        middle = (low + high) // 2
        low, high = (low, middle) if runs(program, room, middle) else (middle, high)
    return high


def main():
    parser = argparse.ArgumentParser(description="Finds the least stack with which the built program runs deep texts.")
    parser.add_argument("depth", nargs="?", type=int, default=32)
    parser.add_argument("--program", type=Path, default=ROOT / "crates/sqmod/out/sqmod")
    asked = parser.parse_args()
    with tempfile.TemporaryDirectory() as room:
        for name, text in (("schema", SCHEMA), ("script", SCRIPT)):
            Path(room, name).write_text(text)
        for kind, text in KINDS.items():
            print(f"{kind}: {least(asked.program.resolve(), room, text(asked.depth))} KB")


if __name__ == "__main__":
    main()
