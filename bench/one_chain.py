#!/usr/bin/env python3
"""Times the built program on keys that all have one hash, beside as many other keys.

    bench/one_chain.py [--program crates/sqmod/out/sqmod] [COUNT]

A key is an INTEGER and a NUMERIC(18,18). What the hasher does with both is written here again: the state behind the first column and
the tag of the second is known, and the last step joins the second number to it by exclusive or. So to each first number there is at
most one second that leads to a given state, and of one in 18 it has 18 digits.
"""
import argparse
import resource
import subprocess
import tempfile
from itertools import count, islice
from pathlib import Path

ROOT = Path(__file__).resolve().parent.parent
WORD = 2**64 - 1
START, MULTIPLIER = 0x243F6A8885A308D3, 0x9E3779B97F4A7C15
NUMBER = 0x010101  # the tag of a number, as the hasher reads one byte
WANTED = 0x0123456789ABCDEF
SCHEMA = "CREATE SCHEMA AUTHORIZATION U CREATE TABLE T (A INTEGER NOT NULL, B NUMERIC(18,18) NOT NULL, PRIMARY KEY (A, B))"
MODULE = "MODULE M LANGUAGE C AUTHORIZATION U\nPROCEDURE ADD (SQLCODE, :A INTEGER, :B NUMERIC(18,18)); INSERT INTO T VALUES (:A, :B);\n"


def folded(left, right):
    product = left * right
    return product & WORD ^ product >> 64


def short(state, read, length):
    return folded(state ^ read, MULTIPLIER ^ 2 * length)


def wide(state, number):
    """The state behind 16 bytes: a number that is not below zero."""
    return folded(number & WORD ^ state + 16 & WORD, number >> 64 ^ MULTIPLIER)


BEHIND_LENGTH = short(START, 2, 8)


def colliding():
    """Keys with one hash: the first numbers, and the digits of the second behind the point."""
    for first in count():
        state = short(wide(short(BEHIND_LENGTH, NUMBER, 1), first * 10**18), NUMBER, 1)
        second = (state + 16 & WORD) ^ WANTED
        if second < 10**18:
            yield first, second


def others():
    return ((number, number) for number in count())


def seconds(program, room, keys):
    script = Path(room, "script")
    script.write_text("".join(f"CALL M.ADD ({first}, .{second:018});\n" for first, second in keys))
    before = resource.getrusage(resource.RUSAGE_CHILDREN).ru_utime
    words = ["run", "--schema", "schema", "--module", "module", "--script", "script"]
    done = subprocess.run([program, *words], cwd=room, capture_output=True, check=True)
    assert done.stdout.count(b" 00000 0\n") == done.stdout.count(b"\n")
    return resource.getrusage(resource.RUSAGE_CHILDREN).ru_utime - before


def main():
    parser = argparse.ArgumentParser(description="Times the built program on keys that all have one hash.")
    parser.add_argument("count", nargs="?", type=int, default=80_000)
    parser.add_argument("--program", type=Path, default=ROOT / "crates/sqmod/out/sqmod")
    asked = parser.parse_args()
    with tempfile.TemporaryDirectory() as room:
        Path(room, "schema").write_text(SCHEMA)
        Path(room, "module").write_text(MODULE)
        for name, keys in (("one hash", colliding()), ("other keys", others())):
            print(f"{name}: {seconds(asked.program.resolve(), room, islice(keys, asked.count)):.2f} s")


if __name__ == "__main__":
    main()
