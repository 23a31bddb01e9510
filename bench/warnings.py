#!/usr/bin/env python3
"""Times what `check` says of modules with many cursors, each opened and never fetched, and each with a parameter that is never used.

warnings.py PROGRAM [COUNT..]: for each count of cursors, the number of warnings, and the seconds with them and with `--quiet`.
"""

import subprocess
import sys
import tempfile
import time
from pathlib import Path

SCHEMA = "CREATE SCHEMA AUTHORIZATION U CREATE TABLE T (A INTEGER NOT NULL, B INTEGER)\n"
PART = """DECLARE C{0} CURSOR FOR SELECT A, B FROM T WHERE A = :A
PROCEDURE O{0} (SQLCODE, :A INTEGER, :B INTEGER); OPEN C{0};
"""


def timed(program, words, room):
    """What `check` prints, and the seconds that it takes."""
    start = time.monotonic()
    done = subprocess.run([program, "check", *words, "--schema", "s", "--module", "m"], cwd=room, capture_output=True, text=True)
    return done.stdout, time.monotonic() - start


def main():
    program = str(Path(sys.argv[1]).resolve())
    for count in map(int, sys.argv[2:] or ["1000", "4000", "16000"]):
        with tempfile.TemporaryDirectory() as room:
            Path(room, "s").write_text(SCHEMA)
            Path(room, "m").write_text("MODULE M LANGUAGE C AUTHORIZATION U\n" + "".join(map(PART.format, range(count))))
            out, words = timed(program, [], room)
            _, quiet = timed(program, ["--quiet"], room)
        print(f"{count} cursors: {out.count(': warning: ')} warnings, {words:.2f} seconds, with --quiet {quiet:.2f}")


if __name__ == "__main__":
    main()
