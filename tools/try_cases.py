#!/usr/bin/env python3
"""Tries the tables of crates/sq_cases/data that whole runs of the program don't try, and the runs over the other store.

try_cases.py: the program of crates/sq_cases/unproved is compiled over the proved sources, without proof and with run-time checks,
in a root of its own, and tries the tables. The status is 0 if it prints what crates/sq_cases/stdout has.
"""

import shutil
import subprocess
import sys
import tempfile
from pathlib import Path

ROOT = Path(__file__).resolve().parent.parent
CASES = ROOT / "crates/sq_cases"
LIBRARIES = "sq_calling sq_run sq_session sq_catalog sq_binder sq_parse sq_spell sq_ending sq_query sq_bound sq_tree sq_heap sq_store sq_value sq_lex sq_items"
# Seconds that the program may take. Its first step is tried by an interpreter, which would take long for all.
SECONDS, STEPS = "900", "1"


def lay_out(room):
    """A root with the sources of all crates, and with the program as one more."""
    for source in sorted(ROOT.glob("crates/*/src")):
        shutil.copytree(source, room / source.relative_to(ROOT))
    source = room / "crates/sq_cases/src"
    source.mkdir(parents=True, exist_ok=True)
    for path in (CASES / "unproved").glob("*.rattle"):
        shutil.copyfile(path, source / f"{path.stem}.rt")
    shutil.copyfile(ROOT / "HANDLES", room / "HANDLES")
    (room / "crates.txt").write_text((ROOT / "crates.txt").read_text() + f"sq_cases: {LIBRARIES}\n")


def tried(room):
    """What the program prints, and what `rt` says of it."""
    words = ["rt", "try", "--steps", STEPS, "--seconds", SECONDS]
    for path in sorted((CASES / "data").iterdir()):
        words += ["--data", f"{path.name}={path}"]
    done = subprocess.run(words, cwd=room / "crates/sq_cases", stdin=subprocess.DEVNULL, capture_output=True, text=True)
    return done.stdout, done.stderr


def main():
    if shutil.which("rt") is None:
        sys.exit("try_cases: there is no command rt on the path; it belongs to the Rattle kit")
    with tempfile.TemporaryDirectory() as room:
        lay_out(Path(room))
        printed, said = tried(Path(room))
    sys.stdout.write(printed)
    if printed != (CASES / "stdout").read_text():
        sys.exit("try_cases: crates/sq_cases/stdout has something else\n" + said)


if __name__ == "__main__":
    main()
