#!/usr/bin/env python3
"""Mends ten modules of old as `check` says, and counts how often it is asked.

try_old_modules.py PROGRAM: each folder of tools/old_modules has a schema and a module as they were written before or by SQL-92, and
mends.txt, what was changed after each run of `check`: lines `FILE: OLD => NEW`, and a blank line between the runs. Each mend is of a line
that the run before it pointed at, in a refusal, a fault or a warning; and after at most three runs nothing more is said but whether
cursors are updatable.
"""

import re
import subprocess
import sys
import tempfile
from pathlib import Path

FOLDER = Path(__file__).resolve().parent / "old_modules"
FILES = {"schema.sql": "--schema", "module.sql": "--module"}


def lines_told(program, room):
    """The lines that `check` points at in each file, with carets, and its exit status."""
    words = [word for name, option in FILES.items() for word in (option, name)]
    done = subprocess.run([program, "check", *words], cwd=room, capture_output=True, text=True, timeout=120)
    told, name = set(), None
    for line in (done.stderr + done.stdout).splitlines():
        found = re.match(r"(?:sqmod: )?(\w+\.sql):", line)
        pointed = re.match(r"  (\d+) \| ", line)
        if found:
            name = found[1]
        elif pointed:
            told.add((name, int(pointed[1])))
        elif line.startswith("  hint: "):
            told.update((name, int(number)) for number in re.findall(r" at (\d+):\d+ ", line))
    return told, done.returncode


def mended(room, mend, told):
    """Makes a mend, if it is of a line that was told."""
    name, change = mend.split(": ", 1)
    old, new = (change + " ").split(" => ", 1)
    text = (room / name).read_text()
    lines = [number for number, line in enumerate(text.split("\n"), 1) if old in line]
    (room / name).write_text(text.replace(old, new.strip(" ")))
    return bool(lines) and any((name, number) in told for number in lines)


def runs_of(program, folder):
    """How many runs of `check` said something of a module; 0 where a mend was not told, or something is still said."""
    with tempfile.TemporaryDirectory() as made:
        room = Path(made)
        for name in FILES:
            (room / name).write_text((folder / name).read_text())
        stages = (folder / "mends.txt").read_text().rstrip("\n").split("\n\n")
        for stage in stages:
            told, _ = lines_told(program, room)
            if not all(mended(room, mend, told) for mend in stage.split("\n")):
                return 0
        told, status = lines_told(program, room)
    return len(stages) if not told and status == 0 else 0


def main():
    program = str(Path(sys.argv[1]).resolve())
    counts = {folder.name: runs_of(program, folder) for folder in sorted(FOLDER.iterdir())}
    wrong = [name for name, count in counts.items() if not 1 <= count <= 3]
    print(f"{len(counts)} old modules, {sum(counts.values())} runs of check that said something, {len(wrong)} differ")
    sys.exit("these differ: " + " ".join(wrong) if wrong else 0)


if __name__ == "__main__":
    main()
