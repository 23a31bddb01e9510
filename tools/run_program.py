#!/usr/bin/env python3
"""Runs the built program on every run of crates/sq_cases/data and compares what comes of it.

run_program.py [PROGRAM]: `./sqmod prove` builds the program, and so does the gate. The report has to be the wanted one, with
exit status 0; where a refusal is wanted, its line on standard error, with exit status 2 and nothing written.
"""

import subprocess
import sys
import tempfile
from pathlib import Path

from print_runs import runs_of

ROOT = Path(__file__).resolve().parent.parent


def written(run, folder):
    """Writes the texts of a run to a folder, and gives the words of `sqmod` for them."""
    words = ["run"]
    for kind, texts in (("schema", run.schemas), ("module", run.modules), ("script", [run.script])):
        for number, text in enumerate(texts, 1):
            Path(folder, f"{kind}{number}").write_bytes(text.encode("latin-1"))
            words += [f"--{kind}", f"{kind}{number}"]
    return [*words, "--rows", run.rows]


def is_as_wanted(program, run):
    """Whether a run of the data comes to its report, or to its refusal."""
    with tempfile.TemporaryDirectory() as room:
        done = subprocess.run([program, *written(run, room)], cwd=room, capture_output=True, timeout=120)
    found = done.stdout, done.stderr, done.returncode
    if run.refused is None:
        return found == (run.report.encode("latin-1"), b"", 0)
    kind, number, place, fault = run.refused
    return found == (b"", f"sqmod: {kind}{number}:{place}: {fault}\n".encode(), 2)


def main():
    program = str(Path(sys.argv[1] if len(sys.argv) > 1 else ROOT / "crates/sqmod/out/sqmod").resolve())
    runs = [run for path in sorted((ROOT / "crates/sq_cases/data").glob("runs-*.txt")) for run in runs_of(path)]
    wrong = [run.name for run in runs if not is_as_wanted(program, run)]
    print(f"The built program: {len(runs)} runs, {len(wrong)} differ")
    sys.exit("these differ: " + " ".join(wrong) if wrong else 0)


if __name__ == "__main__":
    main()
