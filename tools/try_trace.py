#!/usr/bin/env python3
"""Tries `trace` on texts with their wanted lines, and on every run of crates/sq_cases/data.

try_trace.py PROGRAM: the status is 0 if each of tools/traces.txt, and examples/first, comes to its lines, with status 5 where
`--stop` ends it, and if each run of the data comes to its report, status and refusal without the lines that begin with two blanks and `--`; and each
eighth, with `--stop`, to the start of its report up to the first call that fails.
"""

import re
import subprocess
import sys
import tempfile
from pathlib import Path

from print_runs import runs_of
from run_program import written

ROOT = Path(__file__).resolve().parent.parent
DATA = ROOT / "crates/sq_cases/data"
FIRST = ROOT / "examples/first"
TEXTS = (("schema", "schema.sql"), ("module", "module.sql"), ("script", "script.txt"))
NOTE = "  --"
CALL = re.compile(r"\w+\.\w+ (\w{5}) -?\d+( |$)")
GOOD = ("00000", "01004", "02000")


def traced(program, run, options):
    with tempfile.TemporaryDirectory() as room:
        words = ["trace", *written(run, room)[1:], *options]
        done = subprocess.run([program, *words], cwd=room, capture_output=True, timeout=300)
    return done.stdout.decode("latin-1"), done.stderr.decode("latin-1"), done.returncode


def failed(line):
    found = CALL.match(line)
    return found and found[1] not in GOOD


def own_cases():
    """The cases of tools/traces.txt, and the options of each."""
    path = ROOT / "tools/traces.txt"
    options = [line.split(" ")[2:] for line in path.read_text().split("\n") if line.startswith("run ")]
    return list(zip(runs_of(path), options))


def is_as_wanted(program, run, options):
    """Whether a case comes to its lines; it ends with 5 where its last call failed, if it is to stop there."""
    calls = [line for line in run.report.split("\n") if CALL.match(line)]
    status = 5 if "--stop" in options and failed(calls[-1]) else 0
    return traced(program, run, options) == (run.report, "", status)


def up_to_failure(report):
    """The lines of a report up to the first call that failed, and whether there is one."""
    lines = report.splitlines(keepends=True)
    for number, line in enumerate(lines, 1):
        if failed(line.rstrip("\n")):
            return "".join(lines[:number]), True
    return report, False


def first(program):
    """The trace of the first example."""
    words = [word for kind, file in TEXTS for word in (f"--{kind}", FIRST / file)]
    return subprocess.run([program, "trace", *words], capture_output=True, text=True, timeout=60).stdout


def without_notes(text):
    return "".join(line for line in text.splitlines(keepends=True) if not line.startswith(NOTE))


def is_report(program, run, stops):
    """Whether a run of the data comes to its report, or to its refusal, without the notes; and where it is to stop."""
    output, errors, status = traced(program, run, ["--tables"])
    if run.refused is not None:
        kind, number, place, fault = run.refused
        return (output, errors, status) == ("", f"sqmod: {kind}{number}:{place}: {fault}\n", 2)
    if (without_notes(output), errors, status) != (run.report, "", 0):
        return False
    if not stops:
        return True
    output, errors, status = traced(program, run, ["--stop"])
    start, ends = up_to_failure(run.report)
    return (without_notes(output), errors, status) == (start, "", 5 if ends else 0)


def main():
    program = str(Path(sys.argv[1]).resolve())
    cases = own_cases()
    runs = [run for path in sorted(DATA.glob("runs-*.txt")) for run in runs_of(path)]
    wrong = [run.name for run, options in cases if not is_as_wanted(program, run, options)]
    if first(program) != (FIRST / "trace.txt").read_text():
        wrong.append("examples/first")
    wrong += [run.name for place, run in enumerate(runs) if not is_report(program, run, place % 8 == 0)]
    print(f"trace: {len(cases)} texts with their lines, {len(runs)} runs, {len(wrong)} differ")
    sys.exit("these differ: " + " ".join(wrong) if wrong else 0)


if __name__ == "__main__":
    main()
