#!/usr/bin/env python3
"""Tries what a program says of calls that fail, on the cases of tools/causes.txt.

try_causes.py PROGRAM [WORD]: runs PROGRAM WORD (trace, if none is given) on each case. Each line of `wanted` that is a call's must be the report's, call
by call; a line below it that begins with two blanks and `--` must be among those that the program prints below that call.
"""

import subprocess
import sys
import tempfile
from pathlib import Path

PARTS = ("schema", "module", "script", "wanted")


def cases_of(text):
    """The cases: a name, and the lines of each part."""
    cases = []
    part = None
    for line in text.splitlines():
        if line.startswith("case "):
            cases.append((line[5:], {it: [] for it in PARTS}))
        elif line in PARTS:
            part = line
        elif line.startswith("|"):
            cases[-1][1][part].append(line[1:])
        elif line and not line.startswith("#"):
            sys.exit("tools/causes.txt: what is this line? " + line)
    return cases


def calls_of(lines):
    """The calls' lines, each with those below it that begin with two blanks and `--`."""
    calls = []
    for line in lines:
        if line.startswith("  -- "):
            calls[-1][1].append(line)
        elif line[:1] not in ("", " "):
            calls.append((line, []))
    return calls


def faults_of(wanted, came):
    """What differs: a line each."""
    faults = []
    if len(wanted) != len(came):
        faults.append("%d calls are wanted, %d came" % (len(wanted), len(came)))
    for want, have in zip(wanted, came):
        if want[0] != have[0]:
            faults.append("wanted %s, came %s" % (want[0], have[0]))
        for line in want[1]:
            if line not in have[1]:
                faults.append("%s: wanted %s, came %s" % (want[0], line, have[1]))
    return faults


def main():
    program = sys.argv[1]
    word = sys.argv[2] if len(sys.argv) > 2 else "trace"
    text = (Path(__file__).resolve().parent / "causes.txt").read_text()
    cases = cases_of(text)
    causes = failed = 0
    for name, parts in cases:
        with tempfile.TemporaryDirectory() as room:
            words = [program, word]
            for part in PARTS[:3]:
                path = Path(room) / part
                path.write_text("\n".join(parts[part]) + "\n")
                words += ["--" + part, str(path)]
            ran = subprocess.run(words, capture_output=True, text=True)
        wanted = calls_of(parts["wanted"])
        faults = faults_of(wanted, calls_of(ran.stdout.splitlines()))
        if ran.returncode:
            faults.append("it ended with %d: %s" % (ran.returncode, ran.stderr.strip()))
        causes += sum(len(it[1]) for it in wanted)
        for fault in faults:
            print("%s: %s" % (name, fault))
        failed += bool(faults)
    print("%d cases with %d causes, %d differ" % (len(cases), causes, failed))
    sys.exit(1 if failed or not causes else 0)


if __name__ == "__main__":
    main()
