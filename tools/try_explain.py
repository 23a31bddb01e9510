#!/usr/bin/env python3
"""Tries `explain` for each name that it lists, in small letters: it has to print what docs/STATUSES.md has below the name.

try_explain.py PROGRAM: the status is 0 if every name comes to that, and a name that isn't there is refused with the nearest.
"""

import subprocess
import sys

from make_statuses import entries, status_names


def explain(program, *words):
    done = subprocess.run([program, "explain", *words], capture_output=True, text=True)
    return done.returncode, done.stdout, done.stderr


def main():
    program = sys.argv[1]
    wanted, statuses = entries(), status_names()
    listed = [f"{name} {statuses[name]}" if name in statuses else name for name in wanted]
    tries = {(): (0, "\n".join(listed) + "\n", "")}
    for name, text in wanted.items():
        tries[(name.lower(),)] = (0, text, "")
        if name in statuses:
            tries[(statuses[name].lower(),)] = (0, text, "")
    refused = "sqmod: unknowncolum is no status, refusal or fault; the nearest are:\n  UnknownColumn\n"
    tries[("unknowncolum",)] = (2, "", refused)
    wrong = [words for words, answer in tries.items() if explain(program, *words) != answer]
    for words in wrong:
        print("explain", *words, "prints something else")
    print(f"{len(tries)} calls of explain, {len(wrong)} differ")
    sys.exit(1 if wrong else 0)


if __name__ == "__main__":
    main()
