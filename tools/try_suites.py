#!/usr/bin/env python3
"""Tries `sqmod test` on the suites of tools/suites, and `--version` and `help`.

try_suites.py PROGRAM [--show]: each command of tools/suites/answers.txt is run in a copy of that folder, and the status is 0 if what
comes is what stands there: standard output, standard error behind `2> `, and the status. JUnit's files must also be XML with the names
that `--list` prints, and the version must be that of the file VERSION, of no commit, proved with the kit at hand. With `--show`, what comes is printed and nothing is compared.
"""

import difflib
import re
import shlex
import shutil
import subprocess
import sys
import tempfile
from pathlib import Path
from xml.etree import ElementTree

from edits import logic

ROOT = Path(__file__).resolve().parent.parent
SUITES = ROOT / "tools/suites"
ANSWERS = SUITES / "answers.txt"


def answer(program, words, room):
    """What a command prints, and its status, as lines. Help calls the program by the name of its file, which may be another."""
    if words[0] == "cat":
        return "".join((room / name).read_text(encoding="latin-1") for name in words[1:])
    done = subprocess.run([program, *words[1:]], cwd=room, stdin=subprocess.DEVNULL, capture_output=True, timeout=60)
    errors = done.stderr.decode("latin-1").splitlines(keepends=True)
    text = done.stdout.decode("latin-1") + "".join("2> " + line for line in errors) + f"=> {done.returncode}\n"
    return re.sub(r"Usage: \S+", "Usage: sqmod", text)


def transcript(program, commands):
    """Each command, below it its answer."""
    with tempfile.TemporaryDirectory() as top:
        room = Path(top) / "suites"
        shutil.copytree(SUITES, room)
        return "".join(command + answer(program, shlex.split(command[2:]), room) for command in commands)


def names_in_junit(program, folder):
    """The names of the cases in JUnit's file."""
    words = [program, "test", folder, "--junit", "-"]
    cases = ElementTree.fromstring(subprocess.run(words, cwd=SUITES, capture_output=True).stdout).findall("testsuite/testcase")
    return [case.get("name") for case in cases]


def names_listed(program, folder):
    return subprocess.run([program, "test", folder, "--list"], cwd=SUITES, capture_output=True, text=True).stdout.splitlines()


def main():
    program = str(Path(sys.argv[1]).resolve())
    wanted = ANSWERS.read_text(encoding="latin-1")
    found = transcript(program, [line for line in wanted.splitlines(keepends=True) if line.startswith("$ ")])
    if "--show" in sys.argv[2:]:
        sys.stdout.write(found)
        return
    lines = (text.splitlines(keepends=True) for text in (wanted, found))
    sys.stdout.writelines(difflib.unified_diff(*lines, "wanted", "found"))
    is_right = found == wanted
    for folder in ("good", "bad"):
        names = names_in_junit(program, folder)
        is_right &= bool(names) and names == names_listed(program, folder)
    version = subprocess.run([program, "--version"], capture_output=True, text=True).stdout
    is_right &= version == f"sqmod {(ROOT / 'VERSION').read_text().strip()} (commit {'0' * 40}, proved with {logic()})\n"
    print("the suites answer", "as they should" if is_right else "otherwise")
    sys.exit(0 if is_right else 1)


if __name__ == "__main__":
    main()
