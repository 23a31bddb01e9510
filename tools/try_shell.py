#!/usr/bin/env python3
"""Tries `sqmod shell`: by pipes, by a pseudo-terminal, on the scripts of the examples, and with an output that takes nothing.

try_shell.py PROGRAM: the status is 0 if all come to what is wanted. Below tools/shells a file NAME.case has what is typed, what is wanted on
standard output and on standard error, and the status. A file NAME.screen has a whole screen: in a line that begins with a prompt, what stands
behind the prompt is typed; `^D` is the end of what is typed.
"""

import os
import pty
import select
import subprocess
import sys
import termios
from pathlib import Path

ROOT = Path(__file__).resolve().parent.parent
CASES = ROOT / "tools/shells"
PROMPTS = ("sqmod> ", "  ...> ")
TEXTS = ["--schema", "schema.sql", "--module", "module.sql"]


def shell(program, words, typed, folder):
    done = subprocess.run([program, "shell", *words], input=typed, capture_output=True, cwd=folder, timeout=60)
    return done.stdout, done.stderr, done.returncode


def parts(text):
    """The parts of a case: typed, output, errors, and the status."""
    found, name = {"typed": b"", "output": b"", "errors": b""}, None
    for line in text.splitlines(keepends=True):
        word = line.strip().decode("utf-8", "replace")
        if word in found and line == word.encode() + b"\n":
            name = word
        elif line.startswith(b"status "):
            found["status"] = int(line.split()[1])
        else:
            found[name] += line
    return found


def try_case(program, path):
    wanted = parts(path.read_bytes())
    answer = shell(program, TEXTS, wanted["typed"], CASES)
    return [] if answer == (wanted["output"], wanted["errors"], wanted["status"]) else [f"{path.name}: {answer}"]


def typed_on(screen):
    """What is typed, line by line: each behind its prompt."""
    for line in screen.splitlines():
        for prompt in PROMPTS:
            if line.startswith(prompt):
                yield prompt, line[len(prompt):]


def read_until(master, shown, end):
    """Reads what the terminal shows until more came and it ends so, or until nothing more comes."""
    before = len(shown)
    while len(shown) == before or not shown.endswith(end):
        ready, _, _ = select.select([master], [], [], 20)
        if not ready:
            break
        try:
            got = os.read(master, 4096)
        except OSError:
            break
        if not got:
            break
        shown += got
    return shown


def try_screen(program, path):
    screen = path.read_text()
    master, slave = pty.openpty()
    modes = termios.tcgetattr(slave)
    modes[3] |= termios.ECHO | termios.ICANON
    modes[3] &= ~getattr(termios, "ECHOCTL", 0)
    termios.tcsetattr(slave, termios.TCSANOW, modes)
    run = subprocess.Popen([program, "shell", *TEXTS], stdin=slave, stdout=slave, stderr=slave, cwd=CASES)
    os.close(slave)
    shown = b""
    for prompt, typed in typed_on(screen):
        shown = read_until(master, shown, prompt.encode())
        os.write(master, b"\x04" if typed == "^D" else typed.encode() + b"\n")
        if typed == "^D":
            shown += b"^D"
    shown = read_until(master, shown, b"\0")
    status = run.wait(timeout=60)
    os.close(master)
    text = shown.decode("utf-8", "replace").replace("\r\n", "\n")
    return [] if (text, status) == (screen, 0) else [f"{path.name}: status {status}, {text!r}"]


def example_words(folder):
    files = sorted(it.name for it in folder.iterdir() if it.suffix.lower() == ".sql")
    schemas = [it for it in files if it.lower().startswith("schema")]
    rows = folder / "rows.txt"
    words = [word for it in files for word in (["--schema", it] if it in schemas else ["--module", it])]
    return words + (["--rows", rows.read_text().strip()] if rows.exists() else [])


def try_example(program, folder):
    """A script that is typed reports what `run` reports of it."""
    wanted = (folder / "report.txt").read_bytes(), b"", 0
    answer = shell(program, example_words(folder), (folder / "script.txt").read_bytes(), folder)
    return [] if answer == wanted else [f"{folder.relative_to(ROOT)}: {answer}"]


def try_traced(program, folder):
    """With `.trace on` before it, it writes what `trace` writes of it."""
    words, script = example_words(folder), folder / "script.txt"
    traced = subprocess.run([program, "trace", *words, "--script", script.name], capture_output=True, cwd=folder, timeout=60)
    answer = shell(program, words, b".trace on\n" + script.read_bytes(), folder)
    wanted = traced.stdout, b"", 0
    return [] if answer == wanted else [f"{folder.relative_to(ROOT)}, traced: {answer}"]


def try_ends(program):
    """What ends a shell before its first prompt, and an output that takes nothing."""
    none = shell(program, ["--schema", "none.sql"], b"", CASES)
    refused = shell(program, ["--schema", "schema.sql", "--module", "refused.sql"], b"", CASES)
    wrong = []
    if none != (b"", b"sqmod: none.sql: cannot be read\n", 1):
        wrong.append(f"an unread file: {none}")
    if refused != (b"", b"sqmod: refused.sql:2:24: Unexpected\n", 2):
        wrong.append(f"a refused module: {refused}")
    with open("/dev/full", "wb") as full:
        done = subprocess.run(
            [program, "shell", *TEXTS], input=b"TABLE ANN.BOOK;\nTABLE ANN.LOAN;\n", stdout=full, stderr=subprocess.PIPE, cwd=CASES
        )
    if (done.stderr, done.returncode) != (b"sqmod: output fault\n", 1):
        wrong.append(f"an output that takes nothing: {done}")
    return wrong


def main():
    program = str(Path(sys.argv[1]).resolve())
    cases, screens = sorted(CASES.glob("*.case")), sorted(CASES.glob("*.screen"))
    examples = sorted(it.parent for it in (ROOT / "examples").rglob("report.txt") if (it.parent / "script.txt").exists())
    wrong = [it for path in cases for it in try_case(program, path)]
    wrong += [it for path in screens for it in try_screen(program, path)]
    wrong += [it for folder in examples for it in try_example(program, folder) + try_traced(program, folder)]
    wrong += try_ends(program)
    print("\n".join(wrong), end="\n" if wrong else "")
    print(f"{len(cases)} shells by pipes, {len(screens)} at a terminal, {len(examples)} examples, 3 ends: {len(wrong)} differ")
    sys.exit(1 if wrong else 0)


if __name__ == "__main__":
    main()
