#!/usr/bin/env python3
"""Compiles sqmod without proof, with run-time checks, and keeps the program.

build_checked.py FOLDER: leaves the program as FOLDER/sqmod, and FOLDER/start, which runs it with the words that it is given. Any
user may run them. A dot on standard error each ten seconds shows that it compiles.

`rt try` compiles a program, runs it and keeps nothing of it. Here it runs `sqmod` on a script that is a named pipe. The program
waits for what comes through the pipe, and meanwhile its file is copied.
"""

import os
import shlex
import shutil
import subprocess
import sys
import tempfile
import time
from pathlib import Path

ROOT = Path(__file__).resolve().parent.parent
STEP = 0.05
SECONDS = 10


def reader_of(pipe):
    """The process, but for this one, that has a pipe open; none if there is none yet."""
    for process in Path("/proc").glob("[0-9]*"):
        try:
            if process.name != str(os.getpid()) and str(pipe) in map(os.readlink, process.glob("fd/*")):
                return process
        except OSError:
            continue
    return None


def opened(pipe):
    """The pipe, opened to be written; none while nothing reads it."""
    try:
        return os.open(pipe, os.O_WRONLY | os.O_NONBLOCK)
    except OSError:
        return None


def keep(words, folder):
    """Copies a program and writes its starter. The words run it: those of its loader, and its file last."""
    *loader, program = words
    shutil.copyfile(program, folder / "sqmod")
    (folder / "sqmod").chmod(0o755)
    start = folder / "start"
    start.write_text(f'#!/bin/sh\nexec {shlex.join(loader)} "${{0%/*}}/sqmod" "$@"\n')
    start.chmod(0o755)


def build(folder):
    """Whether the program was compiled and kept; else what `rt try` said is in the folder's log."""
    with tempfile.TemporaryDirectory() as room, open(folder / "log", "w") as log:
        pipe = Path(room).resolve() / "script"
        os.mkfifo(pipe)
        request = ["run", "--script", str(pipe)]
        tool = subprocess.Popen(
            ["rt", "try", "--steps", "1", "--", *request], cwd=ROOT / "crates/sqmod",
            stdin=subprocess.DEVNULL, stdout=log, stderr=log,
        )
        script, dots, begun = None, 0, time.monotonic()
        while tool.poll() is None:
            if dots < int((time.monotonic() - begun) / SECONDS):
                dots += 1
                print(".", end="", file=sys.stderr, flush=True)
            script = script or opened(pipe)
            process = reader_of(pipe) if script else None
            if process:
                words = (process / "cmdline").read_text().split("\0")[:-1]
                keep(words[: -len(request)], folder)
                os.close(script)
                tool.wait()
                return True
            time.sleep(STEP)
    return False


def main():
    if shutil.which("rt") is None:
        sys.exit("sqmod: there is no command rt on the path; it belongs to the Rattle kit")
    folder = Path(sys.argv[1])
    folder.mkdir(parents=True, exist_ok=True)
    try:
        is_built = build(folder)
    except KeyboardInterrupt:
        sys.exit("sqmod: interrupted")
    if not is_built:
        sys.exit("sqmod: rt try compiled no program; it said:\n" + (folder / "log").read_text())


if __name__ == "__main__":
    main()
