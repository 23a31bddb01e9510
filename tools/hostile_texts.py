#!/usr/bin/env python3
"""Runs the built program on texts that are cut short at each byte, and on texts with each byte in turn made 0, then 255.

hostile_texts.py [PROGRAM]: without a word the program is the one that the gate leaves in crates/sqmod/out. The texts are those of
six runs of crates/sq_cases/data. `plain_reading.py` says of each text what its tokens and the grammar come to; what a text that is
cut and is still whole means is worked out here. So one answer is wanted of each run, to the byte: a report, with status 0 and
nothing on standard error; or with status 2 nothing on standard output, and one line that names a file, a place and a refusal.
"""

import os
import subprocess
import sys
import tempfile
from concurrent.futures import ProcessPoolExecutor
from functools import lru_cache, partial
from pathlib import Path
from typing import NamedTuple

from plain_reading import Reading, Refusal
from print_runs import runs_of
from refuse_allocations import items_of
from run_program import written

ROOT = Path(__file__).resolve().parent.parent
SECONDS = 20
SHARE = 400
SHOW_TABLES = "TABLE U1.T; TABLE U1.N; TABLE U1.F;"
# Runs, and the files among their texts that are cut and spoilt.
TRIED = (
    ("insert_and_fetch", ("schema1", "module1", "script1")),
    ("references", ("module1", "script1")),
    ("privileges_on_positioned_changes", ("module2", "script1")),
    ("scrolling_cursor", ("module3", "script1")),
    ("varying_texts", ("schema2", "module3", "script1")),
)


class Texts(NamedTuple):
    """The words of a run, its texts by the names of their files, in the order in which they are read, and its report."""

    words: list
    texts: dict
    report: str


class Trial(NamedTuple):
    """A text in the place of one of a run's, which are counted from 0."""

    run: int
    file: str
    text: bytes


def texts_of(run):
    with tempfile.TemporaryDirectory() as room:
        words = written(run, room)
        return Texts(words, {name: Path(room, name).read_bytes() for name in words if Path(room, name).is_file()}, run.report)


def tables_alone(run):
    """The run of a schema without modules, whose script shows the three tables of the kit."""
    run.modules, run.script, run.report = [], SHOW_TABLES, "".join(f"TABLE U1.{name} 0\n" for name in "TNF")
    return texts_of(run)


@lru_cache(maxsize=None)
def runs():
    """The runs, each with the files that are tried of it."""
    worked = {run.name: run for run in runs_of(ROOT / "crates/sq_cases/data/runs-worked.txt")}
    found = [(texts_of(worked[name]), files) for name, files in TRIED]
    return [*found, (tables_alone(worked["taken_whole"]), ("schema1",))]


def refused(file, text, refusal):
    line = text.count(b"\n", 0, refusal.at) + 1
    column = refusal.at - (text.rfind(b"\n", 0, refusal.at) + 1) + 1
    return "", f"sqmod: {file}:{line}:{column}: {refusal.name}\n", 2


def spelled(tokens):
    return [token.spelled for token in tokens]


def check_opened(tokens):
    """Refuses a module with a cursor that not exactly one of its procedures opens."""
    words = spelled(tokens)
    opened = [words[at + 1] for at, word in enumerate(words) if word == "OPEN"]
    for at, word in enumerate(words):
        if word == "DECLARE" and opened.count(words[at + 1]) != 1:
            raise Refusal("OpenCount", tokens[at].at)


def check_items(tokens, known):
    """How many items a script has; refuses the first that names what isn't there."""
    words = spelled(tokens)
    starts = [at for at in range(len(words)) if at == 0 or words[at - 1] == ";"]
    for at in starts:
        if (words[at], words[at + 1], words[at + 3]) not in known:
            raise Refusal("UnknownProcedure" if words[at] == "CALL" else "UnknownTable", tokens[at].at)
    return len(starts)


@lru_cache(maxsize=None)
def reading(run, file):
    """How texts in the place of one of a run's are read; that one is read first."""
    made = Reading(kind_of(file))
    made.tokens_of(runs()[run][0].texts[file])
    return made


def kind_of(file):
    return file.rstrip("0123456789")


@lru_cache(maxsize=8)
def declared(run, file, text):
    """The base tables of a schema with their owner, or the procedures of a module with its name, as a script names them."""
    tokens = reading(run, file).tokens_of(text)
    words = spelled(tokens)
    if kind_of(file) == "schema":
        return {("TABLE", words[3], words[at + 1]) for at, word in enumerate(words) if words[at - 1 : at + 1] == ["CREATE", "TABLE"]}
    check_opened(tokens)
    return {("CALL", words[1], words[at + 1]) for at, word in enumerate(words) if word == "PROCEDURE"}


def wanted_of(trial):
    """What has to come of a run with a text in the place of one of its own: standard output, standard error, status."""
    run, known = runs()[trial.run][0], set()
    for file, text in {**run.texts, trial.file: trial.text}.items():
        try:
            if kind_of(file) == "script":
                count = check_items(reading(trial.run, file).tokens_of(text), known)
                return "".join(items_of(run.report)[:count]), "", 0
            known |= declared(trial.run, file, text)
        except Refusal as refusal:
            return refused(file, text, refusal)
    raise AssertionError("a run has a script")


def cut(text):
    """The text cut at each byte."""
    return (text[:length] for length in range(len(text) + 1))


def spoilt(text):
    """The text with each byte made 0, then 255."""
    return (text[:at] + bytes([byte]) + text[at + 1 :] for byte in (0, 255) for at in range(len(text)))


def trials(made):
    """Each text that `made` gives of those that are tried."""
    return [Trial(number, file, text) for number, (run, files) in enumerate(runs()) for file in files for text in made(run.texts[file])]


def outcome(program, run, room, trial):
    Path(room, trial.file).write_bytes(trial.text)
    done = subprocess.run([program, *run.words], cwd=room, stdin=subprocess.DEVNULL, capture_output=True, timeout=SECONDS)
    Path(room, trial.file).write_bytes(run.texts[trial.file])
    return done.stdout.decode("latin-1"), done.stderr.decode("latin-1"), done.returncode


def differences(program, share):
    """How many texts of a share are taken, and what to say of those whose run comes to something else than is wanted."""
    taken, says = 0, []
    with tempfile.TemporaryDirectory() as room:
        for number, (run, _) in enumerate(runs()):
            folder = Path(room, str(number))
            folder.mkdir()
            for name, text in run.texts.items():
                (folder / name).write_bytes(text)
        for trial in share:
            wanted, came = wanted_of(trial), outcome(program, runs()[trial.run][0], Path(room, str(trial.run)), trial)
            taken += wanted[2] == 0
            if came != wanted:
                says.append(f"{trial.file} {trial.text!r}\n  wanted {wanted}\n  came   {came}")
    return taken, says


def try_all(program, pool, name, made):
    """Tries all texts that `made` gives, and gives how many differ."""
    tried = trials(made)
    parts = list(pool.map(partial(differences, program), [tried[at : at + SHARE] for at in range(0, len(tried), SHARE)]))
    taken, says = sum(taken for taken, _ in parts), [line for _, says in parts for line in says]
    print(f"{name}: {len(tried)} runs, {taken} of them taken, {len(tried) - taken} refused; {len(says)} differ", *says[:5], sep="\n")
    return len(says)


def main():
    program = str(Path(sys.argv[1] if len(sys.argv) > 1 else ROOT / "crates/sqmod/out/sqmod").resolve())
    with ProcessPoolExecutor(len(os.sched_getaffinity(0))) as pool:
        count = try_all(program, pool, "Texts cut at each byte", cut) + try_all(program, pool, "Texts with a byte made 0 or 255", spoilt)
    sys.exit(1 if count else 0)


if __name__ == "__main__":
    main()
