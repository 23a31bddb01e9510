#!/usr/bin/env python3
"""Tries `check` on texts with their wanted lines, and on the texts of every run of crates/sq_cases/data.

try_check.py PROGRAM: the status is 0 if each of tools/checks.txt comes to its lines, which show each fault of a name with one; each of
tools/words.txt to its lines and words, which show each warning; each of tools/ways.txt to the lines that `--ways` adds; each text of tools/hints.txt to its hint, and each hint of the program has a text there; and of
each run: the schemas and modules are refused as the run says; or each procedure that
a call of the run answers with 42000 has a fault, by the name that the run gives it, no procedure that answers otherwise has one,
behind the faults of a name stands one that the texts have, and the exit status says whether there is a fault; and the same is said of these
texts where each has one element more, with an error.
Of each of all these texts `--quiet` prints the lines of refusals and faults alone, and `--json` an object for each line.
"""

import json
import re
import subprocess
import sys
import tempfile
from pathlib import Path

from print_runs import runs_of
from run_program import written
from try_rows import TEXTS

ROOT = Path(__file__).resolve().parent.parent
DATA = ROOT / "crates/sq_cases/data"
CALL = re.compile(r"(\w+\.\w+) (\w{5}) -?\d+")
LINE = re.compile(r"\w+:\d+:\d+: (\w+\.\w+): (?:updatable|not updatable: .*|([A-Z]\w*)(?: (\w+))?)")
# The faults of a table, a column, a parameter or a cursor, whose name `check` prints behind them.
OF_A_NAME = {
    "UnknownTable", "UnknownColumn", "AmbiguousName", "UnknownParameter", "BadIndicator", "TargetTwice", "NotUpdatable", "ColumnTwice",
    "UnknownCursor",
}


def said(program, words, room):
    done = subprocess.run([program, "check", *words], cwd=room, capture_output=True, timeout=120)
    return done.stdout.decode("latin-1"), done.stderr.decode("latin-1"), done.returncode


def plain(text):
    """The lines of a text that are no words beside one."""
    return [line for line in text.splitlines() if not line.startswith("  ")]


def are_same(words, quiet, objects):
    """Whether the three forms say the same: with words, with `--quiet` and with `--json`."""
    out, err = plain(words[0]), plain(words[1])
    grave = [line for line in out + err if not re.search(r": (warning: .*|updatable|not updatable: .*)$", line)]
    read = [json.loads(line) for line in objects[0].splitlines()]
    weights = [it["weight"] for it in read]
    return (
        quiet[0].splitlines() + quiet[1].splitlines() == grave
        and (is_said(read, out + err) or is_said(read, err + out))
        and sum(weight in ("refusal", "fault") for weight in weights) == len(grave)
        and words[2] == quiet[2] == objects[2]
    )


def is_said(read, lines):
    """Whether objects say what lines say, in their order."""
    return len(read) == len(lines) and all(
        f"{it['file']}:{it['line']}:{it['column']}: " in line and line.endswith(it["says"]) for it, line in zip(read, lines)
    )


def checked(program, words, room):
    """What `check` answers, without words and warnings; of a refused text its first line."""
    found = said(program, words, room)
    if not are_same(found, said(program, [*words, "--quiet"], room), said(program, [*words, "--json"], room)):
        return "the forms differ", "", 0
    out = plain_lines(found[0])
    return "".join(line + "\n" for line in out), "".join(line + "\n" for line in plain(found[1])[:1]), found[2]


def words_of(run, room):
    """The words of `check` for the schemas and modules of a run."""
    words = written(run, room)[1:]
    return words[: words.index("--script")]


def plain_lines(text):
    """The lines of a text that are neither words nor warnings."""
    return [line for line in plain(text) if ": warning: " not in line]


def own_cases(path):
    """The cases of tools/checks.txt or tools/words.txt: a run of each, and the wanted lines."""
    text = path.read_text()
    wanted = [re.findall(r"^\|(.*)$", case.split("\nreport\n")[1], re.M) for case in text.split("\nrun ")[1:]]
    return list(zip(runs_of(path), wanted))


def says(program, run, lines):
    """Whether a case of tools/words.txt comes to its lines and words, of standard error and then of standard output."""
    with tempfile.TemporaryDirectory() as room:
        words = written(run, room)[1:-2]
        found = said(program, words if run.script else words[:-2], room)
        forms = are_same(found, *(said(program, [*(words if run.script else words[:-2]), form], room) for form in ("--quiet", "--json")))
    return forms and (found[1] + found[0]).splitlines() == lines


def finds(program, run, lines):
    """Whether `--ways` adds the lines of a case of tools/ways.txt to what `check` prints, in each form, and none to what `--quiet` leaves."""
    with tempfile.TemporaryDirectory() as room:
        words = words_of(run, room)
        few = said(program, [*words, "--quiet"], room)
        before, found = said(program, words, room), said(program, [*words, "--ways"], room)
        quiet, objects = (said(program, [*words, "--ways", form], room) for form in ("--quiet", "--json"))
    added = [line for line in plain(found[0]) if line not in plain(before[0])]
    told = [it for it in map(json.loads, objects[0].splitlines()) if it["weight"] == "remark"]
    return (
        (added, quiet, found[1:]) == (lines, few, before[1:])
        and [f"{it['file']}:{it['line']}:{it['column']}: {it['part']}: {it['says']}" for it in told if f"{it['part']}: {it['says']}" in "\n".join(lines)] == lines
    )


def hints():
    """The heading, the text and the wanted words of each text of tools/hints.txt."""
    for case in (ROOT / "tools/hints.txt").read_text().split("\n\n")[1:]:
        first, *words = case.strip("\n").split("\n")
        heading, text = first.split(": ", 1)
        yield heading, text, words


def is_hinted(program, heading, text, words):
    """Whether the first refusal of a text in its surroundings has these words."""
    texts = (text, "", "") if heading == "Schema texts" else TEXTS[heading](text)
    with tempfile.TemporaryDirectory() as room:
        given = []
        for kind, written_text in zip(("schema", "module", "script"), texts):
            if written_text:
                Path(room, kind).write_text(written_text)
                given += [f"--{kind}", kind]
        out, err, status = said(program, given, room)
    first = re.split(r"\n(?=sqmod: )", err)[0].splitlines()[3:]
    return all(map(LINE.fullmatch, plain_lines(out))) and status == 2 and [line for line in first if not line.startswith("  expected: ")] == words


def hints_of_program():
    """What each hint of the program says."""
    return set(re.findall(r'^        says: "(.*)",$', "".join(path.read_text() for path in (ROOT / "crates/sq_advice/src/hints").glob("*.rt")), re.M))


def are_warnings_shown(cases):
    """Whether each warning of the program stands in a wanted line, and in docs/LANGUAGE.md."""
    text = (ROOT / "crates/sqmod/src/remarks.rt").read_text()
    forms = re.findall(r'Doubt::\w+ => (?:\{\s*)?format!\(in alloc;\s*"([^"]+)"', text)
    lines = "\n".join(line for _, wanted in cases for line in wanted)
    page = (ROOT / "docs/LANGUAGE.md").read_text()
    return bool(forms) and all(
        re.search(": warning: " + form.replace("{}", r"\w+"), lines) and "warning: " + form.replace("{}", "NAME") in page for form in forms
    )


def faults_in(lines):
    """The procedure or cursor, the fault and the name behind it, or None, of each line that has a fault."""
    return [found.groups() for line in lines if (found := LINE.fullmatch(line)) and found[2]]


def names_behind(cases):
    """The faults that the wanted lines show with a name behind them."""
    return {fault for _, lines in cases for _, fault, name in faults_in(lines) if name}


def are_named(faults, run):
    """Whether a name that the texts have stands behind the faults of a name, and nothing behind the others."""
    words = {word.upper() for text in run.schemas + run.modules for word in re.findall(r"\w+", text)}
    return all(name in words if fault in OF_A_NAME else name is None for _, fault, name in faults)


def is_listed(program, run, lines):
    """Whether a case comes to its lines."""
    with tempfile.TemporaryDirectory() as room:
        found = checked(program, words_of(run, room), room)
    return found == ("".join(line + "\n" for line in lines), "", 4 if faults_in(lines) else 0)


def faults_by_call(path):
    """For each run of a file by its place, the name of the fault of its calls that the data gives, by the call's number."""
    named, place = {}, -1
    for line in path.read_text(encoding="latin-1").split("\n"):
        if line.startswith("run "):
            place += 1
        found = re.fullmatch(r"call (\d+) fault (\w+)", line)
        if found:
            named.setdefault(place, {})[int(found[1])] = found[2]
    return named


def calls_of(report):
    """The procedure and the status of each call of a report."""
    return [found.groups() for line in report.split("\n") if (found := CALL.match(line))]


def answers_as_run(found, run, named):
    """Whether what `check` answered is right by the run."""
    out, err, status = found
    if run.refused and run.refused[0] != "script":
        kind, number, place, fault = run.refused
        return (err, status) == (f"sqmod: {kind}{number}:{place}: {fault}\n", 2) and all(map(LINE.fullmatch, out.splitlines()))
    lines = out.splitlines()
    found = faults_in(lines)
    if err or not all(map(LINE.fullmatch, lines)) or status != (4 if found else 0) or not are_named(found, run):
        return False
    faults = {part: fault for part, fault, _ in found}
    calls = [] if run.refused else calls_of(run.report)
    names = {calls[number - 1][0]: name for number, name in named.items()}
    return all((name in faults) == (state == "42000") for name, state in calls) and all(faults.get(name) == fault for name, fault in names.items())


# Elements with an error, which stand at the end of a text or before its first element.
WRONG = {"--schema": " CREATE TABLE ZZ (ZZ DATE, ZY TIME)", "--module": " PROCEDURE ZZ (SQLCODE; COMMIT;"}


def with_errors(words, room):
    """The words of `check` for texts with one element more, which has an error."""
    given = []
    for option, name in zip(words[::2], words[1::2]):
        text = Path(room, name).read_bytes().rstrip()
        Path(room, "wrong_" + name).write_bytes(text.rstrip(b";" if option == "--schema" else b"") + b"\n" + WRONG[option].encode())
        given += [option, "wrong_" + name]
    return given


def passes_over(program, words, room, found):
    """Whether the same is said of texts with one element more, which has an error."""
    if not words or found[2] == 2:
        return True
    out, err, status = said(program, with_errors(words, room), room)
    return status == 2 and "".join(line + "\n" for line in plain_lines(out)).replace("wrong_", "") == found[0]


def tried(program):
    """The name of each run and each case, with whether it comes out."""
    cases = own_cases(ROOT / "tools/checks.txt")
    yield "names_behind", names_behind(cases) == OF_A_NAME
    for run, lines in cases:
        yield run.name, is_listed(program, run, lines)
    worded = own_cases(ROOT / "tools/words.txt")
    yield "warnings", are_warnings_shown(worded)
    for run, lines in worded:
        yield run.name, says(program, run, lines)
    for run, lines in own_cases(ROOT / "tools/ways.txt"):
        yield run.name, finds(program, run, lines)
    tried_hints = list(hints())
    yield "hints", {line.removeprefix("  hint: ") for _, _, words in tried_hints for line in words[-1:]} >= hints_of_program()
    for heading, text, words in tried_hints:
        yield f"`{text}`", is_hinted(program, heading, text, words)
    for path in sorted(DATA.glob("runs-*.txt")):
        named = faults_by_call(path)
        for place, run in enumerate(runs_of(path)):
            with tempfile.TemporaryDirectory() as room:
                found = checked(program, words_of(run, room), room)
                passes = passes_over(program, words_of(run, room), room, found)
            yield run.name, passes and answers_as_run(found, run, named.get(place, {}))


def main():
    program = str(Path(sys.argv[1]).resolve())
    answers = list(tried(program))
    wrong = [name for name, is_right in answers if not is_right]
    print(f"{len(answers)} checks of texts, {len(wrong)} differ")
    sys.exit("these differ: " + " ".join(wrong) if wrong else 0)


if __name__ == "__main__":
    main()
