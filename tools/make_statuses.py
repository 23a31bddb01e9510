#!/usr/bin/env python3
"""Makes docs/STATUSES.md, and the texts of `sqmod explain`, of crates/sq_cases/data/runs-statuses.txt, whose runs the gate makes.

make_statuses.py [check]: with `check` it writes nothing, and fails where the page or the texts aren't those of the data.

Texts stand on the page whole. One of many lines that differ in a number alone stands there as a command that prints it.
"""
import re
import sys
from pathlib import Path

ROOT = Path(__file__).resolve().parent.parent
PARTS = {
    "Status": "## Statuses\n\nSQLSTATE (ISO/IEC 9075:1992, 22.1) and SQLCODE of a call. `S1L00` and the codes below zero are own choices.",
    "Text": "## Refusals of any text\n\nFor its tokens or its grammar. Exit status 2; nothing is written. `./sqmod check` says what may stand there, and goes on.",
    "Schema": "## Refusals of schemas\n\nOf several in one element, the first of this list is answered.",
    "Module": "## Refusals of modules\n\nIf a module has several, `TwoModules` is reported first, then the others in the order below.",
    "Script": "## Refusals of scripts",
    "Fault": "## Statements that are not well formed\n\nEach call of the procedure answers 42000. `./sqmod check` prints the name of the fault, and behind it that of the table,\ncolumn, parameter or cursor that it is about, if it is about one; and below it the line of the text, a caret and the nearest name.",
}
# What a text is of: a name may be both a refusal and a fault of a statement.
OF = {"Schema": " of a schema", "Module": " of a module", "Script": " of a script", "Fault": " of a statement"}
MOST_LINES = 30


def shown(lines):
    """A text's lines; or the command that prints a long text, whose lines count from 0 behind the first."""
    if len(lines) <= MOST_LINES:
        return lines
    first, *others = lines
    pattern = re.sub("0", "%d", others[0], count=1)
    if others != [pattern % number for number in range(len(others))]:
        sys.exit("no command prints the text that begins with " + first)
    return ["-- printed by this command:", f"printf '%s\\n' '{first}'; seq -f '{pattern.replace('%d', '%.0f')}' 0 {len(others) - 1}"]


def texts(lines):
    """The parts of a run: what each is, and its lines."""
    parts = []
    for line in lines:
        if line.startswith("|"):
            parts[-1][1].append(line[1:])
        elif line:
            parts.append((line, []))
    return [(part, lines) for part, lines in parts if lines or part.startswith(("refused", "rows"))]


def texts_block(parts):
    """The texts of a run in one block, each behind a comment that says what it is."""
    lines = []
    for part, written in parts:
        if part.startswith("rows"):
            lines.append(f"-- run with --{part}")
        else:
            lines += [f"-- {part}", *shown(written)]
    return ["```", *lines, "```", ""]


def answer_block(part, lines):
    """What the program prints."""
    if part.startswith("refused"):
        kind, _, place, name = part.split()[1:]
        return ["On standard error, with the file's name:", "", "```", f"sqmod: {kind}:{place}: {name}", "```", ""]
    return ["```", *lines, "```", ""]


def status_names():
    """The name of each SQLSTATE."""
    code = (ROOT / "crates/sq_meaning/src/status.rt").read_text()
    return {state: name for name, state in re.findall(r'Status::(\w+) => \*b"(\w{5})",', code)}


def runs():
    """Each run of the data: its kind, its name, what it says, its texts and its answer."""
    data = (ROOT / "crates/sq_cases/data/runs-statuses.txt").read_text()
    for run in data.split("\nrun ")[1:]:
        heading, *lines = run.split("\n")
        kind, rest = heading.split(" ", 1)
        name, says = rest.split(": ", 1)
        *parts, answer = texts(lines)
        yield kind, name, says[0].upper() + says[1:] + ".", texts_block(parts) + answer_block(*answer)


def page():
    """The page docs/STATUSES.md."""
    statuses = status_names()
    lines = ["# Statuses, refusals and faults", "",
             "Each with a small text that shows it, and what the program prints. `./sqmod explain NAME` prints what stands here",
             "below a name, and `./sqmod explain` lists the names.",
             "This page and the texts of the program are made of `crates/sq_cases/data/runs-statuses.txt` by",
             "`tools/make_statuses.py`; the gate runs each of these texts and compares.", ""]
    seen = None
    for kind, name, says, blocks in runs():
        if kind != seen:
            lines += [PARTS[kind], ""]
            seen = kind
        status = f" {statuses[name]}" if kind == "Status" else ""
        lines += [f"### `{name}`{OF.get(kind, status)}", "", says, "", *blocks]
    return "\n".join(lines).rstrip() + "\n"


def entries():
    """For each name, in the order of the page, what `sqmod explain` prints: the paragraphs and blocks below it."""
    found = {}
    for kind, name, says, blocks in runs():
        what = f"{name}{OF.get(kind, '')}: {says}"
        lines = ["  " + line if line and not line.startswith("On standard error") else line for line in blocks if line != "```"]
        found.setdefault(name, []).append("\n".join([what, "", *lines]).rstrip() + "\n")
    return {name: "\n".join(parts) for name, parts in found.items()}


def quoted(text):
    """A text as a literal that spans lines."""
    return '"' + text.replace("\\", "\\\\").replace('"', '\\"') + '"'


def word_of(name):
    """A name as a word of a function's name."""
    return re.sub(r"(?<=[a-z0-9])(?=[A-Z])", "_", name).lower()


def code():
    """The source of the table of `sqmod explain`. Each text has a function of its own, so that no proof has to carry them all."""
    statuses = status_names()
    found = entries()
    lines = ["//! What `explain` says, made by tools/make_statuses.py of crates/sq_cases/data/runs-statuses.txt.", "",
             "use crate::explain::Entry;", "",
             "/// The statuses, refusals and faults, in the order of docs/STATUSES.md.",
             f"pub(crate) static ENTRIES: [Entry; {len(found)}] = ["]
    for number, name in enumerate(found):
        status = f'Some("{statuses[name]}")' if name in statuses else "None"
        lines += ["    Entry {", f'        name: "{name}",', f"        status: {status},", f"        text: {number},", "    },"]
    lines += ["];", "", "/// The text with a number; none has a higher one than the table.", "pub fn text_of(number: usize) -> &'static str {",
              "    match number {"]
    lines += [f"        {number} => text_of_{word_of(name)}()," for number, name in enumerate(found)]
    lines += ['        _ => "",', "    }", "}"]
    for name, text in found.items():
        lines += ["", f"fn text_of_{word_of(name)}() -> &'static str {{", f"    {quoted(text)}", "}"]
    return "\n".join([*lines, ""])


def main():
    for name, text in (("docs/STATUSES.md", page()), ("crates/sq_explain/src/entries.rt", code())):
        made = ROOT / name
        if sys.argv[1:] != ["check"]:
            made.write_text(text)
        elif made.read_text() != text:
            sys.exit(f"{name} is not made of crates/sq_cases/data/runs-statuses.txt: run tools/make_statuses.py")


if __name__ == "__main__":
    main()
