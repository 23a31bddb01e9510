#!/usr/bin/env python3
"""Fills the blocks of the pages with the files that they show, so that no page shows what isn't there any more.

fill_pages.py [check]: with `check` it writes nothing, and fails where a block isn't what its file is. A comment stands over
each block that is filled:

    <!-- shows FILE.. -->                      the files, with an empty line between them
    <!-- shows FILE from "A" to "B" -->        of a file, the first line that begins with A and those behind it, up to the
                                               first that begins with B
    <!-- runs FOLDER -->                       the script of the folder, and beside it the report
"""

import re
import shlex
import sys
from itertools import zip_longest
from pathlib import Path

ROOT = Path(__file__).resolve().parent.parent
PAGES = ("README.md", "docs/*.md", "docs/inside/*.md", "crates/*/*.md")
MARK = re.compile(r"<!-- (shows|runs) (.+) -->")
FENCE = "```"
GAP = 3


def lines_of(name):
    return (ROOT / name).read_text().rstrip("\n").split("\n")


def slice_of(name, first, behind):
    lines = lines_of(name)
    start = next(at for at, line in enumerate(lines) if line.startswith(first))
    end = next(at for at in range(start + 1, len(lines)) if lines[at].startswith(behind))
    return lines[start:end]


def shown(words):
    if words[1:2] == ["from"]:
        return slice_of(words[0], words[2], words[4])
    lines = []
    for name in words:
        lines += [""] * bool(lines) + lines_of(name)
    return lines


def answers(script, report):
    """The lines of the report for each line of the script: one for a call; for a table its head and its rows."""
    report = iter(report)
    for line in script:
        if line.startswith("CALL "):
            yield [next(report)]
        elif line.startswith("TABLE "):
            head = next(report)
            yield [head] + [next(report) for _ in range(int(head.split(" ")[-1]))]
        else:
            yield []


def run(folder):
    script, report = lines_of(f"{folder}/script.txt"), lines_of(f"{folder}/report.txt")
    width = max(len(line) for line in script) + GAP
    lines = []
    for line, answered in zip(script, answers(script, report)):
        for left, right in zip_longest([line], answered, fillvalue=""):
            lines.append(f"{left:{width}}{right}".rstrip())
    return lines


def filled(page):
    """The lines of a page, with its blocks filled."""
    lines = iter(page.split("\n"))
    for line in lines:
        yield line
        mark = MARK.fullmatch(line)
        if mark:
            kind, words = mark[1], shlex.split(mark[2])
            yield next(lines)
            yield from (shown(words) if kind == "shows" else run(words[0]))
            yield next(line for line in lines if line == FENCE)


def main():
    stale = []
    for path in sorted(path for pattern in PAGES for path in ROOT.glob(pattern)):
        page = path.read_text()
        made = "\n".join(filled(page))
        if made != page:
            stale.append(str(path.relative_to(ROOT)))
            if sys.argv[1:] != ["check"]:
                path.write_text(made)
    if stale and sys.argv[1:] == ["check"]:
        sys.exit("tools/fill_pages.py has to fill these pages again: " + " ".join(stale))


if __name__ == "__main__":
    main()
