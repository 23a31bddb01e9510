#!/usr/bin/env python3
"""Makes the man page docs/sqmod.1 of what `./sqmod help` prints.

make_man.py [check]: with `check` it writes nothing, and fails where the page isn't what the help says. In the help a line that
begins at the margin, after the usage, heads a section; below it stand terms, each with two blanks or more before what it means,
and paragraphs. What the help says of a checkout's own commands is left out: the page is installed with a program that has none of
them.
"""

import re
import subprocess
import sys
from pathlib import Path

ROOT = Path(__file__).resolve().parent.parent
PAGE = ROOT / "docs/sqmod.1"
CHECKOUT = "\n\nIn a checkout of the sources "
TERM = re.compile(r"( +)(-?-?\S+(?: [A-Z])?)  +(\S.*)")


def escaped(text):
    text = text.replace("\\", "\\e").replace("-", "\\-")
    return "\\&" + text if text.startswith((".", "'")) else text


def synopsis(lines):
    for number, line in enumerate(lines):
        if number:
            yield ".br"
        name, _, rest = line.removeprefix("Usage:").strip().partition(" ")
        yield f".B {escaped(name)}"
        yield escaped(rest)


def body(lines):
    """The roff lines of sections, terms and paragraphs. A line that is indented like a term's goes on with it."""
    is_open = False
    for line in lines:
        term = TERM.fullmatch(line)
        if not line:
            is_open = False
        elif not line.startswith(" "):
            yield f".SS {escaped(line)}"
            is_open = False
        elif term:
            yield ".TP"
            yield f".B {escaped(term[2])}"
            yield escaped(term[3])
            is_open = True
        else:
            if not is_open:
                yield ".PP"
            elif ":LINE:COLUMN:" in line:
                yield ".br"
            yield escaped(line.strip())
            is_open = True


def page(text):
    head, usage, *rest = text.split("\n\n")
    yield ".\\\" Made by tools/make_man.py of what ./sqmod help prints."
    yield ".TH SQMOD 1"
    yield ".SH NAME"
    yield "sqmod \\- processor of SQL\\-92 modules"
    yield ".SH SYNOPSIS"
    yield from synopsis(usage.split("\n"))
    yield ".SH DESCRIPTION"
    yield escaped(head)
    yield from body("\n\n".join(rest).rstrip("\n").split("\n"))


def main():
    text, checkout, _ = subprocess.run([ROOT / "sqmod", "help"], check=True, capture_output=True, text=True).stdout.partition(CHECKOUT)
    if not checkout:
        sys.exit("tools/make_man.py: the help doesn't say what a checkout has")
    made = "\n".join(page(text)) + "\n"
    if sys.argv[1:] == ["check"]:
        if not PAGE.exists() or PAGE.read_text() != made:
            sys.exit("tools/make_man.py has to make docs/sqmod.1 again")
    else:
        PAGE.write_text(made)


if __name__ == "__main__":
    main()
