#!/usr/bin/env python3
"""Counts the definitions that a reader meets who follows names from a clause of `run`, and their lines.

count_definitions.py [CLAUSE..]: of these clauses of crates/sq_run/src/processor.rt, else of each and of all together. Comments, `use`
lines and the types of .rt files are left out.
"""

import re
import sys
from pathlib import Path

CRATES = Path(__file__).resolve().parent.parent / "crates"
ENTRY = CRATES / "sq_run/src/processor.rt"
USE = re.compile(r"(?:ghost |pub )*use Rattle\.(\w+)\.specs\.([\w.«»]+?)(?:\.\{(.*)\}| as ([^\s;]+))?;?$")
HEAD = re.compile(r"^(\s*)(?:(?:abbrev|unfoldable|pub) )*(?:(record|data) )?([^\s:(){}|]+)(?: [({].*)? : ")
WORD = re.compile(r"[^\s(){};,λ→≡×∷]+")


def name_of(word):
    return word.strip("«»")


class File:
    """The names that a file of specs/ brings in and those that it defines."""

    def __init__(self, path):
        self.brought, self.defined = {}, {}
        here = None
        for line in path.read_text().split("\n"):
            text = line.split("--")[0].rstrip() if line.strip().startswith("--") else line.rstrip()
            used = USE.match(text.strip())
            if used:
                self.bring(*used.groups())
                continue
            head = HEAD.match(text)
            if head and not (here and len(head[1]) > here[0] and here[1]):
                here = (len(head[1]), bool(head[2]), name_of(head[3]))
                self.defined.setdefault(here[2], [])
            if here and text:
                self.defined[here[2]].append(text)

    def bring(self, crate, module, names, alias):
        at = (crate, module.replace(".", "/"))
        if alias:
            self.brought[name_of(alias)] = (at, None)
        for name in (names or "").split(", "):
            inside, _, outside = name.partition(" as ")
            self.brought[name_of(outside or inside)] = (at, name_of(inside))


FILES = {}


def file_at(crate, module):
    path = CRATES / crate / "specs" / f"{module}.antt"
    if path not in FILES:
        FILES[path] = File(path) if path.exists() else None
    return FILES[path]


def named(file, word):
    """The definition that a word names, as its crate, file and name."""
    first, _, rest = name_of(word).partition(".")
    if name_of(word) in file.brought:
        return [file.brought[name_of(word)]]
    if first in file.brought:
        at, name = file.brought[first]
        return [(at, name or name_of(rest.split(".")[0]))]
    return []


def bound_in(lines, name):
    """The variables and fields that the text of a definition binds."""
    text = "\n".join(lines)
    bound = set(re.findall(r"([^\s(){};,]+) [=←] ", text))
    for group in re.findall(r"[({]([^(){}:]+) : ", text) + re.findall(r"λ ([^.]+)\.", text):
        bound |= set(WORD.findall(group))
    for line in lines:
        left, sign, _ = line.partition(" =")
        if sign and left.split()[:1] == [name]:
            bound |= {word for word in WORD.findall(left) if "." not in word and not word[0].isupper()} - {name}
    return bound


def words_of(lines, name=None):
    return {word for line in lines for word in WORD.findall(line)} - (bound_in(lines, name) if name else set())


def followed(start):
    """All definitions that these reach."""
    met, todo = {}, list(start)
    while todo:
        (crate, module), name = at = todo.pop()
        file = file_at(crate, module)
        if at in met or not file or name not in file.defined:
            for (other, where), inside in file.brought.values() if file and name in file.brought else []:
                if name_of(inside or "") == name:
                    todo.append(((other, where), inside))
            continue
        met[at] = len(file.defined[name])
        for word in words_of(file.defined[name], name):
            todo += named(file, word)
            if word in file.defined:
                todo.append(((crate, module), word))
            # the operators are written between their arguments
            todo += [((crate, module), n) for n in file.defined if n.strip("◌") == word]
    return met


def clauses():
    text = ENTRY.read_text()
    for part in re.findall(r"(?:ensures|requires) (\w+) (\{.*?\})\n(?=\s*(?://|ensures|requires|\n|\{))", text, re.S):
        yield part


def main():
    file = File(ENTRY)
    wanted = sys.argv[1:]
    together = {}
    for clause, text in clauses():
        if wanted and clause not in wanted:
            continue
        met = followed(at for word in words_of([text]) for at in named(file, word))
        together |= met
        print(f"{clause}: {len(met)} definitions, {sum(met.values())} lines")
    print(f"together: {len(together)} definitions, {sum(together.values())} lines")


if __name__ == "__main__":
    main()
