#!/usr/bin/env python3
"""The wrong bodies of docs/inside/EDITS.md, and what the checker said of each.

edits.py check    names each edit that has no stamp, or one of other texts than today's, and then fails; but for those that are owed
edits.py owe      writes the list of those that are owed, tools/edits_owed.txt: each edit that has no stamp of today's texts

An edit is a file NAME.edit in crates/CRATE/must-fail or crates/CRATE/more-edits. crates/CRATE/edits.stamp has a line for each
edit that was tried: its name, the day, the kit's logic, a sum of the texts that its verdict stands on, and the function whose
proof failed, or `names` if only a proof that names what the edit took away failed. tools/edit_trials.py writes it.
docs/inside/EDITS.md says what is in the sum.
"""

import functools
import hashlib
import re
import subprocess
import sys
from dataclasses import dataclass
from pathlib import Path

ROOT = Path(__file__).resolve().parent.parent
FOLDERS = ("must-fail", "more-edits")
HEADER = "# Edits that the checker refused: name, day, logic, sum of texts, function that isn't proved. Written by tools/try_edits.sh\n"
NAMES = "names"
OWED = ROOT / "tools/edits_owed.txt"
OWED_HEADER = "# Edits that have no verdict of today's texts, as CRATE NAME. tools/try_edits.sh CRATE tries them; tools/edits.py owe writes this list.\n"
# A module of definitions, wherever a text names one.
CITED = re.compile(r"\bRattle\.(\w+)\.specs\.([^\s;{}(),]+)")
# The folder in a path of a law. Where a law stands is no part of a verdict.
FOLDER_OF_LAW = re.compile(r"\b((?:crate|sq_\w+)(::|\.)proofs\2)[A-Z]\w*\2(?=[A-Z]\w*\2)")
VISIBLE = r"(?:pub(?:\(.*?\))? )?"
FUNCTION = re.compile(rf"\s*{VISIBLE}(?:const )?(?:unsafe )?fn (\w+)")
IMPL = re.compile(r"(?:unsafe )?impl (?:(?:\w+::)*(\w+) for )?[&*]*(?:\w+::)*(\w+)")


@dataclass
class Change:
    path: str
    old: str
    new: str


@dataclass
class Edit:
    crate: str
    file: Path
    text: str
    changes: list

    @property
    def name(self):
        return self.file.stem


def edit_of(file):
    text, path, old, changes = file.read_text(encoding="utf-8"), "", "", []
    for line in text.split("\n"):
        word, _, rest = line.partition(":")
        rest = rest.removeprefix(" ")
        if word == "file":
            path = rest.strip()
        elif word == "old":
            old = rest
        elif word == "new":
            changes.append(Change(path, old, rest))
    return Edit(file.parent.parent.name, file, text, changes)


def edits_of(crate):
    files = [file for folder in FOLDERS for file in (ROOT / "crates" / crate / folder).glob("*.edit")]
    return [edit_of(file) for file in sorted(files, key=lambda file: file.name)]


# -- Items of a source file, by the layout that `rt fmt` gives it


@functools.lru_cache(maxsize=None)
def text_of(file):
    """A file without its comments and the folders of laws."""
    mark = "--" if file.suffix == ".antt" else "//"
    lines = file.read_text(encoding="utf-8").split("\n")
    return FOLDER_OF_LAW.sub(r"\1", "\n".join(line for line in lines if not line.lstrip().startswith(mark)))


def items(text, indent=0):
    """The items of a file, or the members of a block: the last line of each ends in `}` or `;` and has this indent."""
    found, item = [], []
    last = re.compile(rf" {{{indent}}}(?=[^ ]).*[;}}]$")
    for line in text.split("\n"):
        if item or line.strip():
            item.append(line)
        if last.match(line):
            found.append("\n".join(item))
            item = []
    return found + ["\n".join(item)] * bool(item)


def head_of(item):
    """An item's first line, behind its attributes."""
    lines = [line.strip() for line in item.split("\n")]
    return next((line for line in lines if line and not line.startswith("#")), "")


def impl_of(item):
    """The trait, if there is one, and the type of an `impl`."""
    head, plain = "", head_of(item).replace("->", "")
    while head != plain:
        head, plain = plain, re.sub(r"<[^<>]*>", "", plain)
    found = IMPL.match(plain)
    return found.groups() if found else (None, None)


def is_block(item):
    return re.match(rf"{VISIBLE}(unsafe )?(impl|trait|mod)\b", head_of(item)) is not None


def parts_of(block):
    """The head of a block of members, and its members."""
    head, _, rest = block.partition("{\n")
    return head, items(rest.rpartition("\n}")[0], indent=4)


def states(item):
    """Whether an item says what a type, a constant or a trait is, and is no function."""
    return not FUNCTION.match(head_of(item)) and not re.match(rf"{VISIBLE}(use|mod)\b", head_of(item))


def item_with(text, old):
    """The item of a file that has a text: a function with its clauses, a type, a constant. Of a block: its head, the member and
    those that state something."""
    for item in items(text):
        if old in item and is_block(item):
            head, members = parts_of(item)
            return "\n".join([head, *(member for member in members if old in member or states(member))])
        if old in item:
            return item
    return text


def stated_in(text):
    """What a source file says of its types, its constants and its traits."""
    found = []
    for item in items(text):
        if re.match(r"(unsafe )?impl\b", head_of(item)):
            head, members = parts_of(item)
            found += [head, *filter(states, members)]
        elif states(item):
            found.append(item)
    return "\n".join(found)


# -- The definitions that a text cites


@functools.lru_cache(maxsize=None)
def crates():
    """Each crate, and all crates that it stands on, itself among them."""
    found = {}
    for line in (ROOT / "crates.txt").read_text().split("\n"):
        name, colon, libraries = line.partition("#")[0].partition(":")
        if colon:
            found[name.split()[0]] = libraries.split()

    @functools.lru_cache(maxsize=None)
    def below(name):
        return {name}.union(*(below(library) for library in found[name] if library in found))

    return {name: below(name) for name in found}


def longest(folder, parts, ending):
    """The file below a folder that the first parts of a path name, as many of them as name one."""
    for count in range(len(parts), 0, -1):
        file = folder.joinpath(*parts[:count]).with_suffix(ending)
        if file.is_file():
            return file
    return None


@functools.lru_cache(maxsize=None)
def module_of(crate, path):
    """The file of a module of definitions, and what of its text counts. What the checker makes of a type is the type's source."""
    folder, parts = ROOT / "crates" / crate, path.rstrip(".").split(".")
    if parts[0] in ("declared", "contracts"):
        file = longest(folder / "src", parts[1:], ".rt") or folder / "src/lib.rt"
        return file, stated_in(text_of(file))
    file = longest(folder / "specs", parts, ".antt")
    return (file, text_of(file)) if file else (folder, "")


def cited(text):
    return {it for it in CITED.findall(text) if it[0] in crates()}


def definitions(texts):
    """The files of definitions that these texts cite, and those that these cite in turn, each with what of its text counts."""
    found, todo = {}, set().union(*map(cited, texts))
    while todo:
        file, text = module_of(*todo.pop())
        if file not in found:
            found[file] = text
            todo |= cited(text)
    return found


@functools.lru_cache(maxsize=None)
def traits(crate):
    """The source file of each trait that a crate declares, or one that it stands on."""
    found = {}
    for name in sorted(crates()[crate]):
        for file in sorted((ROOT / "crates" / name / "src").rglob("*.rt")):
            found.update((trait, file) for trait in re.findall(r"^pub (?:unsafe )?trait (\w+)", text_of(file), re.M))
    return found


def ghost_uses(text):
    return "\n".join(item for item in items(text) if head_of(item).startswith(("ghost use", "pub ghost use")))


@functools.lru_cache(maxsize=None)
def logic():
    """The kit's logic, as `rt version` names it."""
    return subprocess.run(["rt", "version"], capture_output=True, text=True, check=True).stdout.split()[-1]


def in_one_line(text):
    """A text without its line breaks. Where lines end is no part of a verdict."""
    return re.sub(r"\s*\n\s*", " ", text).strip()


def sum_of(edit):
    """A sum of what an edit's verdict stands on."""
    texts = [edit.text]
    for change in edit.changes:
        text = text_of(ROOT / "crates" / edit.crate / change.path)
        item = item_with(text, change.old)
        texts += [ghost_uses(text), item]
        trait = impl_of(item)[0]
        if trait in traits(edit.crate):
            texts.append(text_of(traits(edit.crate)[trait]))
    known = definitions(texts)
    texts += [f"{file.relative_to(ROOT)}\n{known[file]}" for file in sorted(known)]
    return hashlib.sha256("\0".join([logic(), *map(in_one_line, texts)]).encode()).hexdigest()[:32]


# -- Stamps


def stamp_file(crate):
    return ROOT / "crates" / crate / "edits.stamp"


def stamps_of(crate):
    """The words of each line of a crate's stamps, by the edit that it is about."""
    file = stamp_file(crate)
    lines = file.read_text().split("\n") if file.is_file() else []
    return {line.split()[0]: line.split() for line in lines if line.strip() and not line.startswith("#")}


def write_stamps(crate, stamps):
    there = {edit.name for edit in edits_of(crate)}
    lines = [" ".join(words) + "\n" for name, words in sorted(stamps.items()) if name in there]
    stamp_file(crate).write_text(HEADER + "".join(lines))


def owed():
    """The edits that may lack a stamp of today's texts, by crate and name."""
    lines = OWED.read_text().split("\n") if OWED.is_file() else []
    return {tuple(line.split()) for line in lines if line.strip() and not line.startswith("#")}


def misfit_of(edit):
    """Which of an edit's texts does not stand once in its file, or None."""
    for change in edit.changes or [Change("", "", "")]:
        file = ROOT / "crates" / edit.crate / change.path
        count = file.read_text(encoding="utf-8").count(change.old) if file.is_file() else 0
        if count != 1:
            return f"{change.path or 'no file'} has its old text {count} times, and not once"
    return None


def lack_of(edit, stamps):
    """Why an edit has no verdict of today's texts, or None."""
    words = stamps.get(edit.name)
    if not words:
        return "it has no verdict"
    if len(words) != 5 or words[3] != sum_of(edit):
        return f"what its verdict stands on has changed since {words[1]}"
    if words[4] == NAMES:
        return "it is refused by names of a proof alone: change a value and keep the names"
    return None


def check():
    faults, count, known, still = [], 0, owed(), 0
    for crate in crates():
        stamps, edits = stamps_of(crate), edits_of(crate)
        names = [edit.name for edit in edits]
        count += len(edits)
        faults += [f"crates/{crate}: two edits have the name {name}" for name in sorted(set(names)) if names.count(name) > 1]
        faults += [f"crates/{crate}/edits.stamp: there is no edit {name}" for name in sorted(set(stamps) - set(names))]
        for edit in edits:
            misfit, lack = misfit_of(edit), lack_of(edit, stamps)
            is_owed = (crate, edit.name) in known
            still += bool(lack) and is_owed
            if lack and is_owed:
                lack = None
            elif is_owed:
                lack = f"it has a verdict, and stands in {OWED.relative_to(ROOT)}: tools/edits.py owe takes it out"
            faults += [f"{edit.file.relative_to(ROOT)}: {why}" for why in (misfit, lack) if why]
            known.discard((crate, edit.name))
    faults += [f"{OWED.relative_to(ROOT)}: there is no edit {name} of {crate}" for crate, name in sorted(known)]
    for fault in faults:
        print(f"edits: {fault}")
    if faults:
        print(f"edits: {len(faults)} faults in {count} edits. tools/try_edits.sh CRATE.. tries those of a crate that have no good stamp")
    else:
        print(f"edits: {count - still} of {count} edits have a verdict of today's texts; {still} are owed ({OWED.relative_to(ROOT)})")
    return 1 if faults else 0


def owe():
    lacking = [(crate, edit.name) for crate in crates() for edit in edits_of(crate) if lack_of(edit, stamps_of(crate))]
    OWED.write_text(OWED_HEADER + "".join(f"{crate} {name}\n" for crate, name in sorted(lacking)))


if __name__ == "__main__":
    if sys.argv[1:] == ["owe"]:
        sys.exit(owe())
    if sys.argv[1:] != ["check"]:
        sys.exit(__doc__)
    sys.exit(check())
