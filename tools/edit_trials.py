#!/usr/bin/env python3
"""Tries the wrong bodies of docs/inside/EDITS.md and writes their stamps.

edit_trials.py [--all] [CRATE..]    tries the edits with no stamp of today's texts, or all; of these crates, or of each

Each is tried in a copy of its proved crate, and the changed functions alone are checked, over the work that earlier checks left. Edits
of different functions are put in together: a function is proved of the contracts of those that it calls, so each changed function
stands or falls by itself. An edit counts as refused by such a run only if the checker names a goal or an error in the proof of the
changed function itself; the others are tried again, at last alone. An edit that passes alone is NOT REFUSED only if the whole crate
is proved with it.
"""

import functools
import importlib.machinery
import importlib.util
import os
import re
import shutil
import subprocess
import sys
import tempfile
import time
from dataclasses import dataclass
from pathlib import Path

from edits import FUNCTION, NAMES, ROOT, crates, edits_of, impl_of, item_with, lack_of, logic, misfit_of, stamps_of, sum_of, text_of, write_stamps

PARTS = ("src", "specs", "proofs")
ONE_JOB = ["--jobs", "1"]
# What the checker says where a proof names what an edit took away.
BY_NAME = re.compile(r"(\./)?proofs/.*(has no field|is not in scope|has no `|was not admitted)")


@functools.lru_cache(maxsize=None)
def tool():
    """The kit's `rt`: its words for a check, and its rules of what is a bad edit."""
    kit = Path(subprocess.run(["rt", "doc"], capture_output=True, text=True, check=True).stdout.strip()).parent
    sys.dont_write_bytecode = True
    loader = importlib.machinery.SourceFileLoader("rt", str(kit / "bin/rt"))
    made = importlib.util.module_from_spec(importlib.util.spec_from_loader("rt", loader))
    sys.modules["rt"] = made
    loader.exec_module(made)
    # it works out what a crate stands on once for each way down to it: once is enough
    for name in ("stamp", "below"):
        setattr(made.rtlib.Crate, name, once_a_folder(getattr(made.rtlib.Crate, name)))
    return made


def once_a_folder(method):
    found = {}

    def known(crate):
        if crate.folder not in found:
            found[crate.folder] = method(crate)
        return found[crate.folder]

    return known


class Room:
    """A copy of a proved crate in which edits are put, with the work that earlier checks left."""

    def __init__(self, crate, folder):
        self.crate, self.folder, self.kept = crate, Path(folder), Path(crate.folder) / "out/incremental"

    def prove(self):
        """Proves the libraries below the crate and the crate itself, over what earlier checks left. A built library was proved."""
        for library in self.crate.below():
            if library.build_rlib(ONE_JOB, anew=False):
                return f"{library.name} is not proved"
        self.kept.mkdir(parents=True, exist_ok=True)
        if self.crate.is_built():
            return None
        ran = self.run(self.crate.folder, self.kept)
        return None if ran.returncode == 0 else f"it is not proved: {ran.stdout[-300:]}"

    def checked(self, texts, *flags):
        """Runs the checker on the crate with these texts in the place of its own."""
        copy, kept = self.folder / "crate", self.folder / "kept"
        shutil.rmtree(copy, ignore_errors=True)
        for part in PARTS:
            if os.path.isdir(f"{self.crate.folder}/{part}"):
                shutil.copytree(f"{self.crate.folder}/{part}", copy / part)
        for path, text in texts.items():
            (copy / path).write_text(text, encoding="utf-8")
        # links are enough: the checker never changes a kept file, it puts a new one in its place. What one run proves, the next takes
        if not kept.is_dir():
            subprocess.run(["cp", "-al", self.kept, kept], check=True)
        return self.run(copy, kept, *flags)

    def run(self, folder, kept, *flags):
        words = [tool().rtlib.RATTLE, "check", *self.crate.words(ONE_JOB, keeps=False), "--incremental", str(kept), *flags]
        how = {"stdin": subprocess.DEVNULL, "stdout": subprocess.PIPE, "stderr": subprocess.STDOUT, "errors": "replace", "text": True}
        return subprocess.run([*tool().rtlib.guarded(), *words], cwd=folder, **how)


def functions_of(edits):
    """The flags that check the functions that these edits change alone; none, if one of them changes something else."""
    functions = [function_of(edit) for edit in edits]
    return [word for it in functions for word in ("--only", it.path())] if all(functions) else []


def modules_of(edits):
    """The flags that check the functions of the files that these edits change alone; none, if that is the whole crate."""
    words = []
    for path in dict.fromkeys(change.path for edit in edits for change in edit.changes):
        module = re.fullmatch(r"src/(.+)\.rt", path)
        if not module or module[1] in ("lib", "main"):
            return []
        words += ["--only", module[1].replace("/", "::")]
    return words


@dataclass(frozen=True)
class Function:
    """A function that an edit changes: its module, its type and trait if it is a method, its name, and its cycle of calls, if it
    is in one."""

    module: str
    type: str
    trait: str
    name: str
    cycle: str

    def path(self):
        """Its path below the crate, or the end of it, by which the checker finds it: it joins the names of a type and of a trait. A
        method stands in the module of its type, which need not be that of the file, so of a method it is the end."""
        if self.type:
            return f"{self.type}{self.trait}::{self.name}"
        return self.module.partition("::")[2] + self.name

    def is_at(self, path):
        """Whether this path, as the checker writes it, is the function's."""
        parts = path.split("::")
        return parts[-1] == self.name and parts[-2].startswith(self.type) if self.type else path == self.module + self.name

    def folder(self, path):
        """Where its proof is, below proofs/. The functions of a cycle have one proof."""
        return "/".join((self.module + "+" + self.cycle if self.cycle else path).split("::")[1:])

    def proof(self):
        """What no other function of a group of edits may share with it."""
        return (self.module, self.cycle) if self.cycle else self


def function_of(edit):
    """The function that an edit changes; None, if that isn't one function."""
    path = edit.changes[0].path
    if any(change.path != path for change in edit.changes):
        return None
    item = item_with(text_of(ROOT / "crates" / edit.crate / path), edit.changes[0].old)
    names = [found[1] for found in map(FUNCTION.match, item.split("\n")) if found]
    if len(names) != 1 or any(change.old not in item for change in edit.changes):
        return None
    cycle = re.search(r"#\[cycle\((\w+)\)\]", item)
    module = path.removeprefix("src/").removesuffix(".rt").replace("/", "::")
    trait, of = impl_of(item)
    return Function(f"{edit.crate}::{module}::", of or "", trait or "", names[0], cycle[1] if cycle else "")


def nothing_said(texts, ran):
    """Why a run of the checker says nothing of the edits in these texts, or None."""
    lines = ran.stdout.rstrip("\n").split("\n")
    bad = next((line for line in lines if tool().unread(line, texts)), None)
    if bad:
        return f"BAD EDIT: the checker can't read the edited text: {bad[:300]}"
    if tool().rtlib.STALE.search(ran.stdout):
        return "the kept work of a library can't be used"
    if ran.returncode not in (0, 1) or not re.match(r"logic=|only=\d+ proved=\d+", lines[-1]):
        return f"BAD EDIT: it did not reach the prover, or the checker could not tell: {' | '.join(lines[-6:])[:900]}"
    return None


def places_told(lines):
    """The errors, and the notes of open goals, each with its place in a file."""
    told = [line for line in lines if re.match(r"(note: )?\S+:\d+:\d+:", line)]
    return [line for line in told if ": error" in line or line.startswith("note: ")]


def failed_in(ran):
    """The functions that a run doesn't prove, by their paths, and why, but for those that call one."""
    failed = re.findall(r"^fn (\S+): (?:not proved|no proof)(.*)", ran.stdout, re.M)
    return {path: re.sub(r"[:;] it calls .*", "", why).lstrip(": ") for path, why in failed}


def refused_at(edit, ran):
    """The function that an edit changes, if it isn't proved, or `names`, and what the checker said; else None."""
    function, failed = function_of(edit), failed_in(ran)
    own = [path for path in failed if function and function.is_at(path)]
    if len(own) != 1:
        return None
    folder = re.escape(function.folder(own[0]))
    told = [line for line in places_told(ran.stdout.split("\n")) if re.search(rf"proofs/{folder}/\w+\.antt:", line)]
    open_goals = [line for line in told if not BY_NAME.match(line)]
    if open_goals or failed[own[0]]:
        return own[0], failed[own[0]] or open_goals[0]
    return (NAMES, told[0]) if told else None


def alone(room, edit):
    """The function that an edit leaves unproved, or `names`, and what the checker said; or None, and why it has no good verdict."""
    texts, why = tool().edited(edit.text, room.crate.folder)
    if why:
        return None, f"BAD EDIT: {why}"
    for words in filter(None, (functions_of([edit]), modules_of([edit]))):
        ran = room.checked(texts, *words)
        if ran.returncode == 1:
            break
    else:
        ran = room.checked(texts)
    why = nothing_said(texts, ran)
    if why:
        return None, why
    if ran.returncode == 0:
        return None, "NOT REFUSED: the crate is still proved with this edit"
    found = refused_at(edit, ran)
    if found:
        return found
    told = places_told(ran.stdout.split("\n"))
    if told and all(map(BY_NAME.match, told)):
        return NAMES, told[0]
    failed = failed_in(ran)
    if not failed or not told:
        return None, f"nothing is told of a function that isn't proved: {' | '.join([*failed, *told[:3]])[:900]}"
    path = next((path for path, why in failed.items() if why), next(iter(failed)))
    return path, failed[path] or next(line for line in told if not BY_NAME.match(line))


def groups_of(edits):
    """The edits in groups that change functions of different proofs, and those of which no group can tell."""
    groups, single = [], []
    for edit in edits:
        function = function_of(edit)
        free = [group for group in groups if function and function.proof() not in group]
        if not function:
            single.append(edit)
        elif free:
            free[0][function.proof()] = edit
        else:
            groups.append({function.proof(): edit})
    many = [[*group.values()] for group in groups if len(group) > 1]
    return many, single + [edit for group in groups if len(group) == 1 for edit in group.values()]


def together(room, edits):
    """What the checker says of each of these edits, put in together; nothing of those that are to be tried alone."""
    texts = {}
    for change in [change for edit in edits for change in edit.changes]:
        text = texts.get(change.path) or (Path(room.crate.folder) / change.path).read_text(encoding="utf-8")
        texts[change.path] = text.replace(change.old, change.new)
    ran = room.checked(texts, *functions_of(edits))
    why = nothing_said(texts, ran)
    if why:
        print(f"edits: {room.crate.name}: {len(edits)} together say nothing: {why}", flush=True)
        half = len(edits) // 2
        return {**together(room, edits[:half]), **together(room, edits[half:])} if half > 1 else {}
    found = {edit.name: refused_at(edit, ran) for edit in edits}
    return {name: it for name, it in found.items() if it and it[0] != NAMES}


def note(edit, sum_then, function, said):
    """Writes an edit's stamp, says what came out, and returns whether the edit was refused as it must be."""
    stamps = stamps_of(edit.crate)
    stamps.pop(edit.name, None)
    if function:
        stamps[edit.name] = [edit.name, time.strftime("%Y-%m-%d"), logic(), sum_then, function]
    write_stamps(edit.crate, stamps)
    what = {None: "NO GOOD VERDICT", NAMES: "REFUSED BY NAMES OF A PROOF ALONE"}.get(function, f"refused at {function}")
    print(f"edits: {edit.crate}/{edit.name}: {what}: {said}", flush=True)
    return function not in (None, NAMES)


def try_in(room, edits):
    """Tries edits of a proved crate and writes their stamps. Returns how many were not refused as they must be."""
    sums, failed = {edit.name: sum_of(edit) for edit in edits}, 0
    groups, single = groups_of(edits)
    while groups:
        group = groups.pop(0)
        started = time.monotonic()
        found = together(room, group)
        print(f"edits: {room.crate.name}: {len(group)} together took {time.monotonic() - started:.0f} seconds", flush=True)
        failed += sum(not note(edit, sums[edit.name], *found[edit.name]) for edit in group if edit.name in found)
        # a function that calls one of the others is told of once that one is right
        left = [edit for edit in group if edit.name not in found]
        if 1 < len(left) < len(group):
            groups.append(left)
        else:
            single += left
    for edit in single:
        started = time.monotonic()
        function, said = alone(room, edit)
        failed += not note(edit, sums[edit.name], function, f"{said} ({time.monotonic() - started:.0f} seconds)")
    return failed


def try_edits(names, all_anew):
    failed, known = 0, {crate.name: crate for crate in tool().rtlib.crates_below(str(ROOT))}
    for name in [name for name in crates() if not names or name in names]:
        stamps = stamps_of(name)
        edits = [edit for edit in edits_of(name) if all_anew or misfit_of(edit) or lack_of(edit, stamps)]
        if not edits:
            continue
        out = ROOT / "crates" / name / "out"
        out.mkdir(exist_ok=True)
        with tempfile.TemporaryDirectory(prefix="edits-", dir=out) as folder:
            room, started = Room(known[name], folder), time.monotonic()
            why = room.prove()
            print(f"edits: {name}: {why or 'proved'}, {time.monotonic() - started:.0f} seconds; edits to try: {len(edits)}", flush=True)
            failed += len(edits) if why else try_in(room, edits)
    return 1 if failed else 0


if __name__ == "__main__":
    words = [word for word in sys.argv[1:] if word != "--all"]
    unknown = [word for word in words if word not in crates()]
    if unknown:
        sys.exit(f"edits: there is no crate {unknown[0]}\n{__doc__}")
    sys.exit(try_edits(words, "--all" in sys.argv))
