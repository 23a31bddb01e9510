#!/usr/bin/env python3
"""Builds the programs of examples/host and of host/tests over the library for host programs, runs them, and compares what they
print with what is wanted; compiles the headers and copybooks that `bind-c` and `bind-cobol` make of all modules of the examples
and of host/tests; and hands both a module that is refused.

try_host.py PROGRAM [ARCHIVE]: PROGRAM is sqmod, and ARCHIVE stands for that of crates/sq_host_c. What needs a compiler that isn't
there is SKIPPED. The status is 0 if nothing differs.
"""

import os
import shutil
import subprocess
import sys
import tempfile
from pathlib import Path
from typing import NamedTuple

import build_library

ROOT = Path(__file__).resolve().parent.parent
FIRST = ROOT / "examples/first"
HOST = ROOT / "examples/host"
TESTS = ROOT / "host/tests"
SECONDS = 60
WARNINGS = ["-Wall", "-Wextra", "-Wpedantic", "-Werror", "-fsyntax-only", f"-I{ROOT / 'host'}"]
CPP = os.environ.get("CXX", "c++")
COMPILERS = [
    *([build_library.COMPILER, f"-std={it}", *WARNINGS, "-x", "c", "-"] for it in ("c99", "c11", "gnu17", "c2x")),
    *([CPP, f"-std={it}", *WARNINGS, "-x", "c++", "-"] for it in ("c++11", "c++17", "c++20")),
]
FORMATS = [["cobc", "-fsyntax-only", "-Wall", "-Werror", "-std=default", *it] for it in ([], ["-free"])]
MARGIN = " " * 7


class Program(NamedTuple):
    """A program, the words that compile it, its command line, and what it is to print."""

    source: Path
    compile: list
    words: list
    wanted: Path

    def outcome(self, room):
        if shutil.which(self.compile[0]) is None:
            return f"SKIPPED: there is no {self.compile[0]}"
        built = Path(room) / "program"
        made = subprocess.run([*self.compile, "-o", built], capture_output=True, text=True)
        if made.returncode:
            return "FAILED: it isn't compiled:\n" + made.stderr
        ran = subprocess.run([built, *self.words], capture_output=True, text=True, timeout=SECONDS)
        if (ran.stdout, ran.stderr, ran.returncode) != (self.wanted.read_text(), "", 0):
            return f"FAILED: it printed, with status {ran.returncode}:\n{ran.stdout}{ran.stderr}"
        return "as wanted"


def bound(program, command, *modules):
    """What `bind-c` or `bind-cobol` says of modules."""
    words = [program, command, *(it for module in modules for it in ("--module", module))]
    return subprocess.run(words, capture_output=True, text=True)


def text_of(program, command, *modules):
    done = bound(program, command, *modules)
    if done.returncode:
        sys.exit(f"Host programs: {command} refuses {modules[0]}: {done.stderr}")
    return done.stdout


def refuses(program, command, room):
    """Whether `bind-c` or `bind-cobol` refuses what the program does."""
    module = Path(room) / "refused.sql"
    module.write_text("MODULE M LANGUAGE C AUTHORIZATION U\nPROCEDURE P (:A INTEGER); COMMIT;\n")
    done = bound(program, command, module)
    return (done.returncode, done.stdout, done.stderr) == (2, "", f"sqmod: {module}:2:1: StatusParameter\n")


def is_module(path):
    lines = path.read_text("latin-1").split("\n")
    first = next((it for it in lines if it.strip() and not it.lstrip().startswith("--")), "")
    return first.upper().split()[:1] == ["MODULE"]


def is_refused(path):
    return (path.parent / "refusal.txt").exists()


def modules():
    """The modules of the examples and of host/tests."""
    paths = [*sorted((ROOT / "examples").rglob("*.sql")), *sorted(TESTS.rglob("*.sql"))]
    return [it for it in paths if is_module(it) and not is_refused(it)]


def compiles(words, text, room):
    done = subprocess.run(words, input=text, text=True, capture_output=True, cwd=room)
    if done.returncode:
        print(" ".join(map(str, words)), done.stderr[:2000], sep="\n")
    return done.returncode == 0


def cobol_program(copied):
    """A program in the fixed format, which is one in the free format, too, with copybooks in both places."""
    head = ["IDENTIFICATION DIVISION.", "PROGRAM-ID. BOUND.", "DATA DIVISION.", "WORKING-STORAGE SECTION."]
    body = ["PROCEDURE DIVISION.", "FIRST-PART.", "    STOP RUN."]
    copies = [f'    COPY "{it}".' for it in copied]
    return "".join(f"{MARGIN}{it}\n" for it in [*head, *copies, *body, *copies])


def header_faults(text, room):
    """The compilers that don't take C that includes what was made."""
    return [words[:2] for words in COMPILERS if shutil.which(words[0]) and not compiles(words, text, room)]


def copybook_faults(copied, room):
    """The formats in which a program with these copybooks isn't taken."""
    source = Path(room) / "bound.cob"
    source.write_text(cobol_program(copied))
    return [words for words in FORMATS if shutil.which("cobc") and not compiles([*words, source], "", room)]


def long_lines(text):
    return [it for it in text.splitlines() if len(it) > 72]


def try_texts(program, room):
    """Compiles what is made of each module, and what is made of several; prints what isn't taken, and says how many aren't."""
    wrong = []
    for path in modules():
        (Path(room) / "one.cpy").write_text(text_of(program, "bind-cobol", path))
        if header_faults(text_of(program, "bind-c", path), room):
            wrong.append(f"{path.relative_to(ROOT)} in C")
        if long_lines((Path(room) / "one.cpy").read_text()) or copybook_faults(["one.cpy"], room):
            wrong.append(f"{path.relative_to(ROOT)} in COBOL")
    pair = [TESTS / "checks.sql", TESTS / "nulls.sql"]
    for number, path in enumerate(pair):
        (Path(room) / f"{number}.cpy").write_text(text_of(program, "bind-cobol", path))
        (Path(room) / f"{number}.h").write_text(text_of(program, "bind-c", path))
    (Path(room) / "both.h").write_text(text_of(program, "bind-c", *pair))
    used = "int main(void) { char state[6]; int16_t k = 0; return checks_doubled(NULL, state, &k) + nulls_close_all(NULL, state); }\n"
    for included in (["0.h", "1.h"], ["both.h"], ["0.h", "both.h", "1.h"]):
        text = "".join(f'#include "{room}/{it}"\n' for it in included) + used
        if header_faults(text, room):
            wrong.append(f"{included} in one program")
    if copybook_faults(["0.cpy", "1.cpy"], room):
        wrong.append("two copybooks in one program")
    print(f"Host programs: the headers and copybooks of {len(modules())} modules, {len(wrong)} aren't compiled", *wrong)
    return len(wrong)


def programs(library, room):
    texts = [FIRST / "schema.sql", FIRST / "module.sql"]
    c = [build_library.COMPILER, *build_library.FLAGS, f"-I{ROOT / 'host'}", f"-I{room}"]
    cobol = ["cobc", "-x", "-Wall", f"-I{room}"]
    yield Program(HOST / "first.c", [*c, HOST / "first.c", library], texts, HOST / "report.txt")
    yield Program(HOST / "first.cob", [*cobol, "-free", HOST / "first.cob", library], texts, HOST / "report.txt")
    yield Program(HOST / "nulls.c", [*c, HOST / "nulls.c", library], [], HOST / "nulls.txt")
    for name in ("checks", "nulls"):
        source = TESTS / f"{name}.c"
        yield Program(source, [*c, source, library], [source.with_suffix(".sql")], source.with_suffix(".txt"))
    yield Program(TESTS / "nulls.cob", [*cobol, TESTS / "nulls.cob", library], [TESTS / "nulls.sql"], TESTS / "nulls_cobol.txt")


def try_programs(program, archive, room):
    """Builds and runs the programs, and says how many don't print what is wanted."""
    wrong = 0
    library = build_library.build(room, archive)
    for name, module in (("first", FIRST / "module.sql"), ("checks", TESTS / "checks.sql"), ("nulls", TESTS / "nulls.sql")):
        (Path(room) / f"{name}_bound.h").write_text(text_of(program, "bind-c", module))
        (Path(room) / f"{name}_bound.cpy").write_text(text_of(program, "bind-cobol", module))
    for host in programs(library, room):
        outcome = host.outcome(room)
        print(f"Host programs: {host.source.relative_to(ROOT)}: {outcome}")
        wrong += outcome.startswith("FAILED")
    return wrong


def main():
    program, archive = Path(sys.argv[1]).resolve(), sys.argv[2] if len(sys.argv) > 2 else None
    if shutil.which(build_library.COMPILER) is None or shutil.which("ar") is None:
        print("Host programs: SKIPPED: there is no C compiler")
        return
    with tempfile.TemporaryDirectory() as room:
        wrong = try_programs(program, archive, room) + try_texts(program, room)
        for command in ("bind-c", "bind-cobol"):
            if not refuses(program, command, room):
                print(f"Host programs: {command}: FAILED: it doesn't refuse as sqmod does")
                wrong += 1
    sys.exit(1 if wrong else 0)


if __name__ == "__main__":
    main()
