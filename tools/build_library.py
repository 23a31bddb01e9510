#!/usr/bin/env python3
"""Builds the libraries for host programs, libsqmod.a and libsqmod.so: the proved archive of crates/sq_host_c, host/sqmod.c, and what
the kit calls of the C library.

build_library.py FOLDER: leaves FOLDER/libsqmod.a and FOLDER/libsqmod.so, whose soname is libsqmod.so.0. Where `rt ci` has just left
the libraries of all crates below, crates/sq_host_c is proved and built over these. Else `rt lib` does it, and first proves the libraries that no earlier command did.
"""

import os
import shutil
import subprocess
import sys
import tempfile
from pathlib import Path

ROOT = Path(__file__).resolve().parent.parent
NAME = "sq_host_c"
CRATE = ROOT / "crates" / NAME
ARCHIVE = CRATE / f"out/lib{NAME}.a"
COMPILER = os.environ.get("CC", "cc")
FLAGS = ["-std=c99", "-Wall", "-Wextra", "-O2", "-fPIC"]
SONAME = "libsqmod.so.0"
EXPORTS = "{ global: sqmod_*; local: *; };\n"


def kit():
    """The folder of the kit."""
    page = subprocess.run(["rt", "doc"], check=True, capture_output=True, text=True).stdout.strip()
    return Path(page).parent


def crate_uses():
    """Which libraries each crate of the repository uses."""
    lines = [it.partition(":") for it in (ROOT / "crates.txt").read_text().splitlines() if not it.startswith("#")]
    return {name.split()[0]: rest.split() for name, _, rest in lines if name.split()}


def crates_below(crate=NAME):
    """The crates of the repository that an archive stands on."""
    uses = crate_uses()
    found, left = [], list(uses[crate])
    while left:
        name = left.pop()
        if name in uses and name not in found:
            found.append(name)
            left += uses[name]
    return found


def libraries(crate=NAME):
    """The folders with the libraries that `rt ci` left, which have no stamp; none where another command built one of them."""
    folders = [ROOT / f"crates/{name}/out/rlib" for name in crates_below(crate)]
    is_left = all((it / f"{it.parent.parent.name}.rlib").is_dir() and not (it / "stamp").exists() for it in folders)
    return folders if is_left else None


def build_over(folders, crate=NAME, made=ARCHIVE, toolchain=None):
    """The words that prove and build a static library over libraries that are there, with the kit's toolchain or another."""
    top = kit()
    words = [top / "bin/rattle", "build", "--crate-name", crate, "src/lib.rt", "--crate-type", "staticlib", "--links", f"{crate}="]
    words += ["--extern", f"std={top}/rlibs/std.rlib", "-L", f"dependency={top}/rlibs"]
    words += [it for name in crate_uses()[crate] for it in ("--extern", f"{name}={ROOT}/crates/{name}/out/rlib/{name}.rlib")]
    words += [it for folder in folders for it in ("-L", f"dependency={folder}")]
    words += ["--antt-project", f"{top}/rattle/logic/antt-project.json", "--logic-built", f"{top}/logic_built"]
    return words + ["--toolchain", toolchain or f"{top}/toolchain", "--backend", "llvm", "-o", made]


def is_current(folders):
    """Whether the archive is there, and newer than the libraries that it stands on and the crate's own sources."""
    sources = [*folders, *CRATE.joinpath("src").rglob("*.rt")]
    return ARCHIVE.exists() and all(it.stat().st_mtime < ARCHIVE.stat().st_mtime for it in sources)


def archive():
    """The archive of the crate, proved: the one that is there, if it is current."""
    if shutil.which("rt") is None:
        sys.exit("sqmod: there is no command rt on the path; it belongs to the Rattle kit")
    folders = libraries()
    if folders and is_current(folders):
        return ARCHIVE
    words = build_over(folders) if folders else ["rt", "lib"]
    ARCHIVE.parent.mkdir(exist_ok=True)
    done = subprocess.run(words, cwd=CRATE, stdin=subprocess.DEVNULL, capture_output=True, text=True)
    if done.returncode:
        sys.exit(f"sqmod: {words[0]} {words[1]} built no library; it said:\n" + done.stdout[-3000:] + done.stderr[-3000:])
    return ARCHIVE


def build(folder, proved=None):
    """Makes both libraries in a folder and returns the static one. `proved` stands for the archive of the crate, where it is given."""
    library, shared = Path(folder) / "libsqmod.a", Path(folder) / "libsqmod.so"
    proved = Path(proved) if proved else archive()
    with tempfile.TemporaryDirectory() as room:
        layer = Path(room) / "sqmod.o"
        subprocess.run([COMPILER, *FLAGS, "-c", ROOT / "host/sqmod.c", "-o", layer], check=True)
        script = f"create {library}\naddmod {layer}\naddlib {proved}\naddlib {kit()}/c/liblibc_c.a\nsave\nend\n"
        subprocess.run(["ar", "-M"], input=script, text=True, check=True)
        names = Path(room) / "names"
        names.write_text(EXPORTS)
        links = ["-shared", f"-Wl,-soname,{SONAME}", f"-Wl,--version-script={names}", "-Wl,--no-undefined"]
        subprocess.run([COMPILER, *links, layer, library, "-o", shared], check=True)
    return library


def main():
    if len(sys.argv) != 2:
        sys.exit("Usage: build_library.py FOLDER")
    print(build(Path(sys.argv[1]).resolve()))


if __name__ == "__main__":
    main()
