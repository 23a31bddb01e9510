#!/usr/bin/env python3
"""Builds the page that runs sqmod in a browser: one file, page/index.html, with the proved library as a WebAssembly module in it.

build_page.py FOLDER: leaves FOLDER/index.html. Where `rt ci` has just left the libraries below crates/sq_page_c, it is built over these;
else what is lacking is proved first. Where the system lacks what it takes, a line with the word SKIPPED says so, and the status is 0.

Rattle proves the library and lowers it to one module of LLVM, for 64-bit pointers. The kit's own clang then compiles that module for
x86-64; here it is compiled for wasm64 in its place. That is sound as long as nothing in it is of x86-64, which is looked at below.
Binaryen's wasm-opt then makes a module with 32-bit addresses of it, which every browser takes.
"""

import base64
import html
import json
import os
import re
import shutil
import subprocess
import sys
import tempfile
from pathlib import Path

import build_library
from build_library import ROOT, kit

NAME = "sq_page_c"
CRATE = ROOT / "crates" / NAME
PAGE = ROOT / "page"
TARGET = "wasm64-unknown-unknown"
WASM = [f"--target={TARGET}", "-mcpu=lime1", "--no-default-config", "-ffunction-sections", "-fdata-sections"]
CODE = ["-expand-div-rem-bits=64", "-expand-fp-convert-bits=64", "-trap-unreachable"]
LAYOUT = "e-m:e-p:64:64-p10:8:8-p20:8:8-i64:64-i128:128-n32:64-S128-ni:1:10:20"
HEAP = {"rattle_alloc", "rattle_realloc", "rattle_dealloc"}
OF_X86 = re.compile(r"\basm\b|llvm\.x86|x86_fp80|x86_mmx")
EXPORTS = ["sq_page_run", "sq_page_steps", "malloc"]
STACK = 4 << 20
LOWERED = ["--enable-memory64", "--enable-bulk-memory", "--enable-sign-ext", "--enable-nontrapping-float-to-int",
           "--enable-mutable-globals", "--enable-multivalue", "--memory64-lowering", "-O1"]
NAMES_IN_SUITE = re.compile(r"schema.*\.sql", re.I)


def lacking():
    """What the system lacks to build the page; nothing if it has all."""
    found = {"rt": shutil.which("rt"), "wasm-opt": shutil.which("wasm-opt")}
    lacks = [name for name, path in found.items() if path is None]
    if found["rt"]:
        clang = kit() / "toolchain/bin/clang"
        known = subprocess.run([clang, "--print-targets"], capture_output=True, text=True).stdout if clang.exists() else ""
        if "wasm64" not in known:
            lacks.append("a target wasm64 of the kit's clang")
    return lacks


def for_wasm(module):
    """A module of LLVM for wasm64 that says what one for x86-64 says. It fails where the module has what is of x86-64 alone."""
    declared = set(re.findall(r"^declare .*@([\w.]+)\(", module, re.M))
    strange = {name for name in declared if not name.startswith("llvm.")} - HEAP
    words = re.sub(r'"[^"]*"', "", module)
    if strange or OF_X86.search(words):
        sys.exit(f"build_page: the module has what is not of wasm64: {sorted(strange) or OF_X86.findall(words)}")
    module = re.sub(r'^target datalayout = ".*"', f'target datalayout = "{LAYOUT}"', module, count=1, flags=re.M)
    module = re.sub(r'^target triple = ".*"', f'target triple = "{TARGET}"', module, count=1, flags=re.M)
    module = re.sub(r' "(?:stack-probe-size|target-cpu|target-features)"="[^"]*"', "", module)
    return module.replace(' "probe-stack"="inline-asm"', ' "no-builtin-bcmp" "no-builtin-memcmp" "no-builtin-strlen"')


def compile_in_place_of(clang, words):
    """What `rattle build` runs as clang: compiles the module that it is given for wasm64, by the clang that is there named."""
    made, source = words[words.index("-o") + 1], words[words.index("-x") + 2]
    read = [clang, "--target=x86_64-unknown-linux-gnu", "--no-default-config", "-x", "ir", source, "-S", "-emit-llvm", "-O0",
            "-Xclang", "-disable-llvm-passes", "-o", "-"]
    module = subprocess.run(read, check=True, capture_output=True, text=True).stdout
    text = Path(made).with_suffix(".ll")
    text.write_text(for_wasm(module))
    more = [word for option in CODE for word in ("-mllvm", option)]
    done = subprocess.run([clang, *WASM, *more, "-Werror", "-O2", "-c", "-x", "ir", text, "-o", made])
    text.unlink()
    sys.exit(done.returncode)


def toolchain(folder):
    """A toolchain for `rattle build` whose clang is this script."""
    (folder / "bin").mkdir(parents=True)
    real = kit() / "toolchain"
    (folder / "lib").symlink_to(real / "lib")
    for name in ("llvm-ar", "ld.lld", "rattle-x64"):
        (folder / "bin" / name).symlink_to(real / "bin" / name)
    clang = folder / "bin/clang"
    clang.write_text(f'#!/bin/sh\nexec "{sys.executable}" "{Path(__file__).resolve()}" --compile "{real}/bin/clang" "$@"\n')
    clang.chmod(0o755)
    return folder


def libraries():
    """The folders with the libraries below the crate: those that `rt ci` left, or what `rt check` makes of them now."""
    folders = build_library.libraries(NAME)
    if folders is None:
        subprocess.run(["rt", "check"], cwd=CRATE, stdin=subprocess.DEVNULL, stdout=subprocess.DEVNULL, check=True)
        folders = [ROOT / f"crates/{name}/out/rlib" for name in build_library.crates_below(NAME)]
    return folders


def archive(room):
    """The crate, proved, as an archive for wasm64."""
    folders = libraries()
    words = build_library.build_over(folders, NAME, room / "library.a", toolchain(room / "toolchain"))
    words += ["--jobs", "2"]
    done = subprocess.run(words, cwd=CRATE, stdin=subprocess.DEVNULL, capture_output=True, text=True)
    if done.returncode:
        sys.exit("build_page: rattle built no library; it said:\n" + done.stdout[-3000:] + done.stderr[-3000:])
    return room / "library.a"


def module(room):
    """The bytes of the WebAssembly module."""
    tools = kit() / "toolchain/bin"
    heap = [tools / "clang", *WASM, "-O2", "-ffreestanding", "-fno-builtin", "-nostdinc", "-Wall", "-Werror"]
    subprocess.run([*heap, "-c", PAGE / "heap.c", "-o", room / "heap.o"], check=True)
    link = [tools / "ld.lld", "-flavor", "wasm", "-mwasm64", "--no-entry", "--stack-first", "-z", f"stack-size={STACK}"]
    link += ["--gc-sections", "--strip-all", "--fatal-warnings", "--threads=1", *(f"--export={it}" for it in EXPORTS)]
    subprocess.run([*link, "-o", room / "wide.wasm", room / "heap.o", "--whole-archive", archive(room)], check=True)
    subprocess.run(["wasm-opt", *LOWERED, room / "wide.wasm", "-o", room / "sqmod.wasm"], check=True)
    return (room / "sqmod.wasm").read_bytes()


def tour():
    """The steps of the tour: their titles, and their texts in the order of their names."""
    titles = re.findall(r"^## (\d+\. .*)$", (ROOT / "docs/TOUR.md").read_text(), re.M)
    steps = []
    for title, folder in zip(titles, sorted((ROOT / "examples/tour").iterdir()), strict=True):
        files = sorted(folder.glob("*.sql"))
        rows = folder / "rows.txt"
        steps.append({
            "title": title,
            "schemas": [it.read_text() for it in files if NAMES_IN_SUITE.fullmatch(it.name)],
            "modules": [it.read_text() for it in files if not NAMES_IN_SUITE.fullmatch(it.name)],
            "script": (folder / "script.txt").read_text(),
            "rows": int(rows.read_text()) if rows.exists() else 1000000,
        })
    return steps


def filled(module_bytes):
    """The page, with all that it needs in it."""
    parts = {
        "VERSION": html.escape((ROOT / "VERSION").read_text().strip()),
        "STYLE": (PAGE / "page.css").read_text(),
        "LIBRARY": (PAGE / "library.js").read_text(),
        "SCRIPT": (PAGE / "page.js").read_text(),
        "TOUR": json.dumps(tour()).replace("<", "\\u003c"),
        "MODULE": base64.b64encode(module_bytes).decode(),
    }
    return re.sub(r"@([A-Z]+)@", lambda found: parts[found[1]], (PAGE / "index.html.in").read_text())


def main():
    if len(sys.argv) != 2:
        sys.exit("Usage: build_page.py FOLDER")
    lacks = lacking()
    if lacks:
        print("SKIPPED: the page for browsers was not built, for want of " + " and ".join(lacks))
        return
    folder = Path(sys.argv[1])
    folder.mkdir(parents=True, exist_ok=True)
    with tempfile.TemporaryDirectory() as room:
        made = module(Path(room))
    page = folder / "index.html"
    page.write_text(filled(made))
    print(f"{page}: {page.stat().st_size} bytes, of which the module {len(made)} before its base 64")


if __name__ == "__main__":
    if sys.argv[1:2] == ["--compile"]:
        compile_in_place_of(sys.argv[2], sys.argv[3:])
    main()
