#!/usr/bin/env python3
"""Counts the allocations of a call, from its item of the script to its line of the report.

    bench/allocations.py [--program crates/sqmod/out/sqmod] [--calls 1000]

The rows are those of bench/growth.py. Each is run with n and with 2n calls on tables of as many rows, and a run that fills the
tables alone is taken off; the difference of both, divided by n, is what a call costs. So what is made once counts nothing. A small
C library between the program and `malloc` counts; `cc` compiles it.
"""
import argparse
import os
import subprocess
import sys
import tempfile
from pathlib import Path

from growth import ROWS, SCANS, write_texts

ROOT = Path(__file__).resolve().parent.parent
LIBRARY = """
#include <errno.h>
#include <stdio.h>
#include <stdlib.h>
extern void *__libc_malloc(size_t), *__libc_calloc(size_t, size_t), *__libc_realloc(void *, size_t);
extern void *__libc_memalign(size_t, size_t);
static long made, resized, bytes;
static void count(long *kind, size_t size) { ++*kind; bytes += size; }
void *malloc(size_t size) { count(&made, size); return __libc_malloc(size); }
void *calloc(size_t number, size_t size) { count(&made, number * size); return __libc_calloc(number, size); }
void *realloc(void *old, size_t size) { count(old ? &resized : &made, size); return __libc_realloc(old, size); }
void *aligned_alloc(size_t alignment, size_t size) { count(&made, size); return __libc_memalign(alignment, size); }
int posix_memalign(void **where, size_t alignment, size_t size) {
    count(&made, size);
    *where = __libc_memalign(alignment, size);
    return *where ? 0 : ENOMEM;
}
__attribute__((destructor)) static void tell(void) { fprintf(stderr, "allocations %ld %ld %ld\\n", made, resized, bytes); }
"""
COUNTED = ("INSERT with a key", "UPDATE by key", "DELETE by key", "FETCH", "SELECT INTO by key", "OPEN, FETCH, CLOSE by key",
           "INSERT of a child")
SCAN = f"scan with one test, {SCANS} calls"


def library(room):
    """The compiled library."""
    source, made = Path(room, "count.c"), Path(room, "count.so")
    source.write_text(LIBRARY)
    subprocess.run(["cc", "-shared", "-fPIC", "-O1", "-o", made, source], check=True)
    return made


def counts_of(program, words, made, folder):
    """How many allocations a run makes, how many it resizes, and their bytes."""
    counting = {**os.environ, "LD_PRELOAD": str(made)}
    done = subprocess.run([program, *words], cwd=folder, env=counting, capture_output=True, text=True)
    if done.returncode:
        sys.exit(f"{words} ends with {done.returncode}: {done.stderr}")
    return [int(word) for word in done.stderr.split()[-3:]]


def counts_of_calls(program, row, made):
    """The same of a row's calls alone."""
    with tempfile.TemporaryDirectory() as folder:
        filling, whole = (counts_of(program, words, made, folder) for words in write_texts(row, folder))
        return [all_of_it - before for all_of_it, before in zip(whole, filling)]


def shown(program, name, made, n, times):
    """What a row of bench/growth.py costs for each of n, each of which comes so many times."""
    once, twice = (counts_of_calls(program, ROWS[name](size), made) for size in (n, 2 * n))
    return " | ".join(f"{(large - small) / n / times:.2f}" for small, large in zip(once, twice))


def main():
    parser = argparse.ArgumentParser(description="Counts the allocations of a call.")
    parser.add_argument("--program", default=str(ROOT / "crates/sqmod/out/sqmod"))
    parser.add_argument("--calls", type=int, default=1000)
    options = parser.parse_args()
    program = str(Path(options.program).resolve())
    print("| Call | allocations | resized | bytes |\n|---|---|---|---|")
    with tempfile.TemporaryDirectory() as room:
        made = library(room)
        for name in COUNTED:
            print(f"| {name} | {shown(program, name, made, options.calls, 1)} |", flush=True)
        print(f"| a row that a scan tests | {shown(program, SCAN, made, options.calls, SCANS)} |")


if __name__ == "__main__":
    main()
