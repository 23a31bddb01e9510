#!/usr/bin/env python3
"""Counts the ways down through crates.txt, and fails where there are more than a limit.

count_ways.py [MOST]: the ways of a crate are one more than the sum of those of its libraries, since `rt` reads a crate's sources
once for each way down to it. Without MOST, prints each crate with its ways; with it, the sum alone, and the status is 1 where
the sum is larger.
"""

import sys
from functools import lru_cache
from pathlib import Path

LIST = Path(__file__).resolve().parent.parent / "crates.txt"


def libraries():
    """The crates of the repository that each crate uses, by its name."""
    lines = [it.partition(":") for it in LIST.read_text().splitlines() if it and not it.startswith("#")]
    uses = {name.split()[0]: rest.split() for name, _, rest in lines}
    return {name: [it for it in used if it in uses] for name, used in uses.items()}


def main():
    uses = libraries()

    @lru_cache(None)
    def ways(name):
        return 1 + sum(ways(it) for it in uses[name])

    total = sum(map(ways, uses))
    if len(sys.argv) == 1:
        for name in sorted(uses, key=ways):
            print(f"{ways(name):7} {name}")
    print(f"{total} ways down through crates.txt, {len(uses)} crates")
    if len(sys.argv) > 1 and total > int(sys.argv[1]):
        sys.exit(f"count_ways: at most {sys.argv[1]} are allowed: join crates, or drop libraries that no file needs")


if __name__ == "__main__":
    main()
