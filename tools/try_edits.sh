#!/usr/bin/env bash
# Tries the wrong bodies of crates (docs/inside/EDITS.md) and writes their stamps: those with no stamp of today's texts or, with
# --all, each. Names of crates as arguments: only theirs are tried.
set -euo pipefail
exec python3 "$(dirname "$(readlink -f "$0")")/edit_trials.py" "$@"
