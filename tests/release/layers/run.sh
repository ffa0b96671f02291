#!/bin/sh
# Compares what ARCHITECTURE.md and crates.txt say with the crates: what each cites, in which layer it is, and whether
# the functions and definitions that the page names are there (layers.py). Nothing is built or proved.
set -u
top=$(cd "$(dirname "$0")/../../.." && pwd)
exec python3 -B "$top/tests/release/layers/layers.py" "$top"
