#!/bin/sh
# No line of a source, a definition, a proof, a page or a comment of a script passes 120 columns (columns.py). Nothing
# is built or proved.
set -u
top=$(cd "$(dirname "$0")/../../.." && pwd)
exec python3 -B "$top/tests/release/columns/columns.py" "$top"
