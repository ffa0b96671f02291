#!/bin/sh
# Runs the program on each row beside this script, NAME.row, and compares the whole standard output and the status.
# tests/rows.sh says how a row is written.
#
# Usage: run.sh [BINARY]; the program is that of the crate `pulsefarm` where none is named.
set -u
here=$(cd "$(dirname "$0")" && pwd)
top=$here/../../..
# shellcheck source=tests/compare.sh
. "$top/tests/compare.sh"
# shellcheck source=tests/rows.sh
. "$top/tests/rows.sh"
compare_rows "$here"
tell_counts
