#!/bin/sh
# The tests of port/: plain Erlang translated and run, against Erlang itself. Without `erl` they are left out, and said
# to be.
#
# Usage: run.sh [BINARY [CHECK..]]; the program is that of the crate `pulsefarm` where none is named, and all checks are
# run.
set -u
top=$(cd "$(dirname "$0")/../.." && pwd)
program=${1:-$top/crates/pulsefarm/out/pulsefarm}
[ $# = 0 ] || shift
if ! "$top/tests/erlang/erlang.sh"; then
  echo "there is no erl with its sources: the tests of port/ are left out"
  echo "0 passed, 0 failed"
  exit 0
fi
room=$(mktemp -d) || exit 2
trap 'rm -rf "$room"' EXIT
if ! sh "$top/port/build.sh" || ! erlc -Wall -Werror -o "$room" "$top"/port/test/*.erl; then
  echo "0 passed, 1 failed"
  exit 1
fi
checks=$(echo "$@" | tr ' ' ',')
PULSEFARM=$program CHECKS=$top/port/test ROOM=$room TMPDIR=$room \
  erl -noinput -pa "$top/port/ebin" "$room" -eval "checks:main(${checks:+[$checks]})" < /dev/null
