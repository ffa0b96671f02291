#!/bin/sh
# Proves `pulsefarm` (install/prove.py) and builds it, puts a link to it where programs are looked for, and runs the
# main job: the report of a module whose `main` is `1 + 2 * 3`. The link goes into the folder $PREFIX/bin if PREFIX is
# set, else into /usr/local/bin if that can be written, else into ~/.local/bin. What it is at goes to standard error.
# Where Erlang is there, `pulsefarm-erl` is built and linked too.
set -eu
top=$(cd "$(dirname "$0")" && pwd)
program="$top/crates/pulsefarm"
if [ -n "${PREFIX:-}" ]; then
  folder="$PREFIX/bin"
elif [ -w /usr/local/bin ]; then
  folder=/usr/local/bin
else
  folder="$HOME/.local/bin"
fi
python3 "$top/install/prove.py" "$top"
mkdir -p "$folder"
ln -sf "$program/out/pulsefarm" "$folder/pulsefarm"
if command -v erlc > /dev/null; then
  sh "$top/port/build.sh"
  ln -sf "$top/port/pulsefarm-erl" "$folder/pulsefarm-erl"
else
  echo "there is no erl: pulsefarm-erl, which takes plain Erlang, is left out (Debian's erlang-base, erlang-syntax-tools, erlang-src)" >&2
fi
case ":$PATH:" in
  *":$folder:"*) ;;
  *) echo "pulsefarm is in $folder, which isn't on the path" >&2 ;;
esac
"$folder/pulsefarm" run --root main --limit 1000 --schedule none < "$program/stdin"
