#!/bin/sh
# Proves and builds the benchmark of this name in a folder of its own, since the gate proves no benchmark, and runs it;
# where a file is named after it, the program is left there and isn't run.
set -eu
top=$(cd "$(dirname "$0")/.." && pwd)
room=$(mktemp -d)
trap 'rm -rf "$room"' EXIT
mkdir -p "$room/crates/bench/src"
cp "$top/HANDLES" "$room/HANDLES"
cp "$top/bench/$1/main.rt.in" "$room/crates/bench/src/main.rt"
cp "$top/bench/$1/crates" "$room/crates.txt"
# The crates of the repository below it have their lines of the repository's own crates.txt.
python3 - "$top" "$top/bench/$1/crates" > "$room/below" << 'END'
import os
import sys
sys.dont_write_bytecode = True
top, crates = sys.argv[1:]
sys.path.insert(0, f"{top}/install")
import order
with open(crates, encoding="utf-8") as file:
    named = file.read().partition(":")[2].split()
sys.stdout.writelines(order.crates_of(top, [it for it in named if os.path.isdir(f"{top}/crates/{it}")]).values())
END
cat "$room/below" >> "$room/crates.txt"
sed 's/[ :].*//' "$room/below" | while read -r crate; do
  cp -a "$top/crates/$crate" "$room/crates/$crate"
done
cd "$room/crates/bench"
rt run > "$room/build.log" 2>&1 || { tail -n 30 "$room/build.log" >&2; exit 1; }
if [ $# -gt 1 ]; then
  mv "$room/crates/bench/out/bench" "$2"
else
  "$room/crates/bench/out/bench"
fi
