#!/bin/sh
# Times install.sh on a machine where nothing is proved yet, beside the longest chain of its crates, one after another
# at one job. It prints a table, and fails where the whole takes over 1.15 times the chain's own time on four processors
# or more. On an idle machine it takes the time of both, two to three hours.
#
# Nothing that was proved before counts: both run by a copy of the kit, which keeps what it proves beside itself. What
# was kept of a crate of the chain is laid aside, and it is proved again over the libraries that the whole run left;
# what `rt` takes to find these is measured by a second call and left out.
#
# Usage: install.sh [FOLDER]; the copies are in FOLDER, which stays, or else in a folder of their own, which goes. They
# want some 10 GB, and
# 18 more where the kit is on another file system.
set -eu
top=$(cd "$(dirname "$0")/.." && pwd)
if [ $# = 0 ]; then
  room=$(mktemp -d)
  trap 'rm -rf "$room"' EXIT
else
  mkdir -p "$1"
  room=$(cd "$1" && pwd)
fi
kit=$(dirname "$(dirname "$(realpath "$(command -v rt)")")")
# (by links where both are on one file system: the kit is large)
[ -d "$room/kit" ] || cp -al "$kit" "$room/kit" 2> /dev/null || { rm -rf "$room/kit"; cp -a "$kit" "$room/kit"; }
export PATH="$room/kit/bin:$PATH"
if [ "$(realpath "$(command -v rt)")" != "$room/kit/bin/rt" ]; then
  echo "bench/install.sh: the copy of the kit isn't the one that is taken" >&2
  exit 2
fi
unset RT_JOBS
rm -rf "$room/rattle-kept" "$room/tree"
# (the tree as it is, with what isn't committed)
git init -q "$room/tree"
(cd "$top" && git ls-files -co --exclude-standard -z | tar --null --ignore-failed-read -T - -c 2> /dev/null) | tar -C "$room/tree" -x

# Seconds of the words.
seconds() {
  start=$(date +%s%N)
  "$@" > "$room/log" 2>&1 || { tail -n 30 "$room/log" >&2; exit 1; }
  echo $((($(date +%s%N) - start) / 1000000)) | awk '{ printf "%.1f", $1 / 1000 }'
}

# The crates of the longest chain by the table, lowest first.
chain() {
  python3 - "$top" << 'END'
import sys
sys.dont_write_bytecode = True
sys.path.insert(0, f"{sys.argv[1]}/install")
import order
crates = order.crates_of(sys.argv[1], ["pulsefarm"])
below, seconds = order.below_of(crates), order.seconds_of(crates)
chains, at, left = order.chains_of(set(crates), below, seconds), None, set(crates)
while left:
    at = max(left, key=chains.get)
    print(at)
    left = {it for it in crates if at in below[it]}
END
}

whole=$(seconds env PREFIX="$room/prefix" sh "$room/tree/install.sh")
echo "| what | minutes |"
echo "|---|---|"
echo "$whole" | awk '{ printf "| install.sh, side by side | %.1f |\n", $1 / 60 }'
sum=0
for crate in $(chain); do
  mkdir -p "$room/aside"
  mv "$room"/rattle-kept/proof-"$crate"-* "$room/aside"
  proof=$(cd "$room/tree" && seconds env RT_JOBS=1 rt ci "$crate")
  rm -rf "$room"/rattle-kept/proof-"$crate"-*
  mv "$room"/aside/* "$room/rattle-kept"
  again=$(cd "$room/tree" && seconds env RT_JOBS=1 rt ci "$crate")
  echo "$proof $again" | awk -v crate="$crate" '{ printf "| %s alone | %.1f |\n", crate, ($1 - $2) / 60 }'
  sum=$(echo "$sum $proof $again" | awk '{ print $1 + $2 - $3 }')
done
echo "$whole $sum" | awk -v processors="$(nproc)" '
  { printf "| the chain, one after another | %.1f |\n", $2 / 60
    printf "| the whole by the chain | %.2f |\n", $1 / $2
    exit processors >= 4 && $1 > 1.15 * $2 }'
