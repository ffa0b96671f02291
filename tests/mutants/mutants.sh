#!/usr/bin/env bash
# Tries mutants: each edit of crates/NAME/mutants/ changes what a function means, and the prover has to refuse the
# crate with it. (One in crates/NAME/must-fail/ is tried by each `rt ci` too, which costs that crate a second proof.)
#
#   mutants.sh apply       prints the edits that can't be applied, and fails where there are any
#   mutants.sh due         prints which mutants are due, and why; tries nothing
#   mutants.sh             tries those that are due
#   mutants.sh all         tries those of every crate
#   mutants.sh NAME..      tries those of these crates
#   mutants.sh lay FOLDER  makes a clone in FOLDER in which those that are due are in must-fail/, for `rt ci`
#   mutants.sh read LOG [FOLDER]
#                          takes from the output of `rt ci` in such a clone what was refused: of those that were laid in
#                          FOLDER, or else of those that are due now
#
# A crate has a sum: of its sources, specs and proofs without comments and layout, its edits, the flags of its line of
# crates.txt, and the kit's logic. Each edit has one too, of what decides below its crate whether it is refused: of what
# is reached by name from the contract and the body of the function that it changes, from its new texts, from the Models
# in that file and from the contracts of what is called. Definitions count, and in src/ what is declared and each
# contract, but no body of a function. An edit that changes anything but the body of a function has all that the
# sources, specs and edits of its crate reach. No sum depends on where a checkout is.
#
# Where the sum of a crate changed, all its edits are due; but a gate takes no more than MOST_CHANGED edits of changed
# crates, 4 a processor: crates go whole, new ones first and then those that were seen the longest ago, and the others
# wait. Of other crates those edits are due whose own sums changed, the ones first that were seen the longest ago, until
# MOST_EDITS (16) are due with those of changed crates. Where there is room among these, all edits of the TURNS (2)
# crates that were seen the longest ago are due in turn.
#
# What was seen refused is noted on the machine, beside what `rt ci` keeps: in the folder rattle-kept-pulsefarm beside
# that of the kit, or where that can't be written in $XDG_STATE_HOME/pulsefarm (~/.local/state/pulsefarm). So each
# checkout on the machine knows what all others saw. Its file `refused` has a line for an edit and a state in which it
# was refused: its crate and name, the sum of its crate, its own sum, and the second at which it was seen. Where there
# is no such folder all edits stay due as new. A crate with an edit that can't be read, or isn't refused, loses its
# lines, and the run fails. A refusal at no goal of a source, for a name that a proof file has, say, shows nothing of a
# contract: a mutant that no line names fails the run with it, and another isn't noted and stays due until it is
# changed.
#
# LANES (the processors) is how many crates are tried at once.
set -uo pipefail
export LC_ALL=C
top=$(cd "$(dirname "$0")/../.." && pwd)
cd "$top" || exit 2
room=$(mktemp -d) || exit 2
trap 'rm -rf "$room"' EXIT
trap 'exit 130' INT TERM HUP

fail() {
  echo "mutants.sh: $*" >&2
  exit 2
}

# Says what is due and notes what was refused (tests/mutants/due.py).
says() {
  KIT=$kit python3 -B tests/mutants/due.py "$top" "$@"
}

kit=$(rt version) || fail "there is no rt"
# (what refuses a mutant is the kit's logic, which comes after its name: kits of one logic see the same)
kit=${kit#* }

# The crates, in the order of crates.txt.
crates() {
  sed -n 's/^\([a-z][a-z0-9_]*\).*:.*/\1/p' crates.txt
}

is_crate() {
  crates | grep -qx "$1"
}

# The crates of the repository that the line of $1 names. (A build of them builds those below them.)
cited() {
  sed -n "s/^$1\( [^:]*\)\{0,1\}://p" crates.txt | tr ' ' '\n' | while read -r name; do
    if is_crate "$name"; then echo "$name"; fi
  done
}

# Copies the files of the repository, as they are here, into the folder $1.
clone() {
  git init -q "$1" || fail "no clone can be made in $1"
  git ls-files -co --exclude-standard -z | while IFS= read -r -d '' file; do
    if [ -e "$file" ]; then printf '%s\0' "$file"; fi
  done | tar --null -T - -cf - | tar -xf - -C "$1" || fail "no clone can be made in $1"
}

# Prints the lines of the plan $1 that are to be tried.
to_try() {
  grep -vE ' (seen|waits|later)$' "$1"
}

# Moves the mutants that the plan $2 tries into must-fail/ of the clone $1.
lay_out() {
  to_try "$2" | while read -r crate edit _; do
    folder=$1/crates/$crate
    mkdir -p "$folder/must-fail"
    if [ -e "$folder/mutants/$edit" ]; then mv "$folder/mutants/$edit" "$folder/must-fail/"; fi
  done
}

# Tries the mutants of crate $1 in the clone; the output goes to a file.
try() {
  (cd "$room/clone" && rt must-fail "$1") > "$room/log.$1" 2>&1
  echo "$1: tried"
}
export -f try
export room

# Has the crates below those that are tried built in the clone, over what out/ has kept here, so that no two lanes
# build one.
build_below() {
  for name in $(crates); do
    for part in rlib incremental; do
      [ -d "crates/$name/out/$part" ] || continue
      mkdir -p "$room/clone/crates/$name/out"
      cp -a "crates/$name/out/$part" "$room/clone/crates/$name/out/$part"
    done
  done
  for name in $(for tried in "$@"; do cited "$tried"; done | sort -u); do
    (cd "$room/clone/crates/$name" && rt lib) > "$room/build.log" 2>&1 || {
      tail -n 20 "$room/build.log" >&2
      fail "$name is not built"
    }
  done
}

# Tries the mutants of the plan $1, the longest work first, and notes what was refused.
try_all() {
  mapfile -t chosen < <(to_try "$1" | cut -d' ' -f1 | uniq)
  if [ "${#chosen[@]}" -gt 0 ]; then
    clone "$room/clone"
    lay_out "$room/clone" "$1"
    build_below "${chosen[@]}"
  fi
  for name in "${chosen[@]}"; do
    echo "$(($(to_try "$1" | grep -c "^$name ") * $(cat "crates/$name/src/"*.rt | wc -l))) $name"
  done | sort -rn | cut -d' ' -f2 | xargs -r -P "${LANES:-$(nproc)}" -I{} bash -c 'try "$1"' _ {}
  says note "$1" "${chosen[@]/#/$room/log.}"
}

# Makes the plan for the crates $@, or for those that are due, and prints it.
make_plan() {
  for name in "$@"; do is_crate "$name" || fail "crates.txt lists no crate $name"; done
  says plan "$room/plan" "$@" || fail "no plan was made"
}

case "${1:-}" in
apply) says apply ;;
due) make_plan ;;
lay)
  make_plan
  clone "$2"
  lay_out "$2" "$room/plan"
  cp "$room/plan" "$2/.git/mutants.plan"
  ;;
read)
  if [ -n "${3:-}" ]; then cp "$3/.git/mutants.plan" "$room/plan" || fail "nothing was laid in $3"; else make_plan; fi
  says note "$room/plan" "$2"
  ;;
all) mapfile -t every < <(crates) && make_plan "${every[@]}" && try_all "$room/plan" ;;
"") make_plan && try_all "$room/plan" ;;
*) make_plan "$@" && try_all "$room/plan" ;;
esac
