# shellcheck shell=sh
# Sourced by the scripts that run the built program and compare what it answers. It sets `program` to $1, else to that
# of the crate `pulsefarm` below `$top`, and has what checks.sh has.
program=${1:-$top/crates/pulsefarm/out/pulsefarm}
if [ ! -x "$program" ]; then
  echo "there is no program $program"
  exit 1
fi
program=$(realpath "$program")
# shellcheck source=tests/checks.sh
. "$top/tests/checks.sh"

# Runs the program under the words from $5 on, on the input $3; $1 names the run, $2 is the status and $4 the whole
# output that are wanted.
compare() {
  name=$1 wanted=$2 input=$3 output=$4
  shift 4
  timeout 120 "$program" "$@" < "$input" > "$room/out" 2> "$room/err"
  status=$?
  if [ "$status" = "$wanted" ] && cmp -s "$room/out" "$output"; then
    pass
  else
    fail "$name: status $status for $wanted, output: $(head -c 300 "$room/out")"
  fi
}

# Hunts from `main` over the file $1 within $2 steps, asked for the property $3, by the seeds $4, with the words from $5
# on; leaves `out`, `err` and `status`.
hunt_over() {
  source=$1 limit=$2 property=$3 seeds=$4
  shift 4
  timeout 300 "$program" hunt "$source" --root main --limit "$limit" --property "$property" --seeds "$seeds" "$@" \
    > "$room/out" 2> "$room/err" < /dev/null
  status=$?
}

# The races of examples/, by the table there: a module, its property and the least seed that fails.
races() {
  sed -n 's/^| `\([a-z_]*\)` | `\([a-z]*\)` | \([0-9]*\) |.*/\1 \2 \3/p' "$top/examples/README.md"
}

# The choices of the report $1, as a schedule.
choices_of() { sed -n 's|^\([0-9]*\)/[0-9]* <.*|\1|p' "$1" | paste -s -d , -; }

# Puts a module into the file $1, which exports $2 and has the functions from $3 on.
write_module() {
  file=$1
  printf -- '-module(m).\n-export([%s]).\n' "$2" > "$file"
  shift 2
  printf '%s\n' "$@" >> "$file"
}
