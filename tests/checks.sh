# shellcheck shell=sh
# Sourced by the tests. It makes the folder `$room`, and counts in `passed` and `failed`.
room=$(mktemp -d) || exit 2
trap 'rm -rf "$room"' EXIT
passed=0
failed=0

# Counts a check that passed.
pass() { passed=$((passed + 1)); }

# Counts a check that failed, and says so in the words $@.
fail() {
  failed=$((failed + 1))
  echo "$*"
}

# Counts whether the text $2 is the text $3, which is wanted; $1 names the check.
same() {
  if [ "$2" = "$3" ]; then pass; else fail "$(printf '%s:\n  wanted: %s\n  got:    %s' "$1" "$3" "$2")"; fi
}

# Counts the check $1, which passed where its status $2 is 0; else what was last printed on both streams is shown.
note() {
  if [ "$2" = 0 ]; then
    pass
  else
    fail "$1:"
    printf '%s\n' "$(head -qc 300 "$room/out" "$room/err")"
  fi
}

# Prints the counts, and says whether something ran and nothing failed.
tell_counts() {
  echo "$passed passed, $failed failed"
  [ "$failed" = 0 ] && [ "$passed" != 0 ]
}

# Builds the library $1, which is laid before a program, of the source $2.
build_library() { cc -O2 -shared -fPIC -o "$1" "$2" -ldl || exit 1; }

# The text $1, so many times.
repeated() { awk -v text="$1" -v count="$2" 'BEGIN { for (i = 0; i < count; i++) printf "%s", text }'; }
