# shellcheck shell=sh
# Sourced by the tests that read rows, behind checks.sh, or behind compare.sh to run them. A row is a text file,
# NAME.row:
#
#   $ WORDS           the program's words, as a shell reads them, which has `repeated`; a line that ends in a backslash
#                     goes on in the next
#   --- stdin         behind it what is on standard input; without it there is nothing
#   --- stdout        behind it what has to go out; without it there is nothing
#   --- fronts        in place of it: a line `FIRST LAST TEXT` says that each front of the input with so many bytes is
#                     answered by this line of text
#   --- status N      the status that is wanted
#
# What doesn't end in a line end is behind `--- stdin, no line end at its end`. Bytes that aren't text are in a file of
# their own beside the row, which `--- stdin in NAME.stdin` names.

# The words of the row in the file $1, one on a line.
words_of() {
  eval "set -- $(sed -n '/^--- /q; s/^\$ //; p' "$1")"
  printf '%s\n' "$@"
}

# Takes the row in the file $1 apart, into the files `words`, `stdin`, `stdout`, `status` and maybe `fronts` of the
# folder $2.
take_apart() {
  mkdir -p "$2"
  rm -f "$2"/*
  words_of "$1" > "$2/words"
  : > "$2/stdin"
  : > "$2/stdout"
  beside=$(LC_ALL=C awk -v folder="$2" '
    function end_part() { if (lines && ended) printf "\n" > part }
    /^--- / {
      end_part()
      lines = 0
      ended = !/, no line end at its end$/
      part = $2
      sub(/,$/, "", part)
      part = folder "/" part
      if ($2 == "status") print $3 > part
      if ($3 == "in") print $4
      next
    }
    part { printf "%s%s", lines++ ? "\n" : "", $0 > part }
    END { end_part() }
  ' "$1")
  [ -z "$beside" ] || cp "$(dirname "$1")/$beside" "$2/stdin"
}

# Runs the program under the words of the row that is taken apart in the folder $2, and compares; $1 names the run, $3
# is the input, and $4 has to go out.
compare_words() {
  name=$1 row=$2 input=$3 output=$4
  set --
  while IFS= read -r word; do
    set -- "$@" "$word"
  done < "$row/words"
  compare "$name" "$(cat "$row/status")" "$input" "$output" "$@"
}

# The same for each front of the input that the row $1 names; the row is taken apart in the folder $2.
compare_fronts() {
  while read -r count last text; do
    printf '%s\n' "$text" > "${room:?}/wanted"
    while [ "$count" -le "$last" ]; do
      head -c "$count" "$2/stdin" > "$room/front"
      compare_words "$1, $count bytes" "$2" "$room/front" "$room/wanted"
      count=$((count + 1))
    done
  done < "$2/fronts"
}

# Runs the program on each row of the folder $1, and compares the whole standard output and the status.
compare_rows() {
  for file in "$1"/*.row; do
    take_apart "$file" "$room/row"
    file=$(basename "$file" .row)
    if [ -e "$room/row/fronts" ]; then
      compare_fronts "$file" "$room/row"
    else
      compare_words "$file" "$room/row" "$room/row/stdin" "$room/row/stdout"
    fi
  done
}
