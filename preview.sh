#!/bin/sh
# Runs the program unproved, by `rt try`, with the words that are given: some two minutes after a clone, before anything
# is proved.
#
# Usage: preview.sh WORDS..; the words are those of `pulsefarm`. It sees the files that they name, and the standard
# input.
set -eu
top=$(cd "$(dirname "$0")" && pwd)
count=$#

# The file that the word $1 names, maybe behind `@`; nothing where there is none.
file_of() {
  if [ -f "${1#@}" ]; then realpath "${1#@}"; fi
}

# The word $1 as the program gets it: a file has its last name in a folder $2 of its own.
word_of() {
  if [ -z "$(file_of "$1")" ]; then
    echo "$1"
  else
    case $1 in
      @*) echo "@$2/$(basename "${1#@}")" ;;
      *) echo "$2/$(basename "$1")" ;;
    esac
  fi
}

# Behind the words go the flags of `rt try`, then the words as the program gets them; the words themselves go away.
number=0
for word; do
  number=$((number + 1))
  file=$(file_of "$word")
  if [ -n "$file" ]; then set -- "$@" --data "given$number/${file##*/}=$file"; fi
done
set -- "$@" --seconds 600 --
number=0
for word; do
  number=$((number + 1))
  [ "$number" -le "$count" ] || break
  set -- "$@" "$(word_of "$word" "given$number")"
done
shift "$count"
echo "this is pulsefarm unproved, built by rt try in some two minutes: it is for a first look, and sh install.sh proves it" >&2
cd "$top/crates/pulsefarm"
exec rt try "$@"
