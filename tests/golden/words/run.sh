#!/bin/sh
# Gives the program the words of `cases`, beside this script, and compares the status and the whole standard error: how
# words are refused, and at which values of an option that begins and ends. Nothing goes out with a refusal.
#
# Usage: run.sh [BINARY]; the program is that of the crate `pulsefarm` where none is named.
set -u
words=$(cd "$(dirname "$0")" && pwd)
top=$words/../../..
# shellcheck source=tests/compare.sh
. "$top/tests/compare.sh"
cd "$room" || exit 2

# Runs the program under these words; leaves `out`, `err` and `status`.
run() {
  timeout 60 "$program" "$@" < /dev/null > out 2> err
  status=$?
}

# Checks that the words from $2 on are taken; $1 names them.
taken() {
  name=$1
  shift
  run "$@"
  [ "$status" = 0 ] && [ ! -s err ]
  note "$name: status $status for 0" $?
}

# Checks that the words from $3 on are refused with the usage of their command, where the first line says $2; $1 names
# them.
refused() {
  printf "pulsefarm: %b\n\nUsage: pulsefarm %s\n\nFor more information, try '--help'.\n" "$2" "$usage" > wanted
  name=$1
  shift 2
  run "$@"
  [ "$status" = 2 ] && [ ! -s out ] && cmp -s err wanted
  note "$name: status $status for 2" $?
}

# Checks that the words from $3 on are refused as the command has no word $2; $1 names them.
unknown() {
  name=$1 word=$2
  shift 2
  run "$@"
  [ "$status" = 2 ] && [ ! -s out ] && [ "$(head -n 1 err)" = "pulsefarm: unexpected argument '$word' found" ]
  note "$name: status $status for 2" $?
}

# Checks each value of $2, as a shell reads them, of the option after the words: it is refused or taken, as $1 says.
values() {
  key=$1
  eval "set -- $2"
  for value in "$@"; do
    eval "set -- $given"
    set -- "$@" "${option%% *}=$value"
    case $key in
      wrong) refused "$*" "invalid value '$value' for '$option': it wants $wants" "$@" ;;
      right) taken "$*" "$@" ;;
    esac
  done
}

# Carries out a line of `cases`: the key $1 and what follows it.
line() {
  case $1 in
    '' | '#') ;;
    usage) usage=$2 ;;
    words) given=$2 ;;
    option) option=$2 ;;
    wants) wants=$2 ;;
    wrong | right) values "$1" "$2" ;;
    taken) eval "taken \"\$given\" $given" ;;
    says) eval "refused \"\$given\" \"\$2\" $given" ;;
    unknown) eval "unknown \"\$given\" \"\$2\" $given" ;;
    *) note "no line of cases begins with $1" 1 ;;
  esac
}

printf -- '-module(m).\n-export([main/0]).\nmain() -> true.\n' > m.erl
: > nothing
while read -r key rest; do
  line "$key" "$rest"
done < "$words/cases"
cd /
tell_counts
