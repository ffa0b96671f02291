#!/bin/sh
# Runs the program at its edges: files and their names, words, streams that are closed, full or end, a client on a pipe
# that waits for each reply, a terminal, the deepest sources on 1 MiB of stack, a quarter of what the program takes, and
# long inputs.
#
# Usage: run.sh [BINARY]; the program is that of the crate `pulsefarm` where none is named.
set -u
edges=$(cd "$(dirname "$0")" && pwd)
top=$edges/../../..
# shellcheck source=tests/compare.sh
. "$top/tests/compare.sh"
# shellcheck source=tests/rows.sh
. "$top/tests/rows.sh"
cd "$room" || exit 2
chmod 755 "$room"

# Counts a test: $1 names it, and the words from $2 on hold or not.
check() {
  name=$1
  shift
  if "$@"; then
    pass
  else
    fail "$name: not so: $*; status ${status:-none}, output: $(head -c 200 out), errors: $(head -c 400 err)"
  fi
}

# Runs the program under these words on the input `in`; leaves `out`, `err` and `status`.
run() {
  timeout 60 "$program" "$@" < in > out 2> err
  status=$?
}

# Checks that the run before ended with status $2, the output $3 and the errors $4, each with its line ends; $1 is its
# name.
ended() {
  printf -- "$3" > wanted
  printf -- "$4" > wanted_errors
  check "$1" test "$status" = "$2"
  check "$1" cmp -s out wanted
  check "$1" cmp -s err wanted_errors
}

module='-module(m).\n-export([main/0]).\nmain() -> 1 + 2 * 3.\n'
report='0/1 <0> end normal\nfinished 7\nsteps 4\nproperty holds\n'
asked='--root main --limit 1000 --schedule none'
no_text="a name that isn't UTF-8 can't be opened; give the file as standard input\n"

# The words in `$asked` have no blanks in them.
# shellcheck disable=SC2086
files() {
  : > in
  printf -- "$module" > m.erl
  printf 'usage 0\n' > commands
  run run m.erl $asked
  ended 'run of a file' 0 "$report" ''
  run steps commands
  ended 'steps of a file' 0 'p0 usage 0 0 0 0 0\n' ''
  take_apart "$top/tests/golden/rows/run_quotient_by_zero.row" row
  run run row/stdin $asked
  ended 'run of a file whose root does not return' 1 "$(cat row/stdout)\n" ''
  odd=$(printf 'm\377\001.erl')
  cp m.erl "$odd"
  run run "$odd" $asked
  ended 'file whose name is no UTF-8' 2 '' "pulsefarm: m\\\\xff\\\\x01.erl: $no_text"
  cp "$odd" in
  run run $asked
  ended 'the same file as standard input' 0 "$report" ''
  cp m.erl ./--limit
  run run $asked -- --limit
  ended 'file that is named as an option' 0 "$report" ''
  cp m.erl in
  run run - $asked
  ended 'standard input by -' 0 "$report" ''
  cp commands in
  run steps -
  ended 'standard input of steps by -' 0 'p0 usage 0 0 0 0 0\n' ''
  cp m.erl ./-
  : > in
  run steps ./-
  ended 'file that is named -' 2 'command 1 refused C1\n' \
    "pulsefarm: command 1 is none: no command begins with \`-module(m).\`; $unread"
}

unread='those before it were answered, and nothing after it was read\n'

# A line that is no command, $1, is reported by its number and this reason, $2.
no_command() {
  printf 'usage 0\n%b\nusage 0\n' "$1" > in
  run steps
  ended "no command: $1" 2 'p0 usage 0 0 0 0 0\ncommand 2 refused C1\n' "pulsefarm: command 2 is none: $2; $unread"
}

lines_that_are_no_command() {
  small='it wants a number from 0 to 4294967295 without leading zeros'
  no_command '' 'the line is empty'
  no_command 'usage 0\r' 'the line ends in a carriage return, and a line feed alone ends a line'
  no_command 'usag 0' 'no command begins with `usag`'
  no_command ' usage 0' 'no command begins with ``'
  no_command 'usage' '`P` is missing: `usage` wants `P` after it'
  no_command 'fetch 0' '`T` is missing: `fetch` wants `P T` after it'
  no_command 'fetch 0 x' "\`x\` is no \`T\` of \`fetch\`: $small"
  no_command 'fetch 0 01' "\`01\` is no \`T\` of \`fetch\`: $small"
  no_command 'fetch 0 1 2' 'it has too many words: `fetch` wants `P T` after it'
  no_command 'slice 0 0 1 0' \
    '`0` is no `TURNS` of `slice`: it wants a number from 1 to 4294967295 without leading zeros'
  no_command 'order 0 1 main true seed:1:2 9' \
    '`seed:1:2` is no `CHOICES` of `order`: it wants `seed:N`, `seed:N:R:D`, `none` or numbers with commas between them'
  no_command 'shrink 0 1 main true 1,,2 9 9' \
    '`1,,2` is no `LIST` of `shrink`: it wants `none` or numbers with commas between them'
  no_command 'order 0 1  true none 9' \
    '`` is no `ROOT` of `order`: it wants a word without tabulators and carriage returns'
  no_command 'submit 0 99' 'the source of as many bytes, and a line end, don'\''t follow `submit`'
}

# As many bytes as are read, of one submission, and a line after them.
more_than_is_read() {
  { printf 'submit 0 67108846\n'; head -c 67108846 /dev/zero; printf '\nusage 0\n'; } > in
  run steps
  ended 'more than is read' 0 'p0 refused Q2\n' \
    "pulsefarm: 67,108,864 bytes of commands were read, and what follows them isn't\n"
}

missing='No such file or directory (os error 2)\n'

# shellcheck disable=SC2086
files_that_are_not_read() {
  : > in
  run run missing.erl $asked
  ended 'missing file' 2 '' "pulsefarm: missing.erl: $missing"
  run steps missing
  ended 'missing file of steps' 2 '' "pulsefarm: missing: $missing"
  mkdir folder
  run run folder $asked
  ended 'folder' 2 '' 'pulsefarm: folder: Is a directory (os error 21)\n'
  run steps folder
  ended 'folder of steps' 2 '' 'pulsefarm: folder: Is a directory (os error 21)\n'
  run steps "$(printf 'a\nb\033\377\303\251')"
  ended 'odd bytes in a name that is no UTF-8' 2 '' "pulsefarm: a\\\\x0ab\\\\x1b\\\\xff\\\\xc3\\\\xa9: $no_text"
  run steps "$(printf 'a\nb\177\303\251')"
  ended 'odd bytes in a name that is text' 2 '' "pulsefarm: a\\\\x0ab\\\\x7f\\303\\251: $missing"
  run steps ''
  ended 'empty name' 2 '' "pulsefarm: : $missing"
  printf -- "$module" > secret.erl
  chmod 000 secret.erl
  # No file is unreadable to root.
  if [ "$(id -u)" = 0 ]; then
    cp "$program" ./program
    setpriv --reuid=65534 --regid=65534 --clear-groups ./program run secret.erl $asked < in > out 2> err
    status=$?
  else
    run run secret.erl $asked
  fi
  ended 'unreadable file' 2 '' 'pulsefarm: secret.erl: Permission denied (os error 13)\n'
  timeout 60 "$program" steps < folder > out 2> err
  status=$?
  ended 'standard input that is a folder' 2 '' "pulsefarm: the input can't be read: Is a directory (os error 21)\n"
}

more="\nFor more information, try '--help'.\n"

# How words are refused is in `tests/golden/words`; here is a refusal without a usage, and what is no text.
words() {
  : > in
  run run --root main --limit 5 --seed 7 --property
  ended 'property without a value' 2 '' \
    "pulsefarm: a value is required for '--property <P>' but none was supplied\n$more"
  run steps "$(printf -- '--\033[1m\377')"
  check 'odd bytes in a word' test "$status" = 2
  check 'odd bytes in a word' grep -qF -e '--\x1b[1m\xff' err
  check 'odd bytes in a word' sh -c '! LC_ALL=C grep -q "[[:cntrl:]]" err'
  for name in "$(printf '\377\033')" ''; do
    bash -c 'exec -a "$1" "$2" --version' bash "$name" "$program" < in > out 2> err
    status=$?
    ended "program called '$name'" 0 'pulsefarm 0.1.0\n' ''
  done
}

# Checks a run whose output can't be written: $1 names it, $2 is why not.
unwritten() { ended "$1" 2 '' "pulsefarm: the output can't be written: $2\n"; }

# shellcheck disable=SC2086
streams() {
  : > out
  printf -- "$module" > m.erl
  for words in "run m.erl $asked" "chart m.erl $asked" "hunt m.erl --root main --limit 9 --property true --seeds 0..9" \
    'steps commands' --help --version 'run --help' 'hunt --help'; do
    timeout 60 "$program" $words > /dev/full 2> err
    status=$?
    unwritten "$words to a full disk" 'No space left on device (os error 28)'
    timeout 60 "$program" $words >&- 2> err
    status=$?
    unwritten "$words to a closed output" 'Bad file descriptor (os error 9)'
  done
  # A reader that is gone from the start.
  for words in "run m.erl $asked" 'steps commands' --help; do
    { sleep 0.2; timeout 60 "$program" $words 2> err; echo $? > told; } | :
    status=$(cat told)
    ended "$words to a pipe that nobody reads" 141 '' ''
  done
  repeated 'usage 0
' 300000 > many
  { timeout 60 "$program" steps many 2> err; echo $? > told; } | head -n 1 > out
  status=$(cat told)
  ended 'steps | head -1' 141 'p0 usage 0 0 0 0 0\n' ''
  timeout 60 "$program" steps <&- > out 2> err
  status=$?
  ended 'closed input' 2 '' "pulsefarm: the input can't be read: Bad file descriptor (os error 9)\n"
}

# Sends the text $2 on the pipe, and checks that the reply $3 comes while the pipe stays open; $1 is its name.
says() {
  printf -- "$2" >&3
  timeout 5 sh -c 'IFS= read -r line <&4 && printf "%s\n" "$line"' > out
  status=$?
  printf '%s\n' "$3" > wanted
  check "reply to $1" cmp -s out wanted
}

# Sends the text $2 on the pipe, and checks that no reply comes for a while.
waits() {
  printf -- "$2" >&3
  timeout 0.5 sh -c 'IFS= read -r line <&4 && printf "%s\n" "$line"' > out
  status=$?
  check "nothing said to $1" test "$status" = 124
}

client_that_waits() {
  mkfifo to from
  "$program" steps < to > from 2> err &
  worker=$!
  trap '' PIPE
  exec 3> to 4< from
  says usage 'usage 1\n' 'p1 usage 0 0 0 0 0'
  waits 'a line without its end' 'usage '
  says 'the rest of the line' '1\n' 'p1 usage 0 0 0 0 1'
  waits 'a submission without its source' 'submit 1 52\n'
  waits 'a source in part' '-module(m).\n'
  waits 'a source without a line end' '-export([main/0]).\nmain() -> 1 + 2 * 3.\n'
  says 'the line end' '\n' 'p1 module 1'
  says order 'order 1 1 main returns none 1000\n' 'p1 ticket 1'
  says claim 'claim 0 1 1\n' 'w0 done'
  says slice 'slice 0 1 1 100\n' 'w0 done'
  says 'two commands at once' 'claim 3 1 1\nusage 2\n' 'w3 not now N2'
  says 'nothing more' '' 'p2 usage 0 0 0 0 0'
  waits 'a last line without its end' 'usage 2'
  exec 3>&-
  timeout 5 cat <&4 > out
  exec 4<&-
  trap - PIPE
  wait "$worker"
  status=$?
  ended 'the last line, once the input has ended' 0 'p2 usage 0 0 0 0 1\n' ''
}

# The progress of a shrinking is shown on standard error where that is a terminal, and makes no difference to the
# output.
# shellcheck disable=SC2086
progress() {
  : > in
  printf -- '-module(m).\n-export([main/0]).\nmain() -> receive x -> ok end.\n' > m.erl
  words="shrink m.erl --root main --limit 1000 --schedule $(repeated 0, 299)0 --property nodeadlock --runs 1000"
  found='schedule none\ncomplete\n0/1 <0> wait\ndeadlock <0>\nsteps 2\nproperty fails\n'
  told='\r0 of 1000 runs, 300 numbers\033[K\r256 of 1000 runs, 45 numbers\033[K\r\033[K'
  run $words
  ended 'shrinking without a terminal' 1 "$found" ''
  script -qec "timeout 60 '$program' $words < in > out" /dev/null < in > err
  status=$?
  ended 'shrinking with errors on a terminal' 1 "$found" "$told"
  : > err
  script -qec "timeout 60 '$program' $words < in" /dev/null < in > out
  status=$?
  ended 'shrinking on a terminal' 1 "$told$(printf %s "$found" | sed 's/\\n/\\r\\n/g')" ''
  for words in "run m.erl $asked" "shrink m.erl $asked --property never --runs 5"; do
    script -qec "timeout 60 '$program' $words < in > out" /dev/null < in > err
    check "$words tells no progress on a terminal" test -z "$(grep -v '^pulsefarm: ' err)"
  done
}

# The progress of a hunt is shown there too, in numbers that no test knows.
# shellcheck disable=SC2086
progress_of_a_hunt() {
  : > in
  words='hunt m.erl --root main --limit 1000 --property true --seeds 0..60000'
  printf -- '-module(m).\n-export([main/0]).\nmain() -> true.\n' > m.erl
  run $words
  ended 'hunt without a terminal' 0 'no failure in 60000 seeds\n' ''
  script -qec "timeout 60 '$program' $words < in > out" /dev/null < in > err
  status=$?
  printf 'no failure in 60000 seeds\n' > wanted
  check 'hunt with errors on a terminal' test "$status" = 0
  check 'hunt with errors on a terminal' cmp -s out wanted
  check 'hunt tells its seeds on a terminal' \
    grep -qE "^$(printf '\r')[0-9]+ of 60000 seeds, [0-9]+ seeds/s, [0-9]+ s left, 0 failures$(printf '\033')\[K" err
  check 'hunt empties its line' test "$(tail -c 4 err)" = "$(printf '\r\033[K')"
}

# Schedules that are in files, by themselves and in reports.
# shellcheck disable=SC2086
schedules_in_files() {
  : > in
  printf -- '-module(m).\n-export([main/0, server/0]).\nmain() -> spawn(m, server, []), server ! hello.\n' > m.erl
  printf -- 'server() -> register(server, self()), receive hello -> ok end.\n' >> m.erl
  words='run m.erl --root main --limit 1000'
  run $words --schedule 0,1
  cp out first
  check 'schedule by itself' test "$status" = 0
  printf '0,1\n' > schedule
  run $words --schedule @schedule
  check 'schedule in a file' cmp -s out first
  run $words --schedule=@schedule
  check 'schedule in a file, in one word' cmp -s out first
  printf 'seed 3\nschedule 7,7\nschedule 0,1\ncomplete\n0/1 <0> spawn <1>\n' > 'a report'
  run $words --schedule '@a report'
  check 'last schedule of a report' cmp -s out first
  run hunt m.erl --root main --limit 1000 --property returns --seeds 0..1000
  check 'hunt' test "$status" = 1
  cp out schedule
  tail -n +4 out > first
  run $words --schedule @schedule
  check 'schedule of a hunt' cmp -s out first
  { printf '0,1'; repeated ,4294967295 99998; } > schedule
  run $words --schedule @schedule
  check 'schedule that no command line can hold' test "$status" = 0
  printf ',1\n' >> schedule
  run $words --schedule @schedule
  ended 'schedule of a number too many' 2 'B6\n' 'pulsefarm: the schedule has 100001 numbers: it has at most 100,000\n'
  printf '0,1\n,1\n' > schedule
  run $words --schedule @schedule
  ended 'schedule with a line end within' 2 '' \
    'pulsefarm: the file schedule holds no schedule: its first line is `0,1`\n'
  printf 'E5 at 41\n' > schedule
  run $words --schedule @schedule
  ended 'refusal in place of a schedule' 2 '' \
    'pulsefarm: the file schedule holds no schedule: its first line is `E5 at 41`\n'
  run $words --schedule @missing
  ended 'missing file of a schedule' 2 '' "pulsefarm: missing: $missing"
  run run --help
  cp out first
  run $words --schedule @missing --help
  check 'help before a missing file of a schedule' test "$status" = 0
  check 'help, whichever file a schedule names' cmp -s out first
  run run m.erl --root main --limit none --schedule @missing
  check 'a refused word before a missing file of a schedule' test "$status" = 2
  check 'a refused word, whichever file a schedule names' grep -q "invalid value 'none' for '--limit <N>'" err
  mkdir -p folder
  run $words --schedule=@folder
  ended 'folder of a schedule' 2 '' 'pulsefarm: folder: Is a directory (os error 21)\n'
  run $words --schedule "$(printf '@\377')"
  ended 'schedule in a file whose name is no UTF-8' 2 '' "pulsefarm: \\\\xff: $no_text"
}

# Why a status is 2, on standard error, of each code.
# shellcheck disable=SC2086
reasons() {
  : > in
  printf -- "$module" > m.erl
  source='pulsefarm: the source is refused at line'
  roots='name one that it exports, `main`'
  printf -- '-module(m).\n-export([main/0]).\nmain() -> fun() -> 1 end.\n' > fun.erl
  fun='There are no funs here: write a function with a name, and give it what the fun takes from around it.'
  stands='To hunt plain Erlang as it stands: pulsefarm-erl hunt FILE'
  run run fun.erl $asked
  ended 'refused source' 2 'E5 at 41\n' "$source 3, column 11: $fun $stands\n"
  run check fun.erl
  ended 'refused source of a check' 2 'E5 at 41\n' "$source 3, column 11: $fun $stands\n"
  run check --explain fun.erl
  check 'refused source that is explained' test "$(cat err)" = "pulsefarm: the source is refused. $stands"
  printf -- '-module(m).\n-export([main/0]).\nmain() -> f().\n' > none.erl
  run check --explain none.erl
  check 'refused source without an example' test "$(cat err)" = 'pulsefarm: the source is refused.'
  run run m.erl --root mian --limit 5 --schedule none
  ended 'unknown root' 2 'B2\n' "pulsefarm: the module exports no function \`mian\` without arguments: $roots\n"
  printf -- '-module(m).\nmain() -> 1.\n' > hidden.erl
  run hunt hidden.erl --root main --limit 5 --property true --seeds 0..9
  ended 'root that is not exported' 2 'B2\n' \
    "pulsefarm: the function \`main\` isn't exported: add it to the exports, as in \`-export([main/0]).\`\n"
  run run hidden.erl --root other --limit 5 --schedule none
  ended 'no root at all' 2 'B2\n' \
    "pulsefarm: the module exports no function \`other\` without arguments, and no other: write one, and \`-export([main/0]).\` in front of the first function\n"
  run chart m.erl $asked --property fine
  ended 'unknown property' 2 'P1\n' \
    "pulsefarm: there is no property \`fine\`: write \`returns\`, \`true\`, \`nocrash\`, \`nodeadlock\`, \`withinlimit\` or \`never:PATTERN\`\n"
  run run m.erl --root main --limit 100001 --schedule none
  ended 'limit out of range' 2 'B6\n' 'pulsefarm: the limit 100001 is out of range: it is from 1 to 100,000 steps\n'
  run hunt m.erl --root main --limit 9 --property true --seeds 0..9 --shrink 1001
  ended 'runs of a hunt out of range' 2 'B6\n' \
    'pulsefarm: the number of runs 1001 is out of range: it is from 1 to 1,000\n'
  run shrink m.erl --root main --limit 9 --property returns --schedule none --runs 9
  ended 'nothing to shrink' 2 'S1\n' \
    "pulsefarm: the property doesn't fail by this schedule, so there is nothing to shrink: give a schedule by which it fails\n"
  echo none > in
  run run m.erl --root main --limit 1000 --schedule @-
  ended 'schedule from the standard input' 0 "$report" ''
  run run --root main --limit 1000 --schedule @-
  ended 'source and schedule from the standard input' 2 '' \
    "pulsefarm: the source and its schedule can't both be the standard input: name a file of one\n"
  { head -c 67108848 /dev/zero | tr '\0' '\n'; printf 'schedule 0,0,21\n'; } > long
  run run m.erl --root main --limit 1000 --schedule @long
  ended 'schedule in a file of the most bytes' 0 "$report" ''
  { head -c 67108850 /dev/zero | tr '\0' '\n'; printf 'schedule 0,0,21\n'; } > long
  too_long='the file of a schedule has at most 67,108,864 bytes\n'
  run run m.erl --root main --limit 1000 --schedule @long
  ended 'schedule in a file that is too long' 2 '' "pulsefarm: long: $too_long"
  mv long in
  run run m.erl --root main --limit 1000 --schedule @-
  ended 'schedule from a standard input that is too long' 2 '' "pulsefarm: -: $too_long"
  : > in
  run help check
  cp out first
  run check --help
  check 'help of a word' cmp -s out first
  run help
  cp out first
  run --help
  check 'help' cmp -s out first
}

# What bash offers for the word $2 after the words before it; $1 is the offer.
offers() {
  offered=$1
  shift
  bash -c '. "$1"; shift; COMP_WORDS=("$@"); COMP_CWORD=$(($# - 1)); _pulsefarm pulsefarm "${COMP_WORDS[-1]}" "${COMP_WORDS[-2]}"; echo "${COMPREPLY[*]}"' \
    bash "$top/docs/pulsefarm.bash" "$@" > out
  printf '%s\n' "$offered" > wanted
  check "completion of $*" cmp -s out wanted
}

completions() {
  printf -- "$module" > m.erl
  offers 'hunt' pulsefarm hu
  offers '--seeds --strategy --shrink' pulsefarm hunt m.erl --s
  offers 'nocrash nodeadlock' pulsefarm run --property no
  offers '1 2' pulsefarm run m.erl --edition ''
  offers 'main' pulsefarm chart m.erl --root ''
  offers '@m.erl' pulsefarm run --schedule @m.e
  offers 'none @ @-' pulsefarm run --schedule ''
  offers 'farm' pulsefarm f
  offers '--summary' pulsefarm farm m.erl --s
  offers 'chart check' pulsefarm help ch
  # Each option that is offered is one that the command takes.
  for command in run hunt shrink chart check steps farm; do
    run "$command" --help
    for option in $(bash -c '. "$1"; _pulsefarm_options "$2"' bash "$top/docs/pulsefarm.bash" "$command"); do
      check "$command takes $option" grep -qe "$option" out
    done
  done
}

# Writes the nesting of $1 cases into `in`, no more than a source may have.
nest() {
  {
    printf -- '-module(m).\n-export([main/0]).\nmain() -> '
    repeated 'case 1 of 1 -> ' "$1"
    printf 1
    repeated ' end' "$1"
    printf '.\n'
  } | head -c 65536 > in
}

no_rule="No rule of the grammar goes on like this: fix what is missing, too much or too deep here, or isn't in this language."

# Runs the words from $2 on, on `in`, where the system gives $1 KiB of stack, and a thread gets a quarter of what is
# asked for.
run_on() {
  (
    ulimit -s "$1"
    shift
    STACK_TOLD=stack LD_PRELOAD=./lessen.so exec timeout 60 "$program" "$@"
  ) < in > out 2> err
  status=$?
}

# The deepest source that is read, and deeper ones that are refused: where the system gives enough stack, and where the
# program takes a thread with a stack of its own, of which it gets 1 MiB here.
# shellcheck disable=SC2086
deep_sources() {
  for kilobytes in 128 4095 4096; do
    rm -f stack
    nest 255
    run_on "$kilobytes" run $asked
    ended "255 cases on $kilobytes KiB" 0 '0/1 <0> end normal\nfinished 1\nsteps 257\nproperty holds\n' ''
    nest 256
    run_on "$kilobytes" run $asked
    ended "256 cases on $kilobytes KiB" 2 'E5 at 41\n' \
      "pulsefarm: the source is refused at line 3, column 11: $no_rule\n"
    nest 4000
    { printf 'submit 0 '; wc -c < in; cat in; } > commands
    mv commands in
    run_on "$kilobytes" steps
    ended "4000 cases submitted on $kilobytes KiB" 0 'p0 refused E5\n' ''
    told=$(cat stack 2> /dev/null || echo none)
    case $kilobytes in
      4096) check "no thread on $kilobytes KiB" test "$told" = none ;;
      *) check "a thread on $kilobytes KiB" test "$told" = 4194304 ;;
    esac
  done
}

# Checks, on 1 MiB of stack, a body that nests $1 and $4 around $3, $2 times: it is read, and with one level more it is
# refused at $7. $5 and $6 come before and after the nesting.
deepest() {
  for more in 0 1; do
    {
      printf -- '-module(m).\n-export([main/0]).\nmain() -> %s' "$5"
      repeated "$1" $(($2 + more))
      printf %s "$3"
      repeated "$4" $(($2 + more))
      printf '%s.\n' "$6"
    } > in
    run_on 128 check
    if [ $more = 0 ]; then
      ended "$2 times $1" 0 'ok\n' ''
    else
      place="line 3, column $(($7 - 30))"
      ended "$(($2 + 1)) times $1" 2 "E5 at $7\n" "pulsefarm: the source is refused at $place: $no_rule\n"
    fi
  done
}

# A leaf is 1 deep, each level adds 1, also around patterns and guards, and 256 is the most. The body begins at byte 41.
deepest_of_each_form() {
  deepest '(' 255 1 ')' '' '' 41
  deepest '{' 255 1 '}' '' '' 41
  deepest '[' 255 1 ']' '' '' 41
  deepest '[1|' 255 1 ']' '' '' 41
  deepest 'hd(' 255 1 ')' '' '' 41
  deepest '-(' 127 1 ')' '' '' 41
  deepest '1 ++ ' 255 1 '' '' '' 41
  deepest '' 255 1 ' + 1' '' '' 41
  deepest '1 + (' 127 1 ')' '' '' 41
  deepest '1 < (' 127 1 ')' '' '' 41
  deepest 'true andalso ' 255 1 '' '' '' 41
  deepest 'true orelse ' 255 1 '' '' '' 41
  deepest 'A = ' 255 1 '' '' '' 41
  deepest 'case 1 of 1 -> ' 255 1 ' end' '' '' 41
  deepest 'case ' 255 1 ' of 1 -> 1 end' '' '' 41
  deepest 'if true -> ' 255 1 ' end' '' '' 41
  deepest 'receive 1 -> ' 255 1 ' end' '' '' 41
  deepest '1 ! ' 255 1 '' '' '' 41
  deepest '(' 127 1 ') ! 1' '' '' 41
  deepest 'exit(1, ' 255 1 ')' '' '' 41
  deepest '{' 254 1 '}' 'case 1 of ' ' -> 1 end' 41
  deepest '[' 254 1 ']' 'case 1 of ' ' -> 1 end' 41
  deepest '[1|' 254 1 ']' 'case 1 of ' ' -> 1 end' 41
  deepest '(' 254 true ')' 'if ' ' -> 1 end' 41
  deepest '{' 254 1 '}' 'receive ' ' -> 1 end' 41
  deepest '(' 254 true ')' 'receive 1 when ' ' -> 1 end' 41
}

# Memory goes by the longest command, and no byte past 67,108,864 leaves the input.
long_inputs() {
  yes 'file 0 7 1' | head -c 60000000 > in
  (ulimit -v 40000; exec timeout 60 "$program" steps) < in > out 2> err
  status=$?
  check 'memory of 60 MB of commands' test "$status" = 2
  check 'memory of 60 MB of commands' test "$(wc -l < out)" = 5454546
  check 'memory of 60 MB of commands' test "$(tail -n 1 out)" = 'command 5454546 refused C1'
  repeated 'file 0 7 1
' 6100807 | head -c 67108869 > in
  { timeout 60 "$program" steps > out; status=$?; cat > rest; } < in 2> err
  check 'what is left of the input' test "$(wc -c < rest)" = 5
  check 'bytes at the most' test "$(tail -n 1 out)" = 'command 6100806 refused C1'
  printf 'submit 1 52\n%b\nusage 1\nfile 3 1 1' "$module" > in
  dd if=in bs=1 2> /dev/null | timeout 60 "$program" steps > out 2> err
  status=$?
  ended 'a byte at a time' 0 'p1 module 1\np1 usage 1 52 0 0 1\nw3 not now N2\n' ''
}

files
files_that_are_not_read
lines_that_are_no_command
more_than_is_read
words
streams
client_that_waits
progress
progress_of_a_hunt
schedules_in_files
reasons
completions
build_library lessen.so "$edges/lessen.c"
deep_sources
deepest_of_each_form
long_inputs
cd /
tell_counts
