#!/bin/sh
# Runs the program at the limits of its inputs, and just past them, with all the memory that there is: each answer is
# compared whole, so that none may be `NoMemory` without a cause. What is wanted follows from the rules
# (docs/LANGUAGE.md), and is worked out here.
#
# Usage: run.sh [BINARY]; the program is that of the crate `pulsefarm` where none is named.
set -u
top=$(cd "$(dirname "$0")/../../.." && pwd)
# shellcheck source=tests/compare.sh
. "$top/tests/compare.sh"

# Runs the program on `$room/in` under the words from $3 on; $1 names the run, $2 is the status. What has to go out is
# `$room/wanted`.
expect() {
  name=$1 wanted=$2
  shift 2
  compare "$name" "$wanted" "$room/in" "$room/wanted" "$@"
}

# Runs the source in `$room/in` from `main` within $3 steps; $1 and $2 as above.
run_within() { expect "$1" "$2" run --root main --limit "$3" --schedule none; }

# Says in `$room/wanted` that the root returned $1, in $2 steps.
returned() { printf '0/1 <0> end normal\nfinished %s\nsteps %s\nproperty holds\n' "$1" "$2" > "$room/wanted"; }

# Says in `$room/wanted` that the run was cut after $1 steps.
cut_after() { printf '0/1 <0> cut\nlimit\nsteps %s\nproperty fails\n' "$1" > "$room/wanted"; }

# Says in `$room/wanted` that this line goes out.
says() { printf '%s\n' "$1" > "$room/wanted"; }

# Puts a module into `$room/in` whose `main` has this body, which begins at byte 41. More functions may follow the dot.
main_is() { printf -- '-module(m).\n-export([main/0]).\nmain() -> %s.\n' "$1" > "$room/in"; }

# Puts a module into `$room/in` that exports $1 and has the functions from $2 on.
module_is() { write_module "$room/in" "$@"; }

# Pads `$room/in` with blanks, up to so many bytes.
pad_to() {
  size=$(wc -c < "$room/in")
  repeated ' ' $(($1 - size)) >> "$room/in"
}

# The nesting of $1 and $4 around $3, $2 times, as the body of `f`, which begins at byte 19.
nested() { printf -- '-module(m).\nf() -> %s%s%s.' "$(repeated "$1" "$2")" "$3" "$(repeated "$4" "$2")" > "$room/in"; }

# Compares the refusal $5 of a nesting, as above; of an accepted one it is B2, since there is no `main`.
nesting() {
  nested "$1" "$2" "$3" "$4"
  says "$5"
  run_within "$2 times $1" 2 1000
}

lengths_of_sources() {
  main_is '1 + 2 * 3'
  pad_to 65536
  returned 7 4
  run_within 'source of 65,536 bytes' 0 1000
  cp "$room/in" "$room/source"
  printf ' ' >> "$room/in"
  says 'E11 at 0'
  run_within 'source of 65,537 bytes' 2 1000
  { echo 'submit 0 65536'; cat "$room/source"; echo
    echo 'submit 0 65537'; cat "$room/source"; echo ' '; echo 'usage 0'; } > "$room/in"
  printf '%s\n' 'p0 module 1' 'p0 refused E11' 'p0 usage 1 65536 0 0 2' > "$room/wanted"
  expect 'submissions of 65,536 and 65,537 bytes' 0 steps
}

lengths_of_atoms() {
  main_is "$(repeated a 255)"
  returned "$(repeated a 255)" 2
  run_within 'atom of 255 bytes' 0 1000
  main_is "'$(repeated '\\n' 255)'"
  returned "'$(repeated '\\n' 255)'" 2
  run_within 'atom of 255 escapes' 0 1000
  main_is "$(repeated a 256)"
  says 'E5 at 41'
  run_within 'atom of 256 bytes' 2 1000
  nesting a 255 '' '' B2
  nesting a 256 '' '' 'E5 at 19'
  nesting a 256 ' +' '' 'E5 at 277'
}

# A leaf is 1 deep, and each level adds 1. A fault of syntax after a part that is too deep goes first.
depths_of_expressions() {
  nesting '(' 255 1 ')' B2
  nesting '(' 256 1 ')' 'E5 at 19'
  nesting '(' 20000 1 ')' 'E5 at 19'
  nesting '' 255 1 ' + 1' B2
  nesting '' 256 1 ' + 1' 'E5 at 19'
  nesting 'case 1 of 1 -> ' 255 1 ' end' B2
  nesting 'case 1 of 1 -> ' 256 1 ' end' 'E5 at 19'
  nesting 'A = ' 255 1 '' B2
  nesting 'A = ' 256 1 '' 'E5 at 19'
  nesting 'f(' 254 -1 ')' 'E8 at 19'
  nesting 'f(' 255 -1 ')' 'E5 at 19'
  nesting '(' 300 1 ')) ' 'E5 at 770'
}

# Each contraction is a step, and so is the call of `main` and its end; parentheses are none.
runs_of_deep_expressions() {
  main_is "$(repeated '(' 255)1$(repeated ')' 255)"
  returned 1 2
  run_within '255 parentheses' 0 1000
  main_is "1$(repeated ' + 1' 255)"
  returned 256 257
  run_within '255 sums' 0 1000
  main_is "$(repeated 'case 1 of 1 -> ' 255)1$(repeated ' end' 255)"
  returned 1 257
  run_within '255 cases' 0 1000
  main_is "$(repeated 'A = ' 255)1"
  returned 1 257
  run_within '255 matches' 0 1000
}

# 255 sends to oneself within one another, whose messages 255 receives within one another take.
deep_sends_and_receives() {
  main_is "S = self(), $(repeated 'S ! ' 255)1, $(repeated 'receive 1 -> ' 255)1$(repeated ' end' 255)"
  {
    echo '0/1 <0> send <0> 1'
    repeated '0/2 <0> send <0> 1\n' 254
    echo '0/2 <0> wait'
    repeated '0/1 <0>-><0> deliver message\n0/2 <0> receive 1\n0/2 <0> wait\n' 254
    printf '%s\n' '0/1 <0>-><0> deliver message' '0/1 <0> receive 1' '0/1 <0> end normal' 'finished 1' 'steps 1026' \
      'property holds'
  } > "$room/wanted"
  run_within '255 sends and receives' 0 2000
}

limits_of_steps() {
  main_is 'main()'
  cut_after 1
  run_within 'limit 1' 1 1
  cut_after 100000
  run_within 'limit 100,000' 1 100000
  says B6
  run_within 'limit 0' 2 0
  run_within 'limit 100,001' 2 100001
}

# A word of the command line takes less than 131,072 bytes, so that a schedule of 100,000 numbers goes by a command.
schedules() {
  main_is '1 + 2 * 3'
  returned 7 4
  expect 'schedule of 65,000 numbers' 0 run --root main --limit 1000 --schedule "0$(repeated ,1 64999)"
  expect 'number 4294967295' 0 run --root main --limit 1000 --schedule 0,4294967295
  : > "$room/wanted"
  expect 'number 4294967296' 2 run --root main --limit 1000 --schedule 0,4294967296
  cp "$room/in" "$room/source"
  size=$(($(wc -c < "$room/source")))
  { echo "submit 3 $size"; cat "$room/source"; echo
    echo "order 3 1 main returns 0$(repeated ,4294967295 99999) 100000"
    printf 'claim 0 3 1\nslice 0 3 1 100000\nfile 0 3 1\n'; echo 'fetch 3 1'
    echo "order 3 1 main returns 0$(repeated ,1 100000) 100000"
    echo 'order 3 1 main returns 4294967296 1'; } > "$room/in"
  printf '%s\n' 'p3 module 1' 'p3 ticket 1' 'w0 done' 'w0 done' 'w0 done' 'p3 report 4' '0/1 <0> end normal' \
    'finished 7' 'steps 4' 'property holds' \
    'p3 refused B6' 'command 8 refused C1' > "$room/wanted"
  expect 'schedules of 100,000 and 100,001 numbers' 2 steps
}

# Numbers from 1 to $1 after the text $2, with commas between them.
numbered() { awk -v count="$1" -v text="$2" \
  'BEGIN { for (i = 1; i <= count; i++) printf "%s%s%d", (i > 1 ? ", " : ""), text, i }'; }

sizes_of_modules() {
  main_is "f($(numbered 256 '')).
f($(numbered 256 X)) -> X1 + X256"
  returned 257 4
  run_within '256 arguments' 0 1000
  main_is "$(numbered 1000 '1 + ')"
  returned 1001 2001
  run_within '1,000 sums in a body' 0 100000
  main_is "$(numbered 400 a)"
  returned a400 401
  run_within '400 atoms' 0 1000
  main_is "$(numbered 400 'X = 1 - ')"
  printf '0/1 <0> end {{badmatch,-1},[]}\nended {{badmatch,-1},[]}\nsteps 7\nproperty fails\n' > "$room/wanted"
  run_within '400 matches of one variable' 1 1000
  main_is "f1()$(awk 'BEGIN { for (i = 1; i < 400; i++) printf ".\nf%d() -> f%d()", i, i + 1; printf ".\nf400() -> done" }')"
  returned 'done' 402
  run_within '400 functions' 0 1000
  main_is 'f(20000).
f(N) -> case N of 0 -> 0; _ -> 1 + f(N - 1) end'
  returned 20000 80004
  run_within '20,000 calls that wait' 0 100000
}

# Says in `$room/wanted` that the root began 255 processes, then the events from $4 on, then that each process waits; $1
# is the outcome, $2 the steps and $3 the verdict.
began_255() {
  outcome=$1 steps=$2 verdict=$3
  shift 3
  {
    awk 'BEGIN { for (n = 1; n <= 255; n++) printf "0/%d <0> spawn <%d>\n", n, n }'
    printf '%s\n' "$@"
    awk 'BEGIN { for (n = 1; n <= 255; n++) printf "0/%d <%d> wait\n", 256 - n, n }'
    printf '%s\n' "$outcome" "steps $steps" "property $verdict"
  } > "$room/wanted"
}

# The first process that is begun takes 3 steps, each other one 4, what follows 4 or 5, and each wait 2.
processes_that_wait() {
  all='all(0) -> full; all(N) -> spawn(m, kid, []), all(N - 1).'
  kid='kid() -> receive never -> ok end.'
  module_is 'main/0, kid/0' 'main() -> all(255).' "$all" "$kid"
  began_255 'finished full' 1533 holds '0/256 <0> end normal'
  run_within '256 processes' 0 100000
  module_is 'main/0, kid/0' 'main() -> all(256).' "$all" "$kid"
  began_255 'ended {system_limit,[]}' 1534 fails '0/256 <0> raise system_limit' '0/256 <0> end {system_limit,[]}'
  run_within '257 processes' 1 100000
}

# Processes that ended are counted too. Each takes 12 steps up to the root's `receive`, and what follows the last one 6.
processes_that_ended() {
  module_is 'main/0, kid/1' 'main() -> all(256).' 'all(N) -> spawn(m, kid, [self()]), receive done -> all(N - 1) end.' \
    'kid(P) -> P ! done.'
  {
    awk 'BEGIN {
      for (n = 1; n <= 255; n++) {
        printf "0/1 <0> spawn <%d>\n0/2 <0> wait\n0/1 <%d> send <0> done\n0/2 <%d> end normal\n", n, n, n
        printf "0/1 <%d>-><0> deliver message\n0/1 <0> receive done\n", n
      }
    }'
    printf '%s\n' '0/1 <0> raise system_limit' '0/1 <0> end {system_limit,[]}' 'ended {system_limit,[]}' 'steps 3066' \
      'property fails'
  } > "$room/wanted"
  run_within '257 processes one after another' 1 100000
}

# Puts a module into `$room/in` whose root makes one process after another, each of which ends at once.
one_spawns_on() { module_is 'main/0, g/0' 'main() -> f().' 'f() -> spawn(m, g, []), f().' 'g() -> ok.'; }

# The lines of its report, where there may be $1 processes and the run has $2 steps.
spawned_on() {
  awk -v most="$1" 'BEGIN { for (n = 1; n < most; n++) printf "0/%d <0> spawn <%d>\n", n, n }'
  printf '0/%d <0> raise system_limit\n0/%d <0> end {system_limit,[]}\n' "$1" "$1"
  awk -v most="$1" 'BEGIN { for (n = 1; n < most; n++) printf "0/%d <%d> end normal\n", most - n, n }'
  printf 'ended {system_limit,[]}\nsteps %d\nproperty fails\n' "$2"
}

# Each process takes 3 steps to make and 2 of its own, and the fault with its end 4.
processes_by_editions() {
  one_spawns_on
  spawned_on 256 1279 > "$room/wanted"
  run_within '257 processes by default' 1 2000
  expect '257 processes of edition 1' 1 run --root main --limit 2000 --schedule none --edition 1
  spawned_on 1024 5119 > "$room/wanted"
  expect '1,025 processes of edition 2' 1 run --root main --limit 6000 --schedule none --edition 2
}

# A trial keeps the edition that its desk had when it was ordered.
trials_keep_their_editions() {
  one_spawns_on
  cp "$room/in" "$room/source"
  {
    echo "submit 1 $(($(wc -c < "$room/source")))"; cat "$room/source"; echo
    printf '%s\n' 'order 1 1 main returns none 6000' 'edition 1 2' 'order 1 1 main returns none 6000' \
      'claim 0 1 1' 'claim 1 1 2' 'slice 1 1 2 3000' 'slice 0 1 1 3000' 'file 0 1 1' 'file 1 1 2' 'fetch 1 1' \
      'fetch 1 2'
  } > "$room/in"
  {
    printf '%s\n' 'p1 module 1' 'p1 ticket 1' 'p1 done' 'p1 ticket 2' 'w0 done' 'w1 done' 'w1 done' 'w0 done' \
      'w0 done' 'w1 done' 'p1 report 515'
    spawned_on 256 1279
    echo 'p1 report 2051'
    spawned_on 1024 5119
  } > "$room/wanted"
  expect 'trials of two editions' 0 steps
}

# A desk holds 16 modules in edition 1, and 64 in edition 2.
modules_by_editions() {
  {
    repeated 'submit 1 12\n-module(m).\n\n' 17
    echo 'edition 1 2'
    repeated 'submit 1 12\n-module(m).\n\n' 49
    printf '%s\n' 'withdraw 1 1' 'submit 1 12' '-module(m).' '' 'usage 1'
  } > "$room/in"
  {
    awk 'BEGIN { for (n = 1; n <= 16; n++) printf "p1 module %d\n", n }'
    printf '%s\n' 'p1 refused Q1' 'p1 done'
    awk 'BEGIN { for (n = 17; n <= 64; n++) printf "p1 module %d\n", n }'
    printf '%s\n' 'p1 refused Q1' 'p1 done' 'p1 module 65' 'p1 usage 64 768 0 0 69'
  } > "$room/wanted"
  expect '65 modules of a project' 0 steps
}

# What a list of so many letters `a` prints as.
codes() { printf '[97%s]' "$(repeated ,97 $(($1 - 1)))"; }

# A list of 4,095 integers has 4,096 nodes, the most that a value may have.
sizes_of_messages() {
  letters=$(repeated a 4095)
  main_is "self() ! \"$letters\", receive L -> length(L) end"
  printf '%s\n' "0/1 <0> send <0> $(codes 4095)" '0/2 <0> wait' '0/1 <0>-><0> deliver message' \
    "0/1 <0> receive $(codes 4095)" \
    '0/1 <0> end normal' 'finished 4095' 'steps 9' 'property holds' > "$room/wanted"
  run_within 'message of 4,096 nodes' 0 1000
  main_is "self() ! [97 | \"$letters\"], receive L -> length(L) end"
  printf '%s\n' '0/1 <0> end {system_limit,[]}' 'ended {system_limit,[]}' 'steps 4' 'property fails' > "$room/wanted"
  run_within 'message of 4,097 nodes' 1 1000
}

# A linked process ends with the reason $2, which prints as $3 and takes $4 steps to build: who traps exits gets $5 in
# its place.
exit_reason() {
  module_is 'main/0, kid/0' \
    'main() -> process_flag(trap_exit, true), spawn_link(m, kid, []), receive {_, _, _} -> ok end.' "kid() -> exit($2)."
  printf '%s\n' '0/1 <0> process_flag true' '0/1 <0> spawn_link <1>' '0/2 <0> wait' "0/1 <1> end $3" \
    '0/1 <1>-><0> deliver exit message' \
    "0/1 <0> receive {'EXIT',<1>,$5}" '0/1 <0> end normal' 'finished ok' "steps $((12 + $4))" 'property holds' \
    > "$room/wanted"
  run_within "$1" 0 1000
}

# The same of a process that is watched, for a reason that takes no step.
down_reason() {
  module_is 'main/0, kid/0' 'main() -> monitor(process, spawn(m, kid, [])), receive {_, _, _, _, _} -> ok end.' \
    "kid() -> exit($2)."
  printf '%s\n' '0/1 <0> spawn <1>' '0/2 <0> monitor #Ref<0> <1>' '0/3 <0> wait' '1/2 <0>-><1> deliver monitor' \
    "0/1 <1> end $3" \
    '0/1 <1>-><0> deliver down' "0/1 <0> receive {'DOWN',#Ref<0>,process,<1>,$4}" '0/1 <0> end normal' 'finished ok' \
    'steps 12' \
    'property holds' > "$room/wanted"
  expect "$1" 0 run --root main --limit 1000 --schedule 0,0,0,1
}

# So many tuples, each the element of the one around it, around 1.
tuples() { printf '%s1%s' "$(repeated '{' "$1")" "$(repeated '}' "$1")"; }

# A message about an end adds 3 or 5 nodes to the reason, and 1 to its depth.
sizes_of_reasons() {
  exit_reason 'reason of 4,093 nodes at a link' "\"$(repeated a 4092)\"" "$(codes 4092)" 0 "$(codes 4092)"
  exit_reason 'reason of 4,094 nodes at a link' "\"$(repeated a 4093)\"" "$(codes 4093)" 0 system_limit
  exit_reason 'reason 63 deep at a link' "$(tuples 62)" "$(tuples 62)" 62 "$(tuples 62)"
  exit_reason 'reason 64 deep at a link' "$(tuples 63)" "$(tuples 63)" 63 system_limit
  down_reason 'reason of 4,091 nodes at a monitor' "\"$(repeated a 4090)\"" "$(codes 4090)" "$(codes 4090)"
  down_reason 'reason of 4,092 nodes at a monitor' "\"$(repeated a 4091)\"" "$(codes 4091)" system_limit
}

# 1,000 messages to oneself, the last of which is taken first: at each delivery but the last none fits.
long_mailboxes() {
  module_is 'main/0' 'main() -> flood(1000).' 'flood(0) -> drain(1); flood(N) -> self() ! N, flood(N - 1).' \
    'drain(1000) -> receive 1000 -> done end; drain(N) -> receive N -> drain(N + 1) end.'
  awk 'BEGIN {
    for (n = 1000; n >= 1; n--) printf "0/%d <0> send <0> %d\n", (n == 1000 ? 1 : 2), n
    print "0/2 <0> wait"
    for (n = 1000; n > 1; n--) print "0/1 <0>-><0> deliver message\n0/2 <0> wait"
    print "0/1 <0>-><0> deliver message"
    for (n = 1; n <= 1000; n++) printf "0/1 <0> receive %d\n", n
    print "0/1 <0> end normal\nfinished done\nsteps 10002\nproperty holds"
  }' > "$room/wanted"
  run_within '1,000 messages from the last on' 0 100000
}

# Projects that submit, order, run, fetch and ask for their usage in turns, so many rounds of all of them: each is
# answered what it is answered alone. A project holds the modules and trials of its last 16 rounds, and gives up what is
# older.
projects_in_turns() {
  awk -v rounds="$1" -v room="$room" 'BEGIN {
    most = split("0 1 2 3 7 4294967295", projects, " ")
    input = room "/in"; wanted = room "/wanted"
    for (r = 1; r <= rounds; r++) {
      old = r - 16
      held = old > 0 ? 16 : r
      for (i = 1; i <= most; i++) {
        if (old > 0) {
          printf "drop %s %d\nwithdraw %s %d\n", projects[i], old, projects[i], old > input
          printf "p%s done\np%s done\n", projects[i], projects[i] > wanted
          bytes[i] -= size[i, old]
        }
        source = "-module(m).\n-export([main/0]).\nmain() -> " i " * 1000 + " r ".\n"
        size[i, r] = length(source)
        bytes[i] += length(source)
        printf "submit %s %d\n%s\n", projects[i], length(source), source > input
        printf "p%s module %d\n", projects[i], r > wanted
      }
      for (i = 1; i <= most; i++) {
        printf "order %s %d main returns none 100\n", projects[i], r > input
        printf "p%s ticket %d\n", projects[i], r > wanted
      }
      for (i = most; i >= 1; i--) {
        worker = (i + r) % 4
        printf "fetch %s %d\nclaim %d %s %d\npark %d %s %d\n", projects[i], r, worker, projects[i], r, worker, projects[i], r > input
        printf "take %d %s %d\nslice %d %s %d 100\nfile %d %s %d\n", worker, projects[i], r, worker, projects[i], r, worker, projects[i], r > input
        printf "p%s refused B5\n", projects[i] > wanted
        for (n = 1; n <= 5; n++) printf "w%d done\n", worker > wanted
      }
      for (i = 1; i <= most; i++) {
        printf "fetch %s %d\nusage %s\n", projects[i], r, projects[i] > input
        printf "p%s report 4\n0/1 <0> end normal\nfinished %d\nsteps 4\nproperty holds\n", projects[i], i * 1000 + r > wanted
        printf "p%s usage %d %d %d %d %d\n", projects[i], held, bytes[i], held, 100 * held, 5 * r - 1 + 2 * (r - held) > wanted
      }
    }
  }'
  expect "$1 rounds of six projects" 0 steps
}

# Four sources of 65,536 bytes are as many bytes as a project may hold. What passes that is refused before it is read.
bytes_of_a_project() {
  main_is '1 + 2 * 3'
  pad_to 65535
  cp "$room/in" "$room/source"
  {
    for _ in 1 2 3 4; do echo 'submit 0 65536'; cat "$room/source"; printf ' \n'; done
    printf 'submit 0 1\n \nsubmit 1 1\n \nusage 0\nwithdraw 0 3\nsubmit 0 65535\n'
    cat "$room/source"
    printf '\nsubmit 0 2\n  \nsubmit 0 1\n \nusage 0\n'
  } > "$room/in"
  printf '%s\n' 'p0 module 1' 'p0 module 2' 'p0 module 3' 'p0 module 4' 'p0 refused Q2' 'p1 refused E4' \
    'p0 usage 4 262144 0 0 5' 'p0 done' \
    'p0 module 5' 'p0 refused Q2' 'p0 refused E4' 'p0 usage 4 262143 0 0 10' > "$room/wanted"
  expect '262,144 bytes of a project' 0 steps
}

# A call that is refused is logged too, but none after the last of 10,000. A worker still runs what was ordered.
calls_of_a_project() {
  main_is '1 + 2 * 3'
  size=$(($(wc -c < "$room/in")))
  cp "$room/in" "$room/source"
  {
    echo "submit 0 $size"; cat "$room/source"; echo; echo 'order 0 1 main returns none 100'
    repeated 'log 0\nfetch 0 2\n' 4999
    printf 'log 0\nusage 0\nstatus 0 1\nfetch 0 2\ndrop 0 1\nwithdraw 0 2\nsubmit 0 1\n \norder 0 2 main returns none 0\nshrink 0 2 main returns none 0 0\n'
    printf 'claim 0 0 1\nclaim 0 0 1\nslice 0 0 1 1\nslice 0 0 1 1\nfile 0 0 1\nfile 0 0 1\nlog 0\nlog 1\n'
  } > "$room/in"
  {
    printf 'p0 module 1\np0 ticket 1\n'
    awk 'BEGIN { for (n = 2; n < 10000; n += 2) printf "p0 log %d\np0 refused B3\n", n }'
    repeated 'p0 refused Q5\n' 9
    printf 'w0 done\nw0 not now N2\nw0 done\nw0 not now N2\nw0 done\nw0 not now N2\np0 refused Q5\np1 log 0\n'
  } > "$room/wanted"
  expect '10,000 calls of a project' 0 steps
}

lengths_of_sources
lengths_of_atoms
depths_of_expressions
runs_of_deep_expressions
deep_sends_and_receives
limits_of_steps
schedules
sizes_of_modules
processes_that_wait
processes_that_ended
processes_by_editions
trials_keep_their_editions
sizes_of_messages
sizes_of_reasons
long_mailboxes
projects_in_turns 1
projects_in_turns 100
bytes_of_a_project
modules_by_editions
calls_of_a_project
tell_counts
