#!/bin/sh
# Runs the program on modules, sources, files and lines that mean harm, alone and beside a project that must not notice.
# Each run has to end with what the rules want (docs/LANGUAGE.md), which is worked out here, within bounds on the time
# of processors and on resident memory. The program's own thread has 1 MiB of stack, a quarter of what it asks for.
# docs/SECURITY.md says what all this shows.
#
# Usage: run.sh [BINARY]; the program is that of the crate `pulsefarm` where none is named.
set -u
hostile=$(cd "$(dirname "$0")" && pwd)
top=$hostile/../../..
# shellcheck source=tests/compare.sh
. "$top/tests/compare.sh"
cd "$room" || exit 2
cc -O2 -o bounds "$hostile/bounds.c" || exit 1
build_library lessen.so "$top/tests/faults/edges/lessen.c"

# The most KiB that a run may have resident which keeps no more than its module and its events: 16 MiB.
few=16384

# Runs the program on `in` under the words from $5 on; $1 names the run. It has to end with status $2 and with what is
# in `wanted`, within $3 milliseconds of processors and $4 KiB of memory.
bounded() {
  name=$1 wanted_status=$2 most_time=$3 most_room=$4
  shift 4
  echo 'none none' > used
  # A farm's threads have the stack that the limit gives, and want 4 MiB of it.
  if [ "$1" = farm ]; then stack=4096; else stack=128; fi
  (ulimit -s $stack; LD_PRELOAD=./lessen.so exec timeout 60 ./bounds used "$program" "$@") < in > out 2> err
  status=$?
  read -r took held < used
  [ "$status" = "$wanted_status" ] && cmp -s out wanted && [ "$took" -le "$most_time" ] && [ "$held" -le "$most_room" ]
  note "$name: status $status, $took ms, $held KiB" $?
}

# Runs the module in `in` from `main` within $5 steps; the rest as above.
run_within() { bounded "$1" "$2" "$3" "$4" run --root main --limit "$5" --schedule none; }

# Puts a module into `in`, which exports $1 and has the functions from $2 on.
module() { write_module in "$@"; }

# The last lines of the report of a run that its limit ended.
limit_reached() { printf 'limit\nsteps %s\nproperty fails\n' "$1"; }

# Each process begins others for ever. It meets the limit of the edition: the root after 3 steps for each process, then
# all others, each of which has 3 steps. So nobody makes more.
spawn_bombs() {
  module main/0 'main() -> spawn(m, main, []), main().'
  for edition in 1 2; do
    most=$((edition == 1 ? 256 : 1024))
    {
      awk -v most=$most 'BEGIN {
        for (n = 1; n < most; n++) printf "0/%d <0> spawn <%d>\n", n, n
        for (n = 0; n < most; n++) printf "0/%d <%d> raise system_limit\n0/%d <%d> end {system_limit,[]}\n", most - n, n, most - n, n
      }'
      printf 'ended {system_limit,[]}\nsteps %s\nproperty fails\n' $((6 * most - 3))
    } > wanted
    bounded "spawn bomb of edition $edition" 1 1000 $few run --root main --limit 100000 --schedule none \
      --edition $edition
  done
  # No seed lets a bomb go further: within the limit it ends since no more processes may be made.
  printf 'fails 200 seeds, least 0: ended {system_limit,[]}\n' > wanted
  bounded 'spawn bomb of 200 seeds' 1 20000 $few hunt --root main --limit 100000 --property returns --seeds 0..200 \
    --all --strategy uniform
}

# One process sends to itself for ever: 4 steps a message, and 25,000 messages that nobody takes.
message_flood() {
  module main/0 'main() -> f().' 'f() -> self() ! a, f().'
  { echo '0/1 <0> send <0> a'; repeated '0/2 <0> send <0> a\n' 24999; limit_reached 100000; } > wanted
  run_within 'message flood' 1 2000 $few 100000
}

# A term that holds itself twice, and so on: the 12th level would have 8,191 nodes of 4,096. 2 steps a level, and one to
# begin and to end.
doubling_terms() {
  module main/0 'main() -> f(0).' 'f(X) -> f({X, X}).'
  printf '0/1 <0> end {system_limit,[]}\nended {system_limit,[]}\nsteps 26\nproperty fails\n' > wanted
  run_within 'doubling terms, shared' 1 1000 $few 100000
  # The same sent at each level: a send and its comma more, 12 messages on their way, and `self()` once.
  module main/0 'main() -> f(self(), 0).' 'f(P, X) -> P ! X, f(P, {X, X}).'
  {
    awk 'BEGIN { x = "0"; for (n = 1; n <= 12; n++) { printf "0/%d <0> send <0> %s\n", (n == 1 ? 1 : 2), x; x = "{" x "," x "}" } }'
    echo '0/2 <0> end {system_limit,[]}'
    repeated '0/1 <0>-><0> deliver message dropped\n' 12
    printf 'ended {system_limit,[]}\nsteps 63\nproperty fails\n'
  } > wanted
  run_within 'doubling terms, sent' 1 1000 $few 100000
  # The largest of them printed as the value of the root: 11 levels of 2 steps, which count down with a third.
  module main/0 'main() -> f(11, 0).' 'f(0, X) -> X; f(N, X) -> f(N - 1, {X, X}).'
  awk 'BEGIN { x = "0"; for (n = 1; n <= 11; n++) x = "{" x "," x "}"; printf "0/1 <0> end normal\nfinished %s\nsteps 36\nproperty holds\n", x }' > wanted
  run_within 'doubling terms, printed' 0 1000 $few 100000
}

# Lists of 4,000 elements that are copied, compared or put together again at each second or third step, up to the limit.
# Such a step takes time by the elements, so the limit is 20,000.
long_lists() {
  letters=$(repeated a 4000)
  { echo '0/1 <0> cut'; limit_reached 20000; } > wanted
  module main/0 "main() -> f(\"$letters\")." 'f(L) -> f(tl(L ++ "a")).'
  run_within 'lists of 4,000 elements, appended' 1 15000 $few 20000
  module main/0 "main() -> f(\"$letters\", \"$letters\")." 'f(L, M) -> L == M, f(L, M).'
  run_within 'lists of 4,000 elements, compared' 1 15000 $few 20000
  module main/0 "main() -> f(\"$letters\")." 'f([H | T]) -> f([H | T]).'
  run_within 'lists of 4,000 elements, taken apart' 1 15000 $few 20000
  module main/0 "main() -> f(\"$letters\")." \
    'f(L) when length(L) > 4095; length(L) > 4094; hd(L) > 97 -> no; f(L) -> f(L).'
  run_within 'lists of 4,000 elements, in guards' 1 15000 $few 20000
}

# 121 processes that all link to one another, of which the youngest ends after all these links: each ends once by its
# reason, and nobody waits.
links_of_all_with_all() {
  module main/0,kid/0,last/0 \
    'main() -> K = kids(119, [self()]), L = [spawn(m, last, []) | K], tell(L, L), receive never -> ok end.' \
    'kids(0, L) -> L; kids(N, L) -> kids(N - 1, [spawn(m, kid, []) | L]).' \
    'tell([], _) -> ok; tell([P | T], L) -> P ! L, tell(T, L).' \
    'kid() -> receive L -> all(L) end, receive never -> ok end.' \
    'last() -> receive L -> all(L) end, exit(boom).' \
    'all([]) -> ok; all([P | T]) -> link(P), all(T).'
  (ulimit -s 128; LD_PRELOAD=./lessen.so exec timeout 60 ./bounds used "$program" run --root main --limit 100000 \
    --schedule none) < in > out 2> err
  status=$?
  read -r took held < used
  [ "$status" = 1 ] && [ "$took" -le 3000 ] && [ "$held" -le $few ] &&
    [ "$(tail -n 3 out | head -n 1)" = 'ended boom' ] &&
    awk '/ <[0-9]+> end boom$/ { split($2, p, /[<>]/); ends[p[2]]++ } / deliver exit ends boom$/ { split($2, p, /[<>]/); ends[p[5]]++ }
      END { for (n = 0; n <= 120; n++) if (ends[n] != 1) exit 1 }' out
  note "links of all with all: status $status, $took ms, $held KiB" $?
}

# 255 processes with a name each, found and sent to by it. The root takes 3 steps to begin and name each and 2 to send,
# and each has 5 of its own, its delivery among them.
names_by_the_hundred() {
  module main/0,kid/0 \
    "main() -> $(awk 'BEGIN { for (n = 1; n <= 255; n++) printf "register(n%d, spawn(m, kid, [])), ", n; for (n = 1; n <= 255; n++) printf "n%d ! n%d, ", n, n }')ok." \
    'kid() -> receive _ -> ok end.'
  awk 'BEGIN {
    for (n = 1; n <= 255; n++) printf "0/%d <0> spawn <%d>\n0/%d <0> register n%d <%d>\n", n, n, n + 1, n, n
    for (n = 1; n <= 255; n++) printf "0/%d <0> send <%d> n%d\n", 255 + n, n, n
    print "0/511 <0> end normal"
    for (n = 1; n <= 255; n++) printf "0/%d <%d> wait\n", 511 - n, n
    for (n = 1; n <= 255; n++) printf "0/%d <0>-><%d> deliver message\n0/%d <%d> receive n%d\n0/%d <%d> end normal\n", 256 - n, n, 256 - n, n, n, 256 - n, n
    printf "finished ok\nsteps 2552\nproperty holds\n"
  }' > wanted
  run_within 'names by the hundred' 0 1000 $few 100000
}

# 15,000 messages of which none fits, each of which wakes who waits: what was tested isn't tested again. 4 steps to send
# each, 2 to deliver it and to wait again.
selective_receives() {
  module main/0 'main() -> flood(self(), 15000).' \
    'flood(_, 0) -> receive never -> ok end; flood(P, N) -> P ! N, flood(P, N - 1).'
  awk 'BEGIN {
    for (n = 15000; n >= 1; n--) printf "0/%d <0> send <0> %d\n", (n == 15000 ? 1 : 2), n
    print "0/2 <0> wait"
    for (n = 15000; n >= 1; n--) printf "0/1 <0>-><0> deliver message\n0/%d <0> wait\n", (n > 1 ? 2 : 1)
    printf "deadlock <0>\nsteps 90004\nproperty fails\n"
  }' > wanted
  run_within '15,000 messages at each wake' 1 3000 $few 100000
  # 10,000 of them, which each new `receive` has to pass over. Up to the first message that is taken it is 60,009 steps,
  # then 6 a message; one step is left at the end.
  module main/0 'main() -> flood(self(), 10000).' 'flood(P, 0) -> loop(P); flood(P, N) -> P ! N, flood(P, N - 1).' \
    'loop(P) -> P ! go, receive go -> loop(P) end.'
  awk 'BEGIN {
    for (n = 10000; n >= 1; n--) printf "0/%d <0> send <0> %d\n", (n == 10000 ? 1 : 2), n
    printf "0/2 <0> send <0> go\n0/2 <0> wait\n"
    for (n = 10000; n >= 1; n--) printf "0/1 <0>-><0> deliver message\n0/2 <0> wait\n"
    printf "0/1 <0>-><0> deliver message\n0/1 <0> receive go\n"
    for (n = 1; n <= 6665; n++) printf "0/1 <0> send <0> go\n0/2 <0> wait\n0/1 <0>-><0> deliver message\n0/1 <0> receive go\n"
    printf "0/1 <0> cut\nlimit\nsteps 100000\nproperty fails\n"
  }' > wanted
  run_within '10,000 messages passed over at each receive' 1 15000 $few 100000
}

# Names that are alike but for their ends, as many as a source holds; and functions, variables and clauses by the
# thousand. To read them may take no more than it takes the machine to make 100,000 steps.
names_of_sources() {
  echo ok > wanted
  printf -- '-module(m).\n' > in
  awk 'BEGIN { printf "f() -> ["; for (n = 0; n < 250; n++) { for (i = 0; i < 247; i++) printf "a"; printf "%06d, ", n }; print "a]." }' >> in
  bounded '250 names of 253 bytes' 0 1000 $few check
  printf -- '-module(m).\n' > in
  awk 'BEGIN { printf "f() -> ["; for (n = 0; n < 4000; n++) printf "a%05d, ", n; print "a]." }' >> in
  bounded '4,001 names' 0 1000 $few check
  printf -- '-module(m).\n' > in
  awk 'BEGIN { for (n = 0; n < 4500; n++) printf "f%d() -> 1.\n", n }' >> in
  bounded '4,500 functions' 0 3000 $few check
  printf -- '-module(m).\n' > in
  awk 'BEGIN { printf "f("; for (n = 0; n < 4000; n++) printf "X%d, ", n; printf "X) -> ["; for (n = 0; n < 4000; n++) printf "X%d, ", n; print "X]." }' >> in
  bounded '4,001 variables' 0 3000 $few check
  printf -- '-module(m).\n' > in
  awk 'BEGIN { for (n = 0; n < 3500; n++) printf "f(%d) -> %d;\n", n, n; print "f(X) -> X." }' >> in
  bounded '3,501 clauses' 0 3000 $few check
  printf -- '-module(m).\n-export([' > in
  awk 'BEGIN { for (n = 0; n < 8000; n++) printf "f/0, "; print "f/0]).\nf() -> 1." }' >> in
  bounded '8,001 exports' 0 3000 $few check
}

# What is no source: 65,537 bytes of anything, and a reader that never ends, of which 65,537 bytes are read.
bytes_of_anything() {
  echo 'E11 at 0' > wanted
  : > in
  for byte in '\000' '\n' '(' "'" 'a' '\377' '%'; do
    repeated x 65537 | tr x "$byte" > in
    bounded "65,537 bytes $byte" 2 1000 $few check
    for words in 'run --schedule none' 'chart --schedule none' 'shrink --schedule none --runs 9 --property true' \
      'hunt --seeds 0..9 --property true'; do
      # The words have no blanks in them.
      # shellcheck disable=SC2086
      bounded "65,537 bytes $byte" 2 1000 $few $words --root main --limit 9
    done
  done
  awk 'BEGIN { srand(42); for (i = 0; i < 65537; i++) printf "%c", 1 + int(rand() * 255) }' | head -c 65537 > in
  bounded '65,537 random bytes' 2 1000 $few check
  mkfifo endless
  { yes x > endless 2> no; } &
  timeout 20 "$program" check < endless > out 2> err
  [ $? = 2 ] && cmp -s out wanted
  note 'a source without an end' $?
  wait
  { echo 'submit 1 65537'; cat in; echo; echo 'usage 1'; } > lines
  mv lines in
  printf 'p1 refused E11\np1 usage 0 0 0 0 1\n' > wanted
  bounded '65,537 bytes that are submitted' 0 1000 $few steps
  cp in c1
  : > in
  bounded '65,537 bytes that are submitted to a farm' 0 1000 $few farm --workers 1 c1
}

# Each front of a source. It is E4 up to the dot, `ok` with whole forms, E10 where what is exported isn't there yet, and
# else E5 at its end, or at the beginning of a token that isn't whole.
fronts_of_a_source() {
  printf -- '-module(m).\n-export([main/0]).\nmain() -> 1 + 2 * 3.\n' > source
  length=0
  while [ $length -le 52 ]; do
    case $length in
      [0-9] | 10) told='E4 at 0' ;;
      11 | 12 | 51 | 52) told='ok' ;;
      1[3-8]) told='E5 at 13' ;;
      30 | 31) told='E10 at 21' ;;
      39) told='E5 at 38' ;;
      *) told="E5 at $length" ;;
    esac
    head -c $length source > in
    echo "$told" > wanted
    if [ "$told" = ok ]; then status=0; else status=2; fi
    compare "front of a source, $length bytes" $status in wanted check
    length=$((length + 1))
  done
}

# Adds the command $1, without its last line end, and its answer $2 to those whose fronts are tried.
command_is() {
  printf -- "$1" >> whole
  wc -c < whole > "end$commands"
  printf '\n' >> whole
  printf -- "$2" > "answer$commands"
  commands=$((commands + 1))
}

# Runs the program under these words on each front of `whole`, in `front`: the answers are those of its whole commands,
# of which the last may lack its line end, and then C1 for what is left.
each_front() {
  size=$(($(wc -c < whole)))
  length=0
  : > wanted
  known=0
  while [ $length -le $size ]; do
    head -c $length whole > front
    if [ $known -lt $commands ] && [ "$length" -ge "$(cat end$known)" ]; then
      cat answer$known >> wanted
      known=$((known + 1))
      ended=$length
    fi
    if [ "$known" = 0 ] && [ "$length" = 0 ] || { [ "$known" != 0 ] && [ $((length - ended)) -le 1 ]; }; then
      compare "front of $length bytes" 0 front wanted "$@"
    else
      { cat wanted; echo "command $((known + 1)) refused C1"; } > wanted_front
      compare "front of $length bytes" 2 front wanted_front "$@"
    fi
    length=$((length + 1))
  done
}

# No front of these commands is another command, so that it can't be taken for one.
fronts_of_commands() {
  source='-module(m).\n-export([main/0]).\nmain() -> 1 + 2 * 3.\n'
  report='report 4\n0/1 <0> end normal\nfinished 7\nsteps 4\nproperty holds\n'
  commands=0
  : > whole
  command_is "submit 1 52\n$source" 'p1 module 1\n'
  command_is 'order 1 1 main returns none 9' 'p1 ticket 1\n'
  command_is 'claim 0 1 1' 'w0 done\n'
  command_is 'slice 0 1 1 9' 'w0 done\n'
  command_is 'usage 2' 'p2 usage 0 0 0 0 0\n'
  command_is 'file 0 1 1' 'w0 done\n'
  command_is 'fetch 1 1' "p1 $report"
  command_is 'drop 1 1' 'p1 done\n'
  command_is 'log 1' 'p1 log 4\n'
  each_front steps
  commands=0
  : > whole
  command_is "submit 1 52\n$source" 'p1 module 1\n'
  command_is 'order 1 1 main returns none 9' 'p1 ticket 1\n'
  command_is 'await 1 1' ''
  command_is 'fetch 1 1' "p1 $report"
  command_is 'log 1' 'p1 log 3\n'
  each_front farm --workers 2 -
}

# A run that is filed twice, filed or handed back for a trial that was dropped, or filed by who holds another's: nothing
# is filed but by who holds it, and no other trial changes.
files_that_are_not_due() {
  {
    for p in 1 2; do
      printf 'submit %s 52\n-module(m).\n-export([main/0]).\nmain() -> 1 + 2 * 3.\n\n' $p
      printf 'order %s 1 main returns none 9\n' $p $p
    done
    printf '%s\n' 'claim 0 1 1' 'slice 0 1 1 9' 'file 0 2 1' 'file 1 1 1' 'file 0 1 2' 'file 0 1 1' 'file 0 1 1' \
      'status 1 1' 'status 1 2' 'status 2 1' \
      'claim 0 1 2' 'slice 0 1 2 9' 'drop 1 2' 'file 0 1 2' 'file 0 1 2' 'claim 1 2 1' 'drop 2 1' 'back 1 2 1' \
      'back 1 2 1' 'claim 1 2 1' 'status 2 2' 'fetch 1 1'
  } > in
  {
    for p in 1 2; do printf 'p%s module 1\np%s ticket 1\np%s ticket 2\n' $p $p $p; done
    printf '%s\n' 'w0 done' 'w0 done' 'w0 not now N2' 'w1 not now N2' 'w0 not now N2' 'w0 done' 'w0 not now N2' \
      'p1 done' 'p1 queued' 'p2 queued' \
      'w0 done' 'w0 done' 'p1 done' 'w0 stray N1' 'w0 not now N2' 'w1 done' 'p2 done' 'w1 stray N1' 'w1 not now N2' \
      'w1 not now N2' 'p2 queued' \
      'p1 report 4' '0/1 <0> end normal' 'finished 7' 'steps 4' 'property holds'
  } > wanted
  bounded 'files that are not due' 0 1000 $few steps
}

# 4,096 projects whose numbers are alike in their last 20 bits, each with a module, a trial and its report.
projects_by_the_thousand() {
  awk -v in_file=in -v wanted=wanted 'BEGIN {
    source = "-module(m).\n-export([main/0]).\nmain() -> 1 + 2 * 3.\n"
    for (n = 0; n < 4096; n++) {
      p = sprintf("%.0f", n * 1048576)
      printf "submit %s 52\n%s\norder %s 1 main returns none 9\n", p, source, p > in_file
      printf "p%s module 1\np%s ticket 1\n", p, p > wanted
    }
    for (n = 4095; n >= 0; n--) {
      p = sprintf("%.0f", n * 1048576)
      printf "claim 0 %s 1\nslice 0 %s 1 9\nfile 0 %s 1\nfetch %s 1\nusage %s\n", p, p, p, p, p > in_file
      printf "w0 done\nw0 done\nw0 done\np%s report 4\n0/1 <0> end normal\nfinished 7\nsteps 4\nproperty holds\np%s usage 1 52 1 9 3\n", p, p > wanted
    }
  }'
  bounded '4,096 projects' 0 10000 65536 steps
}

# The lines of a project that uses all that it may: 4 modules of 65,536 bytes, 40 trials of 100,000 steps, and calls up
# to the last of 10,000; all others are refused.
all_quotas() {
  awk 'BEGIN {
    source = "-module(m).\n-export([main/0]).\nmain() -> main().\n"
    while (length(source) < 65536) source = source "                "
    source = substr(source, 1, 65536)
    for (n = 1; n <= 6; n++) printf "submit 1 65536\n%s\n", source
    for (n = 1; n <= 45; n++) printf "order 1 %d main returns seed:%d 100000\n", 1 + n % 4, n
    for (n = 52; n <= 10050; n++) print "usage 1"
  }'
}

# The lines of the project beside it, which orders a run and a shrinking; those that fetch their results; and what it is
# answered. A run is 2 steps, up to its wait.
small_project() {
  printf -- '-module(m).\n-export([main/0]).\nmain() -> receive x -> ok end.\n' > small
  echo "submit 2 $(($(wc -c < small)))"
  cat small
  echo
  printf '%s\n' 'order 2 1 main nodeadlock none 9' 'order 2 1 nobody nodeadlock none 9' \
    'shrink 2 1 main nodeadlock 0,1 3 1000' 'usage 2'
}
small_fetches() { printf '%s\n' 'fetch 2 1' 'fetch 2 2' 'drop 2 1' 'withdraw 2 1' 'log 2'; }
small_told() {
  printf '%s\n' 'p2 module 1' 'p2 ticket 1' 'p2 refused B2' 'p2 ticket 2' 'p2 usage 1 62 2 3009 4' 'p2 report 4' \
    '0/1 <0> wait' 'deadlock <0>' 'steps 2' 'property fails' \
    'p2 shrunk none complete 4' '0/1 <0> wait' 'deadlock <0>' 'steps 2' 'property fails' 'p2 done' 'p2 refused B4' \
    'p2 log 9'
}

# The replies of project $1, out of those in the file $2.
replies_of() { awk -v front="p$1" '/^[pw][0-9]+ / { own = $1 == front } own' "$2"; }

# The project beside one that uses all its quotas must not notice: each byte that it is answered is what the rules want
# of its own lines alone.
beside_all_quotas() {
  all_quotas > lines
  small_told > wanted
  {
    small_project
    printf 'claim 0 2 1\nslice 0 2 1 1\n'
    cat lines
    printf 'claim 1 2 2\nslice 1 2 2 99\nfile 1 2 2\nfile 0 2 1\n'
    awk 'BEGIN { for (n = 1; n <= 40; n++) printf "claim 0 1 %d\nslice 0 1 %d 4000000000\nfile 0 1 %d\n", n, n, n }'
    small_fetches
  } > in
  (ulimit -s 128; LD_PRELOAD=./lessen.so exec timeout 60 ./bounds used "$program" steps) < in > all 2> err
  status=$?
  read -r took held < used
  replies_of 2 all > out
  [ "$status" = 0 ] && cmp -s out wanted && [ "$took" -le 10000 ] && [ "$held" -le 32768 ]
  note "beside all quotas, by steps: status $status, $took ms, $held KiB" $?
  {
    awk 'BEGIN { for (n = 1; n <= 4; n++) print "p1 module " n; print "p1 refused Q2\np1 refused Q2"; for (n = 1; n <= 40; n++) print "p1 ticket " n; for (n = 41; n <= 45; n++) print "p1 refused Q4" }'
    awk 'BEGIN { for (n = 51; n < 10000; n++) print "p1 usage 4 262144 40 4000000 " n; for (n = 10000; n < 10050; n++) print "p1 refused Q5" }'
  } > wanted
  replies_of 1 all > out
  cmp -s out wanted
  note 'all quotas' $?
  cp wanted told1
  cp lines c1
  { small_project; printf 'await 2 1\nawait 2 2\n'; small_fetches; } > c2
  : > in
  { cat told1; small_told; } > wanted
  for workers in 1 4; do
    bounded "beside all quotas, by a farm of $workers" 0 20000 32768 farm --workers "$workers" c1 c2
  done
}

# A list of 4,095 atoms of 255 bytes that print as two each, sent at each third step: 2 MB of text an event, 67 GB in
# 100,000 steps. `run` writes them as it goes, within little memory. `steps` keeps them: where memory ends, the run ends
# with a report of `memory`, and what another project is answered then is the same.
flood_of_text() {
  module main/0 "main() -> X = '$(repeated '\\n' 255)', f(self(), [$(repeated X, 4094)X])." 'f(P, L) -> P ! L, f(P, L).'
  printf 'limit\nsteps 4300\nproperty fails\n' > wanted
  (ulimit -v 60000; exec timeout 60 "$program" run --root main --limit 4300 --schedule none) < in > all 2> err
  status=$?
  tail -n 3 all > out
  [ "$status" = 1 ] && cmp -s out wanted && [ "$(wc -c < all)" -gt 100000000 ]
  note "a flood of text: status $status" $?
  {
    small_project
    echo "submit 1 $(($(wc -c < in)))"; cat in; echo
    printf '%s\n' 'order 1 1 main true none 100000' 'claim 0 1 1' 'claim 1 2 1' 'slice 0 1 1 4000000000' \
      'slice 1 2 1 99' 'file 0 1 1' 'file 1 2 1' 'fetch 1 1' 'claim 1 2 2' 'slice 1 2 2 99' 'file 1 2 2'
    small_fetches
  } > lines
  (ulimit -v 300000; exec timeout 60 "$program" steps) < lines > all 2> err
  status=$?
  small_told > wanted
  replies_of 2 all > out
  [ "$status" = 0 ] && cmp -s out wanted
  note "beside a flood of text: status $status" $?
  printf 'p1 module 1\np1 ticket 1\np1 report 3\nmemory\nsteps 0\nno verdict\n' > wanted
  replies_of 1 all > out
  cmp -s out wanted && [ "$(grep -c '^w0 no memory$' all)" = 1 ]
  note 'a flood of text by steps' $?
}

# What a reader of reports is shown has no byte that a terminal acts on, whatever is in a source, and no markup of a
# browser's in a chart.
texts_for_readers() {
  markup="'<script>alert(1)</script>&\"]]>-->'"
  module main/0 "main() -> self() ! $markup, self() ! 'a\\n\\tb', receive X -> X end."
  printf '%s\n' "0/1 <0> send <0> $markup" "0/2 <0> send <0> 'a\\n\\tb'" '0/2 <0> wait' '0/1 <0>-><0> deliver message' \
    "0/2 <0> receive $markup" '0/2 <0> end normal' \
    '0/1 <0>-><0> deliver message dropped' "finished $markup" 'steps 12' 'property holds' > wanted
  run_within 'markup in a report' 0 1000 $few 100
  timeout 60 "$program" chart --root main --limit 100 --schedule none < in > out 2> err &&
    grep -q '&lt;script&gt;alert(1)&lt;/script&gt;&amp;' out && ! grep -q -e '<script' -e 'alert(1)<' -e ']]>' out
  note 'markup in a chart' $?
  { printf -- '-module(m).\nf() -> # %% '; awk 'BEGIN { for (n = 1; n < 256; n++) if (n != 10) printf "%c", n }' |
    LC_ALL=C tr -d '\000'; printf '\n'; } > in
  for words in check 'check --explain' 'run --root main --limit 9 --schedule none' \
    'chart --root main --limit 9 --schedule none'; do
    # The words have no blanks in them.
    # shellcheck disable=SC2086
    timeout 60 "$program" $words < in > out 2> err
    [ $? = 2 ] && [ "$(head -n 1 out)" = 'E1 at 19' ] && ! cat out err | LC_ALL=C tr -d '\n -~' | grep -q .
    note "bytes for a terminal in what $words tells" $?
  done
}

# A deep source takes who reads it 1 MiB of stack at most: so 64 clients at once read such sources, each in a thread
# with the stack that the limit gives. Each awaits a trial before, so that no thread can serve them all by itself.
deep_sources_of_a_farm() {
  module main/0,deep/0 'main() -> main().' "deep() -> $(repeated 'case 2 of 1 -> ' 255)1$(repeated ' end' 255)."
  cp in deep
  module main/0 'main() -> main().'
  names=''
  : > wanted
  for p in $(seq 64); do
    {
      echo "submit $p $(($(wc -c < in)))"; cat in; echo
      for t in 1 2; do printf 'order %s 1 main withinlimit none 100000\nawait %s %s\n' "$p" "$p" $t; done
      echo "submit $p $(($(wc -c < deep)))"; cat deep; echo
      printf 'order %s 2 deep nocrash none 9\nawait %s 3\nfetch %s 3\n' "$p" "$p" "$p"
    } > "c$p"
    {
      echo "p$p module 1"
      for t in 1 2; do echo "p$p ticket $t"; done
      printf 'p%s module 2\np%s ticket 3\np%s report 4\n0/1 <0> end {{case_clause,2},[]}\nended {{case_clause,2},[]}\nsteps 3\nproperty fails\n' "$p" "$p" "$p"
    } >> wanted
    names="$names c$p"
  done
  : > in
  # The names have no blanks in them.
  # shellcheck disable=SC2086
  (ulimit -s 8192; exec timeout 60 "$program" farm --workers 4 $names) < in > out 2> err
  status=$?
  [ $status = 0 ] && cmp -s out wanted
  note "deep sources of a farm: status $status" $?
  # Threads have the stack that the limit gives: with less than they may want there is no farm.
  (ulimit -s 4095; exec timeout 60 "$program" farm --workers 1 c1) < in > out 2> err
  status=$?
  [ $status = 2 ] && [ ! -s out ] &&
    [ "$(cat err)" = "pulsefarm: a farm's threads have the stack that \`ulimit -s\` gives, and want 4 MiB of it" ]
  note "a farm on small stacks: status $status" $?
}

# A schedule of 67,108,864 bytes, which are as many as are read: it has 33,554,432 numbers, which are too many. One of a
# byte more isn't read.
schedules_without_end() {
  module main/0 'main() -> 1 + 2 * 3.'
  { printf '10,'; yes 0, | tr -d '\n' | head -c 67108860; printf '0'; } > schedule
  echo B6 > wanted
  bounded 'a schedule of 64 MiB' 2 10000 262144 run --root main --limit 9 --schedule @schedule
  printf '0' >> schedule
  : > wanted
  bounded 'a schedule of 64 MiB and a byte' 2 10000 262144 run --root main --limit 9 --schedule @schedule
  [ "$(cat err)" = 'pulsefarm: schedule: the file of a schedule has at most 67,108,864 bytes' ]
  note 'a schedule of 64 MiB and a byte is refused' $?
  rm schedule
}

spawn_bombs
message_flood
doubling_terms
long_lists
links_of_all_with_all
names_by_the_hundred
selective_receives
names_of_sources
bytes_of_anything
fronts_of_a_source
fronts_of_commands
files_that_are_not_due
projects_by_the_thousand
beside_all_quotas
flood_of_text
texts_for_readers
deep_sources_of_a_farm
schedules_without_end
cd /
tell_counts
