#!/bin/sh
# Times `pulsefarm farm` on trials of some 400 events, a client for each worker, beside as many programs of one worker
# and one client each, side by side in the same minute; takes what a line costs that submits nothing, by one client and
# by four at once; and what processor time idle workers take. It prints tables for docs/SPEED.md, and fails where
# - two workers have less than 0.9 of the throughput of two programs, or four less than that of four where there are
# four processors,
# - such a line takes over 2 microseconds with all that belongs to it: its reading, the hold of the lock, its receipt
# and the text of its reply,
# - 64 workers that wait for two seconds take 0.05 seconds of a processor.
# The program is the one that the gate or install.sh built.
set -eu
top=$(cd "$(dirname "$0")/.." && pwd)
program=$(realpath "${1:-$top/crates/pulsefarm/out/pulsefarm}")
room=$(mktemp -d)
trap 'rm -rf "$room"' EXIT
cd "$room"

cat > pingpong.erl <<'END'
-module(m).
-export([main/0, echo/1]).
main() -> E = spawn(m, echo, [self()]), rounds(E, 57).
rounds(_, 0) -> done;
rounds(E, N) -> E ! ping, receive pong -> rounds(E, N - 1) end.
echo(P) -> receive ping -> P ! pong, echo(P) end.
END

# The lines of project $1: so many batches of 32 trials, each awaited, fetched and dropped.
lines() {
  printf 'submit %s %s\n' "$1" "$(wc -c < pingpong.erl)"
  cat pingpong.erl
  echo
  awk -v p="$1" -v batches="$2" 'BEGIN {
    for (b = 0; b < batches; b++) {
      for (i = 1; i <= 32; i++) print "order " p " 1 main true seed:" b * 32 + i " 100000"
      for (i = 1; i <= 32; i++) { t = b * 32 + i; print "await " p " " t; print "fetch " p " " t; print "drop " p " " t }
    }
  }'
}

# Nanoseconds of the command that the function $1 runs with the words after it.
taken() {
  start=$(date +%s%N)
  "$@"
  echo $(($(date +%s%N) - start))
}

# The least of five of these.
least() {
  best=
  for _ in 1 2 3 4 5; do
    took=$(taken "$@")
    if [ -z "$best" ] || [ "$took" -lt "$best" ]; then best=$took; fi
  done
  echo "$best"
}

together() {
  # shellcheck disable=SC2046
  "$program" farm --workers "$1" $(seq -f 'c%g' "$1") > /dev/null
}

apart() {
  for _ in $(seq "$1"); do "$program" farm --workers 1 c1 > /dev/null & done
  wait
}

batches=60
for p in 1 2 3 4; do lines "$p" "$batches" > "c$p"; done
bad=0
echo "| workers | a trial of one farm | a trial of as many programs | of their throughput |"
echo "|---|---|---|---|"
for workers in 1 2 4; do
  farm=
  programs=
  for _ in 1 2 3 4 5 6 7 8; do
    took=$(taken together "$workers")
    if [ -z "$farm" ] || [ "$took" -lt "$farm" ]; then farm=$took; fi
    took=$(taken apart "$workers")
    if [ -z "$programs" ] || [ "$took" -lt "$programs" ]; then programs=$took; fi
  done
  awk -v workers="$workers" -v farm="$farm" -v programs="$programs" -v trials="$((batches * 32 * workers))" -v processors="$(nproc)" 'BEGIN {
    printf "| %d | %.1f us | %.1f us | %.2f |\n", workers, farm / trials / 1000, programs / trials / 1000, programs / farm
    exit (processors >= workers && programs < 0.9 * farm) }' || bad=1
done

one_client() { "$program" farm --workers 1 u1 > /dev/null; }
four_clients() { "$program" farm --workers 1 u1 u2 u3 u4 > /dev/null; }
none() { "$program" farm --workers 1 empty > /dev/null; }
: > empty
for p in 1 2 3 4; do yes "usage $p" | head -n 9999 > "u$p" || true; done
start_up=$(least none)
one=$(least one_client)
four=$(least four_clients)
echo "| clients | a line that submits nothing |"
echo "|---|---|"
awk -v start="$start_up" -v one="$one" -v four="$four" 'BEGIN {
  printf "| 1 | %.2f us |\n| 4 at once | %.2f us |\n", (one - start) / 9999000, (four - start) / 39996000
  exit (one - start > 2 * 9999000) }' || bad=1

mkfifo pipe
sleep 2 > pipe &
idle=$(sh -c '"$0" farm --workers 64 pipe > /dev/null; times' "$program" | tail -n 1)
wait
echo "64 workers that wait for two seconds take: $idle"
echo "$idle" | awk '{ for (i = 1; i <= 2; i++) { split($i, part, /[ms]/); sum += part[1] * 60 + part[2] } exit (sum > 0.05) }' || bad=1
exit "$bad"
