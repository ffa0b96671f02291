#!/bin/sh
# The recipes of docs/CI.md: both can be read, and the step of each that hunts does so on the built program: its status,
# its answer as text and as JSON, and its chart.
#
# Usage: run.sh [BINARY]; the program is that of the crate `pulsefarm` where none is named.
set -u
top=$(cd "$(dirname "$0")/../../.." && pwd)
# shellcheck source=tests/compare.sh
. "$top/tests/compare.sh"
export PULSEFARM="$program" PYTHONDONTWRITEBYTECODE=1
"$top/tests/debian.sh" python3-yaml
# (Debian's own Python has Debian's packages)
python=python3
"$python" -c 'import yaml' 2> /dev/null || python=/usr/bin/python3

# Whether the Python expression $2 holds of `it`, what the file $1 has as JSON.
holds() {
  python3 -c 'import json, sys; it = json.load(open(sys.argv[1])); sys.exit(not eval(sys.argv[2]))' "$1" "$2"
  note "$2" $?
}

# Runs the step $1 of a recipe in a folder whose module is $2; the status that is wanted is $3.
step() {
  rm -rf "$room/push"
  mkdir -p "$room/push/test"
  cp "$top/examples/$2.erl" "$room/push/test/race.erl"
  (cd "$room/push" && timeout 120 sh -ec "$1") > "$room/out" 2> "$room/err"
  [ $? = "$3" ]
  note "$1 on $2" $?
}

# The step $1 finds the race of `wrong_reply`, and none in its fixed form.
finds() {
  step "$1" wrong_reply 1
  "$program" hunt "$top/examples/wrong_reply.erl" --root main --limit 2000 --property true --seeds 0..1000 \
    --shrink 300 > "$room/wanted"
  cmp -s "$room/push/found/answer.txt" "$room/wanted"
  note "the answer of $1" $?
  holds "$room/push/found/answer.json" \
    'it["answer"] == "failure" and (it["seed"], it["strategy"]) == (2, "pos") and it["schedule"] == [0, 0, 2, 0, 2, 0, 2, 0, 1, 1, 2]'
  holds "$room/push/found/answer.json" \
    'it["shrinking"] == "complete" and it["outcome"] == "finished false" and it["steps"] == 50'
  holds "$room/push/found/answer.json" 'len(it["events"]) == 20 and it["events"][-1] == "0/1 <0> end normal"'
  grep -q '</svg>' "$room/push/found/chart.svg"
  note "the chart of $1" $?
  step "$1" wrong_reply_mended 0
  holds "$room/push/found/answer.json" 'it == {"answer": "none", "seeds": 100000}'
  [ ! -e "$room/push/found/chart.svg" ]
  note "no chart where $1 finds nothing" $?
}

# Other answers as JSON.
answers() {
  printf 'holds 658 seeds, least 0: finished true\nfails 342 seeds, least 4: finished false\n' |
    python3 "$top/examples/ci/answer.py" > "$room/json"
  holds "$room/json" \
    'it["strategy"] == "uniform" and it["outcomes"][1] == {"property": "fails", "seeds": 342, "least": 4, "outcome": "finished false"} and len(it["outcomes"]) == 2'
  "$program" hunt "$top/examples/wrong_reply.erl" --root main --limit 2000 --property true --seeds 0..9 |
    python3 "$top/examples/ci/answer.py" > "$room/json"
  holds "$room/json" 'it["seed"] == 2 and "shrinking" not in it and len(it["schedule"]) == len(it["events"]) == 20'
  printf 'seed 7\nfails nocrash\nstrategy pos\nschedule 0\n0/1 <0> end normal\nfinished 1\nsteps 1\nproperty fails\n' |
    python3 "$top/examples/ci/answer.py" > "$room/json"
  holds "$room/json" '(it["seed"], it["property"], it["strategy"], it["schedule"]) == (7, "nocrash", "pos", [0])'
  printf 'stopped after 512 seeds\nno failure in 512 seeds\n' | python3 "$top/examples/ci/answer.py" > "$room/json"
  holds "$room/json" 'it == {"answer": "none", "seeds": 512, "stopped": 512}'
  printf 'stopped after 8 seeds\nstrategy pos\nholds 8 seeds, least 0: finished true\n' |
    python3 "$top/examples/ci/answer.py" > "$room/json"
  holds "$room/json" '(it["stopped"], it["strategy"], it["outcomes"][0]["seeds"]) == (8, "pos", 8)'
  echo 'E6 at 41' | python3 "$top/examples/ci/answer.py" > "$room/json"
  holds "$room/json" 'it == {"answer": "refused", "why": "E6 at 41"}'
  sh "$top/examples/ci/hunt.sh" "$room/found" "$top/examples/wrong_reply.erl" none 9 true 0..5 > "$room/out" \
    2> "$room/err"
  [ $? = 2 ] && [ "$(cat "$room/out")" = B2 ]
  note "a refused hunt" $?
  sh "$top/examples/ci/hunt.sh" "$room/found" > "$room/out" 2> "$room/err"
  [ $? = 2 ] && [ "$(cat "$room/err")" = 'usage: hunt.sh FOLDER FILE ROOT LIMIT PROPERTY A..B' ]
  note "too few words" $?
}

"$python" "$top/tests/release/ci/recipes.py" "$top/docs/CI.md" > "$room/steps" 2> "$room/err"
note "the recipes" $?
sed "s|/usr/share/pulsefarm/|$top/examples/|" "$room/steps" > "$room/here"
while read -r hunt; do
  finds "$hunt"
done < "$room/here"
[ "$(wc -l < "$room/here")" = 2 ]
note "two recipes" $?
answers
tell_counts
