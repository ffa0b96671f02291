#!/bin/sh
# Hunts in shards, by each engine of examples/many/, against one program over the same seeds; and commands of many
# projects, sharded by project, against one program over them all.
#
# Usage: run.sh [BINARY]; the program is that of the crate `pulsefarm` where none is named.
set -u
top=$(cd "$(dirname "$0")/../../.." && pwd)
# shellcheck source=tests/compare.sh
. "$top/tests/compare.sh"
many=$top/examples/many
export PARALLEL='--jobs 4' PYTHONDONTWRITEBYTECODE=1
"$top/tests/debian.sh" parallel python3-yaml

# Runs the words from $3 on; $1 names it, and $2 is the status that is wanted, with the output in `wanted` and what is
# said in `said`. (Each shard says by itself where processes still wait although the root returned.)
told() {
  name=$1 wanted_status=$2
  shift 2
  timeout 120 "$@" > "$room/out" 2> "$room/all_said" < /dev/null
  status=$?
  grep -v 'still waits\{0,1\} although the root returned' "$room/all_said" > "$room/err"
  [ "$status" = "$wanted_status" ] && cmp -s "$room/out" "$room/wanted" && cmp -s "$room/err" "$room/said"
  note "$name (status $status)" $?
}

# The script $1 refuses the words from $3 on, in the one line $2.
refused() {
  script=$1
  : > "$room/wanted"
  echo "$2" > "$room/said"
  shift 2
  told "$script $*" 2 "$script" "$@"
}

# What one program reports of the seeds $1 by the words from $2 on, in `wanted` and $one.
one_tells() {
  seeds=$1
  shift
  timeout 120 "$program" hunt "$@" --seeds "$seeds" > "$room/wanted"
  one=$?
  : > "$room/said"
}

# Notes which seeds the program is asked for, in `ran`, and runs it; the hunt of the seeds in `dying` dies with half its
# answer.
watched() {
  cat > "$room/watched" << 'END'
#!/bin/sh
for word; do last=$word; done
echo "$last" >> "$NOTES/ran"
if grep -qx -- "$last" "$NOTES/dying"; then
  "$PROGRAM" "$@" | head -c 9
  kill -9 $$
fi
exec "$PROGRAM" "$@"
END
  chmod +x "$room/watched"
  : > "$room/dying"
  export NOTES="$room" PROGRAM="$program" PULSEFARM="$room/watched"
}

# By 1, 4 and 16 shards what one program reports of the seeds $1 by the words from $2 on.
shards_tell() {
  all=$1
  shift
  one_tells "$all" "$@"
  for count in ${COUNTS:-1 4 16}; do
    rm -rf "$room/parts"
    told "$* over $all in $count" "$one" sh "$many/parallel.sh" "$room/parts" "$all" "$count" "$@" --workers 1
    [ "$(find "$room/parts" -type f | wc -l)" = "$count" ]
    note "$count shards of $* left as many answers" $?
  done
}

hunts() {
  rare="$top/tests/farm/many/rare.erl --root main --limit 2000 --property true --strategy uniform"
  locks="$top/examples/two_locks.erl --root main --limit 2000 --property nodeadlock"
  reply="$top/examples/wrong_reply.erl --root main --limit 2000"
  # The words have no blanks in them.
  # shellcheck disable=SC2086
  {
    shards_tell 40000..50000 $rare
    shards_tell 40000..50000 $rare --all
    shards_tell 30000..40000 $rare
    shards_tell 18446744073709551515..18446744073709551615 $locks --all --weights 9:1
    shards_tell 0..16 $reply --property true --shrink 300
    shards_tell 0..2000 $reply --property 'never:{reply,"x",_}'
    shards_tell 0..2000 $reply --property withinlimit --property true
    COUNTS=16 shards_tell 0..1000000 $reply --property true --all
  }
}

# The parts $1 of a hunt in 4 are lost, cut or never came: it is reported which seeds are to be run again, and only
# these are, by the words from $2 on.
mended() {
  damage=$1
  shift
  one_tells 42000..46000 "$@"
  cp "$room/wanted" "$room/whole"
  rm -rf "$room/parts"
  sh "$many/parallel.sh" "$room/parts" 42000..46000 4 "$@" > /dev/null
  case $damage in
    lost) rm "$room/parts/43000..44000" ;;
    cut) head -c -1 "$room/parts/43000..44000" > "$room/part" && cp "$room/part" "$room/parts/43000..44000" ;;
    empty) : > "$room/parts/43000..44000" ;;
    two) rm "$room/parts/43000..44000" "$room/parts/45000..46000" ;;
  esac
  : > "$room/wanted"
  echo 'the seeds 43000..44000 are to be run again' > "$room/said"
  echo 43000..44000 > "$room/ran_wanted"
  if [ "$damage" = two ]; then
    echo 'the seeds 45000..46000 are to be run again' >> "$room/said"
    echo 45000..46000 >> "$room/ran_wanted"
  fi
  told "$damage parts of $*" 2 python3 "$many/merge.py" 42000..46000 "$room/parts"
  : > "$room/ran"
  cp "$room/whole" "$room/wanted"
  : > "$room/said"
  told "$damage parts of $*, run again" "$one" sh "$many/parallel.sh" "$room/parts" 42000..46000 4 "$@"
  sort -n "$room/ran" | cmp -s - "$room/ran_wanted"
  note "of $damage parts of $* these alone are run again" $?
}

# A shard dies in the middle of its hunt, by the words $@, and is run again.
died() {
  one_tells 42000..46000 "$@"
  cp "$room/wanted" "$room/whole"
  rm -rf "$room/parts"
  echo 44000..45000 > "$room/dying"
  sh "$many/parallel.sh" "$room/parts" 42000..46000 4 "$@" > "$room/out" 2> "$room/err"
  [ $? = 2 ] && [ ! -s "$room/out" ] && grep -qx 'the seeds 44000..45000 are to be run again' "$room/err"
  note "a shard that dies" $?
  : > "$room/dying"
  : > "$room/ran"
  told "a shard that died, run again" "$one" sh "$many/parallel.sh" "$room/parts" 42000..46000 4 "$@"
  echo 44000..45000 | cmp -s - "$room/ran"
  note "of a shard that died its seeds alone are run again" $?
}

# An answer that lacks its last row is cut, though each of its lines is whole.
lacks_a_row() {
  one_tells 0..2000 "$@"
  [ "$(wc -l < "$room/wanted")" = 3 ]
  note "there are two outcomes behind the strategy" $?
  rm -rf "$room/parts"
  sh "$many/parallel.sh" "$room/parts" 0..2000 4 "$@" > /dev/null
  head -n -1 "$room/parts/500..1000" > "$room/part" && cp "$room/part" "$room/parts/500..1000"
  : > "$room/wanted"
  echo 'the seeds 500..1000 are to be run again' > "$room/said"
  told "a row that is lacking" 2 python3 "$many/merge.py" 0..2000 "$room/parts"
}

# What comes after the least seed that fails may be missing.
behind() {
  one_tells 40000..50000 "$@"
  rm -rf "$room/parts"
  sh "$many/parallel.sh" "$room/parts" 40000..50000 16 "$@" > /dev/null
  rm "$room/parts/47500..48125" "$room/parts/49375..50000"
  told "missing behind the least seed" "$one" python3 "$many/merge.py" 40000..50000 "$room/parts"
  : > "$room/wanted"
  echo 'the seeds 40000..40625 are to be run again' > "$room/said"
  rm "$room/parts/40000..40625"
  told "missing before the least seed" 2 python3 "$many/merge.py" 40000..50000 "$room/parts"
}

deaths() {
  # shellcheck disable=SC2086
  for damage in lost cut empty two; do
    mended "$damage" $rare
    mended "$damage" $rare --all
  done
  # shellcheck disable=SC2086
  died $rare --all
  # shellcheck disable=SC2086
  behind $rare
  # shellcheck disable=SC2086
  lacks_a_row $reply --property true --all
}

# On two machines that share the folder, whose shells see each word as it was given.
over_ssh() {
  pattern='never:{reply,"a $b",_}'
  one_tells 0..2000 "$top/examples/wrong_reply.erl" --root main --limit 2000 --property "$pattern"
  rm -rf "$room/parts"
  : > "$room/hosts"
  PARALLEL="--ssh $top/tests/farm/many/ssh --sshlogin 1/alpha,1/beta" told "two machines" "$one" sh \
    "$many/parallel.sh" "$room/parts" 0..2000 4 \
    "$top/examples/wrong_reply.erl" --root main --limit 2000 --property "$pattern"
  printf '%s\n' alpha beta > "$room/wanted"
  sort -u "$room/hosts" | cmp -s - "$room/wanted"
  note "both machines have shards" $?
}

# The batch file under each number of an array, as Slurm runs it.
slurm() {
  # shellcheck disable=SC2086
  one_tells 40000..50000 $rare
  rm -rf "$room/parts"
  for index in 3 0 1 2; do
    # shellcheck disable=SC2086
    MANY=$many SLURM_ARRAY_TASK_ID=$index SLURM_CPUS_PER_TASK=2 sh "$many/array.sbatch" "$room/parts" 40000..50000 4 \
      $rare || echo "task $index: $?"
  done
  told "a Slurm array" "$one" python3 "$many/merge.py" 40000..50000 "$room/parts"
}

# The Job under each of its indices, as Kubernetes runs it.
kubernetes() {
  mkdir -p "$room/bin" "$room/hunt"
  ln -sf "$program" "$room/bin/pulsefarm"
  cp "$top/examples/wrong_reply.erl" "$room/hunt/race.erl"
  one_tells 0..2000 "$room/hunt/race.erl" --root main --limit 2000 --property true
  # (Debian's own Python has Debian's packages)
  python=python3
  "$python" -c 'import yaml' 2> /dev/null || python=/usr/bin/python3
  PATH=$room/bin:$PATH PULSEFARM='' MANY=$many SEEDS=0..2000 "$python" "$top/tests/farm/many/job.py" "$many/job.yaml" \
    "$room/hunt" > "$room/out" 2> "$room/err"
  note "the Job's manifest, and its container for each index" $?
  told "a Kubernetes Job" "$one" python3 "$many/merge.py" 0..2000 "$room/hunt/parts"
  [ "$(find "$room/hunt/parts" -type f | wc -l)" = 16 ]
  note "a part for each index" $?
}

# The ranges of shards, worked out by hand.
ranges() {
  : > "$room/said"
  printf '%s\n' 0..2 2..5 5..7 7..10 > "$room/wanted"
  told "10 seeds in 4" 0 python3 "$many/shards.py" 0..10 4
  echo 5..7 > "$room/wanted"
  told "shard 2 of these" 0 python3 "$many/shards.py" 0..10 4 2
  printf '%s\n' 18446744073709551612..18446744073709551613 18446744073709551613..18446744073709551615 > "$room/wanted"
  told "the last seeds" 0 python3 "$many/shards.py" 18446744073709551612..18446744073709551615 2
}

refusals() {
  shards=$many/shards.py merge=$many/merge.py
  refused "$shards" "shards.py: usage: shards.py A..B N [K]" 0..5
  refused "$shards" "shards.py: seeds are A..B, and no '5'" 5 1
  refused "$shards" "shards.py: a seed is a number without leading zeros, and no '05'" 0..05 1
  refused "$shards" "shards.py: of seeds A..B, A is below B and B at most 18446744073709551615: '5..5' isn't so" 5..5 1
  refused "$shards" \
    "shards.py: of seeds A..B, A is below B and B at most 18446744073709551615: '0..18446744073709551616' isn't so" \
    0..18446744073709551616 1
  refused "$shards" "shards.py: 5 seeds make from 1 to 5 shards, and no 6" 0..5 6
  refused "$shards" "shards.py: the last of 4 shards is 3: there is no 4" 0..10 4 4
  refused "$many/shard.sh" "usage: shard.sh FOLDER A..B WORDS.." parts 0..5
  refused "$many/indexed.sh" "usage: indexed.sh K FOLDER A..B N WORDS.." 0 parts 0..5 2
  refused "$many/indexed.sh" "shards.py: 5 seeds make from 1 to 5 shards, and no 9" 0 parts 0..5 9 race.erl
  refused "$many/parallel.sh" "usage: parallel.sh FOLDER A..B N WORDS.." parts 0..5 2
  refused "$many/array.sbatch" \
    "array.sbatch: sbatch gives each task its number, SLURM_ARRAY_TASK_ID, and there is none" parts 0..5 2 race.erl
  refused "$merge" "merge.py: usage: merge.py A..B FOLDER" 0..5
  refused "$merge" "merge.py: there is no folder $room/none" 0..5 "$room/none"
  rm -rf "$room/parts"
  mkdir "$room/parts"
  echo 'no failure in 5 seeds' > "$room/parts/0..5"
  refused "$merge" "merge.py: $room/parts/0..5 isn't a part of 1..9" 1..9 "$room/parts"
  echo 'no failure in 5 seeds' > "$room/parts/4..9"
  refused "$merge" "merge.py: $room/parts/0..5 and $room/parts/4..9 have seeds in common" 0..9 "$room/parts"
  mv "$room/parts/4..9" "$room/parts/5..9"
  echo 'holds 4 seeds, least 5: finished ok' > "$room/parts/5..9"
  refused "$merge" \
    "merge.py: $room/parts has parts that tell each outcome and parts that tell the least seed that fails: they aren't of one hunt" 0..9 "$room/parts"
  rm -rf "$room/parts"
  no_root='pulsefarm: the module exports no function `none` without arguments: name one that it exports, `main`, `doubler`, `squarer`'
  refused "$many/shard.sh" "$no_root
shard.sh: the hunt of the seeds 0..5 ended with status 2: B2" \
    "$room/parts" 0..5 "$top/examples/wrong_reply.erl" --root none --limit 9 --property true
  [ ! -e "$room/parts/0..5" ]
  note "a hunt that is refused leaves no answer" $?
}

# Commands of five projects, one after another of each, with refused calls, reports and shrinkings among them.
commands() {
  source=$(printf '%s\n' '-module(m).' '-export([main/0]).' 'main() -> 1 + 2 * 3.')
  for step in 1 2 3 4 5 6 7 8 9; do
    for project in 3 1 4 15 92; do
      case $step in
        1) printf 'submit %s %s\n%s\n' "$project" "${#source}" "$source" ;;
        2) echo "order $project 1 main returns seed:$project 100" ;;
        3) echo "shrink $project 1 main true 1,2,$project 9 100" ;;
        4) printf '%s\n' "claim 0 $project 1" "slice 0 $project 1 999" "file 0 $project 1" ;;
        5) printf '%s\n' "claim 2 $project 2" "slice 2 $project 2 999" "park 2 $project 2" "file 2 $project 2" ;;
        6) echo "fetch $project $((project % 3))" ;;
        7) echo "fetch $project 2" ;;
        8) echo "usage $project" ;;
        9) echo "drop $project 1" ;;
      esac
    done
  done
}

projects() {
  commands > "$room/commands"
  printf 'log 4' >> "$room/commands"
  "$program" steps "$room/commands" > "$room/wanted"
  cp "$room/wanted" "$room/whole"
  : > "$room/said"
  [ "$(grep -c '^p.* report\|^p.* shrunk\|^p.* refused' "$room/wanted")" = 10 ]
  note "the commands have reports, shrinkings and refusals" $?
  python3 "$many/projects.py" split "$room/commands" "$room/projects"
  find "$room/projects" -name '*.steps' | parallel --will-cite "$program" steps '{}' '>' '{.}.told'
  [ "$(find "$room/projects" -name '*.told' | wc -l)" = 5 ]
  note "a file for each project" $?
  told "five projects, each alone" 0 python3 "$many/projects.py" join "$room/commands" "$room/projects"
  : > "$room/wanted"
  printf 'the commands of project %s are to be run again\n' 3 92 > "$room/said"
  rm "$room/projects/3.told"
  head -c -2 "$room/projects/92.told" > "$room/part" && cp "$room/part" "$room/projects/92.told"
  told "two projects' answers that are missing and cut" 2 python3 "$many/projects.py" join "$room/commands" \
    "$room/projects"
  for project in 3 92; do "$program" steps "$room/projects/$project.steps" > "$room/projects/$project.told"; done
  cp "$room/whole" "$room/wanted"
  : > "$room/said"
  told "these two run again" 0 python3 "$many/projects.py" join "$room/commands" "$room/projects"
  printf 'log 1\nlgo 1\n' > "$room/commands"
  refused "$many/projects.py" "projects.py: $room/commands: command 2 is none" split "$room/commands" "$room/projects"
  printf 'log 1\nsubmit 1 9\nshort\n' > "$room/commands"
  refused "$many/projects.py" "projects.py: $room/commands: the source of command 2 doesn't end where its length says" \
    split "$room/commands" "$room/projects"
  refused "$many/projects.py" "projects.py: $room/none: No such file or directory" split "$room/none" "$room/projects"
  refused "$many/projects.py" "projects.py: usage: projects.py split|join FILE FOLDER" split "$room/commands"
}

watched
ranges
hunts
deaths
over_ssh
slurm
kubernetes
refusals
projects
tell_counts
