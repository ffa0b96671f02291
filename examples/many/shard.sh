#!/bin/sh
# Hunts through one shard of seeds, and leaves what `pulsefarm hunt` prints in FOLDER/A..B once that is whole. A shard
# whose answer is there isn't run again. The status is 0 where the hunt ended, whether or not it found a failure; else
# 2.
#
# Usage: shard.sh FOLDER A..B WORDS..; WORDS are those of `pulsefarm hunt` but --seeds. PULSEFARM names the program
# where it isn't on the path.
set -u
if [ $# -lt 3 ]; then
  echo "usage: shard.sh FOLDER A..B WORDS.." >&2
  exit 2
fi
folder=$1 seeds=$2
shift 2
mkdir -p "$folder" || exit 2
[ ! -e "$folder/$seeds" ] || exit 0
# (a shard that dies leaves this file, which nobody reads)
part=$folder/.$seeds.$(uname -n).$$
"${PULSEFARM:-pulsefarm}" hunt "$@" --seeds "$seeds" > "$part"
status=$?
if [ "$status" -gt 1 ]; then
  why=$(head -n 1 "$part")
  echo "shard.sh: the hunt of the seeds $seeds ended with status $status${why:+: $why}" >&2
  rm -f "$part"
  exit 2
fi
mv "$part" "$folder/$seeds"
