#!/bin/sh
# Hunts through the seeds of A..B in N shards by GNU parallel, and prints what one program prints of them all. Given
# again, it runs what is missing and nothing else.
#
# Usage: parallel.sh FOLDER A..B N WORDS..; WORDS are those of `pulsefarm hunt` but --seeds. What is to go to `parallel`
# itself stands in PARALLEL:
# `--jobs 4` for four at once here, or `--sshlogin 1/alpha,1/beta` for one at once on each of two machines that share
# this folder.
set -u
if [ $# -lt 4 ]; then
  echo "usage: parallel.sh FOLDER A..B N WORDS.." >&2
  exit 2
fi
here=$(cd "$(dirname "$0")" && pwd)
folder=$1 all=$2 count=$3
shift 3
shards=$(python3 "$here/shards.py" "$all" "$count") || exit 2
# (the words are quoted for `sh`, whatever shell the user has)
echo "$shards" | PARALLEL_SHELL=/bin/sh parallel --will-cite --quote --workdir . -I @SEEDS@ sh "$here/shard.sh" "$folder" @SEEDS@ "$@"
exec python3 "$here/merge.py" "$all" "$folder"
