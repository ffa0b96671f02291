#!/bin/sh
# Hunts through shard number K of N, as the engines of arrays count them, from 0 on.
#
# Usage: indexed.sh K FOLDER A..B N WORDS..; the rest is as with shard.sh.
set -u
if [ $# -lt 5 ]; then
  echo "usage: indexed.sh K FOLDER A..B N WORDS.." >&2
  exit 2
fi
here=$(cd "$(dirname "$0")" && pwd)
index=$1 folder=$2 all=$3 count=$4
shift 4
seeds=$(python3 "$here/shards.py" "$all" "$count" "$index") || exit 2
exec sh "$here/shard.sh" "$folder" "$seeds" "$@"
