#!/bin/sh
# A hunt as a step of a CI job: what it finds lies in FOLDER, for the job to upload, and its status is the job's: 1
# where a run fails.
#
# Usage: hunt.sh FOLDER FILE ROOT LIMIT PROPERTY A..B
#
# FOLDER gets answer.txt, what `pulsefarm hunt` prints, answer.json, the same as JSON, and where a run fails chart.svg,
# its chart.
set -u
if [ $# != 6 ]; then
  echo "usage: hunt.sh FOLDER FILE ROOT LIMIT PROPERTY A..B" >&2
  exit 2
fi
here=$(cd "$(dirname "$0")" && pwd)
program=${PULSEFARM:-pulsefarm}
folder=$1 file=$2 root=$3 limit=$4 property=$5 seeds=$6
mkdir -p "$folder" || exit 2
rm -f "$folder/chart.svg"
"$program" hunt "$file" --root "$root" --limit "$limit" --property "$property" --seeds "$seeds" --shrink 300 > "$folder/answer.txt"
status=$?
cat "$folder/answer.txt"
python3 "$here/answer.py" < "$folder/answer.txt" > "$folder/answer.json" || exit 2
if [ "$status" = 1 ]; then
  "$program" chart "$file" --root "$root" --limit "$limit" --property "$property" --schedule "@$folder/answer.txt" > "$folder/chart.svg"
  [ $? = 1 ] || exit 2
fi
exit "$status"
