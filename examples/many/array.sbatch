#!/bin/sh
#SBATCH --job-name=hunt
#SBATCH --array=0-15
#SBATCH --cpus-per-task=4
#SBATCH --time=01:00:00
# One shard of a hunt for each task of a Slurm array, in the folder that it is submitted from, which all nodes share.
#
#   sbatch --array=0-15 array.sbatch FOLDER A..B 16 WORDS..
#
# FOLDER takes the answers, and WORDS are those of `pulsefarm hunt` but --seeds and --workers. MANY is the folder of these scripts where they
# aren't in the folder that the array is submitted from. Submitted again with the same words, it runs what is missing and nothing else.
set -u
if [ -z "${SLURM_ARRAY_TASK_ID:-}" ]; then
  echo "array.sbatch: sbatch gives each task its number, SLURM_ARRAY_TASK_ID, and there is none" >&2
  exit 2
fi
exec sh "${MANY:-.}/indexed.sh" "$SLURM_ARRAY_TASK_ID" "$@" --workers "${SLURM_CPUS_PER_TASK:-1}"
