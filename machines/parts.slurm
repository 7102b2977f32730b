#!/bin/bash
# Checks parts of a trace, each as a job of a Slurm job array:
#
#   sbatch machines/parts.slurm TRACE PREFIX 16 [word of check..]
#
# by the rules of machines/check-part. For another number of parts also name the array, such as `--array=0-63`, before
# the file's name. One thread reads and one works for each shard: with `--shards 1` two processors are enough.
#SBATCH --job-name=spbags-parts
#SBATCH --array=0-15
#SBATCH --cpus-per-task=2
set -u
# Slurm runs a copy of this file. The others are where it was submitted, or where machines/parts-slurm is.
machines=${SPBAGS_MACHINES:-$SLURM_SUBMIT_DIR/machines}
exec "$machines/check-part" "$1" "$2" "$SLURM_ARRAY_TASK_ID" "$3" "${@:4}"
