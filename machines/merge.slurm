#!/bin/bash
# Merges the reports of the parts of a trace in a job of Slurm that waits for the job array with this number:
#
#   sbatch --dependency=afterok:NUMBER machines/merge.slurm PREFIX 16 [TRACE]
#
# The report is the file PREFIX.report, which appears when it is complete. The job succeeds if it is there, with races
# or without.
#SBATCH --job-name=spbags-merge
#SBATCH --kill-on-invalid-dep=yes
set -u
machines=${SPBAGS_MACHINES:-$SLURM_SUBMIT_DIR/machines}
source "$machines/common"
keep_answer "$1.report" "$machines/merge-parts" "$@"
