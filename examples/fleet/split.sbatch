#!/usr/bin/env bash
#SBATCH --job-name=avro-parts
#SBATCH --array=0-19
#SBATCH --cpus-per-task=1
#SBATCH --output=said/%A_%a
# Copies the parts of one long file by the tasks of a Slurm array, in a folder that all nodes see:
#
#     sbatch split.sbatch COUNT
#
# plan.json is what `split.py plan` made, COUNT the number that it printed, and the parts go to the folder `parts`. The folder `said` must be there.
# --array says how many tasks there are, whose numbers follow each other; they take the parts by turns, and leave out what is done. SPLIT names
# split.py, else it is on the PATH. A task's status is that of the last part that failed, else 0.
set -euo pipefail

tasks=$SLURM_ARRAY_TASK_COUNT
if ((SLURM_ARRAY_TASK_MAX - SLURM_ARRAY_TASK_MIN + 1 != tasks)); then
  echo "split.sbatch: the numbers of the tasks do not follow each other" >&2
  exit 64
fi

status=0
for ((at = SLURM_ARRAY_TASK_ID - SLURM_ARRAY_TASK_MIN; at < $1; at += tasks)); do
  [ -e "parts/$at.json" ] || "${SPLIT:-split.py}" part plan.json "$at" parts || status=$?
done
exit "$status"
