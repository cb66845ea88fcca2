#!/usr/bin/env bash
#SBATCH --job-name=avro
#SBATCH --array=0-19
#SBATCH --cpus-per-task=1
#SBATCH --output=said/%A_%a
# Copies the files that `missing` names, a line each, by the tasks of a Slurm array, in a folder that all nodes see: in/NAME becomes out/NAME,
# for the schema new.avsc. The folders `out` and `said` must be there. --array says how many tasks there are, whose numbers follow each other; they
# take the lines by turns, so there may be any number of lines. A copy has a name of its own until it is whole, and a task that is started again
# leaves out what is done. A task prints the counts and the name of each copy. Its status is that of the last copy that failed, else 0.
set -euo pipefail

tasks=$SLURM_ARRAY_TASK_COUNT
if ((SLURM_ARRAY_TASK_MAX - SLURM_ARRAY_TASK_MIN + 1 != tasks)); then
  echo "array.sbatch: the numbers of the tasks do not follow each other" >&2
  exit 64
fi

copy() { # NAME
  local part counts
  part=out/$1.part.$SLURM_JOB_ID.$$
  counts=$("${AVRO:-avro}" copy "in/$1" "$part" --reader new.avsc) || return
  printf '%s %s\n' "$counts" "$1" || return
  mv "$part" "out/$1"
}

mapfile -t names < missing
status=0
for ((at = SLURM_ARRAY_TASK_ID - SLURM_ARRAY_TASK_MIN; at < ${#names[@]}; at += tasks)); do
  [ -e "out/${names[at]}" ] || copy "${names[at]}" || status=$?
done
exit "$status"
