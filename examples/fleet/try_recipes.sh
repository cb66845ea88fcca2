#!/usr/bin/env bash
# Runs what the recipes give to a Slurm array, a Kubernetes Job and Hadoop, on this machine and without those: each task or index by its variable, and
# Hadoop's `fs` by a stand-in over folders. Of nine files one is cut and one is of another schema.
#
#     try_recipes.sh [PROGRAM]
#
# PROGRAM is $AVRO where it is not given, and else avro on the PATH. job.yaml is read by Python's module yaml, and hadoop.sh needs a PROGRAM with `pipe`;
# what is not tried is said.
set -euo pipefail

fail() {
  echo "try_recipes.sh: $*" >&2
  exit 1
}

here=$(cd "$(dirname "${BASH_SOURCE[0]}")" && pwd)
AVRO=$(realpath "$(command -v "${1:-${AVRO:-avro}}")")
export AVRO
work=$(mktemp -d)
trap 'rm -rf "$work"' EXIT
python3 "$here/make_files.py" "$work" 9
cp "$here/../order-2.avsc" "$work/new.avsc"
ln -s "$AVRO" "$work/avro"
cd "$work"
mkdir want was bin
while read -r name; do "$AVRO" copy "whole/$name" "want/$name" --reader new.avsc > said; done < list

# A `hadoop` that knows the three commands of hadoop.sh, over folders.
cat > bin/hadoop << 'END'
#!/usr/bin/env bash
case $2 in
  -cat) exec cat "$3" ;;
  -put) exec cat > "$5" ;;
  -mv) exec mv "$3" "$4" ;;
  *) exit 255 ;;
esac
END
chmod +x bin/hadoop
PATH=$work/bin:$PATH

# Whether one task of a recipe ends as it must: the third file is cut, and the sixth is of another schema.
check() { # NUMBER STATUS
  local name beginning
  name=$(sed -n "$1p" list)
  case $1,$2 in
    [36],3)
      # It stands under the name of the copy, or with .part or the pod behind it.
      beginning=$(echo "out/$name"*)
      cmp -n "$(stat -c %s "$beginning")" "$beginning" "want/$name" || fail "$name: what was left is no beginning"
      ;;
    [36],* | *,[1-9]*) fail "$name: status $2" ;;
    *) cmp "out/$name" "want/$name" || fail "$name: another copy" ;;
  esac
}

# Runs a recipe for each file, and then for the two once more, mended.
try() { # NAME FUNCTION
  local at status
  rm -rf out
  mkdir out
  cp in/* was
  for at in 1 2 3 4 5 6 7 8 9; do
    status=0
    "$2" "$at" > said 2>&1 || status=$?
    check "$at" "$status"
  done
  cp whole/* in
  "$2" 3 > said 2>&1 || fail "$1: 3, mended: $(cat said)"
  "$2" 6 > said 2>&1 || fail "$1: 6, mended: $(cat said)"
  find out -name '*.part.*' -delete
  diff -r out want || fail "$1: another copy"
  cp was/* in
  echo "$1: 9 files, of which 2 failed and were done again"
}

task_of_slurm() {
  cp list missing
  SLURM_JOB_ID=1 SLURM_ARRAY_TASK_COUNT=9 SLURM_ARRAY_TASK_MIN=1 SLURM_ARRAY_TASK_MAX=9 SLURM_ARRAY_TASK_ID=$1 "$here/array.sbatch"
}

index_of_job() {
  JOB_COMPLETION_INDEX=$(($1 - 1)) HOSTNAME=avro-copies-$1 "${command[@]}"
}

file_of_hadoop() {
  local name
  name=$(sed -n "$1p" list)
  "$here/hadoop.sh" "in/$name" "out/$name" new.avsc
}

try 'array.sbatch' task_of_slurm
python=''
for each in python3 /usr/bin/python3; do
  [ -n "$python" ] || ! "$each" -c 'import yaml' 2> said || python=$each
done
if [ -n "$python" ]; then
  "$python" - "$here/job.yaml" > words << 'END'
import sys
import yaml

with open(sys.argv[1], encoding="utf-8") as file:
    job = yaml.safe_load(file)
(container,) = job["spec"]["template"]["spec"]["containers"]
print(*container["command"], sep="\0", end="\0")
END
  mapfile -d '' -t command < words
  try 'job.yaml' index_of_job
else
  echo 'not tried: job.yaml (Python has no module yaml)'
fi
if "$AVRO" pipe < whole/001.avro > said 2>&1; then
  try 'hadoop.sh, by a stand-in for hadoop' file_of_hadoop
else
  echo 'not tried: hadoop.sh (the program has no pipe)'
fi
