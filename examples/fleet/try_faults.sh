#!/usr/bin/env bash
# Tries the recipes of docs/FLEET.md with faults, on small files with odd names, and prints a line for each recipe and fault.
#
#     try_faults.sh [PROGRAM [RECIPE..]]
#
# PROGRAM is $AVRO where it is not given, and else avro on the PATH. Without a RECIPE all are tried: xargs, parallel, slurm, job (of Kubernetes) and
# dask, and slurm-split and dask-split for the parts of one file. The tasks of Slurm and the indexes of Kubernetes are run by their variables, and
# Dask by a scheduler and two workers on this machine. What is not tried is said. The faults are: none; a job's program is killed, or its shell; what
# started the jobs is killed, and its running job goes on beside the next run; the disk is full, which needs root for a small file system; a file is
# cut; the list grew; and one of Dask's workers is killed. After each, what stands in `out` must be whole, what is missing must be named, and the same line must do the
# rest, with the right sum. The status is 0 where all of this holds.
set -euo pipefail
export LC_ALL=C

fail() {
  echo "$*" >&2
  exit 1
}

here=$(cd "$(dirname "${BASH_SOURCE[0]}")" && pwd)
REAL=$(command -v "${1:-${AVRO:-avro}}") || fail "try_faults.sh: ${1:-${AVRO:-avro}}: no such program"
REAL=$(realpath "$REAL")
recipes=("${@:2}")
[ "${#recipes[@]}" != 0 ] || recipes=(xargs parallel slurm job dask slurm-split dask-split)
WORK=$(mktemp -d)
export REAL WORK AVRO=$WORK/bin/avro SPLIT=$here/split.py PARALLEL_HOME=$WORK/parallel PATH=$WORK/bin:$PATH
shared=$WORK/shared
cluster=()
starters=()
has_disk=no
job=0

# Ends those of some processes of this shell's that still run.
end() { # PID..
  local pid running
  running=$(jobs -pr)
  for pid in "$@"; do
    if grep -qx "$pid" <<< "$running"; then kill -9 "$pid" 2> /dev/null || true; fi
  done
}

clean_up() {
  rm -f "$WORK/hold"
  end "${cluster[@]}"
  [ "$has_disk" = no ] || umount -l "$shared"
  rm -rf "$WORK"
}
trap clean_up EXIT

mkdir "$WORK/bin" "$shared" "$PARALLEL_HOME" "$WORK/want"
if mount -t tmpfs -o size=2m tmpfs "$shared" 2> "$WORK/said"; then has_disk=yes; fi

# The program: the first run while there is a file `hold` leaves a beginning in OUT, and waits until that file is gone.
cat > "$AVRO" << 'END'
#!/usr/bin/env bash
echo "$*" >> "$WORK/runs"
if [ -e "$WORK/hold" ] && mkdir "$WORK/held" 2> /dev/null; then
  [ "$1" != copy ] || printf 'Obj\001' > "$3"
  echo $$ > "$WORK/held/new"
  mv "$WORK/held/new" "$WORK/held/pid"
  while [ -e "$WORK/hold" ]; do sleep 0.2; done
fi
exec "$REAL" "$@"
END
chmod +x "$AVRO"

# The files, and the copies that are wanted.
# shellcheck disable=SC2016
names=('001.avro' 'two words.avro' $'it\'s "quoted".avro' '-dash.avro' 'größe.avro' '$(touch owned); `touch owned`.avro' 'back\slash\n.avro' '.hidden.avro' '*.avro')
python3 "$here/make_files.py" "$WORK/made" "${#names[@]}"
cp "$here/../order-2.avsc" "$WORK/new.avsc"
mkdir "$WORK/whole"
for at in "${!names[@]}"; do
  cp "$WORK/made/whole/00$((at + 1)).avro" "$WORK/whole/${names[at]}"
  "$REAL" copy "$WORK/whole/${names[at]}" "$WORK/want/${names[at]}" --reader "$WORK/new.avsc"
done > "$WORK/counts"

sum() { sort -u "$@" | awk '/^data [0-9]+ blocks [0-9]+ ./ { d += $2; b += $4; n++ } END { printf "data %.0f blocks %.0f, %d copies\n", d, b, n }'; }
wanted_sum=$(awk '{ d += $2; b += $4; n++ } END { printf "data %.0f blocks %.0f, %d copies\n", d, b, n }' "$WORK/counts")

# An empty folder with the files, where the recipe runs.
fresh() {
  cd "$WORK"
  find "$shared" -mindepth 1 -delete
  rm -rf "$WORK/held" "$WORK/hold" "$WORK/runs"
  cd "$shared"
  mkdir in out said
  cp "$WORK/new.avsc" .
  cp "$WORK/whole/"* "$WORK/whole/".[!.]* in
  printf '%s\n' "${names[@]}" > list
}

# The recipes for many files: each starts its jobs, and says by which processes.

todo() { comm -23 <(sort -u list) <(find out -type f ! -name '*.part.*' -printf '%P\n' | sort); }

start_xargs() {
  todo > names
  # shellcheck disable=SC2016
  xargs -d '\n' -r -n 1 -P 4 sh -c 't="out/$1.part.$$"; n=$(avro copy "in/$1" "$t" --reader new.avsc) &&
    printf "%s %s\n" "$n" "$1" >> counts && mv "$t" "out/$1"' sh < names > said/xargs 2>&1 &
  starters=("$!")
}

start_parallel() {
  # shellcheck disable=SC2016
  local job='t=out/{}.part.$$; n=$(avro copy in/{} "$t" --reader new.avsc) && printf "%s %s\n" "$n" {} >> counts && mv "$t" out/{}'
  todo > names
  parallel -j 4 --joblog joblog "$job" < names > said/parallel 2>&1 &
  starters=("$!")
}

# Three tasks, which share the lines.
start_tasks() { # SCRIPT WORD..
  local id
  starters=()
  job=$((job + 1))
  for id in 4 5 6; do
    SLURM_JOB_ID=$job SLURM_ARRAY_TASK_COUNT=3 SLURM_ARRAY_TASK_MIN=4 SLURM_ARRAY_TASK_MAX=6 SLURM_ARRAY_TASK_ID=$id "$@" > "said/${job}_$id" 2>&1 &
    starters+=("$!")
  done
}

start_slurm() {
  todo > missing || true
  start_tasks "$here/array.sbatch"
}

start_job() {
  local at count
  mkdir -p "$WORK/pod"
  # What the command does in the volume's folder: its list is what is missing.
  todo > "$WORK/pod/list"
  ln -sfn "$shared/in" "$WORK/pod/in"
  ln -sfn "$shared/out" "$WORK/pod/out"
  cp "$WORK/new.avsc" "$WORK/pod/new.avsc"
  ln -sf "$AVRO" "$WORK/pod/avro"
  starters=()
  job=$((job + 1))
  count=$(wc -l < "$WORK/pod/list")
  for ((at = 0; at < count; at++)); do
    (cd "$WORK/pod" && JOB_COMPLETION_INDEX=$at HOSTNAME=pod-$job-$at exec "${pod_command[@]}") > "said/${job}_$at" 2>&1 &
    starters+=("$!")
  done
}

start_dask() {
  "$python" "$here/dask_fleet.py" "$address" copies > said/dask 2>&1 &
  starters=("$!")
}

# The recipes for the parts of one file.

long="in/it's \"long\".avro"

make_plan() {
  rm -rf parts
  "$SPLIT" plan "$long" plan.json --bytes 1 --reader new.avsc > parts.count
  mkdir parts
}

start_slurm_split() { start_tasks "$here/split.sbatch" "$(cat parts.count)"; }

start_dask_split() {
  "$python" "$here/dask_fleet.py" "$address" parts plan.json parts > said/dask 2>&1 &
  starters=("$!")
}

# What holds of a recipe

is_split() { [[ $recipe == *-split ]]; }

start() { "start_${recipe//-/_}"; }

# Waits for what was started, and says its status.
finish() {
  local pid
  status=0
  for pid in "${starters[@]}"; do wait "$pid" 2> /dev/null || status=$?; done
  starters=()
}

run() {
  start
  finish
}

missing() {
  if is_split; then
    local at count
    count=$(cat parts.count)
    for ((at = 0; at < count; at++)); do [ -e "parts/$at.json" ] || echo "$at"; done
  else
    todo
  fi
}

# Whether what stands in `out` are whole copies.
check_whole() {
  local name
  ! is_split || return 0
  find out -type f ! -name '*.part.*' -printf '%P\n' > "$WORK/there"
  while read -r name; do
    cmp "$WORK/want/$name" "out/$name" || fail "$name: a copy that is not whole"
  done < "$WORK/there"
}

# Whether nothing is missing, and all is as by single runs.
check_complete() {
  [ "$status" = 0 ] || fail "at the end: status $status"
  [ -z "$(missing)" ] || fail "at the end: missing: $(missing | paste -sd ' ')"
  [ -z "$(find "$WORK" -name owned)" ] || fail 'a name was run as a command'
  if is_split; then
    "$SPLIT" join plan.json parts long.avro > said/joined || fail 'no join'
    "$REAL" copy "$long" "$WORK/long.avro" --reader new.avsc | cmp - said/joined || fail 'other counts'
    cmp long.avro "$WORK/long.avro" || fail 'another copy'
    return
  fi
  check_whole
  case $recipe in
    xargs | parallel) sum counts > "$WORK/sum" ;;
    slurm | dask) sum said/* > "$WORK/sum" ;;
    *) return ;;
  esac
  [ "$(cat "$WORK/sum")" = "$wanted_sum" ] || fail "the sum is $(cat "$WORK/sum"), and not $wanted_sum"
}

# What goes before the next run: unfinished copies are removed.
tidy() { find out -name '*.part.*' -delete; }

begin() {
  fresh
  if is_split; then
    cp "$WORK/whole/${longest}" "$long"
    make_plan
  fi
}

# Starts, and waits until a job is held: its process is then in $held.
start_held() {
  : > "$WORK/hold"
  start
  for ((at = 0; at < 3000; at++)); do
    [ ! -e "$WORK/held/pid" ] || break
    sleep 0.2
  done
  held=$(cat "$WORK/held/pid")
}

# Lets the held job go on to its end.
let_go() {
  rm -f "$WORK/hold"
  while kill -0 "$held" 2> /dev/null; do sleep 0.2; done
  sleep 1
}

fault_none() {
  begin
  run
  check_complete
  echo 'all are whole'
}

fault_job() {
  begin
  start_held
  kill -9 "$held"
  rm -f "$WORK/hold"
  finish
  [ "$status" != 0 ] || fail 'status 0 after a killed job'
  [ -n "$(missing)" ] || fail 'the killed job is not missing'
  check_whole
  said="status $status; missing: $(missing | wc -l)"
  run
  check_complete
  echo "nothing lost, named ($said)"
}

fault_shell() {
  local shell
  [ "$recipe" = xargs ] || [ "$recipe" = parallel ] || return 0
  begin
  start_held
  shell=$(ps -o ppid= -p "$held" | tr -d ' ')
  [[ $(ps -o args= -p "$shell") == *'avro copy'* ]] || fail 'the held job has no shell'
  kill -9 "$shell"
  finish
  [ "$status" != 0 ] || fail 'status 0 after a killed shell'
  [ -n "$(missing)" ] || fail 'the held job is not missing'
  check_whole
  said="status $status; missing: $(missing | wc -l)"
  run
  check_complete
  let_go
  check_complete
  echo "nothing lost, named ($said)"
}

fault_starter() {
  begin
  start_held
  end "${starters[@]}"
  finish
  check_whole
  said="missing: $(missing | wc -l)"
  [ -n "$(missing)" ] || fail 'the held job is not missing'
  run
  check_complete
  let_go
  check_complete
  echo "nothing lost, named ($said)"
}

fault_disk() {
  if [ "$has_disk" = no ]; then
    echo 'not tried: no small file system'
    return
  fi
  begin
  dd if=/dev/zero of=fill bs=4k 2> "$WORK/said" || true
  truncate -s -20k fill
  run
  rm fill
  [ "$status" != 0 ] || fail 'status 0 on a full disk'
  [ -n "$(missing)" ] || fail 'nothing is missing after a full disk'
  check_whole
  said="missing: $(missing | wc -l)"
  tidy
  run
  check_complete
  echo "nothing lost, named ($said)"
}

fault_file() {
  begin
  if is_split; then
    truncate -s -20 "$long"
    make_plan
    run
    [ "$status$(missing)" = 0 ] || fail 'parts are missing'
    status=0
    "$SPLIT" join plan.json parts long.avro > said/joined 2>&1 || status=$?
    ! "$REAL" copy "$long" "$WORK/long.avro" --reader new.avsc > said/copied 2>&1 || fail 'the file is not cut'
    [ "$status" = 3 ] || fail "status $status of a cut file"
    cmp said/copied said/joined || fail 'another line than that of avro copy'
    cmp long.avro "$WORK/long.avro" || fail 'another beginning than that of avro copy'
    echo "named: $(cat said/joined)"
    return
  fi
  truncate -s -20 in/001.avro
  run
  [ "$status" != 0 ] || fail 'status 0 with a cut file'
  [ "$(missing)" = 001.avro ] || fail "missing: $(missing | paste -sd ' ')"
  grep -h '^\(001.avro: \)\?avro: in/001.avro: C16 ' said/* > "$WORK/said" || fail 'no line says why'
  check_whole
  cp "$WORK/whole/001.avro" in
  tidy
  run
  check_complete
  echo "nothing lost, named (missing: 001.avro)"
}

fault_list() {
  local most
  begin
  if is_split; then
    tail -c +"$(($(sed 's/.*"header": \([0-9]*\).*/\1/' plan.json) + 1))" "$WORK/whole/$longest" >> "$long"
    run
    [ "$status" != 0 ] || fail 'parts of a file that grew'
    "$SPLIT" join plan.json parts long.avro > said/joined 2>&1 && fail 'joined parts of a file that grew'
    make_plan
    run
    check_complete
    echo 'refused; a new plan does it'
    return
  fi
  head -n 5 list > list.short
  mv list.short list
  run
  [ "$status$(missing)" = 0 ] || fail 'the short list was not done'
  printf '%s\n' "${names[@]}" | tac > list
  run
  check_complete
  most=$(grep -c '^copy ' "$WORK/runs")
  [ "$most" = "${#names[@]}" ] || fail "$most jobs for ${#names[@]} files"
  echo 'nothing lost, and nothing done twice'
}

fault_worker() {
  local worker
  [[ $recipe == dask* ]] || return 0
  begin
  start_held
  # A job may be started by a program that the worker runs.
  worker=$held
  until [[ " ${cluster[*]} " == *" $worker "* ]]; do
    worker=$(ps -o ppid= -p "$worker" | tr -d ' ')
    [ "${worker:-1}" != 1 ] || fail 'the held job is not of a worker'
  done
  kill -9 "$worker"
  finish
  check_complete
  let_go
  check_complete
  echo 'nothing lost: another worker did it'
}

start_worker() {
  "$python" -m distributed.cli.dask_worker "$address" --no-nanny --no-dashboard --nthreads 2 --local-directory "$WORK" > "$WORK/worker.$RANDOM" 2>&1 &
  cluster+=("$!")
}

# A scheduler and two workers.
start_cluster() {
  "$python" -m distributed.cli.dask_scheduler --host 127.0.0.1 --port 0 --no-dashboard --scheduler-file "$WORK/scheduler" > "$WORK/scheduler.said" 2>&1 &
  cluster=("$!")
  until [ -s "$WORK/scheduler" ]; do
    kill -0 "${cluster[0]}" || fail "no scheduler: $(tail -n 1 "$WORK/scheduler.said")"
    sleep 0.5
  done
  address=$(python3 -c 'import json, sys; print(json.load(open(sys.argv[1]))["address"])' "$WORK/scheduler")
  start_worker
  start_worker
}

# Whether a recipe's programs are here.
can_try() { # RECIPE
  case $1 in
    parallel) [[ $(parallel --version 2> /dev/null || true) == "GNU parallel"* ]] ;;
    job) [ "${#pod_command[@]}" != 0 ] ;;
    dask*) [ -n "$python" ] ;;
    *) true ;;
  esac
}

python=''
pod_command=()
for each in python3 /usr/bin/python3; do
  [ -n "$python" ] || ! "$each" -c 'import distributed' 2> "$WORK/said" || python=$each
  if [ "${#pod_command[@]}" = 0 ] && "$each" -c 'import yaml' 2> "$WORK/said"; then
    mapfile -d '' -t pod_command < <("$each" -c '
import sys, yaml
job = yaml.safe_load(open(sys.argv[1], encoding="utf-8"))
print(*job["spec"]["template"]["spec"]["containers"][0]["command"], sep="\0", end="\0")' "$here/job.yaml")
  fi
done
longest=$(cd "$WORK/whole" && find . -name '00*' -o -type f -printf '%s %P\n' | sort -n | tail -n 1 | cut -d ' ' -f 2-)
if [[ " ${recipes[*]} " == *' dask'* ]] && [ -n "$python" ]; then start_cluster; fi

wrong=0
for recipe in "${recipes[@]}"; do
  if ! can_try "$recipe"; then
    printf '%-12s not tried: its programs are not here\n' "$recipe"
    continue
  fi
  for fault in none job shell starter disk file list worker; do
    status=0
    set +e
    (
      trap - EXIT
      set -e
      "fault_$fault"
    ) > "$WORK/cell" 2> "$WORK/log"
    status=$?
    set -e
    if [ "$status" != 0 ]; then
      wrong=$((wrong + 1))
      echo "WRONG: $(tail -n 1 "$WORK/log")" > "$WORK/cell"
    fi
    [ ! -s "$WORK/cell" ] || printf '%-12s %-8s %s\n' "$recipe" "$fault" "$(cat "$WORK/cell")"
    if [ "$fault" = worker ] && [[ $recipe == dask* ]]; then start_worker; fi
  done
done
[ "$wrong" = 0 ] || fail "$wrong went wrong"
