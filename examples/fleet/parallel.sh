#!/usr/bin/env bash
# Copies 300 (or $FILES) small container files into a new schema by jobs of GNU parallel on this machine, and checks what came of it.
#
#     parallel.sh [PROGRAM [copy|pipe]]
#
# PROGRAM is $AVRO where it is not given, and else avro on the PATH. A job is `avro copy IN PART`, or `avro pipe < IN > PART`, and gives the copy its
# name once it is whole. One of the files is cut, and one is of another schema: the joblog and what is missing must name these two and no other,
# the copies of all others must be those of single runs, byte for byte, and what stands in the PART of the two must be a beginning. The same line
# then goes on: with the two as they are, with a list that grew, and with the two mended. --resume-failed must find the two as well,
# where of the lines that a job has in the joblog the last one counts. The status is 0 where all of this holds.
set -euo pipefail
export LC_ALL=C

# GNU parallel is the Debian package parallel; another program of this name is in moreutils.
if [[ $(parallel --version 2>/dev/null || true) != "GNU parallel"* ]]; then
  echo "GNU parallel is missing: installing the Debian package parallel"
  as_root=()
  [ "$(id -u)" = 0 ] || as_root=(sudo)
  "${as_root[@]}" apt-get -qq update > /dev/null
  "${as_root[@]}" env DEBIAN_FRONTEND=noninteractive apt-get -qq --no-install-recommends install parallel > /dev/null
fi

fail() {
  echo "parallel.sh: $*" >&2
  exit 1
}

here=$(cd "$(dirname "${BASH_SOURCE[0]}")" && pwd)
AVRO=$(command -v "${1:-${AVRO:-avro}}") || fail "${1:-${AVRO:-avro}}: no such program"
AVRO=$(realpath "$AVRO")
export AVRO
# The lines are for the shells of the jobs, which put in the program.
# shellcheck disable=SC2016
case ${2:-copy} in
  copy) job='t=out/{}.part.$$; "$AVRO" copy in/{} "$t" --reader new.avsc > /dev/null && mv "$t" out/{}' ;;
  pipe) job='t=out/{}.part.$$; "$AVRO" pipe --reader new.avsc < in/{} > "$t" && mv "$t" out/{}' ;;
  *) fail "$2: neither copy nor pipe" ;;
esac

work=$(mktemp -d)
trap 'rm -rf "$work"' EXIT
# What GNU parallel keeps goes there too.
export PARALLEL_HOME=$work/parallel
mkdir "$PARALLEL_HOME" "$work/out" "$work/want"
python3 "$here/make_files.py" "$work" "${FILES:-300}"
cp "$here/../order-2.avsc" "$work/new.avsc"
cd "$work"
cut -d ' ' -f 1 spoiled > two

# The copies that are wanted: of the whole files, each by a run of its own.
while read -r name; do
  "$AVRO" copy "whole/$name" "want/$name" --reader new.avsc > /dev/null || fail "$name: no copy by a single run"
done < list

todo() { comm -23 <(sort -u list) <(find out -type f ! -name '*.part.*' -printf '%P\n' | sort); }

# The numbers of the jobs that failed, by the last line that each has in a joblog: the first field is a job's number, the seventh its status, and the
# eighth the signal that ended it.
failed_in() {
  awk -F '\t' 'NR > 1 { bad[$1] = $7 || $8 } END { for (at in bad) if (bad[at]) print at }' "$1" | sort -n
}

# Runs the jobs of a list, with a joblog and further options. Says in $failed how many failed, in the file lines which, and in the file errors what
# they said.
run() { # LIST JOBLOG OPTION..
  failed=0
  parallel "${@:3}" --joblog "$2" "$job" :::: "$1" 2> errors || failed=$?
  failed_in "$2" | while read -r at; do sed -n "${at}p" "$1"; done > lines
}

# Runs the jobs of what is missing.
go_on() {
  find out -name '*.part.*' -delete
  todo > missing
  rm -f joblog
  run missing joblog
}

# Whether each copy but those of the two is the wanted one.
check_others() {
  grep -vxFf two list | while read -r name; do
    cmp "want/$name" "out/$name" || fail "$name: another copy than that of a single run"
  done
}

# Whether the jobs that failed are the two, each with status 3, and what they left is a beginning, under another name than the copy's.
check_two() {
  local name part
  cmp two lines || fail "the joblog names $(paste -sd ' ' lines)"
  todo | cmp - two || fail "what is missing is $(todo | paste -sd ' ')"
  [ "$failed" = 2 ] || fail "parallel ended with $failed"
  awk -F '\t' 'NR > 1 && ($7 != 0 || $8 != 0) && $7 $8 != "30" { print $7, $8; exit 1 }' "$1" > ended || fail "a job ended with $(cat ended), and not with 3"
  [ "$(wc -l < errors)" = 2 ] || fail "the jobs said: $(cat errors)"
  while read -r name; do
    for part in "out/$name".part.*; do
      cmp -n "$(stat -c %s "$part")" "want/$name" "$part" || fail "$name: what was left is no beginning"
    done
  done < two
}

files=$(wc -l < list)
echo "$files files: $(paste -sd , spoiled | sed 's/,/, /')"

# All but the last file, which is added later.
head -n -1 list > list.short
mv list list.all
mv list.short list
go_on
[ "$(wc -l < joblog)" = "$files" ] || fail "the joblog has $(wc -l < joblog) lines"
check_two joblog
check_others
echo "first run: $((files - 1)) jobs; the joblog names $(paste -sd ' ' lines); the other $((files - 3)) copies are those of single runs"
sed 's/^/    /' errors

cp list list.of.joblog
run list.of.joblog joblog.of.list
cp joblog.of.list joblog.before
run list.of.joblog joblog.of.list --resume-failed
check_two joblog.of.list
[ "$(($(wc -l < joblog.of.list) - $(wc -l < joblog.before)))" = 2 ] || fail "--resume-failed ran other jobs than two"
echo "--resume-failed: 2 jobs; by the last line of each job the joblog names $(paste -sd ' ' lines)"

# The new line comes first, so that each other has another number.
tac list.all > list
go_on
[ "$(wc -l < joblog)" = 4 ] || fail "after the list grew, the joblog has $(wc -l < joblog) lines"
check_two joblog
check_others
echo "the list grew by one, in front: 3 jobs; the joblog names $(paste -sd ' ' lines)"

while read -r name; do cp "whole/$name" "in/$name"; done < two
go_on
[ "$(wc -l < joblog),$failed" = 3,0 ] || fail "with the two mended: $(wc -l < joblog) lines, $failed failed"
diff -r want out || fail "another copy than that of a single run"
echo "the two mended: 2 jobs, none failed; all $files copies are those of single runs"

go_on
[ ! -s missing ] || fail "with nothing left to do: $(paste -sd ' ' missing)"
echo "once more: nothing is missing"
