#!/usr/bin/env bash
# Tries matrix.py on the schemas of examples/ and on twelve versions of one: what it prints, by look.py in headless
# Chromium, and its statuses. Then it spoils the page and the script in several ways, and each must be found.
#
#     try.sh [PROGRAM]
#
# PROGRAM is $AVRO where it is not given, and else avro on the PATH; CHROMIUM names the browser, else chromium. The last
# line says how much was tried; the status is 0 where all went as it must.
set -euo pipefail

here=$(cd "$(dirname "${BASH_SOURCE[0]}")" && pwd)
AVRO=$(realpath "$(command -v "${1:-${AVRO:-avro}}")")
export AVRO
work=$(mktemp -d)
trap 'rm -rf "$work"' EXIT
cd "$work"
mkdir '<i>'
cp "$here"/../{order,payment}-*.avsc .
cp order-2.avsc '<i>/a & b.avsc'
schemas=(order-1.avsc order-2.avsc order-3.avsc payment-1.avsc payment-2.avsc '<i>/a & b.avsc')
versions=(order-of-the-year-v{1..12}.avsc)
lay_version() { # NUMBER
  local id=int note='"string"' default=',"default":0'
  [ "$1" -lt 4 ] || id=long
  # Bytes that are not UTF-8 are read by the first branch: such a schema does not read all of its own data.
  [[ $1 != [567] ]] || note='["string","bytes"]'
  [ $(($1 % 4)) != 0 ] || default=''
  cat << END
{"type":"record","name":"Order","fields":[{"name":"id","type":"$id"},{"name":"note","type":$note},
 {"name":"f$1","type":"int"$default}]}
END
}
for each in {1..12}; do lay_version "$each" > "${versions[each - 1]}"; done
tried=0 wrong=0

# Runs words, which must end with a status and put a line, or nothing, on standard error.
expect() { # STATUS LINE WORDS..
  local status=$1 line=$2 found=0
  shift 2
  "$@" > out 2> said || found=$?
  tried=$((tried + 1))
  if [ "$found" != "$status" ] || [ "$(head -n 1 said)" != "$line" ]; then
    wrong=$((wrong + 1))
    printf 'WRONG, status %s for %s: %s\n' "$found" "$status" "$*"
    cat said
  fi
}

same_bytes() { # WHAT FILE FILE
  tried=$((tried + 1))
  cmp -s "$2" "$3" || { wrong=$((wrong + 1)); echo "WRONG, $1: other bytes"; }
}

try_statuses() {
  echo '"double"' > double.avsc
  expect 3 'avro: double.avsc: S10' "$here/matrix.py" order-1.avsc double.avsc
  expect 4 'matrix: nowhere.avsc: cannot read' "$here/matrix.py" order-1.avsc nowhere.avsc
  expect 4 'matrix: nowhere: no such program' env AVRO=nowhere "$here/matrix.py" order-1.avsc order-2.avsc
  printf '%s\n' '#!/bin/sh' 'echo "Usage: avro [--version] [--help]" >&2' 'exit 2' > other
  chmod +x other
  expect 4 'matrix: ./other: is another program' env AVRO=./other "$here/matrix.py" order-1.avsc order-2.avsc
  try_other_programs
  echo '"int_"' > name.avsc
  expect 3 'matrix: name.avsc: /: int_ has the name that stands for a number' "$here/matrix.py" --tame order-1.avsc name.avsc
  expect 64 "$(sed -n '2s/^"""//p' "$here/matrix.py")" "$here/matrix.py" order-1.avsc
  expect 64 "$(sed -n '2s/^"""//p' "$here/matrix.py")" "$here/matrix.py" --help
}

# What another program may answer.
try_other_programs() {
  local status answer
  while IFS=$'\t' read -r status answer; do
    printf '%s\n' '#!/bin/sh' "echo '$answer'" "exit $status" > other
    expect 4 'matrix: ./other: is another program' env AVRO=./other "$here/matrix.py" order-1.avsc order-2.avsc
  done << 'END'
0	[]
0	1
0	{}
0	{"verdict":"no","faults":[]}
0	{"verdict":7}
1	{"verdict":"no","faults":7}
1	{"verdict":"no","faults":[{}]}
1	{"verdict":"no","faults":[{"fault":"NoMatch","writer":{"type":"int","at":"$"},"reader":7}]}
1	{"verdict":"no","faults":[{"fault":"Other","writer":{"type":"int","at":"$"},"reader":{"type":"int","at":"$"}}]}
7	{"verdict":"yes","faults":[]}
END
  # One version that is named twice is one in a heading.
  expect 0 '' "$here/matrix.py" order-1.avsc order-1.avsc order-3.avsc
  tried=$((tried + 1))
  grep -q 'order-3.avsc does not read all data of order-1.avsc</h2>' out || { wrong=$((wrong + 1)); echo 'WRONG, a version twice'; }
}

# Schemas with doubles have the page of those with long that are as they are; pipes have that of files.
try_sources() {
  local name
  for name in 1 2 3; do
    sed 's/"int"/"float"/; s/"long"/"double"/' "order-$name.avsc" > "wide-$name.avsc"
  done
  expect 0 '' "$here/matrix.py" --tame wide-{1,2,3}.avsc
  sed 's/wide-/order-/g; s/float/int/g; s/double/long/g' out > tamed.html
  expect 0 '' "$here/matrix.py" order-{1,2,3}.avsc
  same_bytes 'with doubles' tamed.html out
  expect 0 '' "$here/matrix.py" <(cat order-1.avsc) <(cat order-2.avsc)
  sed -E 's/<title>.*<style>//; s|/dev/fd/[0-9]+|FILE|g' out > piped.html
  expect 0 '' "$here/matrix.py" order-1.avsc order-2.avsc
  sed -E 's/<title>.*<style>//; s|order-[12].avsc|FILE|g' out > filed.html
  same_bytes 'from pipes' piped.html filed.html
}

try_versions() {
  expect 0 '' "$here/matrix.py" "${versions[@]}"
  mv out versions.html
  expect 0 '' "$here/look.py" versions.html "${versions[@]}"
  tail -n 1 out
}

try_page() {
  expect 0 '' "$here/matrix.py" "${schemas[@]}"
  mv out matrix.html
  tried=$((tried + 1))
  if grep -q -E 'https?:|<script|<link|<img|url\(|<i>' matrix.html; then
    wrong=$((wrong + 1))
    echo 'WRONG, the page has a script, fetches something or takes a name for HTML'
  fi
  expect 0 '' "$here/look.py" matrix.html "${schemas[@]}"
  tail -n 1 out
}

# Each edit of the page, by sed, must be found by look.py.
try_planted_pages() {
  local edit
  while IFS= read -r edit; do
    sed -E -e "$edit" matrix.html > spoiled.html
    ! cmp -s matrix.html spoiled.html || { wrong=$((wrong + 1)); echo "WRONG, no edit: $edit"; }
    expect 1 '' "$here/look.py" spoiled.html "${schemas[@]}"
  done << 'END'
0,/class="no"/s//class="yes"/
0,/class="yes">yes/s//class="no">yes/
0,/class="yes">yes/s//class="yes">undecided Pairs/
0,/<li>.*MissingField.*/s/<li>.*<\/li><li>/<li>/
0,/NoMatch/s//NotUtf8/
0,/href="#[0-9]-/s//href="#9-/
s/max-width: 60rem/min-width: 60rem/
s/table \{ width: 100%/table { width: 9rem/
s/position: sticky; //
0,/scope="col" title="[^"]*">1/s//scope="col">one/
s/--text: #f0f6fc/--text: #4c1a1c/
s/prefers-color-scheme: dark/prefers-color-scheme: none/
END
}

# Each edit of the script, by sed, must make another page.
try_planted_scripts() {
  local edit
  while IFS= read -r edit; do
    sed -E -e "$edit" "$here/matrix.py" > spoiled.py
    python3 spoiled.py "${schemas[@]}" > spoiled.html
    expect 1 '' "$here/look.py" spoiled.html "${schemas[@]}"
  done << 'END'
s/explain\(writer, reader\) for/explain(reader, writer) for/
s/setdefault\("".join\(map\(item, answer\["faults"\]\)\), \[\]\)/setdefault(answer["faults"][0]["fault"], [])/
s/map\(item, answer\["faults"\]\)/map(item, answer["faults"][:5])/
END
}

try_statuses
try_sources
if command -v "${CHROMIUM:-chromium}" > said; then
  try_page
  try_versions
  try_planted_pages
  try_planted_scripts
else
  echo 'not tried: the page (there is no Chromium)'
fi
echo "$tried tries, $wrong wrong"
[ "$wrong" = 0 ]
