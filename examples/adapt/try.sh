#!/usr/bin/env bash
# Tries the filters of this folder on files and schemas that it makes: each codec, there and back, broken files and bombs,
# floats and doubles, and schemas over several files. Then it spoils each filter in several ways, and each must be found.
#
#     try.sh [PROGRAM]
#
# PROGRAM is $AVRO where it is not given, and else avro on the PATH. The last line says how much was tried; the status
# is 0 where all went as it must.
set -euo pipefail

here=$(cd "$(dirname "${BASH_SOURCE[0]}")" && pwd)
program=$(realpath "$(command -v "${1:-${AVRO:-avro}}")")
tools=$here
work=$(mktemp -d)
trap 'rm -rf "$work"' EXIT
cd "$work"
tried=0 wrong=0
# What recodec may take, in KB of addresses; a bomb stands for more.
room=160000

# Runs words, which must end with a status and put a line, or nothing, on standard error. What they print is in `out`.
expect() { # STATUS LINE WORDS..
  local status=$1 line=$2 found=0
  shift 2
  "$@" > out 2> said || found=$?
  compare "$*" "status $status: $line" "status $found: $(head -n 1 said)"
}

compare() { # WHAT WANTED FOUND
  tried=$((tried + 1))
  if [ "$2" != "$3" ]; then
    wrong=$((wrong + 1))
    printf 'WRONG, %s\n  wanted %s\n  found  %s\n' "$1" "$2" "$3"
  fi
}

same_bytes() { # WHAT FILE FILE
  compare "$1" same "$(cmp -s "$2" "$3" && echo same || echo 'other bytes')"
}

# A filter, with a file as its standard input; $python names a python other than that of its first line.
filter() { # FILE NAME WORDS..
  local file=$1 name=$2
  shift 2
  ${python-} "$tools/$name" "$@" < "$file"
}

# Each codec gives the file of codec null, and so the same blocks, counts, metadata and marker.
try_codecs() {
  local codec
  for codec in null deflate bzip2 xz snappy zstandard; do
    if [ -e "made/$codec.avro" ]; then
      expect 0 '' filter "made/$codec.avro" recodec.py
      same_bytes "$codec" out made/null.avro
    else
      not_tried+=("$codec")
    fi
  done
  expect 0 '' filter made/blocks.avro recodec.py
  same_bytes 'metadata in blocks' out made/blocks.avro
  "$tools/recodec.py" 0> out 2> said || true
  compare 'no input' 'recodec: -: cannot read' "$(cat said)"
  filter made/null.avro recodec.py > /dev/full 2> said || true
  compare 'a full device' 'recodec: output: cannot write' "$(cat said)"
}

# Without its module zstandard needs the program zstd.
try_zstandard() {
  local status=0 PATH=$PATH python
  python="$(python3 -c 'import sys; print(sys.executable)') -S"
  [ -e made/zstandard.avro ] || return 0
  if command -v zstd > said; then
    expect 0 '' filter made/zstandard.avro recodec.py
    same_bytes 'the program zstd' out made/null.avro
  fi
  mkdir -p none
  PATH=$work/none
  filter made/zstandard.avro recodec.py > out 2> said || status=$?
  PATH=$old_path
  compare 'neither module nor program' \
    "4 recodec: zstandard: neither Python's module zstandard nor the program zstd is here" "$status $(cat said)"
  compare 'and nothing was written' '' "$(cat out)"
  PATH=$work/none
  filter made/null.avro pack.py zstandard > out 2> said || status=$?
  PATH=$old_path
  compare 'neither module nor program, packing' \
    "4 pack: zstandard: neither Python's module zstandard nor the program zstd is here" "$status $(cat said)"
  compare 'nothing was packed' '' "$(cat out)"
}
old_path=$PATH

# Each codec comes back from null, byte for byte where this Python wrote it.
try_pack() {
  local codec
  for codec in deflate bzip2 xz snappy zstandard; do
    if ! can_pack "$codec"; then
      not_tried+=("pack.py $codec")
      continue
    fi
    expect 0 '' filter made/null.avro pack.py "$codec"
    mv out packed.avro
    [ "$codec" = snappy ] || same_bytes "$codec" packed.avro "made/$codec.avro"
    expect 0 '' filter packed.avro recodec.py
    same_bytes "$codec and back" out made/null.avro
  done
  expect 0 '' filter made/blocks.avro pack.py null
  same_bytes 'packed as it is' out made/blocks.avro
  expect 0 '' filter made/null.avro pack.py --like made/deflate.avro
  same_bytes 'packed as another' out made/deflate.avro
  expect 0 '' filter made/null.avro pack.py --like made/null.avro
  same_bytes 'packed as one of codec null' out made/null.avro
  expect 3 'pack: made/old.avsc: it is not a container file' filter made/null.avro pack.py --like made/old.avsc
  expect 3 'pack: made/broken/unknown codec.avro: unknown codec lzo' filter made/null.avro pack.py --like 'made/broken/unknown codec.avro'
  expect 4 'pack: nowhere.avro: cannot read' filter made/null.avro pack.py --like nowhere.avro
  expect 3 'pack: -: its codec is not null' filter made/deflate.avro pack.py null
  expect 3 'pack: -: its codec is not null' filter made/deflate.avro pack.py deflate
  expect 3 'pack: -: block 7: its marker differs' filter <(head -c -1 made/null.avro; printf '\377') pack.py xz
  expect 3 'pack: -: it is not a container file' filter made/old.avsc pack.py xz
  expect 64 "$(usage_of pack)" filter made/null.avro pack.py
  expect 64 "$(usage_of pack)" filter made/null.avro pack.py lzma
}

can_pack() { # CODEC
  [ "$1" != snappy ] || python3 -c 'import snappy' 2> said || return 1
  [ "$1" != zstandard ] || [ -e made/zstandard.avro ]
}

usage_of() { # NAME
  sed -n '2s/^"""//p' "$here/$1.py"
}

# The module snappy is asked first; what it refuses is told without it. These stand for it.
try_snappy() {
  local python
  python="env PYTHONPATH=$work/module $(python3 -c 'import sys; print(sys.executable)') -S"
  mkdir -p module
  printf '%s\n' 'class UncompressError(Exception): pass' 'def decompress(data): raise UncompressError' > module/snappy.py
  expect 0 '' filter made/snappy.avro recodec.py
  same_bytes 'a module that refuses' out made/null.avro
  expect 3 'recodec: -: block 0: snappy: a copy begins before the data' filter 'made/broken/snappy offset.avro' recodec.py
  printf '%s\n' 'def decompress(data): return b"other"' 'def compress(data): return b"packed"' > module/snappy.py
  expect 3 'recodec: -: block 0: snappy: the checksum differs' filter made/snappy.avro recodec.py
  expect 0 '' filter made/null.avro pack.py snappy
  compare 'blocks by the module' 8 "$(grep -aoc 'packed' <(tr '\n' ' ' < out | sed 's/packed/packed\n/g'))"
  python="${python#env PYTHONPATH=* }"
  expect 4 "pack: snappy: Python's module snappy is not here" filter made/null.avro pack.py snappy
  compare 'nothing by snappy' '' "$(cat out)"
}

try_broken() {
  local name line file
  while IFS=$'\t' read -r name line; do
    expect 3 "recodec: -: $line" filter "made/broken/$name.avro" recodec.py
  done << 'END'
no container	it is not a container file
nothing	it is not a container file
header cut	it ends too early
key twice	a key is in its metadata twice
long header	its header has more than 4194304 bytes
unknown codec	unknown codec lzo
block cut	block 7: it ends too early
marker	block 7: its marker differs
negative size	block 0: its size is out of range
deflate ends early	block 0: deflate: the data end too early
bzip2 ends early	block 0: bzip2: the data end too early
xz ends early	block 0: xz: the data end too early
snappy ends early	block 0: snappy: the data end too early
snappy checksum	block 0: snappy: the checksum differs
snappy offset	block 0: snappy: a copy begins before the data
bytes after xz	block 0: xz: bytes are left after the data
END
  for file in made/broken/*spoiled.avro made/broken/zstandard*.avro; do
    filter "$file" recodec.py > out 2> said || true
    compare "$file" 'recodec: -: block' "$(head -c 17 said)"
  done
  for file in made/broken/*'after a good block.avro'; do
    expect 3 "$(sed 's/block 0/block 8/' <(filter "$file" recodec.py 2>&1 > out))" filter "$file" recodec.py
    same_bytes "$file" out made/null.avro
  done
}

# A block over the limit is refused, and little memory is taken.
try_bombs() {
  local file
  for file in made/bombs/*.avro; do
    expect 3 'recodec: -: block 0: it has more than 16777216 bytes' within_room filter "$file" recodec.py
  done
}

within_room() {
  (ulimit -v "$room" && "$@")
}

# What the program says of a schema behind tame.py.
tamed() { # SCHEMA WORDS..
  local schema=$1
  shift
  filter <(echo "$schema") tame.py > tamed.avsc && "$program" "$@" tamed.avsc
}

record() { # FIELD..
  local IFS=,
  echo "{\"type\":\"record\",\"name\":\"n.R\",\"fields\":[$*]}"
}

field() { # NAME TYPE [DEFAULT]
  echo "{\"name\":\"$1\",\"type\":$2${3:+,\"default\":$3}}"
}

try_tame() {
  local default other='it would be a default of another branch'
  expect 0 '' tamed '["null","float","double",{"type":"array","items":"double"}]' schema
  compare 'floats and doubles' 'ok 5' "$(cat out)"
  expect 0 '' tamed "$(record "$(field a '{"type":"double","logicalType":"x","unit":0.5}' 1e2)")" schema
  expect 0 '' tamed '{"type":{"type":"string"},"rate":1.5}' schema
  expect 0 '' tamed '{"type":"record","name":"R","namespace":null,"doc":null,"fields":[],"version":1.5}' schema
  expect 0 '' tamed "$(record "$(field a '["null","double"]' 2)")" schema
  expect 0 '' tamed "$(record "$(field a '["string","double"]' '"eight ab"')")" schema
  expect 3 'tame: -: this is not JSON, at line 1, column 1' tamed double schema
  expect 3 "tame: -: /fields/0/default: $other" tamed "$(record "$(field a '["bytes","double"]' 2.5)")" schema
  expect 3 "tame: -: /fields/0/default: $other" tamed "$(record "$(field a '["double","string"]' '"eight ab"')")" schema
  default='{"a":2.5}'
  expect 3 "tame: -: /fields/0/default: $other" \
    tamed "$(record "$(field m "[$(map string),$(named P "$(field a '"double"')")]" "$default")")" schema
  expect 3 'tame: -: /fields/0/default: it is not a datum of its type' \
    tamed "$(record "$(field a '"double"' '"eight ab"')")" schema
  expect 3 'tame: -: /fields/0/default: a default is out of the range of float' \
    tamed "$(record "$(field a '"float"' 1e39)")" schema
  expect 3 'tame: -: /: b.Double64 has the name that stands for a float or double' \
    tamed '{"type":"fixed","name":"F","aliases":["b.Double64"],"size":8}' schema
  expect 3 'tame: -: /: ieee.Double64 has the name that stands for a float or double' tamed '"ieee.Double64"' schema
  expect 3 'avro: tamed.avsc: S9' tamed "$(record "$(field a '"int"' '"x"')")" schema
  expect 3 'tame: -: it names no schema' filter <(printf 'Obj\1\0%016d' 0) tame.py --file
}

map() { # VALUES
  echo "{\"type\":\"map\",\"values\":\"$1\"}"
}

named() { # NAME FIELD
  echo "{\"type\":\"record\",\"name\":\"$1\",\"fields\":[$2]}"
}

# A yes is a yes, and a promotion is a no.
try_verdicts() {
  local float double long
  float=$(record "$(field a '"float"')") double=$(record "$(field a '"double"')") long=$(record "$(field a '"long"')")
  filter <(echo "$double") tame.py > double.avsc
  expect 0 '' tamed "$double" judge double.avsc
  expect 1 '' tamed "$float" judge double.avsc
  expect 1 '' tamed "$double" judge <(echo "$long")
  filter <(record "$(field b '"string"' '""')" "$(field a '"double"')") tame.py > more.avsc
  expect 0 '' tamed "$(record "$(field a '"double"')" "$(field c '"float"' 0)")" judge more.avsc
}

# What the program says of two schemas behind lattice.py, with the words of the schemas.
latticed() { # COMMAND OLD NEW
  filter <(echo "$2") lattice.py > old.avsc && filter <(echo "$3") lattice.py > new.avsc || return
  "$program" $1 old.avsc new.avsc > answer || { filter answer lattice.py --names; return 1; }
}

# Each number is read as itself and as a wider one, alone and in a union, and as nothing else.
try_widenings() {
  local old new numbers=(int long float double)
  for old in 0 1 2 3; do
    for new in 0 1 2 3; do
      expect "$((old > new))" '' latticed judge \
        "$(record "$(field a "\"${numbers[old]}\"")" "$(field b "[\"null\",\"${numbers[old]}\"]")")" \
        "$(record "$(field a "\"${numbers[new]}\"")" \
          "$(field b "[\"null\",{\"type\":\"${numbers[new]}\",\"logicalType\":\"x\"},\"string\"]")")"
    done
  done
}

try_lattice() {
  local wide='["null","long","float"]' narrow='["int","null"]' name='has the name that stands for a number' called
  try_widenings
  expect 0 '' latticed judge "$narrow" "$wide"
  expect 1 '' latticed judge "$wide" "$narrow"
  compare 'a datum' $'no\nfault NoBranch at /0\nnodes 2\ndatum {"long":0}' "$(cat out)"
  expect 1 '' latticed explain '{"type":"array","items":"double"}' '{"type":"array","items":"float"}'
  compare 'all faults' "$(printf '%s\n' 'no 2' "\$: NoMatch: array of double cannot be read as array of float (writer's \$)" \
    "\$[]: NoMatch: double cannot be read as float (writer's \$[])")" "$(cat out)"
  expect 1 '' latticed explain "$(record "$(field number "$wide")")" "$(record "$(field number "$narrow")")"
  compare 'places' "$(printf '%s\n' 'no 2' "\$.number: NoBranch: no branch of the reader's union accepts long (writer's \$.number<long>)" \
    "\$.number: NoBranch: no branch of the reader's union accepts float (writer's \$.number<float>)")" "$(cat out)"
  expect 1 '' latticed 'explain --json' '"double"' '"long"'
  compare 'as JSON' '"at":"$","type":"double" "at":"$","type":"long"' "$(grep -o '"at[^}]*' out | xargs -d '\n')"
  expect 0 '' latticed judge "$(record)" "$(record "$(field a '["string","double"]' 2.5)" "$(field b '"long"' 9)" \
    "$(field c '{"type":"map","values":"float"}' '{"k":1e3}')")"
  # A type may be called by the word of a kind; a bare word is then a reference.
  called=$(record "$(field a '{"type":"enum","name":"record","symbols":["A"]}')" "$(field b '"record"' '"A"')" "$(field c '"double"' 1)")
  expect 0 '' latticed judge "$called" "$called"
  expect 3 'lattice: -: /fields/0/default: it is not a datum of its type' \
    filter <(record "$(field a '"int"' 2147483648)") lattice.py
  expect 3 "lattice: -: /: b.int_ $name" filter <(echo '{"type":"fixed","name":"F","aliases":["b.int_"],"size":8}') lattice.py
  expect 3 "lattice: -: /fields/0/type: double_ $name" filter <(record "$(field a '"double_"')") lattice.py
  expect 3 'lattice: -: this is not JSON, at line 1, column 1' filter <(echo double) lattice.py
}

# 5,000 data with floats and doubles, migrated in one pipe and compared one by one; and files that come back.
try_pipe() {
  local codec
  for codec in null deflate; do
    expect 0 '' migrate "made/$codec.avro"
    mv out migrated.avro
    expect 0 '' python3 "$here/compare_files.py" made/null.avro migrated.avro
    compare "$codec migrated" '5000 data are equal' "$(cat out)"
  done
  expect 0 '' filter migrated.avro pack.py deflate
  mv out packed.avro
  expect 0 '' filter packed.avro recodec.py
  same_bytes 'packed and unpacked' out migrated.avro
  filter made/null.avro tame.py --file > tamed.avro
  expect 0 '' "$program" check tamed.avro
  compare 'all data' 'data 5000 blocks 8' "$(cat out)"
  expect 0 '' filter tamed.avro tame.py --back
  same_bytes 'the data' <(tail -c 200000 out) <(tail -c 200000 made/null.avro)
  compare 'the schema' "$(types made/null.avro)" "$(types out)"
}

migrate() { # FILE
  "$tools/recodec.py" < "$1" | "$tools/tame.py" --file | "$program" pipe --reader <("$tools/tame.py" < made/new.avsc) \
    | "$tools/tame.py" --back
}

# The schema of a file, without what tame.py leaves out.
types() { # FILE
  "$program" header "$1" | sed 's/{"type": "float",[^}]*}/"float"/; s/"doc": null, //'
}

# A schema over four files, and the same as one by hand, with each definition where it is used first.
lay_order() {
  mkdir -p types
  cat > order.avsc << 'END'
{"type": "record", "name": "com.acme.Order", "fields": [
  {"name": "total", "type": "Money"}, {"name": "lines", "type": {"type": "array", "items": "com.acme.Line"}}]}
END
  cat > types/money.avsc << 'END'
{"type": "record", "name": "Money", "namespace": "com.acme", "fields": [
  {"name": "amount", "type": "long"}, {"name": "currency", "type": "Currency"}]}
END
  echo '{"type": "enum", "name": "com.acme.Currency", "symbols": ["EUR", "CHF"]}' > types/currency.avsc
  cat > types/others.avsc << 'END'
[{"type": "fixed", "name": "Unused", "size": 1},
 {"type": "record", "name": "Line", "namespace": "com.acme", "fields": [
   {"name": "price", "type": "Money"}, {"name": "next", "type": ["null", "Line"]}]}]
END
  cat > whole.avsc << 'END'
{"type": "record", "name": "com.acme.Order", "fields": [
  {"name": "total", "type": {"type": "record", "name": "Money", "fields": [
    {"name": "amount", "type": "long"},
    {"name": "currency", "type": {"type": "enum", "name": "Currency", "symbols": ["EUR", "CHF"]}}]}},
  {"name": "lines", "type": {"type": "array", "items": {"type": "record", "name": "Line", "fields": [
    {"name": "price", "type": "Money"}, {"name": "next", "type": ["null", "Line"]}]}}}]}
END
}

try_bundle() {
  lay_order
  expect 0 '' filter /dev/null bundle.py order.avsc types/*.avsc
  mv out bundle.avsc
  expect 0 '' "$program" schema bundle.avsc --canonical
  compare 'the canonical form' "$("$program" schema whole.avsc --canonical)" "$(cat out)"
  expect 0 '' filter /dev/null bundle.py order.avsc types/others.avsc types/money.avsc types/currency.avsc
  same_bytes 'the others in another order' out bundle.avsc
  expect 0 '' filter /dev/null bundle.py whole.avsc types/*.avsc
  same_bytes 'a schema that has all' out whole.avsc
  expect 0 '' filter /dev/null bundle.py types/currency.avsc order.avsc
  same_bytes 'a schema without names' out types/currency.avsc
  sed 's/"symbols"/"doc": "of a price", "symbols"/; s/"amount"/"amount", "doc": "in cents"/' types/{money,currency}.avsc \
    | sed '1i[' | sed 's/^{"type": "enum"/,&/; $a]' > told.avsc
  expect 0 '' filter /dev/null bundle.py order.avsc types/*.avsc told.avsc
  same_bytes 'a copy with other words' out bundle.avsc
  try_bundle_faults
}

# A chain of types that is as long as it may be, and one that is longer.
try_chain() {
  local at
  for ((at = 1; at < 43; at++)); do named "T$at" "$(field next "\"T$((at + 1))\"")" > "chain-$at.avsc"; done
  named T42 "$(field last '"int"')" > last.avsc
  expect 0 '' filter /dev/null bundle.py chain-1.avsc chain-{2..41}.avsc last.avsc
  mv out whole-chain.avsc
  expect 0 '' "$program" schema whole-chain.avsc
  named T43 "$(field last '"int"')" > last.avsc
  expect 3 'bundle: chain-1.avsc: with its types this is nested more than 127 levels deep, at T43' \
    filter /dev/null bundle.py chain-1.avsc chain-{2..42}.avsc last.avsc
}

# A tree gives for each file what one call gives with all others.
try_tree() {
  local file
  rm -rf tree bundled
  mkdir -p tree
  lay_order
  cp -r order.avsc types tree
  cp whole.avsc tree/types/whole.avsc
  expect 0 '' filter /dev/null bundle.py --tree tree bundled
  compare 'its files' "$(cd tree && find . -type f | sort)" "$(cd bundled 2> told && find . -type f | sort)"
  for file in order.avsc types/money.avsc types/others.avsc; do
    (cd tree && filter /dev/null bundle.py "$file" $(find . -name '*.avsc' -printf '%P\n' | sort | grep -vx "$file")) > one.avsc
    same_bytes "$file" "bundled/$file" one.avsc
  done
  echo '{' > tree/cut.avsc
  sed 's/Currency/Curency/; s/Money/Coin/' types/money.avsc > tree/other.avsc
  rm -rf tree/types/whole.avsc bundled
  expect 3 'bundle: cut.avsc: this is not JSON, at line 2, column 1' filter /dev/null bundle.py --tree tree bundled
  compare 'each is told' 'bundle: other.avsc: /fields/1/type: no type com.acme.Curency' "$(sed 1d said)"
  compare 'the others' './order.avsc ./types/currency.avsc ./types/money.avsc ./types/others.avsc' \
    "$(cd bundled 2> told && find . -type f | sort | xargs)"
  expect 0 '' filter /dev/null bundle.py --tree tree named types/money.avsc
  compare 'those that are named' ./types/money.avsc "$(cd named && find . -type f)"
  expect 4 'bundle: tree/nowhere.avsc: cannot read' filter /dev/null bundle.py --tree tree named nowhere.avsc
  expect 64 "$(usage_of bundle)" filter /dev/null bundle.py --tree tree
  try_places
}

# Nothing is written over a source.
try_places() {
  mkdir -p tree/in beside
  cp types/money.avsc beside/
  find tree beside -type f -exec sha256sum {} + > sums
  ln -sfn tree link
  expect 64 'bundle: tree: is in tree' filter /dev/null bundle.py --tree tree tree
  expect 64 'bundle: tree/in/new: is in tree' filter /dev/null bundle.py --tree tree tree/in/new
  expect 64 'bundle: link/new: is in tree' filter /dev/null bundle.py --tree tree link/new
  expect 64 'bundle: ../beside/money.avsc: is not in tree' filter /dev/null bundle.py --tree tree beside ../beside/money.avsc
  expect 64 "bundle: $PWD/order.avsc: is not in tree" filter /dev/null bundle.py --tree tree named "$PWD/order.avsc"
  expect 64 'bundle: in/../../order.avsc: is not in tree' filter /dev/null bundle.py --tree tree named in/../../order.avsc
  compare 'the sources' "$(cat sums)" "$(find tree beside -type f -exec sha256sum {} +)"
}

try_places_alone() {
  rm -rf tree beside link named
  mkdir -p tree
  lay_order
  cp -r order.avsc types tree
  try_places
}

try_bundle_faults() {
  expect 3 'bundle: types/money.avsc: /fields/1/type: no type com.acme.Currency' \
    filter /dev/null bundle.py order.avsc types/money.avsc
  sed 's/CHF/USD/' types/currency.avsc > dollars.avsc
  local clash='com.acme.Currency is defined in types/currency.avsc and in dollars.avsc'
  expect 3 "bundle: types/money.avsc: /fields/1/type: $clash" \
    filter /dev/null bundle.py order.avsc types/*.avsc dollars.avsc
  expect 0 '' filter /dev/null bundle.py order.avsc types/*.avsc whole.avsc
  echo "[$(cat dollars.avsc),\"com.acme.Money\",$(cat dollars.avsc)]" > twice.avsc
  expect 3 'bundle: twice.avsc: /2: com.acme.Currency is defined before, at /0' \
    filter /dev/null bundle.py twice.avsc types/*.avsc
  echo "{\"type\":\"record\",\"name\":\"a.R\",\"fields\":[$(field b '"B"')]}" > inner.avsc
  echo "{\"type\":\"record\",\"name\":\"a.B\",\"fields\":[$(field c "$(cat dollars.avsc)")]}" > b.avsc
  echo '["a.R","com.acme.Money"]' > both.avsc
  expect 3 'bundle: b.avsc: /fields/0/type: com.acme.Currency is defined in b.avsc and in types/currency.avsc' \
    filter /dev/null bundle.py both.avsc inner.avsc b.avsc types/*.avsc
  sed 's/a\.B/a.C/' b.avsc > c.avsc
  echo '["a.C","a.B",{"type":"array","items":"com.acme.Currency"}]' > both.avsc
  filter /dev/null bundle.py both.avsc b.avsc c.avsc > bundle.avsc
  expect 0 '' "$program" schema bundle.avsc
  echo '{' > cut.avsc
  expect 3 'bundle: cut.avsc: this is not JSON, at line 2, column 1' filter /dev/null bundle.py cut.avsc order.avsc
  expect 0 '' filter /dev/null bundle.py order.avsc types/*.avsc cut.avsc
  expect 4 'bundle: nowhere.avsc: cannot read' filter /dev/null bundle.py order.avsc nowhere.avsc
}

try_words() {
  local name
  for name in recodec pack tame lattice bundle; do
    expect 64 "$(usage_of "$name")" filter /dev/null "$name.py" --help
  done
  expect 64 "$(usage_of bundle)" filter /dev/null bundle.py
}

# Whether all rows of a function are right for filters of another folder; in a subshell, so that nothing is counted.
are_right() { # FOLDER FUNCTION
  tools=$1 wrong=0
  "$2" > rows
  [ "$wrong" = 0 ]
}

# Each edit of a filter, by sed, must make a row of a function wrong.
try_planted() {
  local rows file edit
  while IFS=$'\t' read -r rows file edit; do
    rm -rf spoiled
    cp -r "$here" spoiled
    sed -i -e "$edit" "spoiled/$file"
    tried=$((tried + 1))
    if cmp -s "$here/$file" "spoiled/$file" || (are_right "$work/spoiled" "$rows"); then
      wrong=$((wrong + 1))
      echo "WRONG, not found by $rows: $file: $edit"
    fi
  done << 'END'
try_codecs	filters.py	s/^    block = 0$/    block = 0; read_block(source, read(source, 1), marker, most)/
try_codecs	recodec.py	s/put_header({\(.*\)}, h/put_header(dict(sorted({\1}.items())), h/
try_codecs	filters.py	s/put_long(count) + put_long(len(changed))/put_long(count + 1) + put_long(len(changed))/
try_codecs	recodec.py	s/tag >> 5 << 8 |/0 |/;s/else 4, (tag >> 2) + 1/else 3, (tag >> 2) + 1/
try_codecs	recodec.py	s/send(sink, header.raw)/send(sink, put_header(header.metadata, header.marker))/
try_snappy	recodec.py	s/except snappy.UncompressError:/except ZeroDivisionError:/
try_snappy	recodec.py	s/unpack_by_snappy(elements) or //
try_pack	pack.py	s/b"avro.codec": codec.encode()/b"avro.codec": b"xz"/
try_pack	pack.py	s/if header.metadata.get(.*/if False:/
try_pack	pack.py	s/wbits=-zlib.MAX_WBITS/wbits=zlib.MAX_WBITS/
try_pack	pack.py	s/    if codec == "null":/    if False:/
try_pack	pack.py	s/words = \[codec_of(words\[1\])\]/words = ["xz"]/
try_snappy	pack.py	s/^    check_codec(codec)$//
try_broken	recodec.py	s/if not stream.eof:/if False:/
try_broken	filters.py	s/if take(source, len(marker)) != marker:/if not take(source, len(marker)):/
try_broken	recodec.py	s/if zlib.crc32(data) != .*/if False:/
try_broken	recodec.py	s/if stream.unused_data:/if False:/
try_bombs	recodec.py	s/stream.decompress(packed, MOST_BLOCK + 1)/stream.decompress(packed)/
try_bombs	recodec.py	s/^    check_size(length)$/    bytearray(length)/
try_tame	tame.py	s/names += \[schema.get("name"), .*/names += [schema.get("name")]/
try_tame	tame.py	s/if again != branches:/if False:/
try_lattice	lattice.py	s/"double": ("int", "long", "float")/"double": ("long", "float")/
try_lattice	lattice.py	s/"long": ("int",)/"long": ("int", "float")/
try_lattice	lattice.py	s/^    reserved, stood_for = .*/    reserved, stood_for = RESERVED, "a number"/
try_lattice	lattice.py	s/ZERO if word in WIDENED else read/read/
try_lattice	lattice.py	s/\[>\\"\]/[>]/
try_lattice	lattice.py	s/.replace(ZEROS, b"0")$//
try_lattice	tame.py	s/ (isinstance(schema, str) or word not in ATTRIBUTES)/ word not in ATTRIBUTES/
try_verdicts	tame.py	s/"Float32", 4, "<f"/"Double64", 8, "<d"/
try_pipe	tame.py	s/"<d"/">d"/
try_pipe	tame.py	s/^    send_rest(source, sink)$/    send(sink, read(source, 100_000))/
try_bundle	bundle.py	/this = Definition/{n;s/name in self.written/False/}
try_bundle	bundle.py	s/ and outline_of(one) != outline_of(other):/ and False:/
try_bundle	bundle.py	s/, "namespace": namespace}$/}/
try_bundle	bundle.py	s/^        self.compare_all(name, this, scope)$//
try_bundle	bundle.py	s/ChainMap(mine, others)/ChainMap(others, mine)/
try_bundle	bundle.py	s/without(field, "doc")/field/
try_bundle	bundle.py	s/"name", "namespace", "doc")/"name", "namespace")/
try_chain	bundle.py	s/left - 1, name)/left, name)/
try_tree	bundle.py	s/status = fail(str(fault), 3)/return fail(str(fault), 3)/
try_tree	bundle.py	s/for file in files or names:/for file in names:/
try_places_alone	bundle.py	s/^    check_places(folder, out, files)$//
try_places_alone	bundle.py	s/out.resolve() == top or //
try_places_alone	bundle.py	s/ or top in out.resolve().parents:/:/
try_places_alone	bundle.py	s/ or ".." in Path(file).parts or Path(file).is_absolute()//;s/top not in (folder/top in (folder/
END
}

not_tried=()
python3 "$here/make_files.py" made
for each in codecs zstandard pack snappy broken bombs tame verdicts lattice pipe bundle chain tree words; do "try_$each"; done
for each in "${not_tried[@]}"; do echo "not tried: $each (Python has no module, and there is no program)"; done
not_tried=()
try_planted
echo "$tried tries, $wrong wrong"
[ "$wrong" = 0 ]
