#!/usr/bin/env bash
# Tries what stands in this folder in scratch repositories of git: the check, the hook, the hook of the framework
# pre-commit (where `pre-commit` is on the PATH), and the lines of the workflow, which needs Python's module yaml. Then
# it spoils the check, the hooks and a filter in several ways, and each must be found.
#
#     try.sh [PROGRAM [FUNCTION..]]
#
# PROGRAM is $AVRO where it is not given, and else avro on the PATH. With FUNCTION only these are tried, and what is
# planted for them. The last line says how much was tried; the status is 0 where all went as it must.
set -euo pipefail

here=$(cd "$(dirname "${BASH_SOURCE[0]}")" && pwd)
orders=$here/..
program=$(realpath "$(command -v "${1:-${AVRO:-avro}}")")
shift $(($# > 0))
# What is tried: the check and the hooks, and the filters.
files=$here
adapt=$here/../adapt
unset AVRO AVRO_BREAKING BUNDLE GITHUB_ACTIONS
work=$(mktemp -d)
trap 'rm -rf "$work"' EXIT
# Nothing of the user's own settings counts.
export HOME=$work/home GIT_CONFIG_NOSYSTEM=1 GIT_CEILING_DIRECTORIES=$work XDG_CACHE_HOME=$work/cache
mkdir "$HOME"
git config --global user.name 'A user'
git config --global user.email user@example.com
git config --global init.defaultBranch main
tried=0 wrong=0 is_spoiled=''

# Makes a repository with the tools, and goes there.
repository() { # NAME
  cd "$(mktemp -d "$work/$1.XXXXXX")"
  git init -q
  mkdir tools
  cp "$files/avro-breaking" tools
  cp "$adapt"/*.py tools
  printf '#!/bin/sh\nexec "%s" "$@"\n' "$program" > tools/avro
  chmod +x tools/avro
  PATH=$PWD/tools:$old_path
}
old_path=$PATH

# Commits all, without the hooks.
commit() { # MESSAGE [TAG]
  git add -A
  git commit -qnm "$1"
  [ $# = 1 ] || git tag "$2"
}

# Commits nothing new.
commit_nothing() { # [TAG]
  git commit -qn --allow-empty -m 'nothing'
  [ $# = 0 ] || git tag "$1"
}

# Runs words, which must end with a status and print what holds a text, or nothing but a text.
expect() { # STATUS TEXT WORDS..
  check '*' "$@"
}

exactly() { # STATUS TEXT WORDS..
  check '' "$@"
}

check() { # AROUND STATUS TEXT WORDS..
  local around=$1 status=$2 text=$3 said found=0
  shift 3
  said=$("$@" 2>&1) || found=$?
  tried=$((tried + 1))
  if [ "$found" != "$status" ] || [[ $said != $around"$text"$around ]]; then
    wrong=$((wrong + 1))
    printf 'WRONG, status %s for %s: %s\n%s\n' "$found" "$status" "$*" "$said"
    [ -z "$is_spoiled" ] || exit 1
  fi
}

# A record of an int and a long with a default or none.
pair() { # DEFAULT
  local record='{"type":"record","name":"Pair","fields":[{"name":"a","type":"int"}'
  echo "$record,{\"name\":\"b\",\"type\":\"long\"$1}]}"
}

# A record of many ints: two such are past the limit of pairs.
many() { # NAME
  echo '{"type":"record","name":"Many","fields":['
  seq -f "{\"name\":\"$1%g\",\"type\":\"int\",\"default\":0}," 2999
  echo '{"name":"last","type":"int"}]}'
}

try_check() {
  local order='schemas/of the shop/order.avsc'
  repository check
  mkdir -p 'schemas/of the shop'
  cp "$orders/order-1.avsc" "$order"
  commit 'the first order' v1
  cp "$orders/order-2.avsc" "$order"
  exactly 0 '1 schema against v1: 1 yes' avro-breaking
  exactly 0 '' avro-breaking --quiet
  commit 'the second order' v2
  commit_nothing
  cp "$orders/order-3.avsc" "$order"
  expect 1 "$order: v2: no"$'\n''    fault MissingField 2 at /3/0' avro-breaking
  expect 1 $'\n''1 schema against v2: 1 no' avro-breaking
  expect 1 "$order: v1: no" avro-breaking v1
  expect 1 "$order: v1: no" avro-breaking --all
  expect 1 $'\n''1 schema against 2 tags: 1 no' avro-breaking --all
  exactly 0 '1 schema against v2: 1 yes' avro-breaking --staged
  git add -A
  git show HEAD:"$order" > "$order"
  exactly 0 '1 schema against v2: 1 yes' avro-breaking
  expect 1 "$order: v2: no" avro-breaking --staged
  expect 1 "$order: v2: no" env -C schemas avro-breaking --staged
  expect 1 "::error file=$order,line=14::v2: no%0Afault MissingField 2 at /3/0%0A" \
    env GITHUB_ACTIONS=true avro-breaking --staged
  git reset -q --hard
  expect 0 'usage: avro-breaking [--staged]' avro-breaking --help
  exactly 64 'avro-breaking: nowhere: no such commit' avro-breaking nowhere
  expect 64 'usage: avro-breaking' avro-breaking --al
  expect 64 'more than one BASE' avro-breaking v1 v2
  expect 64 'a BASE, and --all or --since' avro-breaking v1 --all
  exactly 4 'avro-breaking: nowhere: no such program' env AVRO=nowhere avro-breaking
  exactly 64 'avro-breaking: git rev-parse: fatal: not a git repository (or any of the parent directories): .git' \
    env -C "$work" avro-breaking
}

try_faults() {
  repository faults
  mkdir schemas
  cp "$orders/order-1.avsc" schemas/order.avsc
  commit 'an order' v2
  echo '"double"' > new.avsc
  expect 3 $'new.avsc: avro: new.avsc: S10\n    new.avsc:1:1: ' avro-breaking
  expect 3 $'\n''2 schemas against v2: 1 yes, 1 refused' avro-breaking
  rm new.avsc
  git mv schemas/order.avsc order.avsc
  sed -i 's/"Order"/"Another"/' order.avsc
  git add order.avsc
  exactly 1 $'schemas/order.avsc: v2: gone\n2 schemas against v2: 1 new, 1 gone' avro-breaking
  expect 1 'schemas/order.avsc: v2: gone' avro-breaking --staged
  git reset -q --hard
  many a > many.avsc
  commit 'many ints' v3
  many b > many.avsc
  expect 2 'many.avsc: v3: undecided Pairs' avro-breaking
  echo '"string"' > schemas/order.avsc
  expect 1 'many.avsc: v3: undecided Pairs' avro-breaking
  expect 1 $'\n''2 schemas against v3: 1 undecided, 1 no' avro-breaking
}

# PATHSPEC is taken from where one stands; one that names nothing is told.
try_paths() {
  repository paths
  mkdir -p schemas/old
  cp "$orders/order-1.avsc" schemas/order.avsc
  cp "$orders/payment-1.avsc" schemas/old/payment.avsc
  commit 'schemas' v1
  commit_nothing
  exactly 64 "avro-breaking: no schema is named by 'schema/*.avsc'" avro-breaking -- 'schema/*.avsc'
  exactly 64 "avro-breaking: no schema is named by 'schema/*.avsc'" avro-breaking -- 'schemas/*.avsc' 'schema/*.avsc'
  exactly 64 "avro-breaking: no schema is named by 'schema/*.avsc'" avro-breaking --changed -- 'schema/*.avsc'
  exactly 64 "avro-breaking: no schema is named by '*.avsc' ':!*.avsc'" avro-breaking -- '*.avsc' ':!*.avsc'
  exactly 0 '1 schema against v1: 1 yes' avro-breaking -- 'schemas/*.avsc' ':!schemas/old/*'
  exactly 0 '2 schemas against v1: 2 yes' env -C schemas avro-breaking
  exactly 0 '2 schemas against v1: 2 yes' env -C schemas avro-breaking -- '*.avsc'
  exactly 0 '1 schema against v1: 1 yes' env -C schemas/old avro-breaking -- '*.avsc'
  exactly 64 "avro-breaking: no schema is named by 'schemas/*.avsc'" env -C schemas avro-breaking -- 'schemas/*.avsc'
  cp "$orders/payment-2.avsc" schemas/old/payment.avsc
  expect 1 'schemas/old/payment.avsc: v1: no' env -C schemas/old avro-breaking -- payment.avsc
  git rm -qf schemas/old/payment.avsc
  exactly 1 $'schemas/old/payment.avsc: v1: gone\n1 schema against v1: 1 gone' avro-breaking -- schemas/old
  git rm -qf schemas/order.avsc
  commit 'none' v2
  commit_nothing
  exactly 64 "avro-breaking: no schema is named by ':/*.avsc'" avro-breaking
  exactly 0 '0 schemas against v2' avro-breaking --changed
}

# Names that a shell, git or a log takes for something else.
try_names() {
  local forged=$'a\n::error file=b,line=1::c.avsc' colons='::error file=x::y.avsc' name
  repository names
  cp "$orders/order-1.avsc" order.avsc
  commit 'an order' v1
  echo '"strnig"' > ./-x.avsc
  expect 3 '-x.avsc: avro: -x.avsc: S2' avro-breaking
  expect 3 '-x.avsc: avro: -x.avsc: S2' avro-breaking -- '-x.avsc'
  git add -A
  expect 3 '-x.avsc: avro: -x.avsc: S2' avro-breaking --staged
  git rm -qf ./-x.avsc
  for name in "$colons" "$forged" $'caf\xe9.avsc' 'a, 50%.avsc'; do echo '"strnig"' > "$name"; done
  expect 3 '"a\n::error file=b,line=1::c.avsc": avro: "a\n::error' avro-breaking
  expect 3 '"caf\351.avsc": avro: "caf\351.avsc": S2' avro-breaking
  exactly 3 '::error file="%3A%3Aerror file=x%3A%3Ay.avsc",line=1::avro
::error file="a\n%3A%3Aerror file=b%2Cline=1%3A%3Ac.avsc",line=1::avro
::error file=a%2C 50%25.avsc,line=1::avro
::error file="caf\351.avsc",line=1::avro' commands_of_workflow
  commit 'none is a schema' v2
  for name in "$colons" "$forged"; do echo '"int"' > "$name"; done
  expect 3 'v2: avro: "a\n::error' avro-breaking
}

# The beginnings of all lines that GitHub takes as commands, from both streams.
commands_of_workflow() {
  GITHUB_ACTIONS=true avro-breaking |& LC_ALL=C sed -n 's/^[[:space:]]*\(::.*::avro\):.*/\1/p; t; s/^[[:space:]]*::/FORGED ::/p'
}

# A symbolic link is the file to which it leads in the same tree.
try_links() {
  repository links
  mkdir v1 v2 links
  cp "$orders/order-1.avsc" v1/order.avsc
  cp "$orders/order-3.avsc" v2/order.avsc
  ln -s ../v1 links/current
  ln -s links/current/order.avsc latest.avsc
  commit 'a link' v1
  commit_nothing
  exactly 0 '3 schemas against v1: 3 yes' avro-breaking
  exactly 0 '3 schemas against v1: 3 yes' avro-breaking --staged
  ln -sfn ../v2 links/current
  expect 1 'latest.avsc: v1: no' avro-breaking
  exactly 0 '3 schemas against v1: 3 yes' avro-breaking --staged
  git add -A
  expect 1 'latest.avsc: v1: no' avro-breaking --staged
  expect 1 $'\n''3 schemas against v1: 2 unchanged, 1 no' avro-breaking --staged --changed
  ln -sfn ../latest.avsc links/current
  git add -A
  exactly 1 $'latest.avsc: v1: gone\n3 schemas against v1: 2 yes, 1 gone' avro-breaking --staged
}

# Where something fails, no break passes.
try_failures() {
  local object
  repository failures
  cp "$orders/order-1.avsc" order.avsc
  commit 'the first order' v1
  commit_nothing
  cp "$orders/order-3.avsc" order.avsc
  exactly 4 "avro-breaking: $work/nowhere/: No such file or directory" without_names env TMPDIR="$work/nowhere" avro-breaking
  many a > many.avsc
  expect 4 'File too large' with_room 8 avro-breaking
  rm many.avsc
  object=$(git rev-parse v1:order.avsc)
  mv ".git/objects/${object:0:2}/${object:2}" "$work/kept"
  exactly 4 "avro-breaking: git cat-file: $object: cannot read" avro-breaking
  mv "$work/kept" ".git/objects/${object:0:2}/${object:2}"
  expect 4 'avro-breaking: git ls-files: ' with_broken_git ls-files
  expect 4 'avro-breaking: git read-tree: ' with_broken_git read-tree
  expect 4 'avro-breaking: output: No space left on device' bash -c 'avro-breaking > /dev/full'
}

# What follows the folder's name in a line is random.
without_names() { # WORDS..
  local found=0
  "$@" > "$work/said" 2>&1 || found=$?
  sed 's|avro-breaking\.[[:alnum:]_]*:|:|' "$work/said"
  return "$found"
}

# Runs words that can write files of some KiB only.
with_room() { # KIB WORDS..
  (
    ulimit -f "$1"
    "${@:2}"
  )
}

# Runs the check where a command of git fails.
with_broken_git() { # COMMAND [STATUS]
  mkdir -p "$work/broken"
  # shellcheck disable=SC2016 # it is the script's
  printf '#!/bin/sh\n[ "$1" != %s ] || exit %s\nexec %s "$@"\n' "$1" "${2:-1}" "$(command -v git)" > "$work/broken/git"
  chmod +x "$work/broken/git"
  PATH=$work/broken:$PATH avro-breaking
}

try_sparse() {
  repository sparse
  mkdir a b
  cp "$orders/order-1.avsc" a/order.avsc
  cp "$orders/order-1.avsc" b/order.avsc
  commit 'two orders' v1
  commit_nothing
  git sparse-checkout set --cone a tools
  exactly 0 '2 schemas against v1: 2 yes' avro-breaking
  exactly 0 '2 schemas against v1: 2 yes' avro-breaking --staged
  git sparse-checkout disable
  cp "$orders/order-3.avsc" b/order.avsc
  git commit -qnam 'a price'
  git sparse-checkout set --cone a tools
  expect 1 'b/order.avsc: v1: no' avro-breaking
}

# With --changed a schema that is refused hinders only those who change it.
try_changed() {
  repository changed
  cp "$files/pre-commit" .git/hooks
  echo '"double"' > double.avsc
  cp "$orders/order-1.avsc" order.avsc
  commit 'schemas' v1
  commit_nothing
  expect 3 'double.avsc: avro: double.avsc: S10' avro-breaking
  exactly 0 '2 schemas against v1: 2 unchanged' avro-breaking --changed
  echo 'text' > README
  git add README
  expect 0 '2 schemas against v1: 2 unchanged' git commit -m 'a page'
  echo ' "double"' > double.avsc
  cp "$orders/order-3.avsc" order.avsc
  expect 3 'double.avsc: avro: double.avsc: S10' avro-breaking --changed
  expect 3 'order.avsc: v1: no' avro-breaking --changed
  git add -A
  expect 1 '2 schemas against v1: 1 no, 1 refused' git commit -m 'a price'
}

# Each version reads the one before it, and the last one does not read the first.
try_all_tags() {
  repository all
  echo '{"type":"record","name":"Pair","fields":[{"name":"a","type":"int"}]}' > pair.avsc
  commit 'one field' v1
  commit_nothing v2
  pair ',"default":7' > pair.avsc
  commit 'two fields' v3
  pair '' > pair.avsc
  exactly 0 '1 schema against v3: 1 yes' avro-breaking
  expect 1 'pair.avsc: v2: no' avro-breaking --all
  exactly 1 '1' count_of ': no' avro-breaking --all
  expect 1 '1 schema against 3 tags: 1 no' avro-breaking --all
  expect 1 '1 schema against 2 tags: 1 no' avro-breaking --since v2
  expect 1 '1 schema against 2 tags: 1 no' avro-breaking --all --since v2
  exactly 0 '1 schema against v3: 1 yes' avro-breaking --since v3
  exactly 64 'avro-breaking: v9: no such commit' avro-breaking --since v9
  expect 64 'a BASE, and --all or --since' avro-breaking v1 --since v2
  commit_nothing
  exactly 64 "avro-breaking: no tag that leads here contains HEAD" avro-breaking --since HEAD
}

# How many lines of what words print hold a text.
count_of() { # TEXT WORDS..
  "${@:2}" |& grep -cF -e "$1"
}

# Before the first tag each schema is judged by itself, and so is the first commit of a repository.
try_start() {
  local told='avro-breaking: no tag yet: each schema is judged by itself'
  repository start
  cp "$files/pre-commit" .git/hooks
  cp "$orders/order-1.avsc" order.avsc
  exactly 0 "$told"$'\n''1 schema: 1 new' avro-breaking
  echo '"double"' > new.avsc
  git add -A
  expect 3 'new.avsc: avro: new.avsc: S10' avro-breaking
  expect 1 'new.avsc: avro: new.avsc: S10' git commit -m 'the first commit'
  git rm -qf new.avsc
  expect 0 "$told" git commit -m 'the first commit'
  git checkout -q -b other
  commit_nothing v1
  git checkout -q main
  expect 64 'no tag leads here' avro-breaking
  expect 64 'no tag leads here' avro-breaking --mode full
}

# All that explain lists stands behind a no.
try_faults_told() {
  local old new
  old=$orders/payment-1.avsc new=$orders/payment-2.avsc
  repository told
  cp "$old" payment.avsc
  commit 'a payment' v1
  cp "$new" payment.avsc
  expect 1 "payment.avsc: v1: $(avro judge "$old" "$new"; avro explain "$old" "$new" | tail -n +2)" unindented
  expect 1 $'\n''    $.customer.addresses[].zip: NoMatch: string cannot be read as int' avro-breaking
  expect 1 '%0A$.amount: NoMatch: long cannot be read as int' env GITHUB_ACTIONS=true avro-breaking
}

# What the check prints, without the spaces before its lines.
unindented() {
  avro-breaking --quiet | sed 's/^    //'
}

try_modes() {
  repository modes
  pair '' > pair.avsc
  commit 'two fields' v1
  echo '{"type":"record","name":"Pair","fields":[{"name":"a","type":"int"}]}' > pair.avsc
  exactly 0 '1 schema against v1: 1 yes' avro-breaking
  exactly 0 '1 schema against v1: 1 yes' avro-breaking --mode backward
  exactly 0 '1 schema against v1: 1 yes' avro-breaking --mode=backward
  expect 1 $'pair.avsc: v1 forward: no\n    fault MissingField 1 at /' avro-breaking --mode forward
  expect 1 $'\n''    $.b: MissingField: Pair of the writer' avro-breaking --mode full
  commit 'one field' v2
  pair '' > pair.avsc
  exactly 0 '1 schema against v2: 1 yes' avro-breaking --mode forward
  expect 1 'pair.avsc: v2: no' avro-breaking --mode full
  expect 1 'pair.avsc: v2: no' avro-breaking --mode full --all
  echo '{"type":"record","name":"Pair","fields":[{"name":"a","type":"long"},{"name":"b","type":"long"}]}' > pair.avsc
  expect 1 'pair.avsc: v2 forward: no' avro-breaking v2 --mode=full
  rm pair.avsc
  for mode in backward forward full; do
    expect 1 'pair.avsc: v2: gone' avro-breaking --mode "$mode"
  done
  expect 64 "argument --mode: invalid choice: 'sideways'" avro-breaking --mode sideways
  expect 64 'argument --mode: expected one argument' avro-breaking --mode
}

# A schema over three files, of which one is not in a folder.
lay_order() { # TYPE-OF-MONEY TYPE-OF-CURRENCY
  mkdir -p schemas/types
  local record='{"type":"record","namespace":"com.acme"'
  echo "$record,\"name\":\"Order\",\"fields\":[{\"name\":\"price\",\"type\":\"Money\"}]}" > 'order [1].avsc'
  echo "$record,\"name\":\"Money\",\"fields\":[{\"name\":\"amount\",\"type\":\"$1\"}," \
    "{\"name\":\"currency\",\"type\":\"$2\"}]}" > schemas/types/money.avsc
  echo '{"type":"enum","name":"com.acme.Currency","symbols":["EUR","CHF"]}' > schemas/currency.avsc
}

try_bundle() {
  repository bundle
  lay_order long Currency
  expect 3 $'order [1].avsc: avro: order [1].avsc: S2\n    order [1].avsc:1:89: /fields/0/type: ' avro-breaking
  expect 0 'no tag yet' avro-breaking --bundle
  commit 'an order' v1
  commit_nothing
  exactly 0 '3 schemas against v1: 3 yes' avro-breaking --bundle
  exactly 0 '3 schemas against v1: 3 yes' avro-breaking --bundle --staged
  lay_order int Currency
  expect 1 $'order [1].avsc: v1: no\n    fault NoMatch at /0/0' avro-breaking --bundle
  expect 1 $'schemas/types/money.avsc: v1: no\n    fault NoMatch at /0' avro-breaking --bundle
  expect 1 '3 schemas against v1: 1 unchanged, 2 no' avro-breaking --bundle --changed
  exactly 0 '3 schemas against v1: 3 yes' avro-breaking --bundle --staged
  exactly 0 '3 schemas against v1: 3 yes' avro-breaking --bundle --mode forward
  lay_order long Curency
  local fault='schemas/types/money.avsc: /fields/1/type: no type com.acme.Curency'
  expect 3 "order [1].avsc: bundle: $fault" avro-breaking --bundle
  expect 3 "schemas/types/money.avsc: bundle: $fault" avro-breaking --bundle
  expect 3 '3 schemas against v1: 1 yes, 2 refused' avro-breaking --bundle
  expect 3 "::error file=order [1].avsc::bundle: $fault" env GITHUB_ACTIONS=true avro-breaking --bundle
  expect 3 'order [1].avsc: bundle: order [1].avsc: /fields/0/type: no type com.acme.Money' \
    avro-breaking --bundle -- '*.avsc' ':!schemas/types'
  commit 'a typing error' v2
  commit_nothing
  exactly 0 '3 schemas against v2: 3 unchanged' avro-breaking --bundle --changed
  lay_order long Currency
  expect 3 "order [1].avsc: v2: bundle: $fault" avro-breaking --bundle --all
  exactly 0 '3 schemas against v1: 3 yes' avro-breaking --bundle v1
  rm tools/bundle.py
  exactly 4 "avro-breaking: $PWD/tools/bundle.py: no such program" avro-breaking --bundle v1
  exactly 0 '3 schemas against v1: 3 yes' env BUNDLE="$adapt/bundle.py" avro-breaking --bundle v1
  # One process bundles a tree.
  printf 'import os, sys\nopen("%s", "a").write("run\\n")\nos.execv(sys.executable, [sys.executable, "%s", *sys.argv[1:]])\n' \
    "$work/runs" "$adapt/bundle.py" > tools/bundle.py
  exactly 0 '3 schemas against v1: 3 yes' avro-breaking --bundle v1
  exactly 0 '2' grep -c run "$work/runs"
}

# An order whose amount has a type.
amount() { # TYPE
  echo "{\"type\":\"record\",\"name\":\"Order\",\"fields\":[{\"name\":\"id\",\"type\":\"int\"}," \
    "{\"name\":\"amount\",\"type\":$1}]}"
}

# Floats and doubles: a yes and a no as Avro has them, in the words of the schemas.
try_tame() {
  repository tame
  amount '"float"' > order.avsc
  amount '"int"' > whole.avsc
  commit 'an amount' v1
  commit_nothing
  expect 3 'order.avsc: avro: order.avsc: S10' avro-breaking
  exactly 0 '2 schemas against v1: 2 yes' avro-breaking --tame
  amount '["null","double"]' > order.avsc
  amount '"double"' > whole.avsc
  exactly 0 '2 schemas against v1: 2 yes' avro-breaking --tame
  expect 1 $'\n''    $.amount: NoMatch: double cannot be read as int' avro-breaking --tame --mode full
  amount '"int"' > order.avsc
  amount '"int"' > whole.avsc
  expect 1 $'\n''    $.amount: NoMatch: float cannot be read as int' avro-breaking --tame
  expect 1 '{"file":"order.avsc","base":"v1","mode":"backward","verdict":"no","fault":{"kind":"NoMatch",' \
    avro-breaking --tame --json
  amount '["double",{"type":"fixed","name":"double_","size":8}]' > order.avsc
  expect 3 'order.avsc: v1: lattice: ' avro-breaking --tame
  amount '["double","strnig"]' > order.avsc
  expect 3 'order.avsc: avro: order.avsc: S2' avro-breaking --tame
  echo '{"double"' > order.avsc
  expect 3 'order.avsc: tame: ' avro-breaking --tame
  rm tools/tame.py
  exactly 4 "avro-breaking: $PWD/tools/tame.py: no such program" avro-breaking --tame
}

try_json() {
  local start='{"file":"order.avsc","base":"v1","mode":'
  repository json
  cp "$orders/order-1.avsc" order.avsc
  cp "$orders/order-1.avsc" gone.avsc
  commit 'orders' v1
  rm gone.avsc
  cp "$orders/order-3.avsc" order.avsc
  echo '"double"' > new.avsc
  exactly 3 '{"file":"gone.avsc","base":"v1","verdict":"gone"}
'"$start"'"backward",'"$(avro judge "$orders/order-1.avsc" order.avsc --json | cut -c 2-)
$start"'"forward",'"$(avro judge order.avsc "$orders/order-1.avsc" --json | cut -c 2-)" \
    env GITHUB_ACTIONS=true bash -c 'avro-breaking --json --mode full --quiet 2> /dev/null'
  # shellcheck disable=SC2016 # it is the shell's within
  exactly 3 $'new.avsc: avro: new.avsc: S10\n''3 schemas against v1: 1 no, 1 gone, 1 refused' \
    bash -c 'avro-breaking --json 2>&1 > /dev/null | grep -v "^ "; exit "${PIPESTATUS[0]}"'
  rm new.avsc
  many a > order.avsc
  commit 'many' v2
  many b > order.avsc
  expect 2 '{"file":"order.avsc","base":"v2","mode":"backward","verdict":"undecided","cause":"Pairs"}' avro-breaking --json
}

# Accepted breaks, by the place in the new schema.
try_allow() {
  local note='{"type":"record","name":"Note","fields":[{"name":"text","type":"string"}'
  repository allow
  mkdir 'of the shop'
  echo "{\"type\":\"record\",\"name\":\"a.Order\",\"fields\":[{\"name\":\"id\",\"type\":\"long\"}," \
    "{\"name\":\"notes\",\"type\":[\"null\",{\"type\":\"array\",\"items\":$note]}}]}," \
    "{\"name\":\"last\",\"type\":{\"type\":\"map\",\"values\":\"Note\"}}]}" > 'of the shop/order.avsc'
  cp 'of the shop/order.avsc' gone.avsc
  commit 'an order' v1
  commit_nothing v2
  rm gone.avsc
  sed -e 's/"string"}/&,{"name":"by","type":"string"}/; s/"long"/"string"/' -i 'of the shop/order.avsc'
  : > allowed
  expect 1 $'\n''    allow: of the shop/order.avsc v2 /fields/0'$'\n' avro-breaking --allow allowed
  expect 1 $'\n''    allow: of the shop/order.avsc v2 /fields/1/type/1/items/fields/1'$'\n' avro-breaking --allow allowed
  expect 1 $'gone.avsc: v2: gone\n    allow: gone.avsc v2\n' avro-breaking --allow allowed
  exactly 1 'allow: of the shop/order.avsc v2 /fields/0' lines_of_allow --mode forward --allow allowed
  avro-breaking --allow allowed 2> /dev/null | sed -n 's/^    allow: //p' > found || true
  expect 0 $'\n''2 schemas against v2: 2 accepted' avro-breaking --allow found
  expect 0 $'gone.avsc: v2: gone, accepted\nof the shop/order.avsc: v2: no, accepted\n    $.id: NoMatch: ' \
    avro-breaking --allow found
  expect 0 '{"file":"of the shop/order.avsc","base":"v2","mode":"backward","accepted":true,"verdict":"no",' \
    avro-breaking --allow found --json
  expect 0 '::notice file=of the shop/order.avsc,line=1::v2: no, accepted%0A' env GITHUB_ACTIONS=true avro-breaking --allow found
  # A tag with the same text accepts for both, but only where it is judged.
  sed -e 's/v2/v1/' found > older
  expect 1 'avro-breaking: older:1: accepts nothing: gone.avsc v1' avro-breaking --allow older
  expect 1 $'\n''2 schemas against 2 tags: 1 accepted, 1 gone' avro-breaking --all --allow older
  sed -e '/fields\/0/d' found > fewer
  expect 1 $'of the shop/order.avsc: v2: no\n    fault ' avro-breaking --allow fewer
  exactly 1 'allow: of the shop/order.avsc v2 /fields/0' lines_of_allow --allow fewer
  printf '# the release of May\n\n%s\n' 'gone.avsc v2' > wide
  printf '%s v2 %s\n' 'of the shop/order.avsc' /fields 'of the shop/order.avsc' /field 'of the shop/order.avsc' /fields/7 >> wide
  exactly 0 $'avro-breaking: wide:5: accepts nothing: of the shop/order.avsc v2 /field
avro-breaking: wide:6: accepts nothing: of the shop/order.avsc v2 /fields/7\n2 schemas against v2: 2 accepted' \
    bash -c 'avro-breaking --allow wide 2>&1 > /dev/null'
  echo 'order.avsc' > wrong
  exactly 64 'avro-breaking: wrong:1: not FILE BASE [POINTER]' avro-breaking --allow wrong
  exactly 4 'avro-breaking: nowhere: No such file or directory' avro-breaking --allow nowhere
}

# The lines for a file of accepted breaks.
lines_of_allow() { # WORDS..
  local found=0
  avro-breaking "$@" > "$work/said" 2>&1 || found=$?
  sed -n 's/^    \(allow: of.*\)/\1/p' "$work/said"
  return "$found"
}

# What changes of a logical type is told, whatever the verdict is.
try_notes() {
  local decimal='{"type":"bytes","logicalType":"decimal","precision":9,"scale":'
  repository notes
  amount "$decimal 4,\"doc\":\"in cents\"}" > order.avsc
  commit 'a decimal' v0
  amount "$decimal 4}" > order.avsc
  commit 'no doc' v1
  commit_nothing
  exactly 0 '1 schema against v1: 1 yes' avro-breaking
  amount "$decimal 2}" > order.avsc
  exactly 0 $'note order.avsc: /fields/1: decimal scale 2, was 4\n1 schema against v1: 1 yes' avro-breaking
  exactly 0 'note order.avsc: /fields/1: decimal scale 2, was 4' avro-breaking --quiet --mode full
  exactly 0 'note order.avsc: /fields/1: decimal scale 2, was 4' avro-breaking --quiet --all
  expect 0 '::notice file=order.avsc,line=1::/fields/1: decimal scale 2, was 4' env GITHUB_ACTIONS=true avro-breaking
  amount "[\"null\",$decimal 2}]" | sed 's/"name":"amount"/"name":"sum","aliases":["amount"]/' > order.avsc
  exactly 0 'note order.avsc: /fields/1: decimal scale 2, was 4' avro-breaking --quiet
  amount '{"type":"array","items":"bytes"}' > order.avsc
  expect 1 'order.avsc: v1: no' avro-breaking
  amount '"bytes"' > order.avsc
  exactly 0 'note order.avsc: /fields/1: logicalType none, was decimal' avro-breaking --quiet
  amount "${decimal/9/12} 0}" > order.avsc
  exactly 0 $'note order.avsc: /fields/1: decimal precision 12, was 9\nnote order.avsc: /fields/1: decimal scale 0, was 4' \
    avro-breaking --quiet
  amount '{"type":"int","logicalType":"date"}' > order.avsc
  commit 'a date' v2
  amount '{"type":"long","logicalType":"timestamp-millis"}' > order.avsc
  exactly 0 'note order.avsc: /fields/1: logicalType timestamp-millis, was date' avro-breaking --quiet
  amount '{"type":"fixed","name":"Sum","size":8,"logicalType":"decimal","precision":9}' > order.avsc
  commit 'a fixed' v3
  amount '{"type":"fixed","name":"Sum","size":8,"logicalType":"decimal","precision":9,"scale":2}' \
    | sed 's/"fields":\[/&{"name":"text","type":"string","default":""},/' > order.avsc
  exactly 0 'note order.avsc: /fields/2: decimal scale 2, was 0' avro-breaking --quiet
}

# 1. On a commit with a tag the base is the tag before: nothing is compared with itself.
try_tagged() {
  local here='and each schema is judged by itself'
  repository tagged
  cp "$orders/order-1.avsc" order.avsc
  commit 'the first order' v1
  exactly 0 "avro-breaking: no earlier tag: v1 is HEAD itself, $here
1 schema, no earlier tag (v1 is HEAD itself): 1 new" avro-breaking
  exactly 64 'avro-breaking: no earlier tag: v1 is HEAD itself, and nothing differs from it' avro-breaking --all
  exactly 64 'avro-breaking: no earlier tag: v1 is HEAD itself, and nothing differs from it' avro-breaking --since v1
  cp "$orders/order-3.avsc" order.avsc
  commit 'a price' v2
  expect 1 'order.avsc: v1: no' avro-breaking
  expect 1 $'\n''1 schema against v1 (v2 is HEAD itself): 1 no' avro-breaking
  expect 1 $'\n''1 schema against v1 (v2 is HEAD itself): 1 no' avro-breaking --staged --changed
  expect 1 $'\n''1 schema against v1 (v2 is HEAD itself): 1 no' avro-breaking --all
  expect 1 $'\n''1 schema against v1 (HEAD is HEAD itself): 1 no' avro-breaking HEAD
  git tag v2-again
  expect 1 'order.avsc: v1: no' avro-breaking
  git tag -d v2-again > "$work/said"
  # What is no schema does not count, but for the commit that is about to be made.
  echo 'text' > README
  expect 1 'order.avsc: v1: no' avro-breaking
  git add README
  exactly 0 '1 schema against v2: 1 unchanged' avro-breaking --staged --changed
  cp "$orders/order-1.avsc" order.avsc
  expect 1 'order.avsc: v2 forward: no' avro-breaking --mode forward
  cp order.avsc new.avsc
  git checkout -q order.avsc
  exactly 0 '2 schemas against v2: 1 new, 1 yes' avro-breaking
  rm new.avsc
  expect 4 'avro-breaking: git: ' with_broken_git --no-optional-locks 2
}

# 2. A shallow clone, and one without tags, lack what counts: what to do is said.
try_clones() {
  local start fetch='git fetch --unshallow --tags; in a workflow of GitHub: fetch-depth: 0'
  repository clones
  start=$PWD
  cp "$orders/order-1.avsc" order.avsc
  commit 'the first order' v1
  cp "$orders/order-2.avsc" order.avsc
  commit 'a buyer' v2
  git clone -q --depth 1 "file://$start" "$start.shallow"
  git clone -q --no-tags "$start" "$start.untagged"
  commit_nothing
  git clone -q --depth 1 "file://$start" "$start.later"
  git clone -q --depth 2 "file://$start" "$start.deeper"
  cd "$start.shallow"
  exactly 64 "avro-breaking: the clone is shallow, and may lack tags ($fetch)" avro-breaking --all
  exactly 64 "avro-breaking: the clone is shallow, and may lack tags ($fetch)" avro-breaking --since v2
  git tag v2 2> "$work/said" || true
  exactly 64 "avro-breaking: no earlier tag: v2 is HEAD itself, and the clone is shallow ($fetch)" avro-breaking
  cd "$start.later"
  exactly 64 "avro-breaking: no tag leads here: the clone is shallow ($fetch)" avro-breaking
  cd "$start.deeper"
  git tag v2 HEAD~1 2> "$work/said" || true
  exactly 0 '1 schema against v2: 1 yes' avro-breaking
  expect 64 'the clone is shallow' avro-breaking --all
  fetch=${fetch/ --unshallow/}
  cd "$start.untagged"
  expect 64 "avro-breaking: the clone was made without tags ($fetch; before the first one: git config" avro-breaking
  expect 64 "avro-breaking: the clone was made without tags ($fetch; " avro-breaking --all
  git config --unset-all remote.origin.tagOpt
  exactly 64 "avro-breaking: there is no tag ($fetch; before the first one leave out --all)" avro-breaking --all
  expect 0 'avro-breaking: no tag yet: each schema is judged by itself' avro-breaking
}

# 3. The tag of another part is no release of the schemas.
try_match() {
  repository match
  cp "$orders/order-1.avsc" order.avsc
  commit 'the first order' schemas-v1
  cp "$orders/order-3.avsc" order.avsc
  commit 'a price' frontend-9
  commit_nothing
  exactly 0 '1 schema against frontend-9: 1 yes' avro-breaking
  expect 1 'order.avsc: schemas-v1: no' avro-breaking --match 'schemas-*'
  expect 1 'order.avsc: schemas-v1: no' avro-breaking --match 'backend-*' --match='schemas-v?'
  expect 1 $'\n''1 schema against schemas-v1: 1 no' avro-breaking --all --match 'schemas-*'
  expect 1 $'\n''1 schema against 2 tags: 1 no' avro-breaking --all --match 'schemas-*' --match 'f*'
  expect 64 "avro-breaking: no tag matches v* and leads here (git fetch --tags" avro-breaking --match 'v*'
  expect 64 "avro-breaking: no tag matches v* and leads here (git fetch --tags" avro-breaking --match 'v*' --all
  # What differs from any of the tags is changed.
  exactly 0 '1 schema against frontend-9: 1 unchanged' avro-breaking --changed
  expect 1 'order.avsc: schemas-v1: no' avro-breaking --changed --all
  git checkout -q schemas-v1 order.avsc
  commit 'no price' schemas-v2
  commit_nothing
  exactly 0 '1 schema against 2 tags: 1 unchanged' avro-breaking --changed --all --match 'schemas-*'
}

# 4. Hooks run whatever is committed, so that a schema that is deleted is seen (and by try_framework, if it is there).
try_hook_files() {
  tried=$((tried + 1))
  "$python" - "$files/pre-commit-config.yaml" "$files/pre-commit-hooks.yaml" << 'END' || wrong_hooks
import sys
import yaml

local, offered = (yaml.safe_load(open(file, encoding="utf-8")) for file in sys.argv[1:])
for hook in (local["repos"][0]["hooks"][0], offered[0]):
    if hook.get("always_run") is not True or hook.get("pass_filenames") is not False:
        sys.exit(1)
END
}

wrong_hooks() {
  wrong=$((wrong + 1))
  echo 'WRONG: a hook is skipped, or is given the names of files'
  [ -z "$is_spoiled" ] || exit 1
}

# 5. A schema that is moved is judged at its new place.
try_renames() {
  repository renames
  mkdir schemas
  cp "$orders/order-1.avsc" schemas/order.avsc
  cp "$orders/payment-1.avsc" schemas/payment.avsc
  commit 'schemas' v1
  commit_nothing v2
  git mv schemas shop
  exactly 0 'renamed schemas/order.avsc -> shop/order.avsc
renamed schemas/payment.avsc -> shop/payment.avsc
2 schemas against v2: 2 yes' avro-breaking
  cp "$orders/order-3.avsc" shop/order.avsc
  expect 1 'shop/order.avsc: v2: no' avro-breaking
  expect 1 $'\n''2 schemas against v2: 1 yes, 1 no' avro-breaking
  expect 1 '{"file":"shop/order.avsc","renamed":"schemas/order.avsc","base":"v2","mode":"backward","verdict":"no"' \
    avro-breaking --json
  commit 'they are moved' v3
  commit_nothing
  exactly 0 '2 schemas against v3: 2 yes' avro-breaking
  expect 1 'shop/order.avsc: v2: no' avro-breaking --all
  expect 1 $'\n''2 schemas against 3 tags: 1 yes, 1 no' avro-breaking --all
  # Of several new files with its type it is the one with its text, or gone.
  git mv shop/order.avsc order.avsc
  cp "$orders/order-1.avsc" other.avsc
  expect 0 'renamed shop/order.avsc -> order.avsc' avro-breaking
  cp "$orders/order-2.avsc" order.avsc
  expect 1 'shop/order.avsc: v3: gone' avro-breaking
  cp "$orders/order-3.avsc" order.avsc
  cp order.avsc other.avsc
  expect 1 'shop/order.avsc: v3: gone' avro-breaking
}

# Lines that accept breaks have patterns, names in quotes, and the pointer of a field or of its type.
try_allow_words() {
  repository words
  amount '"int"' > 'order [1].avsc'
  amount '"int"' > $'caf\xe9 "2".avsc'
  commit 'orders' v1
  amount '"string"' > 'order [1].avsc'
  amount '"string"' > $'caf\xe9 "2".avsc'
  : > allowed
  expect 1 $'\n''    allow: "caf\351 \"2\".avsc" v1 /fields/1'$'\n' avro-breaking --allow allowed
  expect 1 $'\n''    allow: "order [1].avsc" "v1" /fields/1'$'\n' avro-breaking --allow allowed
  avro-breaking --allow allowed 2> /dev/null | sed -n 's/^    allow: //p' > found || true
  expect 0 $'\n''2 schemas against v1: 2 accepted' avro-breaking --allow found
  echo '*.avsc v* /fields/1/type' > allowed
  expect 0 $'\n''2 schemas against v1: 2 accepted' avro-breaking --allow allowed
  echo 'order*.avsc v1' > allowed
  expect 1 $'\n''2 schemas against v1: 1 accepted, 1 no' avro-breaking --allow allowed
  echo '"*.avsc" v1' > allowed
  expect 1 'avro-breaking: allowed:1: accepts nothing: "*.avsc" v1' avro-breaking --allow allowed
  printf '%s\n' 'order [1].avsc v1 /fields/1/type/0' '*.avsc v1 /fields/0' '*.avsc w*' > allowed
  expect 1 $'\n''2 schemas against v1: 2 no' avro-breaking --allow allowed
}

# A program that takes any two schemas for one and the same no, with so many faults of so many bytes.
stub() { # COUNT BYTES
  mkdir -p "$work/stub"
  cat > "$work/stub/avro" << END
#!/bin/sh
case \$1 in
schema) echo 'ok 1' ;;
judge) printf 'no\nfault NoMatch at /0\nnodes 2\ndatum {}\n'; exit 1 ;;
explain)
  echo 'no $1'
  awk 'BEGIN {
    words = sprintf("%${2}s", ""); gsub(/ /, "x", words)
    for (i = 0; i < $1; i++) print "$.f" i ": NoMatch: " words " (writer'"'"'s $.f" i ")"
  }'
  exit 1 ;;
esac
END
  chmod +x "$work/stub/avro"
}

# Runs the check with that program, within so many MB of memory.
with_stub() { # MB WORDS..
  (
    ulimit -v "$(($1 * 1024))"
    AVRO=$work/stub/avro avro-breaking "${@:2}"
  )
}

# A record with many fields, and with names that it and its first field had.
wide() { # FIELDS TYPE ALIASES
  python3 - "$@" << 'END'
import json
import sys

count, kind, aliases = int(sys.argv[1]), sys.argv[2], [f"n{number}" for number in range(int(sys.argv[3]))]
fields = [{"name": f"f{number}", "type": kind, **({} if number else {"aliases": aliases})} for number in range(count)]
print(json.dumps({"type": "record", "name": "Wide", "aliases": aliases, "fields": fields}))
END
}

# 6. Memory does not grow with what a stranger writes: names that a field and its record had, and what explain answers.
try_memory() {
  repository memory
  wide 20 int 0 > wide.avsc
  commit 'fields' v1
  wide 20 long 2500 > wide.avsc
  stub 300000 700
  expect 1 $'\n''    and 299900 more'$'\n' with_stub 200
  exactly 1 '100' count_of ': NoMatch: ' with_stub 200
  echo 'wide.avsc v1 /fields/3' > allowed
  expect 1 $'\n''    allow: wide.avsc v1 /fields/0'$'\n' with_stub 200 --allow allowed
  # A file has a hundred faults, however many old texts it has.
  stub 60 10
  commit 'other fields' v2
  wide 3 long 0 > wide.avsc
  expect 1 $'\n''    and 20 more'$'\n' with_stub 200 --all
  exactly 1 '100' count_of ': NoMatch: ' with_stub 200 --all
}

# 7. Time does not, either: a text is read once, however many faults are compared with what is accepted.
try_time() {
  repository time
  stub 2000 10
  wide 2000 int 0 > wide.avsc
  commit 'fields' v1
  wide 2000 string 0 > wide.avsc
  for number in {0..1999}; do echo "wide.avsc v1 /fields/$number"; done > allowed
  expect 0 $'\n''1 schema against v1: 1 accepted' with_stub 2000 --allow allowed --max-time 8
  sed -i '$d' allowed
  expect 1 $'\n''    allow: wide.avsc v1 /fields/1999'$'\n' with_stub 2000 --allow allowed --max-time 8
  sed -i 's/^explain)/explain) while :; do :; done/' "$work/stub/avro"
  expect 4 'avro-breaking: the answers take more than 1 seconds of processor time' with_stub 2000 --max-time 1
}

# 8. What leads out of the tree is no schema of it.
try_links_out() {
  repository out
  cp "$orders/order-1.avsc" order.avsc
  commit 'an order' v1
  cp "$orders/order-3.avsc" ../outside.avsc
  ln -sf ../outside.avsc order.avsc
  exactly 4 'avro-breaking: order.avsc: is a link out of the tree' avro-breaking
  git add -A
  exactly 4 'avro-breaking: order.avsc: is a link out of the tree' avro-breaking --staged
  commit 'a link' v2
  cp --remove-destination "$orders/order-3.avsc" order.avsc
  exactly 4 'avro-breaking: v2: order.avsc: is a link out of the tree' avro-breaking
  ln -sf .git/config order.avsc
  exactly 4 'avro-breaking: order.avsc: is a link out of the tree' avro-breaking v1
  ln -sf "$work/outside.avsc" order.avsc
  git add -A
  exactly 4 'avro-breaking: order.avsc: is a link out of the tree' avro-breaking --staged v1
}

# 9. Whatever happens, only what was judged is told as a break.
try_unforeseen() {
  repository unforeseen
  cp "$orders/order-1.avsc" order.avsc
  commit 'an order' v1
  truncate -s 40G huge.avsc
  expect 3 $'huge.avsc: avro: huge.avsc: S12\n    huge.avsc:1:1: more than 1048576 bytes' within_memory 400 avro-breaking
  rm huge.avsc
  cp "$orders/order-3.avsc" order.avsc
  stub 1 1
  sed -i "s/^judge).*/judge) echo '{\"verdict\":\"no\",é}'; exit 1 ;;/" "$work/stub/avro"
  expect 4 'avro-breaking: JSONDecodeError: ' with_stub 2000 --json
  exactly 4 '1' count_of '' with_stub 2000 --json
  sed -i "s/^judge).*/judge) echo 'usage'; exit 1 ;;/" "$work/stub/avro"
  exactly 4 "avro-breaking: $work/stub/avro: is another program" with_stub 2000
  sed -i "s/^judge).*/judge) echo 'avro: out of memory' >\&2; exit 5 ;;/" "$work/stub/avro"
  exactly 5 'avro-breaking: avro: out of memory' with_stub 2000
  sed -i "s/^judge).*/judge) kill -9 \$\$ ;;/" "$work/stub/avro"
  exactly 4 "avro-breaking: $work/stub/avro: status -9" with_stub 2000
  stub 3 1
  sed -i "s/print \"/if (i < 2) print \"/" "$work/stub/avro"
  exactly 4 'avro-breaking: avro explain: ends early' with_stub 2000
  exactly 64 '' bash -c 'avro-breaking nowhere 2> /dev/full'
}

# Runs words within so many MB of memory; the program may have more.
within_memory() { # MB WORDS..
  printf '#!/bin/sh\nulimit -S -v unlimited\nexec "%s" "$@"\n' "$program" > tools/avro
  (
    ulimit -S -v "$(($1 * 1024))"
    "${@:2}"
  )
}

# 10. Nothing in a name, a tag or a schema is taken for a command of a log, or moves its cursor.
try_logs() {
  local name bidi escaped
  repository logs
  bidi=$(printf '\xe2\x80\xae%.0s' {1..80}).avsc
  escaped="\"$(printf '\\342\\200\\256%.0s' {1..80}).avsc\""
  for name in order.avsc '##[stop-commands]x.avsc' "$bidi" $'\e[2J.avsc' '  ::error::x.avsc' '##vso[task]y.avsc'; do
    cp "$orders/order-1.avsc" "$name"
  done
  commit 'orders' $'v\xe2\x80\xae1'
  for name in ./*.avsc; do cp "$orders/order-3.avsc" "$name"; done
  expect 1 "$escaped: \"v\\342\\200\\2561\": no" avro-breaking
  expect 1 $'\n''"#\043[stop-commands]x.avsc": "v\342\200\2561": no' avro-breaking
  expect 1 '"\033[2J.avsc": ' avro-breaking
  expect 1 '"  ::error::x.avsc": ' avro-breaking
  exactly 1 '0' count_unsafe avro-breaking
  exactly 1 '0' count_unsafe avro-breaking --json
  exactly 1 '0' count_unsafe env GITHUB_ACTIONS=true avro-breaking --allow /dev/null
  for name in ./*.avsc; do echo '{"type":"##[error]\u202e"}' > "$name"; done
  printf '{"type":"record","name":"R","fields":[{"name":"::x","type":"##[group]"}]}' > order.avsc
  exactly 3 '0' count_unsafe env GITHUB_ACTIONS=true avro-breaking
  rm ./*.avsc
  exactly 1 '0' count_unsafe env GITHUB_ACTIONS=true avro-breaking
  cp "$orders/order-1.avsc" "$bidi"
  expect 1 $'\n''6 schemas against "v\342\200\2561": 1 yes, 5 gone' avro-breaking --bundle
}

# How many lines of what words print are not plain, or begin a command without being a finding; with the words' status.
count_unsafe() { # WORDS..
  local found=0
  "$@" > "$work/said" 2>&1 || found=$?
  LC_ALL=C grep -c -e '##' -e '[^ -~]' -e '^ *::[^en]' -e '^  *::' "$work/said" || true
  return "$found"
}

# 11. What is wrong and easily put right is told with what to do.
try_hints() {
  local other='is another program of this name: set AVRO to the one that judges schemas'
  repository hints
  amount '"float"' > order.avsc
  commit 'an amount' v1
  amount '"int"' > order.avsc
  expect 3 $'order.avsc: v1: avro: order.avsc: S10\n    order.avsc:1:95: /fields/1/type: float is not supported
    --tame takes float and double' avro-breaking
  expect 3 '::error file=order.avsc::v1: avro: order.avsc: S10%0A' env GITHUB_ACTIONS=true avro-breaking
  amount '"double","default":0.5' > new.avsc
  expect 3 $'\n''    --tame takes float and double' avro-breaking -- new.avsc
  exactly 64 'avro-breaking: order.avsc: no such commit (of a file: avro-breaking -- order.avsc)' avro-breaking order.avsc
  expect 64 'more than one BASE (of files: -- order.avsc new.avsc)' avro-breaking order.avsc new.avsc
  # As the program of python3-avro does.
  stub 1 1
  printf '#!/bin/sh\necho "usage: avro [-h] [--version] {cat,write} ..." >&2\nexit 2\n' > "$work/stub/avro"
  exactly 4 "avro-breaking: $work/stub/avro: $other" with_stub 2000
  exactly 4 "avro-breaking: /bin/true: $other" env AVRO=/bin/true avro-breaking
}

# 12. A word in a text that is no definition refers to a type, also where it is that of a kind of types.
try_kinds() {
  local kind fields='"fields":[{"name":"next","type":["null",'
  repository kinds
  for kind in record enum fixed error array map; do
    echo "{\"type\":\"record\",\"name\":\"$kind\",$fields\"$kind\"],\"default\":null},{\"name\":\"a\",\"type\":\"int\"}]}" > "$kind.avsc"
  done
  echo '{"type":"record","name":"Of","fields":[{"name":"a","type":{"type":"fixed","name":"fixed","size":1}},
    {"name":"b","type":"fixed","default":"x"},{"name":"c","type":"float","default":0}]}' > float.avsc
  commit 'names' v1
  commit_nothing
  exactly 0 '7 schemas against v1: 7 yes' avro-breaking --tame
  sed -i 's/"int"/"string"/' record.avsc
  expect 1 $'record.avsc: v1: no\n' avro-breaking -- record.avsc
  : > allowed
  expect 1 $'\n''    allow: record.avsc v1 /fields/1'$'\n' avro-breaking --allow allowed -- record.avsc
}

# 13. A finding of a workflow is at its line; of a submodule is said what it is.
try_lines() {
  local record='{"type":"record","name":"R","fields":['
  repository lines
  printf '%s\n' "$record" '{"name":"a","type":"int"},' '{"name":"b","type":' '["null",' '"int"]}]}' > r.avsc
  commit 'a record' v1
  printf '%s\n' "$record" '{"name":"a",' '"type":"string"},' '{"name":"b","type":' '["null",' '"string"]}]}' > r.avsc
  expect 1 '::error file=r.avsc,line=2::v1: no%0A' env GITHUB_ACTIONS=true avro-breaking
  sed -i '3s/"string"/"int"/' r.avsc
  expect 1 '::error file=r.avsc,line=4::v1: no%0A' env GITHUB_ACTIONS=true avro-breaking
  printf '%s\n' "$record" '{"name":"a","type":"int"},' '{"name":"b","type":["null",' '{"type":"int","logicalType":"date"}]}]}' > r.avsc
  expect 0 '::notice file=r.avsc,line=3::/fields/1: logicalType date, was none' env GITHUB_ACTIONS=true avro-breaking
  printf '\n\n "strnig"' > r.avsc
  expect 3 '::error file=r.avsc,line=3::avro: r.avsc: S2%0A' env GITHUB_ACTIONS=true avro-breaking
}

try_module() {
  local told="(files of a submodule are judged in it: module)"
  repository module
  git init -q module
  cp "$orders/order-1.avsc" module/order.avsc
  git -C module add -A
  git -C module commit -qm 'an order'
  git add module 2> "$work/said"
  commit 'a module' v1
  commit_nothing
  exactly 64 "avro-breaking: no schema is named by 'module/order.avsc' $told" avro-breaking -- module/order.avsc
  exactly 64 "avro-breaking: no schema is named by ':/*.avsc' $told" avro-breaking
}

# A commit that breaks a schema is refused, and one that does not is made.
try_hook() {
  cp "$orders/order-1.avsc" order.avsc
  commit 'the first order' v1
  cp "$orders/order-3.avsc" order.avsc
  git add order.avsc
  cp "$orders/order-2.avsc" order.avsc
  expect 1 'order.avsc: v1: no' git commit -m 'a price'
  git add order.avsc
  cp "$orders/order-3.avsc" order.avsc
  expect 0 'a buyer' git commit -m 'a buyer'
  git rm -qf order.avsc
  expect 1 'order.avsc: v1: gone' git commit -m 'no order'
}

# The one file is what the modules make, which are tested, and which run as it does.
try_modules() {
  exactly 0 '' "$here/breaking/build.py" --check
  expect 0 $'\n''OK' env -C "$here" python3 -m unittest discover -s breaking -t .
  repository modules
  cp "$orders/order-1.avsc" order.avsc
  commit 'the first order' v1
  cp "$orders/order-3.avsc" order.avsc
  expect 1 'order.avsc: v1: no' env PYTHONPATH="$here" python3 -m breaking
}

try_git_hook() {
  repository hook
  cp "$files/pre-commit" .git/hooks
  commit 'tools' v0
  try_hook
}

# The framework's hook, once local and once offered by another repository.
try_framework() {
  repository framework
  cp "$files/pre-commit-config.yaml" .pre-commit-config.yaml
  commit 'tools' v0
  pre-commit install > "$work/said"
  try_hook
  repository offers
  local offers=$PWD
  mv tools/avro-breaking .
  cp "$files/pre-commit-hooks.yaml" .pre-commit-hooks.yaml
  commit 'a hook' v1.0.0
  repository takes
  printf 'repos:\n- repo: %s\n  rev: v1.0.0\n  hooks:\n  - id: avro-breaking\n    args: [%s]\n' \
    "$offers" '--mode, backward' > .pre-commit-config.yaml
  commit 'tools' v0
  pre-commit install > "$work/said"
  try_hook
}

# The `run` lines of the workflow, each by the shell that GitHub starts.
lines_of_workflow() {
  local line
  while IFS= read -r -d '' line; do
    bash --noprofile --norc -eo pipefail -c "$line" || return
  done < "$work/lines"
}

try_workflow() {
  "$python" - "$files/workflow.yml" > "$work/lines" << 'END'
import sys
import yaml

with open(sys.argv[1], encoding="utf-8") as file:
    jobs = yaml.safe_load(file)["jobs"]
for step in jobs["compatible"]["steps"]:
    if "run" in step:
        print(step["run"], end="\0")
END
  [ "$(tr -cd '\0' < "$work/lines" | wc -c)" = 2 ]
  repository workflow
  (cd tools && sha256sum avro > avro.sha256)
  cp "$orders/order-1.avsc" order.avsc
  commit 'the first order' v1
  cp "$orders/order-2.avsc" order.avsc
  expect 0 $'avro: OK\n1 schema against v1: 1 yes' lines_of_workflow
  cp "$orders/order-3.avsc" order.avsc
  expect 1 '::error file=order.avsc,line=14::v1: no' \
    env GITHUB_ACTIONS=true bash -c "$(declare -f lines_of_workflow); work=$work; lines_of_workflow"
  echo '# another' >> tools/avro
  expect 1 'avro: FAILED' lines_of_workflow
}

# Whether all rows of a function are right for other files; in a subshell, so that nothing is counted.
are_right() { # FUNCTION
  files=$work/spoiled adapt=$work/spoiled/adapt is_spoiled=1
  "$1" > "$work/said"
}

# Each edit of a file, by sed, must make a row of a function wrong.
try_planted() {
  local rows file edit
  while IFS=$'\t' read -r file rows edit; do
    { is_wanted "$rows" && has_what "$rows"; } || continue
    rm -rf "$work/spoiled"
    mkdir "$work/spoiled"
    cp "$here"/* "$work/spoiled" 2> "$work/said" || true
    cp -r "$adapt" "$work/spoiled/adapt"
    cp "$work/spoiled/$file" "$work/kept"
    sed -i -e "$edit" "$work/spoiled/$file"
    tried=$((tried + 1))
    if cmp -s "$work/kept" "$work/spoiled/$file" || (are_right "$rows"); then
      wrong=$((wrong + 1))
      echo "WRONG, not found by $rows: $file: $edit"
    fi
  done << 'END'
avro-breaking	try_check	s/if not self.is_quiet:/if True:/
avro-breaking	try_faults	s/, "--why")/)/
avro-breaking	try_faults_told	s/left = self.count$/left = self.count - 1/
avro-breaking	try_faults_told	s/for text in answer.texts)/for text in answer.texts[::-1])/
avro-breaking	try_paths	s/\[\*((path,) for path in self.paths), self.paths\]/[self.paths]/
avro-breaking	try_paths	s/if self.unnamed and (self.options.paths or not self.options.changed)/if self.unnamed/
avro-breaking	try_names	s/return name if written == .*/return name/
avro-breaking	try_names	s/.replace(":", "%3A")//
avro-breaking	try_check	s/.replace("\\n", "%0A")//
avro-breaking	try_links	s/if entry.mode == LINK:/if False:/
avro-breaking	try_links	s/posixpath.join(posixpath.dirname(link), target)/target/
avro-breaking	try_failures	s/stop(FAILED, f"git cat-file: {name}: cannot read")/MOST_TEXT + 1/
avro-breaking	try_failures	s/    if done.returncode:/    if False:/
avro-breaking	try_failures	s/    if process.returncode:/    if False:/
avro-breaking	try_failures	s/, dir=os.environ.get("TMPDIR") or "\/tmp")/)/
avro-breaking	try_sparse	s/\.tag == "S"/.tag == "X"/
avro-breaking	try_changed	s/if self.options.changed and self.history.is_unchanged(path)/if self.options.changed/
avro-breaking	try_all_tags	s/, bases in groups.items() for each in self.against(path, old, bases)/, names in groups.items() for name in names for each in self.against(path, old, [name])/
avro-breaking	try_all_tags	s/("--contains", since) if/() if/
avro-breaking	try_all_tags	s/"--sort=-version:refname", //
avro-breaking	try_start	s/if tags.any():/if False:/
avro-breaking	try_start	s/        if answer.status:/        if False:/
avro-breaking	try_modes	s/if pair.side == "reader" else/if pair.side == "writer" else/
avro-breaking	try_modes	s/else (self.options.mode,)/else ("backward",)/
avro-breaking	try_bundle	s/return \[self.refused(\[f"{quoted(bases\[0\])}: {version.fault}"\])\]/pass/
avro-breaking	try_bundle	s/return self.refused(\[version.fault\])/pass/
avro-breaking	try_bundle	s/self.versions(Tree(self.paths, self.blobs, base.name, GIT_INDEX_FILE=index))/self.versions(WorkingTree(self.paths, self.blobs))/
avro-breaking	try_tame	s/self.with_names if answer.filter == JUDGE else bytes/bytes/
avro-breaking	try_tame	s/^CHECK, JUDGE = .*/CHECK, JUDGE = "tame.py", "tame.py"/
avro-breaking	try_json	s/            self.answer(outcome, answer, pair)/            self.tell(outcome, answer, findings, pair)/
avro-breaking	try_allow	s/above = above.rpartition("\/")\[0\]/above = above[:-1]/
avro-breaking	try_allow	s/accepted is not None and not left/accepted is not None/
avro-breaking	try_allow	s/accepted.takes(place)/accepted.takes("")/
avro-breaking	try_allow	s/if line.text not in self.used/if False/
avro-breaking	try_notes	s/attributes.get("scale", 0)/attributes.get("scale")/
avro-breaking	try_notes	s/, \*(schema.get("aliases") or ())/,/
avro-breaking	try_notes	s/if note not in self.noted/if True/
avro-breaking	try_tagged	s/if not same or differs_from_head(options, paths):/if True:/
avro-breaking	try_tagged	s/return not is_so(\*COMPARE, "--cached", .*/return False/
avro-breaking	try_tagged	s/tags.last(\*tags.here())/tags.last(same[0].name)/
avro-breaking	try_tagged	s/stop(USAGE, f"no earlier tag: {here}, and nothing differs from it")/pass/
avro-breaking	try_clones	s/if options.is_many and is_shallow():/if False:/
avro-breaking	try_clones	s/stop(USAGE, f"no earlier tag: {here}, and the clone is shallow ({UNSHALLOW})")/pass/
avro-breaking	try_clones	s/if is_without_tags():/if False:/
avro-breaking	try_clones	s/stop(USAGE, f"there is no tag .*/pass/
avro-breaking	try_match	s/\[f"--match={pattern}" for pattern in self.patterns\]/[]/
avro-breaking	try_match	s/, "--list", \*self.patterns)/)/
avro-breaking	try_match	s/ and self.groups\[path\].keys() == {(path, version)}//
pre-commit-config.yaml	try_hook_files	s/always_run: true/always_run: false/
pre-commit-hooks.yaml	try_hook_files	s/pass_filenames: false/pass_filenames: true/
pre-commit-config.yaml	try_framework	s/always_run: true.*/files: \\.avsc$/
pre-commit-hooks.yaml	try_framework	s/always_run: true.*/files: \\.avsc$/
avro-breaking	try_renames	s/        renamed = self.renamed(versions)/        renamed = {}/
avro-breaking	try_renames	s/return paths\[0\] if len(paths) == 1 else None/return paths[0] if paths else None/
avro-breaking	try_renames	s/ if path in self.new else renamed.get(path)/ if path in self.new else None/
avro-breaking	try_allow_words	s/(self.is_pattern and /(False and /
avro-breaking	try_allow_words	s/while pointer.endswith("\/type"):/while False:/
avro-breaking	try_allow_words	s/    name = unquoted(written)$/    name = None/
avro-breaking	try_memory	s/enumerate(faults)/enumerate(list(faults))/
avro-breaking	try_memory	s/return \[last_names(field) for field in/return [[f"{one}.{other}" for one in last_names(place.schema) for other in last_names(field)] for field in/
avro-breaking	try_memory	s/self.room -= len(findings.lines)/pass/
avro-breaking	try_time	s/pointer_of(fault, side, self.schema)/pointer_of(fault, side, schema_of(self.new))/
avro-breaking	try_time	s/left >= MOST_FAULTS or (left > 0 and number >= MOST_READ)/True/
avro-breaking	try_links_out	s/if inner in ("..", ".git"):/if inner == "..":/
avro-breaking	try_links_out	s/if path.startswith("\/") or path.split("\/")\[0\] == "..":/if False:/
avro-breaking	try_unforeseen	s/    except Exception as fault:/    except Stop as fault:/
avro-breaking	try_unforeseen	s/return file.read(MOST_TEXT + 1)/return file.read()/
avro-breaking	try_unforeseen	s/if not SAID\[status\].fullmatch(said):/if False:/
avro-breaking	try_logs	s/.replace("##", "#\\\\043")//
avro-breaking	try_logs	s/line = line.replace("##", "#\\\\u{23}")/pass/
avro-breaking	try_logs	s/line.replace("##", "#\\\\u0023")/line/
avro-breaking	try_logs	s/ and not name.startswith((" ", ":"))//
avro-breaking	try_logs	s/laid = Laid(f"{self.count}.avsc", /laid = Laid(f"{self.count}{quoted(path)}.avsc", /
avro-breaking	try_hints	s/ + \["--tame takes float and double"\] \* .*//
avro-breaking	try_hints	s/if (done.returncode, done.stdout) != (0, b"ok 1\\n"):/if False:/
avro-breaking	try_hints	s/ + (f" (of files: -- {files})" if any(map(os.path.lexists, bases)) else "")//
avro-breaking	try_hints	s/: no such commit{hint}/: no such commit/
avro-breaking	try_kinds	s/(word in KINDS and isinstance(self.schema, dict))/word in KINDS/
adapt/tame.py	try_kinds	s/(isinstance(schema, str) or word not in ATTRIBUTES)/word not in ATTRIBUTES/
avro-breaking	try_lines	s/(f",line={line}" if line else "")/""/
avro-breaking	try_lines	s/place = root if not around else .*/place = root/
avro-breaking	try_module	s/{modules_told(new)}//
END
}

python=''
for each in python3 /usr/bin/python3; do
  [ -n "$python" ] || ! "$each" -c 'import yaml' 2> "$work/said" || python=$each
done
wanted=("$@")
not_tried=()

is_wanted() { # FUNCTION
  [ ${#wanted[@]} = 0 ] || [[ " ${wanted[*]} " = *" $1 "* ]]
}

# Whether what a function needs is there; otherwise that is told at the end.
has_what() { # FUNCTION
  case $1 in
    try_framework) command -v pre-commit > "$work/said" || missing 'the hooks of pre-commit (it is not installed)' ;;
    try_hook_files) [ -n "$python" ] || missing "the hooks' files (Python has no module yaml)" ;;
    try_workflow) [ -n "$python" ] || missing 'the workflow (Python has no module yaml)' ;;
  esac
}

missing() { # WHAT
  [[ " ${not_tried[*]} " = *" $1 "* ]] || not_tried+=("$1")
  return 1
}

for each in try_{check,faults,paths,names,links,failures,sparse,changed,all_tags,start,faults_told,modes,bundle,tame,json} \
  try_{allow,notes,tagged,clones,match,hook_files,renames,allow_words,memory,time,links_out,unforeseen,logs,hints,kinds} \
  try_{lines,module,modules,git_hook,framework,workflow}; do
  if is_wanted "$each" && has_what "$each"; then "$each"; fi
done
try_planted
for each in "${not_tried[@]}"; do echo "not tried: $each"; done
echo "$tried tries, $wrong wrong"
[ "$wrong" = 0 ]
