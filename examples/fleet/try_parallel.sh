#!/usr/bin/env bash
# Runs parallel.sh with 30 files, and then with programs that do wrong in its jobs: it must end with 0 once, and with another status each other time.
#
#     try_parallel.sh [PROGRAM]
set -euo pipefail

here=$(cd "$(dirname "${BASH_SOURCE[0]}")" && pwd)
REAL=$(realpath "$(command -v "${1:-${AVRO:-avro}}")")
export REAL FILES=30
work=$(mktemp -d)
trap 'rm -rf "$work"' EXIT

# A program that does what the lines say where it is a job of GNU parallel, and then what PROGRAM does.
# shellcheck disable=SC2016
wrong() { # NAME LINES
  printf '%s\n' '#!/usr/bin/env bash' "if [ -n \"\${PARALLEL_SEQ-}\" ]; then $2; fi" 'exec "$REAL" "$@"' > "$work/$1"
  chmod +x "$work/$1"
}

# The words of a job are copy, IN, OUT, --reader and the schema.
# shellcheck disable=SC2016
{
  wrong 'spoils one copy' 'if [ "$2" = in/005.avro ]; then "$REAL" "$@"; printf x >> "$3"; exit 0; fi'
  wrong 'leaves one copy out' 'if [ "$2" = in/005.avro ]; then exit 0; fi'
  wrong 'leaves one copy empty' 'if [ "$2" = in/005.avro ]; then : > "$3"; exit 0; fi'
  wrong 'fails for a third file' 'if [ "$2" = in/005.avro ]; then exit 3; fi'
  wrong 'is ended by a signal' 'if [ "$2" = in/005.avro ]; then kill -9 $$; fi'
  wrong 'says that the cut file is good' 'if [ "$2" = in/010.avro ]; then "$REAL" "$@" || true; exit 0; fi'
  wrong 'leaves what is no beginning' 'if [ "$2" = in/010.avro ]; then "$REAL" "$@" || { printf x >> "$3"; exit 3; }; fi'
  wrong 'ends with another status' 'if [ "$2" = in/020.avro ]; then exit 5; fi'
  wrong 'copies under the old schema' 'if [ "$2" != in/010.avro ] && [ "$2" != in/020.avro ]; then exec "$REAL" copy "$2" "$3"; fi'
}

echo "== parallel.sh"
"$here/parallel.sh" "$REAL"
for program in "$work"/*; do
  if said=$("$here/parallel.sh" "$program" 2>&1); then
    echo "parallel.sh ends with 0 where a program ${program##*/}" >&2
    exit 1
  fi
  echo "== where the program ${program##*/}"
  tail -n 1 <<< "$said" | cut -c 1-160
done
echo "parallel.sh held once, and found each of 9 wrong programs"
