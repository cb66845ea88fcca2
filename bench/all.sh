#!/usr/bin/env bash
# Runs every measurement, and prints one table, headed by the machine, the kit and the program:
#
#     bench/all.sh [PROGRAM [MEASURE..]]
#
# PROGRAM is crates/avro/out/avro by default; a MEASURE is texts, forms, verdicts, pairs, collisions, inputs, answers, containers, pipes, walks
# or drafts. If one fails, that is reported on standard error, the others are still run, and the status is 1.
set -uo pipefail

here=$(cd "$(dirname "$0")" && pwd)
program=${1:-$here/../crates/avro/out/avro}
shift $(($# > 0))
measures=("$@")
[ $# -gt 0 ] || measures=(texts forms verdicts pairs collisions inputs answers containers pipes walks drafts)
if [ ! -x "$program" ]; then
    echo "all.sh: there is no program $program: run 'make program', or name one" >&2
    exit 64
fi
program=$(realpath "$program")

# Puts the rows of a table under the columns of the common one: the measure, the first cell, and the others with their heads.
rows() { # MEASURE
    local heads=() cells line i figures
    while IFS= read -r line; do
        case $line in
            '|-'*) ;;
            '|'*)
                IFS='|' read -ra cells <<<"${line//' | '/'|'}"
                if [ ${#heads[@]} = 0 ]; then
                    heads=("${cells[@]}")
                    continue
                fi
                figures=
                for ((i = 2; i < ${#cells[@]}; i++)); do
                    figures+="${figures:+; }${heads[i]% }: ${cells[i]% }"
                done
                echo "| $1 | ${cells[1]# } | $figures |" ;;
            *) echo "$line" >&2 ;;
        esac
    done
}

measure() { # MEASURE
    case $1 in
        texts) "$here/hostile.py" measure "$program" | rows "$1" ;;
        forms) "$here/canonical.py" "$program" | rows "$1" ;;
        verdicts) "$here/verdicts.py" measure "$program" | rows "$1" ;;
        pairs) "$here/hostile_pairs.py" measure "$program" | rows "$1" ;;
        collisions) "$here/collisions.py" "$program" | rows "$1" ;;
        inputs) "$here/hostile_files.py" "$program" | rows "$1" ;;
        answers) "$here/hostile_answers.py" "$program" | rows "$1" ;;
        containers) "$here/containers.py" measure "$program" | rows "$1" ;;
        pipes) "$here/pipe.py" "$program" | rows "$1" ;;
        walks | drafts) "$here/reading.py" "$1" "$program" | rows "$1" ;;
        *) echo "all.sh: $1 is no measure" >&2; return 1 ;;
    esac
}

name() {
    sed -n 's/^model name[^:]*: //p' /proc/cpuinfo | head -1
}

echo "Machine: $(name), $(nproc) processors, $(awk '/^MemTotal/ { printf "%.0f GB", $2 / 1048576 }' /proc/meminfo), load $(cut -d ' ' -f 1 /proc/loadavg) at the start; $(uname -sr)"
echo "Kit: $(rt version 2>/dev/null || echo 'no rt on the path')"
echo "C: $("${CC:-clang}" --version 2>/dev/null | head -1 || true)"
echo "Program: $program, SHA-256 $(sha256sum "$program" | cut -c 1-16); commit $(git -C "$here" describe --always --dirty 2>/dev/null || echo unknown)"
echo "Date: $(date -u +%F)"
echo
echo "| Measure | Input | Figures |"
echo "|---|---|---|"
status=0
for one in "${measures[@]}"; do
    measure "$one" || { echo "all.sh: $one failed" >&2; status=1; }
done
exit "$status"
