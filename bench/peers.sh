#!/usr/bin/env bash
# Says which other programs for container files are installed, and measures them and this one:
#
#     bench/peers.sh [PROGRAM [MEGABYTES]]
#
# PROGRAM is crates/avro/out/avro by default. The script looks for the programs of avro-c (`avrocat`, `avromod`: Debian's avro-bin),
# its headers (libavro-dev, which nothing here is built with) and Java's avro-tools (`java`, and the file that AVRO_TOOLS names). It
# runs them on the files of `containers.py`, of 10 MB by default: `show` against `avrocat` and `tojson`, `copy` against `avromod` and
# `recodec`. It prints the least processor time of five runs, and whether the program reads what the others wrote.
set -euo pipefail

here=$(cd "$(dirname "$0")" && pwd)
program=${1:-$here/../crates/avro/out/avro}
megabytes=${2:-10}
if [ ! -x "$program" ]; then
    echo "peers.sh: there is no program $program: run 'make program', or name one" >&2
    exit 64
fi
program=$(realpath "$program")
folder=$(mktemp -d)
trap 'rm -rf "$folder"' EXIT

package() { # PACKAGE: its version
    dpkg-query -W -f '${Version}' "$1" 2>/dev/null || true
}

has_c='' has_java=''
if command -v avrocat >/dev/null && command -v avromod >/dev/null; then
    has_c=1
    echo "avro-c: $(command -v avrocat), $(command -v avromod); avro-bin $(package avro-bin)"
else
    echo "avro-c: no avrocat and avromod (Debian: avro-bin)"
fi
if [ -e /usr/include/avro.h ]; then
    echo "avro-c's headers: libavro-dev $(package libavro-dev)"
else
    echo "avro-c's headers: none (Debian: libavro-dev)"
fi
if command -v java >/dev/null && [ -f "${AVRO_TOOLS-}" ]; then
    has_java=1
    echo "Java's avro-tools: $AVRO_TOOLS, $(java -version 2>&1 | head -1)"
else
    echo "Java's avro-tools: $(command -v java || echo 'no java'), ${AVRO_TOOLS:-AVRO_TOOLS names no file}"
fi

measure() { # KIND COMMAND NAME WORD..: a row of the table
    local TIMEFORMAT='%U %S' least
    least=$(for _ in 1 2 3 4 5; do
        { time "${@:4}" >"$folder/out" 2>"$folder/err" || echo "failed"; } 2>&1
    done | awk '/failed/ { bad = 1 } { time = $1 + $2 } !/failed/ && (least == "" || time < least) { least = time }
        END { printf bad ? "failed" : "%.3f s", least }')
    echo "| $1 | $2 | $3 | $least |"
}

reads() { # KIND NAME: whether the program reads what another wrote
    if [ -e "$folder/other.avro" ]; then
        echo "| $1 | check | of what $2 wrote | $("$program" check "$folder/other.avro" 2>&1 | head -1 | sed "s|$folder/||") |"
        rm "$folder/other.avro"
    fi
}

echo
echo "| File of $megabytes MB | command | program | takes |"
echo "|---|---|---|---|"
for kind in narrow wide strings; do
    file=$folder/$kind.avro
    "$here/containers.py" write "$kind" "$file" "$megabytes"
    measure "$kind" check avro "$program" check "$file"
    measure "$kind" show avro "$program" show "$file"
    measure "$kind" copy avro "$program" copy "$file" "$folder/own.avro"
    if [ -n "$has_c" ]; then
        measure "$kind" show avrocat avrocat "$file"
        measure "$kind" copy avromod avromod --codec=null "$file" "$folder/other.avro"
        reads "$kind" avromod
    fi
    if [ -n "$has_java" ]; then
        measure "$kind" show "avro-tools tojson" java -jar "$AVRO_TOOLS" tojson "$file"
        measure "$kind" copy "avro-tools recodec" java -jar "$AVRO_TOOLS" recodec --codec null "$file" "$folder/other.avro"
        reads "$kind" "avro-tools recodec"
    fi
    rm -f "$file" "$folder/own.avro"
done
