#!/bin/sh
# Makes the jar of the library in Java, the same bytes for the same sources and time:
#
#     build.sh JNA EPOCH JAR
#
# JNA is the jar of JNA 5, and EPOCH the time of what is packed, in seconds.
set -eu
here=$(dirname "$0")
if [ ! -e "$1" ]; then
    echo "build.sh: $1: no such file (JNA names the jar of JNA 5)" >&2
    exit 4
fi
classes=$(mktemp -d)
trap 'rm -rf "$classes"' EXIT
date=$(date -u -d "@$2" +%Y-%m-%dT%H:%M:%SZ)
mkdir -p "$(dirname "$3")"
javac --release 17 -cp "$1" -d "$classes" "$here"/src/main/java/org/avrojudge/*.java
(cd "$classes" && find . -name '*.class' -printf '%P\n' | LC_ALL=C sort) > "$classes/names"
jar=$(realpath "$3")
(cd "$classes" && jar --create --no-manifest --date="$date" --file="$jar" @names)
