#!/bin/sh
# Makes libavrojudge.a and libavrojudge.so in OUT of the static library that `rt lib` builds of avro_c, and the link
# libavrojudge.so.1, which is the name that programs linked with it load.
#
#     link.sh ARCHIVE OUT
#
# The kit's liblibc_c.a, by which it calls malloc, realloc and free, goes in. CC and AR are the compiler and the archiver.
set -eu
archive=$1
out=$2
here=$(dirname "$0")
heap=$(dirname "$(rt doc)")/c/liblibc_c.a
mkdir -p "$out"
printf '%s\n' "create $out/libavrojudge.a" "addlib $archive" "addlib $heap" save end | "${AR:-ar}" -M
"${CC:-cc}" -shared -o "$out/libavrojudge.so" -Wl,-soname,libavrojudge.so.1 -Wl,--version-script="$here/c/avrojudge.map" \
    -Wl,--whole-archive "$archive" -Wl,--no-whole-archive "$heap" -Wl,--gc-sections -Wl,-z,relro,-z,now,-z,noexecstack
ln -sf libavrojudge.so "$out/libavrojudge.so.1"
