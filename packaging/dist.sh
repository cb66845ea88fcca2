#!/bin/sh
# Packs what `make install` installs into one archive, with the checksum of each file; the same bytes for the same files.
#
#     dist.sh ARCHIVE EPOCH [VARIABLE=VALUE..]
#
# ARCHIVE ends with .tar.gz; without that its name is the folder's in it. EPOCH is the time of all files, in seconds, and
# the variables are those of `make install`.
set -eu
# What a user has set for tar or gzip, or for new files, changes no byte.
unset TAR_OPTIONS GZIP TAPE POSIXLY_CORRECT
export LC_ALL=C
umask 022
archive=$1 epoch=$2
shift 2
top=$(dirname "$0")/..
name=$(basename "$archive" .tar.gz)
root=$(mktemp -d)
trap 'rm -rf "$root"' EXIT
make -s -C "$top" install DESTDIR="$root" PREFIX="/$name" "$@"
(cd "$root/$name" && find . -type f -printf '%P\n' | sort | xargs -d '\n' sha256sum) > "$root/SHA256SUMS"
mv "$root/SHA256SUMS" "$root/$name/SHA256SUMS"
mkdir -p "$(dirname "$archive")"
tar --sort=name --owner=0 --group=0 --numeric-owner --format=gnu --mode=u+rwX,go+rX,go-w --mtime="@$epoch" -C "$root" -c "$name" \
    | gzip -9n > "$archive"
sha256sum "$archive"
