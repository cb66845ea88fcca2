#!/usr/bin/env bash
# Makes a Debian package of the program and the library, with their pages and scripts, in the current folder:
#
#     packaging/deb/build.sh [--unproved] VERSION [NAME]
#
# The program is crates/avro/out/avro, as 'make program' leaves it, or PROGRAM; unless --unproved is given, it must have
# the checksum that is beside the first. A package of an unproved program says so in its version and its description.
# The library is LIBRARY, else bindings/out/libavrojudge.so, where it is there.
# The package puts the program at /usr/bin/avro, where python3-avro has a program of the same name: the two conflict.
# With NAME, such as avro-judge, the program, its man page and its completions have that name instead, the scripts call
# it, and nothing conflicts. MAINTAINER names who makes the package, as 'Name <address>'.
set -euo pipefail

top=$(cd "$(dirname "$0")/../.." && pwd)
proved=$top/crates/avro/out/avro.sha256
program=${PROGRAM:-$top/crates/avro/out/avro} library=${LIBRARY:-$top/bindings/out/libavrojudge.so}
is_unproved=''
[ "${1-}" != --unproved ] || { is_unproved=1; shift; }
version=${1-} name=${2:-avro}
if [ $# -lt 1 ] || [ $# -gt 2 ] || ! [[ $version =~ ^[0-9][0-9A-Za-z.+~-]*$ && $name =~ ^[a-z][a-z0-9-]*$ ]]; then
    sed -n '2,12s/^# \{0,1\}//p' "$0" >&2
    exit 64
fi
if [ ! -x "$program" ]; then
    echo "build.sh: $program: no such program: 'make program' makes it" >&2
    exit 4
fi
if [ -z "$is_unproved" ] && ! grep -qs "^$(sha256sum < "$program" | cut -d ' ' -f 1) " "$proved"; then
    echo "build.sh: $program: is not the program of 'make program' (--unproved takes any)" >&2
    exit 3
fi
if [ -n "$is_unproved" ]; then
    version+=+unproved
fi
architecture=$(dpkg --print-architecture)
root=$(mktemp -d)
trap 'rm -rf "$root"' EXIT
chmod 755 "$root"

# Puts a file in which the program has its name: each word avro but that of a file's name, or before a fault's colon.
put_named() { # FILE PATH [SPELLING]
    local spelling=${3:-$name}
    sed -E "s/(^|[^.[:alnum:]_])avro($|[^[:alnum:]_.:])/\1$spelling\2/g" "$top/$1" \
        | install -D -m 644 /dev/stdin "$root/$2"
}

install -D -m 755 "$program" "$root/usr/bin/$name"
if file -b "$program" | grep -q '^ELF'; then
    strip --strip-unneeded "$root/usr/bin/$name"
fi
depends='libc6 (>= 2.34)'
if objdump -p "$program" 2>/dev/null | grep -q 'NEEDED *libgcc_s'; then
    depends+=', libgcc-s1'
fi
put_named man/avro.1 "usr/share/man/man1/$name.1" "${name//-/\\\\-}"
put_named completions/avro.bash "usr/share/bash-completion/completions/$name"
put_named completions/avro.zsh "usr/share/zsh/vendor-completions/_$name"
put_named completions/avro.fish "usr/share/fish/vendor_completions.d/$name.fish"
install -D -m 644 "$top/CHANGELOG.md" "$root/usr/share/doc/avro-judge/changelog"
gzip -9n "$root/usr/share/man/man1/$name.1" "$root/usr/share/doc/avro-judge/changelog"
make -s -C "$top" install-scripts DESTDIR="$root" PREFIX=/usr
if [ "$name" != avro ]; then
    grep -rlE 'AVRO:-avro|"AVRO", "avro"' "$root/usr/share/avro/examples" \
        | xargs sed -i -E "s/(AVRO:-|\"AVRO\", \")avro/\1$name/g"
fi

mkdir "$root/DEBIAN"
if [ -e "$library" ]; then
    make -s -C "$top" install-library DESTDIR="$root" PREFIX=/usr LIBRARY="$(realpath "$library")"
    strip --strip-unneeded "$root"/usr/lib/libavrojudge.so.*.*
    install -d "$root/usr/lib/python3/dist-packages" "$root/usr/share/java"
    ln -s ../../../share/avro/bindings/python/avrojudge.py "$root/usr/lib/python3/dist-packages/avrojudge.py"
    [ ! -e "$root/usr/share/avro/bindings/java/avrojudge.jar" ] \
        || ln -s ../avro/bindings/java/avrojudge.jar "$root/usr/share/java/avrojudge.jar"
    echo 'activate-noawait ldconfig' > "$root/DEBIAN/triggers"
fi

cat > "$root/DEBIAN/control" <<END
Package: avro-judge
Version: $version
Architecture: $architecture
Maintainer: ${MAINTAINER:-avro developers <none@example.org>}
Installed-Size: $(du -ks --exclude=DEBIAN "$root" | cut -f 1)
Depends: $depends
Recommends: python3, git
$([ "$name" != avro ] || echo 'Conflicts: python3-avro')
Section: utils
Priority: optional
Description: ${is_unproved:+un}proved judge of Avro schema compatibility
$([ -z "$is_unproved" ] || printf ' %s\n' 'This program was built without its proofs: for trying out alone.' .)
 Says whether a new Avro schema still reads everything that was written under
 the old one: yes with a certificate, no with a smallest datum that fails, or
 undecided. It also checks and shows container files, and copies them. Scripts
 for repositories, codecs and floating point are in /usr/share/avro, and the
 library for C, Python and Java goes with it where it was built.
END
sed -i '/^$/d' "$root/DEBIAN/control"
dpkg-deb --root-owner-group --build "$root" "avro-judge_${version}_$architecture.deb"
