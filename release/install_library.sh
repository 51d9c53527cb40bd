#!/bin/sh
# Installs the library for C programs: the archive, its heap, the header, a file for pkg-config, its document and licences.
#
#     release/install_library.sh PREFIX [ARCHIVE]
#
# ARCHIVE is crates/doomsight_c/out/libdoomsight_c.a where none is given; `rt lib` makes it in crates/doomsight_c. DESTDIR is
# put before PREFIX, CC compiles the heap, and AR packs it. LIBDIR and DOCDIR are the folders below PREFIX of archives and
# documents, `lib` and `share/doc/doomsight` where they aren't set. Afterwards a program is compiled by
#
#     cc client.c $(pkg-config --cflags --libs doomsight)
set -eu
umask 022
top=$(cd "$(dirname "$0")/.." && pwd)
[ $# -ge 1 ] || {
    sed -n '2,10s/^# \{0,1\}//p' "$0" >&2
    exit 2
}
fail() {
    echo "install_library.sh: $1" >&2
    exit 1
}
case $1 in
/*) prefix=${1%/} ;;
*) prefix=$(pwd)/${1%/} ;;
esac
if printf '%s' "$prefix" | tr '\n' '#' | grep -q '["#$\'"'"']'; then
    fail "pkg-config can't be told of a prefix with a quote, \$, \\, # or newline"
fi
archive=${2:-$top/crates/doomsight_c/out/libdoomsight_c.a}
to=${DESTDIR:-}$prefix
lib=${LIBDIR:-lib}
version=$(grep -m 1 '^## \[[0-9]' "$top/CHANGELOG.md" | sed 's/^## \[\(.*\)\].*/\1/')
number=$(echo "$version" | awk -F. '{ print 10000 * $1 + 100 * $2 + $3 }')

[ -f "$archive" ] || fail "there is no archive at $archive: prove and build it first (rt lib in crates/doomsight_c)"
grep -qx "#define DOOMSIGHT_VERSION $number" "$top/include/doomsight.h" || fail "the header isn't of version $version"

work=$(mktemp -d)
trap 'rm -rf "$work"' EXIT
${CC:-cc} -std=c99 -O2 -fPIC -c "$top/include/doomsight_heap.c" -o "$work/doomsight_heap.o"
${AR:-ar} rcsD "$work/libdoomsight_heap.a" "$work/doomsight_heap.o"
quoted=$(echo "$prefix" | sed 's/[&|]/\\&/g')
sed -e "s|@PREFIX@|$quoted|" -e "s|@LIBDIR@|$lib|" -e "s|@VERSION@|$version|" "$top/release/doomsight.pc.in" >"$work/doomsight.pc"

# Puts files into a folder below PREFIX: put FOLDER FILE..
put() {
    folder=$to/$1
    shift
    mkdir -p "$folder"
    install -m 644 "$@" "$folder"
}
put include "$top/include/doomsight.h"
cp "$archive" "$work/libdoomsight_c.a"
put "$lib" "$work/libdoomsight_c.a" "$work/libdoomsight_heap.a"
put "$lib/pkgconfig" "$work/doomsight.pc"
"$top/release/render.sh" "$top/docs/C-LIBRARY.md" >"$work/C-LIBRARY.md"
put "${DOCDIR:-share/doc/doomsight}" "$work/C-LIBRARY.md" "$top/LICENSE" "$top/LICENSE-MIT" "$top/LICENSE-APACHE" "$top/release/NOTICES"
