#!/bin/sh
# Packs the program as a tarball and as a Debian package, with their checksums, and the library for C programs where it is.
#
#     release/make.sh [FOLDER [PROGRAM [ARCHIVE]]]
#
# FOLDER is release/out where none is given, PROGRAM crates/doomsight/out/doomsight, and ARCHIVE
# crates/doomsight_c/out/libdoomsight_c.a; where that isn't there, no library is packed. The version and the day are those
# at the head of CHANGELOG.md. Where something stands under Unreleased there, what is packed is no release: behind the
# version come the day of the gate and the commit then. All files get the time of SOURCE_DATE_EPOCH, or of that day, and
# stand in the order of their names: two runs over one program make the same bytes. The program must say that it is of
# this version, and hold no path of this checkout or of the kit. Beside it stands PROVENANCE, which release/provenance.sh
# wrote from the log of a gate that passed: it has to tell of just this program and archive, and of the sources that
# stand here.
#
# Documents are packed as release/render.sh has them: they speak of the package, and each of their links leads somewhere.
set -eu
umask 022
export LC_ALL=C TZ=UTC
top=$(cd "$(dirname "$0")/.." && pwd)
to=${1:-$top/release/out}
program=${2:-$top/crates/doomsight/out/doomsight}
archive=${3:-$top/crates/doomsight_c/out/libdoomsight_c.a}
provenance=$(dirname "$program")/PROVENANCE
# What is packed of docs/, for users: the others are for who changes the program.
pages="C-LIBRARY.md DEFINITIONS.md FORMATS.md FREEDOOM.md GUIDE.md PROVED.md TOOLCHAIN.md"

head=$(grep -m 1 '^## \[[0-9]' "$top/CHANGELOG.md")
version=$(echo "$head" | sed 's/^## \[\(.*\)\].*/\1/')
day=$(echo "$head" | sed 's/.* - //')

fail() {
    echo "make.sh: $1" >&2
    exit 1
}

[ -x "$program" ] || fail "there is no program at $program: prove it first (rt run in crates/doomsight)"
said=$("$program" --version 2>/dev/null) || said=
[ "$said" = "doomsight $version" ] || fail "the program says '$said', and CHANGELOG.md 'doomsight $version'"
[ $# -lt 3 ] || [ -f "$archive" ] || fail "there is no archive at $archive"
# Without a path of this machine: no_path FILE
no_path() {
    kit=$(command -v rt || true)
    for path in "$top" "${kit%/bin/rt}"; do
        if [ -n "$path" ] && grep -qaF -e "$path" "$1"; then fail "$1 holds the path $path"; fi
    done
}
no_path "$program"

# What PROVENANCE says of something, and the checksum of a file.
told() {
    sed -n "s/^$1: //p" "$provenance"
}
sum_of() {
    echo "sha256 $(sha256sum <"$1" | cut -d ' ' -f 1)"
}
[ -f "$provenance" ] || fail "there is no $provenance: release/provenance.sh writes it from the gate's log"
for word in Commit Kit Gate Day Program; do [ -n "$(told $word)" ] || fail "PROVENANCE doesn't tell its $word"; done
told Gate | grep -Eq '^[0-9]+ passed, 0 failed' || fail "the gate that PROVENANCE tells of didn't pass: $(told Gate)"
[ "$(told Program)" = "$(sum_of "$program")" ] || fail "PROVENANCE is of another program, $(told Program)"
if [ -f "$archive" ]; then
    [ -n "$(told Library)" ] || fail "PROVENANCE doesn't tell of the library $archive"
    [ "$(told Library)" = "$(sum_of "$archive")" ] || fail "PROVENANCE is of another library, $(told Library)"
fi
if [ -e "$top/.git" ]; then
    git -C "$top" diff --quiet "$(told Commit)" -- crates crates.txt HANDLES ||
        fail "the sources here aren't those of the commit that PROVENANCE names"
fi

is="Release $version"
if sed -n '/^## \[Unreleased\]/,/^## \[[0-9]/p' "$top/CHANGELOG.md" | grep -q '^- '; then
    is="Commit $(told Commit | cut -c 1-8), after release $version"
    day=$(told Day)
    version=$version+git$(echo "$day" | tr -d -).$(told Commit | cut -c 1-8)
fi
SOURCE_DATE_EPOCH=${SOURCE_DATE_EPOCH:-$(date -d "$day" +%s)}
export SOURCE_DATE_EPOCH

work=$(mktemp -d)
trap 'rm -rf "$work"' EXIT
mkdir -p "$to"

# Lays out the program, its page, its completions and its documents below a folder, which is a prefix. The page names the
# documents in the folder FOLDER-OF-DOCUMENTS: put PREFIX FOLDER-OF-DOCUMENTS ZSH FISH, the last two the shells' folders.
put() {
    share=$1/share
    documents=$share/doc/doomsight
    mkdir -p "$1/bin" "$share/man/man1" "$documents/docs/pictures" "$documents/bench" "$documents/examples" \
        "$documents/include" "$documents/release" "$share/bash-completion/completions" "$share/$3" "$share/$4"
    install -m 755 "$program" "$1/bin/doomsight"
    strip --strip-unneeded --remove-section=.comment --remove-section=.note "$1/bin/doomsight"
    sed "s|docs/\([A-Z]*\.md\)|$2/docs/\1|g" "$top/man/doomsight.1" | gzip -9n >"$share/man/man1/doomsight.1.gz"
    install -m 644 "$top/release/completions/doomsight.bash" "$share/bash-completion/completions/doomsight"
    install -m 644 "$top/release/completions/_doomsight" "$share/$3"
    install -m 644 "$top/release/completions/doomsight.fish" "$share/$4"
    install -m 644 "$top/release/README.md" "$top/release/NOTICES" "$documents"
    changes >"$documents/CHANGELOG.md"
    tells_where "$1/bin/doomsight" >"$documents/PROVENANCE"
    for name in $pages; do "$top/release/render.sh" "$top/docs/$name" $pages ../include/doomsight.h >"$documents/docs/$name"; done
    for name in "$top"/docs/pictures/*; do install -m 644 "$name" "$documents/docs/pictures"; done
    for name in rays.py wads.py; do install -m 644 "$top/bench/$name" "$documents/bench"; done
    install -m 644 "$top/release/page.py" "$documents/release"
    install -m 644 "$top/include/doomsight.h" "$documents/include"
    install -m 644 "$top/crates/doomsight/data/u.wad" "$documents/examples"
    follow "$documents"
}

# The changes, with links to what is packed, and where a packed file comes from.
changes() {
    "$top/release/render.sh" "$top/CHANGELOG.md" $(for name in $pages; do echo "docs/$name"; done)
}
tells_where() {
    cat "$provenance"
    echo "Packed: $(sum_of "$1"), $(basename "$1") without its symbols"
}

# Each link of a document to a file leads somewhere, and none tells of `rt`, which no package has.
follow() {
    find "$1" -name '*.md' | while read -r page; do
        if grep -q '`rt ' "$page"; then fail "${page#"$1"/} tells of rt"; fi
        grep -o ']([^)]*)' "$page" | sed -e 's/^](//' -e 's/)$//' -e 's/#.*//' | grep -v '^$\|^https\{0,1\}:' | while read -r link; do
            [ -e "$(dirname "$page")/$link" ] || fail "${page#"$1"/} has a link to $link, which isn't packed"
        done
    done
}

# Gives each file and folder below one time.
settle() {
    find "$1" -exec touch -h -d "@$SOURCE_DATE_EPOCH" {} +
}

# What a Debian package has of its own: debian ROOT NAME CONTROL DOCUMENTS, the last the folder of documents below ROOT.
debian() {
    changes | gzip -9n >"$1/$4/changelog.gz"
    {
        echo "doomsight ($version-1) unstable; urgency=medium"
        echo
        echo "  * $is; changelog.gz says what is new."
        echo
        echo " -- $(sed -n 's/^Maintainer: //p' "$3")  $(date -R -d "$day")"
    } | gzip -9n >"$1/$4/changelog.Debian.gz"
    sed -e 's/^$/./' -e 's/^/ /' "$top/LICENSE-MIT" >>"$1/$4/copyright"
    mkdir "$1/DEBIAN"
    size=$(find "$1/usr" -type f -printf '%s\n' | awk '{ sum += int(($1 + 1023) / 1024) } END { print sum }')
    sed -e "s/@VERSION@/$version-1/" -e "s/@SIZE@/$size/" "$3" >"$1/DEBIAN/control"
    (cd "$1" && find usr -type f | sort | xargs md5sum) >"$1/DEBIAN/md5sums"
    settle "$1"
    dpkg-deb --root-owner-group -Zgzip -z9 --build "$1" "$to/$2_$version-1_amd64.deb" >/dev/null
    made="$made $2_$version-1_amd64.deb"
}

# A tarball of a folder: bundle NAME
bundle() {
    settle "$work/$1"
    tar --create --directory "$work" --sort=name --format=gnu --owner=0 --group=0 --numeric-owner \
        --mtime="@$SOURCE_DATE_EPOCH" "$1" | gzip -9n >"$to/$1.tar.gz"
    made="$made $1.tar.gz"
}

# The program.
made=
packed=doomsight-$version-linux-x86_64
put "$work/$packed" share/doc/doomsight zsh/site-functions fish/vendor_completions.d
for licence in LICENSE LICENSE-MIT LICENSE-APACHE; do
    install -m 644 "$top/$licence" "$work/$packed/share/doc/doomsight"
done
bundle "$packed"
root=$work/root
put "$root/usr" /usr/share/doc/doomsight zsh/vendor-completions fish/vendor_completions.d
rm "$documents/CHANGELOG.md"
cp "$top/release/copyright" "$documents/copyright"
debian "$root" doomsight "$top/release/control" usr/share/doc/doomsight

# The library, by release/install_library.sh: library PREFIX, below DESTDIR
library() {
    cp "$archive" "$work/libdoomsight_c.a"
    strip --strip-debug --enable-deterministic-archives --remove-section=.comment --remove-section=.note "$work/libdoomsight_c.a"
    no_path "$work/libdoomsight_c.a"
    DOCDIR=share/doc/libdoomsight-dev "$top/release/install_library.sh" "$1" "$work/libdoomsight_c.a"
    documents=${DESTDIR:-}$1/share/doc/libdoomsight-dev
    tells_where "$work/libdoomsight_c.a" >"$documents/PROVENANCE"
    follow "$documents"
}
if [ -f "$archive" ]; then
    packed=doomsight-lib-$version-linux-x86_64
    library "$work/$packed"
    # pkg-config takes this prefix from where the file is, and quotes its blanks by itself.
    sed -i -e 's|^prefix=.*|prefix=${pcfiledir}/../..|' -e 's/"//g' "$work/$packed/lib/pkgconfig/doomsight.pc"
    bundle "$packed"
    root=$work/dev
    DESTDIR=$root LIBDIR=lib/x86_64-linux-gnu library /usr
    rm "$documents"/LICENSE*
    # The copyright of the program without the pictures, and with the archive in the program's place.
    sed 's|^Files: usr/bin/doomsight|Files: usr/lib/x86_64-linux-gnu/libdoomsight_c.a|' "$top/release/copyright" |
        awk 'BEGIN { RS = "" } !/[Ff]reedoom/ { printf "%s%s", between, $0; between = "\n\n" } END { print "" }' >"$documents/copyright"
    debian "$root" libdoomsight-dev "$top/release/control.dev" usr/share/doc/libdoomsight-dev
else
    echo "make.sh: there is no archive at $archive: no library is packed" >&2
fi

(cd "$to" && sha256sum $made >SHA256SUMS)
cat "$to/SHA256SUMS"
