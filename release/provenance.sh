#!/bin/sh
# Writes PROVENANCE beside a program: which commit, kit and gate it comes from. release/make.sh packs no program without it.
#
#     release/provenance.sh LOG [PROGRAM [ARCHIVE]]
#
# LOG is what `rt ci`, with no names, printed at the top of this checkout: its last line has to say that nothing failed, and
# the day on which it was written is the gate's. PROGRAM, crates/doomsight/out/doomsight where none is given, has to be older
# than it. ARCHIVE is the library for C programs, crates/doomsight_c/out/libdoomsight_c.a (rt lib makes it); where that isn't
# there, nothing is said of it. The checkout has to be that of the commit, with nothing changed.
set -eu
umask 022
top=$(cd "$(dirname "$0")/.." && pwd)
[ $# -ge 1 ] || {
    sed -n '2,9s/^# \{0,1\}//p' "$0" >&2
    exit 2
}
fail() {
    echo "provenance.sh: $1" >&2
    exit 1
}
log=$1
program=${2:-$top/crates/doomsight/out/doomsight}
archive=${3:-$top/crates/doomsight_c/out/libdoomsight_c.a}

[ -f "$log" ] || fail "there is no log at $log"
[ -x "$program" ] || fail "there is no program at $program"
last=$(grep -v '^[[:space:]]*$' "$log" | tail -n 1)
echo "$last" | grep -Eq '^[0-9]+ passed, 0 failed' || fail "the log's last line isn't that of a gate that passed: $last"
if [ "$program" -nt "$log" ]; then fail "the program was made after the gate's log was written"; fi
changed=$(git -C "$top" status --porcelain)
[ -z "$changed" ] || fail "the checkout has changes:
$changed"
{
    echo "Commit: $(git -C "$top" rev-parse HEAD)"
    echo "Kit: $(rt version)"
    echo "Gate: $last"
    echo "Day: $(TZ=UTC date -r "$log" +%Y-%m-%d)"
    echo "Program: sha256 $(sha256sum <"$program" | cut -d ' ' -f 1)"
    if [ -f "$archive" ]; then echo "Library: sha256 $(sha256sum <"$archive" | cut -d ' ' -f 1)"; fi
} >"$(dirname "$program")/PROVENANCE"
cat "$(dirname "$program")/PROVENANCE"
