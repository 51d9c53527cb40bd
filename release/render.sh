#!/bin/sh
# Prints a document as the packages have it.
#
#     release/render.sh DOCUMENT PACKED..
#
# What stands between the lines `<!-- repository -->` and `<!-- end -->` is left out, and what stands between `<!-- package`
# and `-->`, which no browser shows, is shown. PACKED are the links of the document that lead somewhere in the package, as
# they stand in it but for a `#` and what follows: of any other link to a file only its words stay.
set -eu
[ $# -ge 1 ] || {
    sed -n '2,8s/^# \{0,1\}//p' "$0" >&2
    exit 2
}
page=$1
shift
kept='s/](\(http\|#\|pictures\/\)/]\x01(\1/g'
for link; do
    kept="$kept;s/](\\($(printf '%s' "$link" | sed 's/[.\/]/\\&/g')\\)\\([#)]\\)/]\\x01(\\1\\2/g"
done
sed -e '/^<!-- repository -->$/,/^<!-- end -->$/d' -e '/^<!-- package$/d' -e '/^-->$/d' "$page" |
    sed -z -e "$kept" -e 's/\[\([^][]*\)\]([^)]*)/\1/g' -e 's/]\x01(/](/g' -e 's/\n\n\n*/\n\n/g'
