#!/bin/bash
# Tries the library for C programs against the program.
#
#     bench/c_library.sh ARCHIVE PROGRAM WAD...
#
# ARCHIVE is libdoomsight_c.a (rt lib in crates/doomsight_c), PROGRAM the program of the same version. Needs gcc, g++, clang,
# clang++, pkg-config and valgrind. STAGES names the stages, all of them where it isn't set; MAPS names the maps to try, STEP
# which of the allocations are refused. It ends with 1 where anything differs.
#
#     header     the header and the clients by each compiler, and what the archive asks for
#     layout     the structs and the versions of the header and the library, and a header of another interface
#     install    a new prefix, pkg-config, and the example of docs/C-LIBRARY.md as it stands there
#     maps       every map by both, within the default budget, within others, and with the larger limits, with 128 KiB of stack
#     exact      every map by both, with every pair decided, with 128 KiB of stack
#     ears       every map's faults, with a second count of clashes and loose ends, and what is answered for pairs of sectors
#     udmf       every map turned to UDMF (bench/udmf.py), with every pair decided, and the refusals of texts
#     stack      how much of it a call needs, over all maps
#     memory     memcheck
#     threads    eight threads at once, with the stack that the header names, and helgrind
#     refused    one allocation refused in each call
#     hook       a hook that only counts, one that stops calls, one of another thread, and memcheck of a stopped call
set -u
top=$(cd "$(dirname "$0")/.." && pwd)
[ $# -ge 3 ] || {
    sed -n '2,21s/^# \{0,1\}//p' "$0"
    exit 2
}
archive=$(realpath "$1")
program=$(realpath "$2")
shift 2
wads=()
for wad in "$@"; do wads+=("$(realpath "$wad")"); done
stages=${STAGES:-header layout install maps exact ears udmf stack memory threads refused hook}
maps=${MAPS:-$(echo E{1,2,3,4}M{1,2,3,4,5,6,7,8,9} MAP{01..32})}
work=$(mktemp -d)
trap 'rm -rf "$work"' EXIT
cd "$work" || exit 1
failed=0

fail() {
    echo "FAILED: $1"
    failed=1
}

strict="-Wall -Wextra -Werror -pedantic -I$top/include"
gcc -std=c99 -O2 $strict -c "$top/include/doomsight_heap.c" -o heap.o || exit 1

# Compiles a client: client NAME HEAP FLAGS
client() {
    gcc -std=c99 -O2 -g $strict "$top/bench/c/$1.c" "$archive" $2 ${3:-} -o "$1" || {
        fail "compile $1"
        exit 1
    }
}

# The program's build of a map: by_program WAD MAP [OPTION..]
by_program() {
    "$program" build "$1" "$2" out.wad --cert out.cert --workers 1 "${@:3}" 2>/dev/null
}

try_header() {
    echo '#include "doomsight.h"
int main(void) { return 0; }' >header.c
    for compiler in "gcc -std=c99" "gcc -std=c11" "clang -std=c99" "clang -std=c17" "g++ -x c++ -std=c++17" \
        "clang++ -x c++ -std=c++17"; do
        $compiler $strict -c header.c -o header.o || fail "header by $compiler"
        for file in "$top"/bench/c/*.c "$top/include/doomsight_heap.c"; do
            case $compiler:$file in
            *++*/refused.c | *++*/judge.c | *++*/doomsight_heap.c) continue ;; # C alone
            esac
            $compiler -O3 $strict -c "$file" -o client.o || fail "$file by $compiler"
        done
    done
    undefined=$(nm -u "$archive" 2>/dev/null | awk '/ U /{ print $2 }' | sort -u | tr '\n' ' ')
    defined=$(nm --defined-only "$archive" 2>/dev/null | awk '{ print $3 }' | sort -u)
    others=
    for name in $undefined; do
        case $name in
        memcpy | memmove | memset | memcmp | rattle_alloc | rattle_realloc | rattle_dealloc) ;;
        __udivti3) ;; # of the compiler's own library: a text of UDMF divides numbers of 128 bits
        *) echo "$defined" | grep -qx -- "$name" || others="$others $name" ;;
        esac
    done
    [ -z "$others" ] || fail "the archive asks for$others"
    shown=$(nm --defined-only --extern-only "$archive" 2>/dev/null | awk 'NF == 3 { print $3 }' | grep -v '^doomsight_' | tr '\n' ' ')
    [ -z "$shown" ] || fail "the archive shows $shown"
    defined="$defined
$(nm --defined-only heap.o | awk '{ print $3 }')"
    for name in $(grep -o '^[a-z].* \**doomsight_[a-z_]*(' "$top/include/doomsight.h" | grep -v 'static inline\|^typedef' | grep -o 'doomsight_[a-z_]*(' | tr -d '('); do
        echo "$defined" | grep -qx "$name" || fail "the archive and its heap have no $name"
    done
    echo "archive $(stat -c %s "$archive") bytes, text $(size -t "$archive" | tail -1 | awk '{ print $1 }')"
}

try_layout() {
    for compiler in "gcc -std=c99" "gcc -std=c11" "clang -std=c99" "g++ -x c++ -std=c++17" "clang++ -x c++ -std=c++17"; do
        $compiler $strict -c "$top/bench/c/layout.c" -o layout.o && gcc layout.o "$archive" heap.o -o layout &&
            ./layout || fail "layout by $compiler"
    done
    mkdir -p later
    sed 's/^#define DOOMSIGHT_ABI .*/#define DOOMSIGHT_ABI 9/' "$top/include/doomsight.h" >later/doomsight.h
    gcc -std=c99 -Wall -Wextra -Werror -pedantic -Ilater "$top/bench/c/later.c" "$archive" heap.o -o later/later && later/later ||
        fail "a header of another interface"
    number=$("$program" --version | sed 's/^doomsight //' | awk -F. '{ print 10000 * $1 + 100 * $2 + $3 }')
    grep -qx "#define DOOMSIGHT_VERSION $number" "$top/include/doomsight.h" || fail "the header's version isn't the program's"
}

# The example gives the program's table of a map that is built, and the program's line of one that isn't.
try_example() {
    told=0
    for map in $maps; do
        line=$(by_program "${wads[0]}" "$map" --exact --large)
        case $? in
        0)
            [ $told = 1 ] || [ $told = 3 ] || ./example "${wads[0]}" "$map" out.wad || fail "the example's table of $map"
            told=$((told | 1))
            ;;
        8 | 9 | 10)
            [ "$(./example "${wads[0]}" "$map" 2>&1)" = "$line" ] || fail "the example's line of $map"
            told=$((told | 2))
            ;;
        esac
        [ $told = 3 ] && break
    done
    echo "the example: $([ $((told & 1)) = 1 ] && echo "a table") $([ $((told & 2)) = 2 ] && echo "a line") as the program's"
}

try_install() {
    "$top/release/install_library.sh" "$work/prefix" "$archive" || fail "install_library.sh"
    DESTDIR=$work/root "$top/release/install_library.sh" /usr "$archive" || fail "install_library.sh below DESTDIR"
    [ -f root/usr/lib/libdoomsight_c.a ] || fail "nothing below DESTDIR"
    diff -r -x doomsight.pc prefix root/usr || fail "another prefix, other files"
    export PKG_CONFIG_PATH=$work/prefix/lib/pkgconfig
    [ "$(pkg-config --modversion doomsight)" = "$("$program" --version | sed 's/^doomsight //')" ] || fail "pkg-config's version"
    sed -n '/^    #include/,/^    }/s/^    //p' "$top/docs/C-LIBRARY.md" >builder.c
    strict_alone="-Wall -Wextra -Werror -pedantic"
    flags=$(pkg-config --cflags --libs doomsight)
    for compiler in "gcc -std=c99" "clang -std=c99" "gcc -std=c17 -O3" "gcc -static" "clang"; do
        $compiler $strict_alone "$top/bench/c/example.c" builder.c $flags -o example || fail "the example by $compiler"
    done
    gcc -shared -fPIC $strict_alone builder.c $flags -o libbuilder.so || fail "a shared library"
    gcc $strict_alone "$top/bench/c/example.c" $(pkg-config --cflags doomsight) ./libbuilder.so -o example || fail "over a shared library"
    try_example
}

# Runs a command with so many KiB of stack.
with_stack() {
    (ulimit -s "$1" && shift && exec "$@")
}

# One map by both: table, certificate, counts, refusal and line are to be the same: one WAD MAP BUDGET FLAGS METHOD [OPTION];
# METHOD is a budget of the program's, or exact
one() {
    method="--budget $5"
    [ "$5" = exact ] && method=--exact
    line=$(by_program "$1" "$2" $method ${6:-})
    status=$?
    if [ $status = 7 ]; then return; fi
    if [ $status = 0 ]; then
        with_stack 128 ./client "$1" "$2" "$3" "$4" out.wad out.cert >said ||
            fail "$1 $2 budget $5: $(grep -m 1 'DIFFERS\|WRONG\|code' said)"
        [ "$(head -1 said)" = "$line" ] || fail "$1 $2 budget $5: the line of the counts"
        built=$((built + 1))
    else
        with_stack 128 ./client "$1" "$2" "$3" "$4" >said
        [ $? = $status ] || fail "$1 $2: another code than $status"
        [ "$(sed 's/^[^)]*): //' said)" = "$line" ] || fail "$1 $2: another line than $line"
        refused=$((refused + 1))
    fi
}

# The maps that are above the usual limits, by the larger ones: larger BUDGET METHOD
larger() {
    for wad in "${wads[@]}"; do
        for map in $maps; do
            "$program" audit "$wad" "$map" 2>/dev/null | grep -q '^refused: limit' && one "$wad" "$map" "$1" 1 "$2" --large
        done
    done
}

try_maps() {
    built=0
    refused=0
    for wad in "${wads[@]}"; do
        for map in $maps; do one "$wad" "$map" 16384 0 16384; done
    done
    echo "maps: $built built and $refused refused as by the program"
    built=0
    refused=0
    for map in $maps; do
        one "${wads[0]}" "$map" 0 0 enough
        [ $built -ge 2 ] && break
    done
    map=${maps%% *}
    one "${wads[0]}" "$map" 1 0 1
    one "${wads[0]}" "$map" 18446744073709551615 0 full
    larger 16384 16384
    echo "budgets and larger limits: $built built, $refused refused as by the program"
}

# Each map with every pair decided: the same table, the same certificate of version 3, and the library's check says yes to it.
try_exact() {
    built=0
    refused=0
    for wad in "${wads[@]}"; do
        for map in $maps; do one "$wad" "$map" exact 0 exact; done
    done
    larger exact exact
    echo "every pair decided: $built built and $refused refused as by the program"
}

# Two sectors of a map by both: pair WAD MAP A B [OPTION..]; the budget and the flags of the library are in BUDGET and FLAGS
pair() {
    line=$("$program" why "$1" "$2" "$3" "$4" "${@:5}" 2>/dev/null)
    status=$?
    said=$(with_stack 128 ./ears "$1" "$2" why "$3" "$4" ${BUDGET:-} ${FLAGS:-})
    [ $? = $status ] || fail "$1 $2 why $3 $4: another code than $status"
    [ "$said" = "$line" ] || fail "$1 $2 why $3 $4: $said and $line"
    asked=$((asked + 1))
}

# The faults of a map by the library, as the program's audit says whether there are any, and which is the first.
heard() {
    line=$("$program" audit "$1" "$2" 2>/dev/null)
    status=$?
    [ $status = 7 ] && return
    with_stack 128 ./ears "$1" "$2" audit >said
    got=$?
    case $status in
    0 | 10)
        [ $got = 0 ] || fail "$1 $2 audit: $(head -3 said)"
        [ $status = 0 ] && [ "$(tail -1 said)" != sound ] && fail "$1 $2 audit: not sound"
        [ $status = 10 ] && [ "$(tail -1 said)" != "$line" ] && fail "$1 $2 audit: another fault first"
        clashes=$((clashes + $(sed -n 's/^clashes \([0-9]*\) .*/\1/p' said)))
        open=$((open + $(sed -n 's/.* open \([0-9]*\) .*/\1/p' said)))
        ;;
    *) [ $got = $status ] && [ "$(tail -1 said)" = "$line" ] || fail "$1 $2 audit: $got, another refusal" ;;
    esac
    audited=$((audited + 1))
}

try_ears() {
    client ears heap.o
    audited=0 asked=0 clashes=0 open=0
    for wad in "${wads[@]}"; do
        for map in $maps; do
            heard "$wad" "$map"
            [ $status = 7 ] && continue
            pair "$wad" "$map" 0 1
            pair "$wad" "$map" 3 20
            pair "$wad" "$map" 0 65535
        done
    done
    map=${maps%% *}
    BUDGET=1 pair "${wads[0]}" "$map" 0 9 --budget 1
    BUDGET=0 pair "${wads[0]}" "$map" 0 9 --budget enough
    BUDGET=exact pair "${wads[0]}" "$map" 0 9 --exact
    BUDGET=exact FLAGS=1 pair "${wads[0]}" "$map" 0 9 --exact --large
    echo "ears: $audited maps audited, with $clashes clashes and $open open sides; $asked pairs as the program says"
}

# Each map turned to UDMF: by the library out of its text as by the program; so with decimals, and with too many of them. Both tell
# the same unit.
try_udmf() {
    client udmf heap.o
    built=0 refused=0
    for wad in "${wads[@]}"; do
        for times in 1 1/2 1/100000000; do
            python3 "$top/bench/udmf.py" "$wad" text.wad --times $times || fail "udmf.py of $wad"
            for map in $maps; do
                line=$(by_program text.wad "$map" --exact)
                status=$?
                [ $status = 7 ] && continue
                if [ $status = 0 ]; then
                    "$program" maps text.wad --only "$map" --report units >/dev/null 2>&1
                    unit=$(sed -n "s/^$map udmf unit 0\.\(0*1\) .*/\1/p" units)
                    PLACES=${#unit} with_stack 128 ./udmf text.wad "$map" out.wad out.cert >said ||
                        fail "$map of UDMF: $(head -3 said)"
                    built=$((built + 1))
                else
                    with_stack 128 ./udmf text.wad "$map" >said
                    [ $? = $status ] && [ "$(cat said)" = "$line" ] || fail "$map of UDMF: another refusal than $line"
                    refused=$((refused + 1))
                fi
            done
        done
    done
    echo "texts of UDMF: $built built and $refused refused as by the program"
}

# The first map of the first WAD that is built, and is small enough for valgrind.
small() {
    for map in $maps; do
        if by_program "${wads[0]}" "$map" >/dev/null; then
            [ "$(stat -c %s out.cert)" -lt 2000000 ] && return
        fi
    done
    fail "no map for valgrind"
}

try_stack() {
    client stack heap.o -pthread
    for wad in "${wads[@]}"; do
        for map in $maps; do
            "$program" audit "$wad" "$map" >said 2>/dev/null
            [ $? = 7 ] && continue
            for budget in 16384 exact; do ./stack "$wad" "$map" "$budget" 1 || fail "stack of $map"; done
        done
    done >stacks
    most=$(awk '{ for (k = 5; k <= 11; k += 2) if ($k > most) { most = $k; of = $0 } } END { print of }' stacks)
    need=$(echo "$most" | awk '{ for (k = 5; k <= 11; k += 2) if ($k > most) most = $k; print most }')
    said=$(sed -n 's/^#define DOOMSIGHT_STACK (\([0-9]*\)u \* 1024u)/\1/p' "$top/include/doomsight.h")
    echo "stack: a call touches at most $need bytes ($most), the header says $said KiB"
    [ "$need" -le $((said * 1024 / 2)) ] || fail "stack"
}

try_memory() {
    small
    for method in 16384 exact; do
        option="--budget $method"
        [ $method = exact ] && option=--exact
        by_program "${wads[0]}" "$map" $option >/dev/null || fail "$map by $option"
        valgrind -q --leak-check=full --error-exitcode=9 --main-stacksize=8388608 ./client "${wads[0]}" "$map" $method 0 \
            out.wad out.cert >said || fail "memcheck of $map by $option"
    done
    [ -x ears ] || client ears heap.o
    for asks in audit "why 0 1"; do
        valgrind -q --leak-check=full --error-exitcode=9 ./ears "${wads[0]}" "$map" $asks >said || fail "memcheck of $map, $asks"
    done
    echo "memcheck of $map: no error, nothing left"
}

try_threads() {
    small
    for method in 16384 exact; do
        ./threads "${wads[0]}" "$map" 8 $method || fail "eight threads, $method"
        valgrind -q --tool=helgrind --error-exitcode=9 ./threads "${wads[0]}" "$map" 3 $method || fail "helgrind, $method"
    done
}

try_refused() {
    small
    gcc -std=c99 -O2 -g $strict "$top/bench/c/refused.c" "$archive" -o refused || fail "compile refused"
    for method in 16384 exact; do
        ./refused "${wads[0]}" "$map" "${STEP:-7}" $method || fail "refused allocations, $method"
    done
}

# Of how many blocks the hook is asked in each call, and the longest time between two of them, over all maps; then a stop of
# each call at blocks of it.
try_hook() {
    client hook heap.o -pthread
    for wad in "${wads[@]}"; do
        for map in $maps; do
            by_program "$wad" "$map" --exact >/dev/null || continue
            ./hook "$wad" "$map" exact || fail "hook of $map"
        done
    done >asked
    grep -v '^hook' asked
    awk '/^hook/ { n++; if ($6 > most) { most = $6; of = $2 } } END { print "hook: " n " maps, at most " most " ms between two blocks (" of ")" }' asked
    small
    for method in 16384 exact; do
        valgrind -q --leak-check=full --error-exitcode=9 ./hook "${wads[0]}" "$map" $method >said || fail "memcheck of stopped calls, $method"
    done
}

client client heap.o
client threads heap.o -pthread
for stage in $stages; do
    echo "== $stage"
    "try_$stage"
done
[ $failed = 0 ] && echo "all as it should be"
exit $failed
