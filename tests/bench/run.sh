#!/bin/sh
# Measures the library against the C of baseline, through the same six calls, the library's map of a row of pixels
# against the C's run of each, and compares all that comes out. With --count also the report of needs beside the library's own check.
#
#     run.sh [--library ARCHIVE] [ROUNDS]     times and ratios; rows of pixels in Lua too, where it is installed
#     run.sh [--library ARCHIVE] --count      machine instructions; fails where a ratio is over its limit
set -eu
root=$(cd "$(dirname "$0")/../.." && pwd)
bench=$root/tests/bench
made=$root/target/bench
library=
if [ "${1:-}" = --library ]; then
    library=$(realpath "$2")
    shift 2
fi
if [ "${1:-}" = --count ] && ! command -v valgrind >/dev/null; then
    echo "run.sh: --count needs valgrind (on Debian: apt-get install valgrind)" >&2
    exit 2
fi
mkdir -p "$made/modules"
if [ -z "$library" ]; then
    if ! "$root/tools/library" >"$made/library.txt" 2>&1; then
        tail -n 40 "$made/library.txt" >&2
        exit 1
    fi
    library=$root/target/staticlib/liblimpetskein.a
fi
(cd "$root/tests" && CARGO_TARGET_DIR="$root/target/tests" cargo build --quiet --release --offline -p workloads)
"$root/target/tests/release/workloads" "$made/modules"
"$bench/baseline/build.sh" "$made"
# -z now: no call is counted that looks a function up
cc -O2 -Wall -Wextra -Werror -I"$root/include" -Wl,-z,now -o "$made/bench" \
    "$bench"/bench.c "$bench"/calls.c "$bench"/rows.c "$bench"/lines.c "$made/libbaseline.a" "$library"
"$made/bench" "$made/modules" "$@"
# counted CALL MODULE: the machine instructions of one call.
counted() {
    valgrind --tool=callgrind --callgrind-out-file=/dev/null --toggle-collect="limpetskein_$1" "$made/needs" "$1" "$2" 2>&1 |
        sed -n 's/.*Collected : //p'
}

# The report of needs, on every module of the benchmark: at most twice the check.
count_needs() {
    cc -O2 -Wall -Wextra -Werror -I"$root/include" -Wl,-z,now -o "$made/needs" "$bench/needs.c" "$library"
    for module in "$made"/modules/*.lsk; do
        echo "$(basename "$module" .lsk) $(counted check "$module") $(counted need "$module")"
    done | awk '
        BEGIN { printf "\n%-24s %12s %12s %6s  limit 2\n", "needs, a call", "check", "need", "ratio" }
        NF != 3 { print "not counted: " $0; over++; next }
        { ratio = $3 / $2; over += ratio > 2; printf "%-24s %12d %12d %6.2f%s\n", $1, $2, $3, ratio, ratio > 2 ? "  OVER" : "" }
        END { printf "%d of %d reports of needs take over twice the check\n", over, NR; exit over > 0 }'
}

if [ "${1:-}" = --count ]; then
    count_needs
    exit
fi

# in_lua RECIPES COMMAND..: rows of pixels by this command, with its values compared.
in_lua() {
    recipes=$bench/lua/$1.lua
    shift
    if command -v "$1" >/dev/null; then
        "$@" "$bench/lua/rows.lua" "$*" "$recipes" "$rounds" <"$made/checksums.txt"
    else
        echo "$1 is not installed: its rows of pixels are left out"
    fi
}
rounds=${1:-30}
"$made/bench" "$made/modules" --checksums >"$made/checksums.txt"
in_lua integers lua5.4
# an interpreter beside an interpreter: without machine code made on the way
in_lua doubles luajit -joff
