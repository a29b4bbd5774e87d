#!/bin/sh
# Counts by callgrind the instructions of a read by the one caller of a store of order 4 in memory, `get` of
# the map's one key and `peek` at a queue of one number, and those of an update. A count is what so many
# make more than none, over how many they are. So too those of a pass at a table of sixteen callers, who each
# post a call before it, and take the answer after it: the figure has both. Each call gives the map's one key
# another value. There are a tenth as many passes. Each read and update is counted once more by a `Caller` of
# `rom_caller`.
# Usage, from any folder: bench/store.sh [TIMES]
times=${1:-10000}
[ "$times" -ge 10 ] || { echo "usage: bench/store.sh [TIMES], at least 10" >&2; exit 2; }
command -v valgrind >/dev/null || { echo "valgrind is not here, so nothing was counted"; exit 1; }
built=crates/rom_bench/out/rom_bench
build="rt run, in crates/rom_bench"
. "$(dirname "$0")/begin.sh"

# The instructions of a run with these words, which is to do so much.
instructions() {
    wanted=$1
    shift
    valgrind --tool=callgrind --callgrind-out-file="$folder/out" "$program" "$@" >"$folder/text" 2>"$folder/log" ||
        { cat "$folder/log" >&2; exit 1; }
    [ "$(cat "$folder/text")" = "$wanted done" ] || { echo "$*: $(cat "$folder/text")" >&2; exit 1; }
    awk '/^summary:/ { print $2 }' "$folder/out"
}

# Tells what so many times of what has this name, each of so many calls, make more than none, by those words.
measure() {
    name=$1
    many=$2
    calls=$3
    shift 3
    none=$(instructions 0 "$@" 0) || exit 1
    made=$(instructions "$((many * calls))" "$@" "$many") || exit 1
    awk -v name="$name" -v none="$none" -v made="$made" -v many="$many" 'BEGIN {
        printf "%s: %.2f instructions, mean of %d\n", name, (made - none) / many, many }'
}
for work in get peek update; do
    measure "$work" "$times" 1 store "$work"
    measure "$work by a caller that asks for nothing" "$times" 1 caller "$work"
done
measure "a pass of sixteen calls" "$((times / 10))" 16 pass
