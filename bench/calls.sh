#!/bin/sh
# Counts the instructions of each call, through `Trio::apply` and `Trio::answer`, on a heap of order 16
# in memory with 30,720 elements: 1,000 in the queue, 1,000 in the set, 28,720 in the map. By callgrind:
# what so many calls make more than none, over how many they are, less what a round of no call makes.
# Usage, from any folder: bench/calls.sh [CALLS], at most 500
calls=${1:-500}
command -v valgrind >/dev/null || { echo "valgrind is not here, so nothing was looked at"; exit 1; }
built=crates/rom_bench/out/rom_bench
build="rt run, in crates/rom_bench"
. "$(dirname "$0")/begin.sh"

# The instructions of a run with so many calls. Each is to find what it is called for.
instructions() {
    valgrind --tool=callgrind --callgrind-out-file="$folder/out" "$program" count "$1" "$2" >"$folder/text" 2>"$folder/log" ||
        { cat "$folder/log" >&2; exit 1; }
    [ "$(cat "$folder/text")" = "$2 done" ] || { echo "$1: of $2 calls $(cat "$folder/text")" >&2; exit 1; }
    awk '/^summary:/ { print $2 }' "$folder/out"
}
none=$(instructions nothing 0) || exit 1
round=$(instructions nothing "$calls") || exit 1
for call in enq deq add add-middle rem rem-middle put again del move has has-middle get peek len total; do
    made=$(instructions "$call" "$calls") || exit 1
    awk -v call="$call" -v made="$made" -v round="$round" -v calls="$calls" 'BEGIN {
        printf "%s: %.0f instructions, mean of %d\n", call, (made - round) / calls, calls }'
done
awk -v none="$none" -v round="$round" -v calls="$calls" 'BEGIN {
    printf "a round of no call: %.0f instructions; the heap and all else: %d\n", (round - none) / calls, none }'
