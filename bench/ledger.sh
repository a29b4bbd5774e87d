#!/bin/bash
# Counts the instructions of a line that a ledger takes beside those that `romulus` takes for the same line, and of a
# guarded group of eight beside a `tx` of the same eight, on a heap of order 4 in memory: of the whole line, with
# reading and printing. By callgrind: what a longer script makes more than a shorter one. Callgrind
# counts each byte that a `rep stosb` fills as an instruction, so `memset` is told apart.
# It fails where a group that is done takes more than 1.5 times the `tx`, one that fails at its eighth member more
# than twice, or a line of `romulus` 15 instructions more, all of them without `memset`.
# Usage, from any folder, once both programs are built: bench/ledger.sh [LINES]
lines=${1:-2000}
command -v valgrind >/dev/null || { echo "valgrind is not here, so nothing was looked at"; exit 1; }
built=crates/romulus/out/romulus
build="./romulus try examples/queue.txt"
. "$(dirname "$0")/begin.sh"
ledger=${program%/romulus/out/romulus}/romulus_ledger/out/romulus_ledger
[ -x "$ledger" ] || { echo "build the program first: ./romulus_ledger try examples/queue.txt" >&2; exit 1; }

# The instructions of a run whose script has these lines first and then a line so often: all, and those of memset.
instructions() {
    awk -v first="$2" -v line="$3" -v many="$4" 'BEGIN { print first; for (i = 0; i < many; i++) print line }' >"$folder/script"
    valgrind --tool=callgrind --callgrind-out-file="$folder/out" "$1" try "$folder/script" >"$folder/text" 2>"$folder/log" ||
        { cat "$folder/log" >&2; exit 1; }
    grep -q "^$5" <(tail -n 2 "$folder/text") || { echo "WRONG: not told $5" >&2; tail -n 2 "$folder/text" >&2; exit 1; }
    callgrind_annotate --inclusive=no --auto=no --threshold=100 "$folder/out" | tr -d , |
        awk '/PROGRAM TOTALS/ { all = $1 } /memset/ { filled += $1 } END { print all, filled + 0 }'
}

# The instructions a line, without memset, and what memset is counted for.
each() {
    short=$(instructions "$1" "$2" "$3" "$lines" "$4") && long=$(instructions "$1" "$2" "$3" $((2 * lines)) "$4") || exit 1
    awk -v lines="$lines" -v short="$short" -v long="$long" 'BEGIN {
        split(short, s); split(long, l)
        printf "%.0f %.0f\n", (l[1] - l[2] - s[1] + s[2]) / lines, (l[2] - s[2]) / lines }'
}

# Tells two counts, and whether the second is within so many times the first and so many more.
beside() {
    awk -v what="$1" -v times="$2" -v more="$3" -v one="$4" -v two="$5" 'BEGIN {
        split(one, a); split(two, b)
        printf "%s: %d beside %d, %.2f times, %+d (memset: %d beside %d)\n", what, b[1], a[1], b[1] / a[1], b[1] - a[1], b[2], a[2]
        exit b[1] > a[1] * times + more }' || { echo "WRONG: at most $2 times and $3 more"; wrong=1; }
}

wrong=0
start='put 1 100
put 2 100'
for line in 'put 1 5' 'get 1' 'move 1 2 0'; do
    case $line in put*) told=was ;; get*) told=value ;; *) told=moved ;; esac
    one=$(each "$program" "$start" "$line" "$told") && two=$(each "$ledger" "$start" "$line" "$told") || exit 1
    beside "$line" 1 15 "$one" "$two"
done
eight='enq 1 ; deq ; add 5 ; rem 5 ; put 9 9 ; del 9 ; move 1 2 1 ; move 2 1 1'
last='enq 1 ; deq ; add 5 ; rem 5 ; put 9 9 ; del 9 ; move 1 2 0 ; rem 999'
one=$(each "$program" "$start" "tx $eight" all) && two=$(each "$ledger" "$start" "all $eight" done) || exit 1
beside "eight, done, beside tx" 1.5 0 "$one" "$two"
one=$(each "$program" "$start" "tx $last" all) && two=$(each "$ledger" "$start" "all $last" "undone 8") || exit 1
beside "eight, the last fails, beside tx" 2 0 "$one" "$two"
exit $wrong
