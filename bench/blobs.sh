#!/bin/sh
# Counts the instructions that a caller of keys with bytes makes for a line that asks for something, on a
# heap of order 4 in memory: those of its loop over its lines, with the read and the copy of what it is
# told, without reading scripts and printing. By callgrind: what a longer script makes more than a shorter
# one, over how many lines it has more. Usage, from any folder: bench/blobs.sh [LINES]
lines=${1:-1000}
command -v valgrind >/dev/null || { echo "valgrind is not here, so nothing was looked at"; exit 1; }
built=crates/romulus_blob/out/romulus_blob
build="./romulus_blob try /dev/null"
. "$(dirname "$0")/begin.sh"

# So many bytes in digits, each of them another one than the last.
digits() {
    awk -v many="$1" 'BEGIN { if (many == 0) printf "-"; for (i = 0; i < many; i++) printf "%02x", (37 * i + 11) % 256 }'
}

# The instructions of a run whose script gives the key 1 so many bytes, and then has a line so often: of
# all, and of the loop over a caller's lines.
instructions() {
    { echo "set 1 $(digits "$2")"; yes "$1" | head -n "$3"; } >"$folder/script"
    valgrind --tool=callgrind --callgrind-out-file="$folder/out" "$program" try "$folder/script" >"$folder/text" 2>"$folder/log" ||
        { cat "$folder/log" >&2; exit 1; }
    [ "$(wc -l <"$folder/text")" -eq $(($3 + 3)) ] || { echo "$1: other lines are told" >&2; exit 1; }
    callgrind_annotate --inclusive=yes "$folder/out" | tr -d , |
        awk '/PROGRAM TOTALS/ { all = $1 } /fork::chunks_from/ { loop = $1 } END { print all, loop }'
}

# What a line makes, where the key 1 has so many bytes.
line() {
    short=$(instructions "$1" "$2" "$lines") || exit 1
    long=$(instructions "$1" "$2" $((2 * lines))) || exit 1
    echo "$short $long" | awk -v line="$1" -v many="$2" -v lines="$lines" '{
        printf "%s, of %d bytes: %.0f instructions, %.0f with reading and printing\n", line, many, ($4 - $2) / lines, ($3 - $1) / lines }'
}
line size 256
line "fetch 2" 256
for many in 0 32 64 128 256; do
    line "fetch 1" "$many"
done
