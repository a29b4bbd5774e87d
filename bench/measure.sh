#!/bin/sh
# Measures `try` with a script of 1,048,576 bytes and 131,072 lines, the most of both: the time of a run, its
# memory, and its system calls by kind; also the memory with 131,072 lines `deq`, and with sixteen such scripts.
# Usage, from any folder, once the program is built: bench/measure.sh
built=crates/romulus/out/romulus
build="./romulus try examples/queue.txt"
. "$(dirname "$0")/begin.sh"
script=$folder/script
text=$folder/text
times=$folder/times

# A number comes, is looked at and goes, over and over: 24 bytes each time; the last lines make both exact.
awk 'BEGIN {
    for (i = 0; i < 43690; i++) printf "enq %d\npeek\ndeq\n", 1000000000 + i * 7919
    printf "enq 123456\npeek\n"
}' >"$script"
echo "script: $(wc -c <"$script") bytes, $(wc -l <"$script") lines"

"$program" try "$script" >"$text" || { echo "the run ended with status $?" >&2; exit 1; }
echo "text: $(wc -c <"$text") bytes, $(($(wc -c <"$text") / 4096)) whole blocks of 4,096"

# Each run's time in milliseconds; the middle one of nine.
for run in 1 2 3 4 5 6 7 8 9; do
    before=$(date +%s%N)
    "$program" try "$script" >"$text"
    after=$(date +%s%N)
    echo "$(((after - before) / 10000))"
done | sort -n >"$times"
awk '{ t[NR] = $1 / 100 } END { printf "time: %.2f ms, the middle of %d runs from %.2f to %.2f\n", t[(NR + 1) / 2], NR, t[1], t[NR] }' "$times"

if [ -x /usr/bin/time ]; then
    /usr/bin/time -f 'one run: %U s in the program, %S s in the system; memory at most: %M KiB' "$program" try "$script" >"$text"
    # The shortest update, over and over, makes the most entries.
    yes deq | head -n 131072 >"$folder/updates"
    /usr/bin/time -f 'lines "deq" alone: memory at most: %M KiB' "$program" try "$folder/updates" >"$text"
    set --
    while [ $# -lt 16 ]; do set -- "$@" "$folder/updates"; done
    /usr/bin/time -f '16 such scripts: memory at most: %M KiB' "$program" try "$@" >"$text"
else
    echo "/usr/bin/time is not here, so no processor time and no memory was measured" && exit 1
fi

if command -v strace >/dev/null; then
    strace -f -c -S calls -o "$folder/calls" "$program" try "$script" >"$text"
    cat "$folder/calls"
else
    echo "strace is not here, so no system calls were counted" && exit 1
fi
