#!/bin/sh
# Measures what it costs to open a heap: `romulus stat` at each order, of an empty heap, of one whose map is full,
# and of that as a stop in the midst of a copy leaves it (its regions are the same here, which costs as much), and
# what starting the program costs by itself, which the other instructions, times and memory have too.
# Instructions by callgrind, calls on the heap's file by strace, the middle and the least time of 21 runs by the
# clock, and the greatest memory (resident) of `stat` and of a `run` of one line. The file was just written, so
# the system reads it from memory.
# Usage, from any folder, once the program is built: bench/open.sh
for tool in valgrind strace /usr/bin/time; do
    command -v "$tool" >/dev/null || { echo "$tool is not here, so nothing was looked at"; exit 1; }
done
built=crates/romulus/out/romulus
build="./romulus try examples/queue.txt"
. "$(dirname "$0")/begin.sh"
heap=$folder/heap
echo len >"$folder/len"

# Makes the heap one that was stopped while it copied main to back, where `state` says so: its word 3 is COPYING.
state=
stop() {
    [ -z "$state" ] || printf '\002' | dd of="$heap" bs=1 seek=24 conv=notrunc status=none
}

# The instructions of the program with these words, in thousands.
instructions() {
    stop
    valgrind --tool=callgrind --callgrind-out-file="$folder/out" "$program" "$@" >/dev/null 2>&1
    awk '/^summary:/ { printf "%d", $2 / 1000; any = 1 } END { exit !any }' "$folder/out" ||
        { echo "callgrind counted nothing" >&2; exit 1; }
}

# The calls of `stat` on the heap's file, by kind.
calls() {
    stop
    strace -f -y -o "$folder/calls" "$program" stat "$heap" >/dev/null || exit 1
    awk -v file="<$heap>" '
        index($0, file) && match($0, /[a-z0-9_]+\(/) { calls[substr($0, RSTART, RLENGTH - 1)]++ }
        END { printf "pread64 %d, pwrite64 %d, fdatasync %d", calls["pread64"], calls["pwrite64"], calls["fdatasync"] }' "$folder/calls"
}

# The middle and the least of 21 runs with these words, in milliseconds.
clocked() {
    for _ in $(seq 21); do
        stop
        before=$(date +%s%N)
        "$program" "$@" >"$folder/text" 2>&1
        after=$(date +%s%N)
        echo "$((after - before))"
    done | sort -n | awk '{ t[NR] = $1 / 1e6 } END { printf "%.1f ms (%.1f)", t[(NR + 1) / 2], t[1] }'
}

# The greatest memory of the program with these words, in KiB.
memory() {
    stop
    /usr/bin/time -f %M -o "$folder/most" "$program" "$@" >"$folder/text" 2>&1
    tail -n 1 "$folder/most"
}

# Puts as many keys into the map as the heap has room for, by sixteen scripts, since these share their syncs.
fill() {
    rm -f "$folder"/part-*
    for part in $(seq 0 15); do
        awk -v part="$part" -v room="$1" 'BEGIN { for (key = part; key < room; key += 16) print "put", key, key + 1 }' >"$folder/part-$part"
    done
    "$program" run "$heap" "$folder"/part-* >/dev/null || { echo "a heap could not be filled" >&2; exit 1; }
    "$program" stat "$heap" | grep -q " map $1\$" || { echo "the heap is not full" >&2; exit 1; }
}

# What is told of the heap as it is.
tell() {
    echo "order $order, $1: $(calls); $(instructions stat "$heap") thousand instructions; $(clocked stat "$heap"); memory $(memory stat "$heap") KiB, of a run $(memory run "$heap" "$folder/len") KiB"
}

echo "load of the machine: $(cut -d' ' -f1-3 /proc/loadavg), $(nproc) processors; the folder is on $(df --output=source,fstype "$folder" | tail -n 1)"
echo "no command: $(instructions) thousand instructions; $(clocked); memory $(memory) KiB"
for order in $(seq 4 16); do
    rm -f "$heap"
    "$program" format "$heap" --order "$order" >/dev/null || { echo "no heap was made" >&2; exit 1; }
    tell "empty, $(wc -c <"$heap") bytes"
    fill "$(((1 << order) - (1 << (order - 4))))"
    tell full
    state=COPYING
    tell "full, stopped"
    state=
done
