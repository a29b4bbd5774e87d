#!/bin/sh
# Times drills of 1, 4 and 16 callers, and `try` on scripts of 131,072 lines, nearly all of them `get`, by 1 and
# by 4 callers, beside the unproved twin that bench/twin.rs is, in turns. A drill must print the same as the
# twin's, and so must `try` by one caller; what several callers find at their first lines is theirs.
# Of each it tells the middle and the least time of the turns, and the rate of the program over that of the twin.
# Usage, from any folder, once the program is built: bench/twin.sh [TURNS]
for tool in rustc awk; do
    command -v "$tool" >/dev/null || { echo "$tool is not here, so nothing was looked at"; exit 1; }
done
built=crates/romulus/out/romulus
build="./romulus try examples/queue.txt"
. "$(dirname "$0")/begin.sh"
turns=${1:-15}
twin=$folder/twin
rustc --edition 2021 -O -C target-cpu=x86-64-v2 -o "$twin" "$(dirname "$0")/twin.rs" || exit 1
wrong=0

# Runs a command, whose text goes into the file `$folder/NAME`, and adds its nanoseconds to `$folder/NAME.times`.
take() {
    name=$1
    shift
    begun=$(date +%s%N)
    "$@" >"$folder/$name" || { echo "$* ended with $?" >&2; exit 1; }
    echo $(($(date +%s%N) - begun)) >>"$folder/$name.times"
}

# The middle and the least of the times of a name, in milliseconds.
spread() {
    sort -n "$folder/$1.times" | awk '{ time[NR] = $1 / 1e6 } END { print time[int((NR + 1) / 2)], time[1] }'
}

# Tells of what was run: its name, and whether the texts must be the same.
tell() {
    same="texts not compared"
    if [ "$2" = same ]; then
        cmp -s "$folder/ours" "$folder/twins" && same="the same text" || { same="ANOTHER TEXT"; wrong=1; }
    fi
    echo "$(spread ours) $(spread twins)" | awk -v what="$1" -v same="$same" '{
        printf "%s: %.1f ms, least %.1f; the twin %.1f, least %.1f: %.2f of its rate, least by least %.2f; %s\n",
            what, $1, $2, $3, $4, $3 / $1, $4 / $2, same }'
    rm -f "$folder/ours.times" "$folder/twins.times"
}
for callers in 1 4 16; do
    for _ in $(seq "$turns"); do
        take ours "$program" drill 7 --callers "$callers" --calls 10000
        take twins "$twin" drill 7 "$callers" 10000
    done
    tell "drill, $callers callers of 10,000 items" same
done
awk 'BEGIN {
    for (i = 0; i < 12; i++) print "put", i * 80018, i * 7919
    for (; i < 131072; i++) print "get", i % 24
}' >"$folder/gets"
for callers in 1 4; do
    scripts=$(for _ in $(seq "$callers"); do echo "$folder/gets"; done)
    for _ in $(seq "$turns"); do
        take ours "$program" try $scripts
        take twins "$twin" try $scripts
    done
    [ "$callers" = 1 ] && as=same || as=other
    tell "131,072 lines get, $callers callers" "$as"
done
exit "$wrong"
