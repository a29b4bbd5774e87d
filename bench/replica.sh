#!/bin/sh
# Follows a primary that is killed again and again. In each turn `romulus_replica ship` runs scripts on the
# first heap and writes its frames to a file; a third of these runs are killed in their midst. A killed one
# writes no frames, so before it the second heap is brought to the first one's count, and behind it the second
# begins anew as a copy of the first.
# To bring it there, all streams since the last copy are taken in an order that is drawn, with some `follow`s
# killed and given again. A stream that comes before an earlier one is early whole, so there are passes until
# no frame was early: as many as streams, if they come in reverse. Then all are given once more, each frame is
# to be known, and `stat` is to say of the second heap what it said of the first.
# It fails where that is not so, where no frame was applied, or where no kill came among updates. Then replica.py
# looks at talks that ship, at their followers, at copies and at a failover.
# Usage, from any folder, once the programs are built: bench/replica.sh [TURNS [CALLERS]], of 1 to 16 callers, or
# bench/replica.sh --short, for replica.py alone
talks=$(cd "$(dirname "$0")" && pwd)/replica.py
[ "${1:-}" != --short ] || exec "$talks" --short
turns=${1:-40}
callers=${2:-4}
built=crates/romulus/out/romulus
build="./romulus try examples/queue.txt"
. "$(dirname "$0")/begin.sh"
replica=$(cd "$(dirname "$0")/.." && pwd)/crates/romulus_replica/out/romulus_replica
[ -x "$replica" ] || { echo "build the program first: ./romulus_replica follow --anonymous heap stream" >&2; exit 1; }
first=$folder/first
second=$folder/second
"$replica" format "$first" 8 >"$folder/text" || { cat "$folder/text" >&2; exit 1; }
cp "$first" "$second"
"$program" stat "$first" >"$folder/state" || exit 1
draw() { od -An -N2 -tu2 /dev/urandom | awk -v most="$1" '{ print $1 % most }'; }
kept=""
among=0
stopped=0
applied=0
passes=0

# Takes one stream, a third of the times after a `follow` of it that is killed.
take() {
    if [ "$(draw 3)" -eq 0 ]; then
        "$replica" follow --anonymous "$second" "$1" >/dev/null &
        sleep "$(awk -v n="$(draw 1000)" 'BEGIN { printf "%.3f", n / 5000 }')"
        kill -9 "$!" 2>/dev/null
        wait "$!" 2>/dev/null
        [ $? -eq 137 ] && stopped=$((stopped + 1))
    fi
    "$replica" follow --anonymous "$second" "$1" >"$folder/text" || { echo "$1: STATUS $?: $(cat "$folder/text")"; exit 1; }
    applied=$((applied + $(awk 'NR == 1 { print $2 }' "$folder/text")))
}

# Brings the second heap to the count of the first.
catch_up() {
    [ -n "$kept" ] || return
    early=1
    while [ "$early" -gt 0 ]; do
        early=0
        passes=$((passes + 1))
        for stream in $(echo "$kept" | tr ' ' '\n' | grep . | shuf); do
            take "$folder/frames$stream"
            early=$((early + $(awk 'NR == 1 { print $6 }' "$folder/text")))
        done
    done
    for stream in $kept; do
        "$replica" follow --anonymous "$second" "$folder/frames$stream" >"$folder/text" || { echo "$stream: STATUS $?"; exit 1; }
        case $(head -n 1 "$folder/text") in
            "applied 0 known "*" early 0") ;;
            *) echo "stream $stream: NOT KNOWN: $(cat "$folder/text")"; exit 1 ;;
        esac
    done
    "$program" stat "$second" >"$folder/told" || { cat "$folder/told"; exit 1; }
    cmp -s "$folder/state" "$folder/told" || { echo "THE HEAPS DIFFER:"; cat "$folder/state" "$folder/told"; exit 1; }
    kept=""
}

for turn in $(seq "$turns"); do
    set --
    for caller in $(seq "$callers"); do
        awk -v seed="$((turn * 100 + caller))" 'BEGIN {
            srand(seed)
            for (i = 0; i < 200; i++) {
                k = int(rand() * 9)
                v = int(rand() * 1000)
                line[0] = "enq " v; line[1] = "deq"; line[2] = "add " v % 50; line[3] = "rem " v % 50
                line[4] = "put " k " " v; line[5] = "del " k; line[6] = "move " k " " v % 9 " 1"
                line[7] = "tx put " k " " v " ; deq ; add " v % 50; line[8] = "put " v % 50 " 1"
                print line[int(rand() * 9)]
            }
        }' >"$folder/script$caller"
        set -- "$@" "$folder/script$caller"
    done
    "$replica" ship "$first" "$@" >"$folder/frames$turn" &
    if [ "$(draw 3)" -eq 0 ]; then
        sleep "$(awk -v n="$(draw 1000)" 'BEGIN { printf "%.3f", n / 2000 }')"
        kill -9 "$!" 2>/dev/null
    fi
    wait "$!" 2>/dev/null
    ended=$?
    case $ended in
        0)
            "$program" stat "$first" >"$folder/state" || { cat "$folder/state"; exit 1; }
            kept="$kept $turn"
            ;;
        137)
            catch_up
            cp "$folder/state" "$folder/before"
            "$program" stat "$first" >"$folder/state" || { cat "$folder/state"; exit 1; }
            cmp -s "$folder/before" "$folder/state" || among=$((among + 1))
            flock "$first" cp "$first" "$second"
            ;;
        *) echo "turn $turn: ship ended with $ended: $(head -c 80 "$folder/frames$turn")"; exit 1 ;;
    esac
done
catch_up
echo "$among kills came among updates, $stopped follows were killed; $applied frames applied in $passes passes; $(sed -n 2p "$folder/state") in the end"
[ "$applied" -gt 0 ] && [ "$among" -gt 0 ] && "$talks"
