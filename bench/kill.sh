#!/bin/sh
# Kills `romulus run` in the midst of long scripts, over and over on one heap. Each caller puts rising
# values under a key of its own, and goes on where it stands, so the value tells how many of its updates
# were done. After each kill `stat` is to open the heap, `run` is to tell the value of each key, none is to
# be less than before or more than its script has, and their sum is to be the count and the total that
# `stat` prints. It fails where that is not so, or where no kill came among the updates.
# Usage, from any folder, once the program is built: bench/kill.sh [KILLS [CALLERS]], of 1 to 15 callers
kills=${1:-200}
callers=${2:-4}
built=crates/romulus/out/romulus
build="./romulus try examples/queue.txt"
. "$(dirname "$0")/begin.sh"
heap=$folder/heap
"$program" format "$heap" --order 4 >"$folder/text" || { cat "$folder/text" >&2; exit 1; }
seq "$callers" | sed 's/^/get /' >"$folder/reads"
# More than are done before a kill comes.
lines=10000

# Waits until the run has written to the heap, for ten seconds at most, and then up to 0.3 seconds; every
# tenth time not for that, so that some kills come while it begins.
wait_a_while() {
    [ $((turn % 10)) -eq 0 ] || for _ in $(seq 500); do
        [ "$(stat -c %y "$heap")" = "$written" ] || break
        sleep 0.02
    done
    sleep "$(od -An -N2 -tu2 /dev/urandom | awk '{ printf "%.3f", $1 % 300 / 1000 }')"
}
for caller in $(seq "$callers"); do
    echo "$caller 0"
done >"$folder/values"
among=0
several=0
for turn in $(seq "$kills"); do
    set --
    while read -r caller value; do
        awk -v caller="$caller" -v value="$value" -v lines="$lines" \
            'BEGIN { for (i = 1; i <= lines; i++) printf "put %d %d\n", caller, value + i }' >"$folder/script$caller"
        set -- "$@" "$folder/script$caller"
    done <"$folder/values"
    written=$(stat -c %y "$heap")
    "$program" run "$heap" "$@" >/dev/null &
    wait_a_while
    kill -9 "$!" 2>/dev/null
    wait "$!" 2>/dev/null
    ended=$?
    state=$(od -An -j24 -N1 -tu1 "$heap" | tr -d ' ')
    "$program" stat "$heap" >"$folder/text" || { echo "kill $turn: NOT OPENED: $(cat "$folder/text")"; exit 1; }
    "$program" run "$heap" "$folder/reads" >"$folder/told" || { echo "kill $turn: NOT RUN: $(cat "$folder/told")"; exit 1; }
    # Both texts beside the values before: how many more updates each caller has done.
    more=$(awk -v lines="$lines" '
        FNR == 1 { file++ }
        file == 1 { before[$1] = $2; callers = $1 }
        file == 2 { shown = shown $0 "\n" }
        file == 3 && FNR > 1 && FNR <= callers + 1 {
            value = $1 == "value" ? $2 : 0
            more = value - before[FNR - 1]
            if (more < 0 || more > lines) { print "A KEY has another value:", $0; exit }
            if ($NF != "#" front && FNR > 2) { print "FRONTS differ:", $0; exit }
            front = substr($NF, 2)
            if (value) keys++
            told = told " " more
            count += value
        }
        END {
            wanted = sprintf("order 4\ncount %d\nqueue 0 set 0 map %d\nfree %d\ntotal %d\n", count, keys, 15 - keys, count)
            if (shown != wanted) print "ANOTHER HEAP:", shown, "in place of", wanted
            else print told
        }' "$folder/values" "$folder/text" "$folder/told")
    echo "kill $turn: the run ended with $ended, state $state, updates more:$more"
    case $more in *[A-Z]*) exit 1 ;; esac
    awk 'FNR > 1 && /^(value|none) / { print FNR - 1, $1 == "value" ? $2 : 0 }' "$folder/told" >"$folder/values"
    did=$(echo "$more" | tr ' ' '\n' | grep -c '[1-9]')
    [ "$ended" -eq 137 ] && [ "$did" -gt 0 ] && among=$((among + 1))
    [ "$ended" -eq 137 ] && [ "$did" -gt 1 ] && several=$((several + 1))
done
echo "$among of $kills kills came among the updates, $several among those of several callers; $(sed -n 2p "$folder/text")"
[ "$among" -gt 0 ]
