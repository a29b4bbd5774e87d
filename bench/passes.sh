#!/bin/sh
# Counts the syncs that an update makes with K callers that call, while no other caller is there, while the others
# of sixteen are idle, and while they read: on the disk as it is, and where each sync takes longer, by strace. What
# K callers could share at best is four syncs for K updates. It fails where a sync that takes 20 milliseconds leaves
# more than 4.1 for K updates. On a disk that is quicker than a thread is to wake, callers meet less often: that is told alone.
# Usage, from any folder, once the program is built: bench/passes.sh [LINES [MILLISECONDS..]]
lines=${1:-200}
[ $# -gt 0 ] && shift
[ $# -gt 0 ] || set -- 0 20
command -v strace >/dev/null || { echo "strace is not here, so nothing was looked at" >&2; exit 1; }
built=crates/romulus/out/romulus
build="./romulus try examples/queue.txt"
. "$(dirname "$0")/begin.sh"
heap=$folder/heap
"$program" format "$heap" --order 8 >/dev/null || exit 1

# Scripts: of a caller that calls, of one that is idle behind its first line, and of one that reads.
awk -v lines="$lines" 'BEGIN { for (i = 0; i < lines; i++) print "put " i % 100 " " i }' >"$folder/calls"
echo "put 1 1" >"$folder/idle"
awk -v lines="$lines" 'BEGIN { for (i = 0; i < 500 * lines; i++) print "get " i % 100 }' >"$folder/reads"

# The syncs of a run with the scripts that follow, each of which takes so many milliseconds more.
syncs() {
    delay=$1
    shift
    inject=
    [ "$delay" -gt 0 ] && inject="-e inject=fdatasync:delay_exit=$((delay * 1000))"
    # shellcheck disable=SC2086
    strace -f -qq --seccomp-bpf -o "$folder/trace" -P "$heap" -e trace=fdatasync $inject \
        "$program" run "$heap" "$@" >"$folder/text" 2>"$folder/log" || { cat "$folder/log" >&2; exit 1; }
    grep -c 'fdatasync(.*= 0' "$folder/trace"
}

: >"$folder/none"
failed=0
echo "syncs for K updates with K callers that call, $lines lines each; four at best"
printf '%12s %4s %8s %8s %8s\n' 'ms a sync' K alone idle reading
for delay in "$@"; do
    before=$(syncs 0 "$folder/none") || exit 1
    for callers in 1 2 4 8 15; do
        row=$(printf '%12s %4s' "$delay" "$callers")
        for others in none idle reads; do
            scripts= made=0
            while [ "$made" -lt "$callers" ]; do scripts="$scripts $folder/calls" made=$((made + 1)); done
            while [ "$others" != none ] && [ "$made" -lt 16 ]; do scripts="$scripts $folder/$others" made=$((made + 1)); done
            # shellcheck disable=SC2086
            count=$(syncs "$delay" $scripts) || exit 1
            each=$(awk -v count="$count" -v before="$before" -v lines="$lines" 'BEGIN { printf "%.2f", (count - before) / lines }')
            row="$row $(printf '%8s' "$each")"
            # The idle ones make an update each, and the first passes find not all callers.
            [ "$delay" -ge 20 ] && [ "$others" != reads ] && awk -v each="$each" 'BEGIN { exit !(each > 4.1) }' && failed=1
        done
        echo "$row"
    done
done
[ "$failed" = 0 ] || { echo "more than 4.1 syncs for K updates"; exit 1; }
