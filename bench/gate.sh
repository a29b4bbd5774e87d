#!/bin/sh
# Runs the gate, .ci/run, from nothing, and tells where its time went: for each crate the processor seconds of
# its proof, of its tests and of its edits, and the minutes by the clock at which its first check began and its
# last ended; then those of all compilers together, the memory of the largest check, and the whole. It looks at
# the processes once a second, so each figure is low by up to that much a process.
# It ends with the status of the gate, whose own lines it keeps in a file and names.
# Usage, from any folder: bench/gate.sh
# It needs Linux's /proc, and `pgrep`.
cd "$(dirname "$0")/.." || exit 1
[ -r /proc/self/stat ] || { echo "there is no /proc to look at" >&2; exit 1; }
command -v pgrep >/dev/null || { echo "pgrep is not here, so no process would be seen" >&2; exit 1; }
# Some kits keep what passed, and prove from nothing where they are told to.
case $(rt help 2>&1) in *"rt ci"*--anew*) export GATE_WORDS=--anew ;; esac
folder=$(mktemp -d) || exit 1
log=$folder/log
samples=$folder/samples
: >"$samples"
ticks=$(getconf CLK_TCK)
began=$(date +%s)

# Whether one process stands below another.
stands_below() {
    at=$1
    while [ "${at:-0}" -gt 1 ]; do
        [ "$at" = "$2" ] && return 0
        at=$(sed -n 's/^PPid:[[:space:]]*//p' "/proc/$at/status" 2>/dev/null)
    done
    return 1
}

# A line for each check and compiler below the process: its number, what it works on, its ticks, its memory,
# and the seconds since the start.
look() {
    for process in $(pgrep -x rattle) $(pgrep -x antt-kernel) $(pgrep -x clang) $(pgrep -x rattle-link) $(pgrep -x rattle-test); do
        stands_below "$process" "$1" || continue
        words=$(tr '\0' ' ' <"/proc/$process/cmdline" 2>/dev/null)
        name=$(echo "$words" | sed -n 's/.* --crate-name \([^ ]*\) .*/\1/p')
        where=$(readlink "/proc/$process/cwd" 2>/dev/null)
        case "$where $words" in
            */edits-*) part=edits ;;
            *" --crate-checked "*) part=compilers name=all ;;
            *" --crate-name "*" --test"*) part=tests ;;
            *" --crate-name "*) part=proof ;;
            *) part=compilers name=all ;;
        esac
        used=$(sed 's/.*) //' "/proc/$process/stat" 2>/dev/null | awk '{ print $12 + $13 }')
        most=$(sed -n 's/^VmHWM:[[:space:]]*\([0-9]*\).*/\1/p' "/proc/$process/status" 2>/dev/null)
        [ -n "$used" ] && echo "$process ${name:-unknown} $part $used ${most:-0} $(($(date +%s) - began))"
    done
}

bash .ci/run >"$log" 2>&1 </dev/null &
gate=$!
while kill -0 "$gate" 2>/dev/null; do
    look "$gate" >>"$samples"
    sleep 1
done
wait "$gate"
status=$?

awk -v ticks="$ticks" -v clock="$(($(date +%s) - began))" '
    # A number of a process may be given again, to one that works on something else.
    {
        key = $1 " " $2 " " $3
        if ($4 > used[key]) used[key] = $4
        if ($5 > memory) { memory = $5; largest = $2 }
        if (!($2 in first)) first[$2] = $6
        last[$2] = $6
    }
    END {
        for (key in used) {
            split(key, words, " ")
            seconds[words[2] " " words[3]] += used[key] / ticks
            sum[words[3]] += used[key] / ticks
            if (words[3] != "compilers") crates[words[2]] = 1
            all += used[key] / ticks
        }
        print "crate proof tests edits from to"
        for (name in crates)
            printf "%s %d %d %d %d %d\n", name, seconds[name " proof"], seconds[name " tests"], seconds[name " edits"],
                first[name] / 60, last[name] / 60 | "sort"
        close("sort")
        printf "minutes of a processor: proofs %d, tests %d, compilers %d, edits %d\n", sum["proof"] / 60, sum["tests"] / 60,
            sum["compilers"] / 60, sum["edits"] / 60
        printf "all: %.0f processor minutes, %.0f minutes by the clock; the largest check, of %s, took %.1f GB\n", all / 60, clock / 60, largest, memory / 1048576
    }' "$samples"
tail -n 1 "$log"
echo "the lines of the gate are in $log"
exit "$status"
