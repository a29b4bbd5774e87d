#!/bin/sh
# Counts what a line of a script costs `romulus run` on a heap in a file: system calls by strace,
# instructions by callgrind and what they go into. It is what twice so many lines make more than so
# many, over so many, so that start, opening and closing are not in it. It fails where an update makes
# another number of syncs than four, where a query calls the device, or where lines read the heap.
# Usage, from any folder, once the program is built: bench/run.sh [ORDER [LINES]]
order=${1:-4}
lines=${2:-1000}
for tool in valgrind strace; do
    command -v "$tool" >/dev/null || { echo "$tool is not here, so nothing was looked at"; exit 1; }
done
built=crates/romulus/out/romulus
build="./romulus try examples/queue.txt"
. "$(dirname "$0")/begin.sh"
heap=$folder/heap
used=$folder/used

# The lines of a script of that kind, so many.
script() {
    awk -v kind="$1" -v lines="$2" '
    function any(most) { state = state * 16807 % 2147483647; return state % most }
    BEGIN {
        state = 1
        split("enq deq add rem put del move has get peek len total", name, " ")
        split("1 0 1 1 2 1 3 1 1 0 0 0", numbers, " ")
        for (i = 0; i < lines; i++) {
            if (kind == "put") line = "put " i % 10 + 1 " " any(1000000)
            if (kind == "get") line = "get " i % 12 + 1
            if (kind == "group") {
                line = "tx"
                for (j = 0; j < 8; j++) line = line (j ? " ; " : " ") "put " (i + j) % 10 + 1 " " any(1000000)
            }
            if (kind == "updates" || kind == "queries") {
                which = kind == "updates" ? any(7) + 1 : any(5) + 8
                line = name[which]
                for (j = 0; j < numbers[which]; j++) line = line " " any(9) + 1
            }
            print line
        }
    }'
}

# Runs a script on a copy of the heap, under the tool that is named.
run() {
    run_script=$1
    shift
    cp "$heap" "$used" || exit 1
    "$@" "$program" run "$used" "$run_script" >"$folder/text" 2>"$folder/log" ||
        { cat "$folder/log" "$folder/text" >&2; exit 1; }
}

# Of a script: the syncs, writes, bytes written and reads of the heap's file, and all system calls.
calls() {
    run "$1" strace -f -y -o "$folder/calls"
    awk -v file="<$used>" '
        match($0, /[a-z0-9_]+\(/) {
            all++
            call = substr($0, RSTART, RLENGTH - 1)
            if (index($0, file)) calls[call]++
            if (index($0, file) && call == "pwrite64") bytes += $NF
        }
        END { printf "%d %d %d %d %d ", calls["fdatasync"], calls["pwrite64"], bytes, calls["pread64"], all }' "$folder/calls"
}

# The instructions of a script; and by function, into the file beside it.
instructions() {
    run "$1" valgrind --tool=callgrind --callgrind-out-file="$folder/out"
    callgrind_annotate --threshold=100 --auto=no "$folder/out" | awk '/^ *[0-9,]+ .*\[/ {
        count = $1
        gsub(",", "", count)
        sub(/^ *[0-9,]+ *(\([ 0-9.]*%\))? *[^:]*:/, "")
        sub(/(::<.*)? \[.*/, "")
        print count, $0
    }' >"$1-parts"
    awk '/^summary:/ { print $2; any = 1 } END { exit !any }' "$folder/out" ||
        { echo "callgrind counted nothing" >&2; exit 1; }
}

# Both of these in one line.
measured() {
    calls "$1" || exit 1
    instructions "$1" || exit 1
}

"$program" format "$heap" --order "$order" >"$folder/text" || { cat "$folder/text" >&2; exit 1; }
script put 10 >"$folder/first"
run "$folder/first"
cp "$used" "$heap"
echo "order $order: a file of $(wc -c <"$heap") bytes; of $lines lines more, each:"
wrong=0
for kind in put group updates get queries; do
    script "$kind" "$lines" >"$folder/less"
    script "$kind" "$((2 * lines))" >"$folder/more"
    less=$(measured "$folder/less") || exit 1
    more=$(measured "$folder/more") || exit 1
    case $kind in put | group | updates) syncs=4 ;; *) syncs=0 ;; esac
    echo "$less $more" | awk -v kind="$kind" -v lines="$lines" -v syncs="$syncs" '{
        printf "%s: fdatasync %.3f, pwrite64 %.3f with %.0f bytes, pread64 %.3f, all calls %.3f, instructions %.0f\n", kind,
            ($7 - $1) / lines, ($8 - $2) / lines, ($9 - $3) / lines, ($10 - $4) / lines, ($11 - $5) / lines, ($12 - $6) / lines
        exit $7 - $1 != syncs * lines || $10 != $4 || (syncs == 0 && ($7 != $1 || $8 != $2))
    }' || { echo "$kind: ANOTHER NUMBER of syncs, or calls that should not be"; wrong=1; }
    awk -v lines="$lines" '
        FNR == 1 { sign = FILENAME ~ /more-parts$/ ? 1 : -1 }
        { count = $1; sub(/^[0-9]+ /, ""); sum[$0] += sign * count; all += sign * count }
        END { for (name in sum) if (sum[name] > all / 50) printf "    %.0f %s\n", sum[name] / lines, name }
    ' "$folder/less-parts" "$folder/more-parts" | sort -rn
done
exit "$wrong"
