#!/bin/sh
# Measures `romulus stat` on a heap of order 16 in a file with 50,000 elements (20,000 in the queue, 10,000
# in the set, 20,000 in the map), and `romulus format FILE --order 16` on a new file: instructions by
# callgrind, system calls by strace, and times of 21 runs by the clock. Beside each stands a plain Rust
# program (plain.sh) that does the same, once in pieces of 4 KiB ("plain") and once with each region in
# one call ("whole"). It fails where a text, a status or a file differs.
# Usage, from any folder, once the program is built: bench/stat.sh
for tool in valgrind strace rustc; do
    command -v "$tool" >/dev/null || { echo "$tool is not here, so nothing was looked at"; exit 1; }
done
built=crates/romulus/out/romulus
build="./romulus try examples/queue.txt"
. "$(dirname "$0")/begin.sh"
. "$(dirname "$0")/plain.sh"

heap=$folder/heap
"$folder/plain" fill "$heap" || { echo "no heap was made" >&2; exit 1; }
cp "$heap" "$folder/before" || exit 1
echo "file: $(wc -c <"$heap") bytes; load of the machine: $(cut -d' ' -f1-3 /proc/loadavg), $(nproc) processors"

# The file of the program that is called so.
path_of() {
    [ "$1" = romulus ] && echo "$program" || echo "$folder/$1"
}

# Runs a command of a program, under a tool if one is named. `made` is a new file each time.
run() {
    run_path=$(path_of "$1")
    run_command=$2
    shift 2
    if [ "$run_command" = stat ]; then
        "$@" "$run_path" stat "$heap"
    else
        rm -f "$folder/made"
        "$@" "$run_path" format "$folder/made" --order 16
    fi
}

# The instructions of a command of a program.
instructions() {
    run "$1" "$2" valgrind --tool=callgrind --callgrind-out-file="$folder/out" >/dev/null 2>"$folder/log" ||
        { cat "$folder/log" >&2; exit 1; }
    awk '/^summary:/ { print $2; any = 1 } END { exit !any }' "$folder/out" ||
        { echo "callgrind counted nothing" >&2; exit 1; }
}

# The system calls of a command of a program: those on the heap's file by kind, and all.
calls() {
    run "$1" "$2" strace -f -y -o "$folder/calls" >/dev/null || exit 1
    awk -v file="<$file>" '
        match($0, /[a-z0-9_]+\(/) {
            all++
            if (index($0, file)) calls[substr($0, RSTART, RLENGTH - 1)]++
        }
        END { printf "pread64 %d, pwrite64 %d, fdatasync %d, all calls %d", calls["pread64"], calls["pwrite64"], calls["fdatasync"], all }' "$folder/calls"
}

# The text and the status of a command, and those of a second `format`, which finds a heap in the file
# and is to leave it as it was.
tell() {
    run "$1" "$2"
    echo "status $?"
    [ "$2" = format ] || return
    cp "$folder/made" "$folder/made-$1"
    "$(path_of "$1")" format "$folder/made" --order 16
    echo "status $?"
    cmp "$folder/made" "$folder/made-$1"
}
wrong=0
for command in stat format; do
    for who in romulus plain whole; do
        tell "$who" "$command" >"$folder/text-$who" 2>&1
        cmp -s "$folder/text-$who" "$folder/text-romulus" || { echo "$command: ANOTHER TEXT by $who"; wrong=1; }
        [ "$command" = stat ] || cmp -s "$folder/made-$who" "$folder/made-romulus" ||
            { echo "$command: ANOTHER FILE by $who"; wrong=1; }
    done
    echo "$command: $(paste -s -d ';' "$folder/text-romulus")"
    grep -q '^status 0$' "$folder/text-romulus" || exit 1
    [ "$command" = stat ] && file=$heap || file=$folder/made
    "$folder/plain" time "$command" "$file" "$program" "$folder/plain" "$folder/whole" >"$folder/times" ||
        { cat "$folder/times" >&2; exit 1; }
    line=0
    for who in romulus plain whole; do
        line=$((line + 1))
        made=$(instructions "$who" "$command") || exit 1
        called=$(calls "$who" "$command") || exit 1
        sed -n "${line}p" "$folder/times" >"$folder/time"
        read -r best middle <"$folder/time"
        [ "$who" = romulus ] && ours="$made $best $middle"
        echo "$ours $made $best $middle" | awk -v who="$who" -v command="$command" -v called="$called" '{
            printf "%s, %s: %d instructions, %s, best %.2f ms, middle %.2f ms of 21 runs", command, who, $4, called, $5, $6
            if (who != "romulus") printf "; romulus to it: %.2f by instructions, %.2f by best times, %.2f by middle ones", $1 / $4, $2 / $5, $3 / $6
            printf "\n" }'
    done
done
cmp -s "$heap" "$folder/before" || { echo "stat: THE FILE CHANGED"; wrong=1; }
exit "$wrong"
