#!/bin/sh
# Lets each call that the program makes of a file fail, one at a time, or do less than it is asked to; and
# cuts the heap's file before each. By strace a call gives EIO, a write or a sync also ENOSPC, a read or a
# write also 0 bytes; where there is a C compiler, bench/short.c makes a read or a write do half of it, each
# alone and all of them, and cuts the file. After each run it fails where
#   - the run ended by a signal or with another status than its text has;
#   - a line that has a place has another reply or another place than the lines before it lead to, by a
#     model in awk that shares no code with the program, or the count is another;
#   - `stat` shows another state than that which was told, or, where the last update that is not `fault` is
#     `doubt`, that one and the doubtful one. (Of a file that is cut it may refuse the heap by name too.)
# It needs strace, and the `stat` and `timeout` of GNU's coreutils.
# Usage, from any folder, once the program is built: bench/faults.sh
command -v strace >/dev/null || { echo "strace is not here, so nothing was looked at"; exit 1; }
built=crates/romulus/out/romulus
build="./romulus try examples/queue.txt"
. "$(dirname "$0")/begin.sh"
here=$(cd "$(dirname "$0")" && pwd)
folder=$(cd "$folder" && pwd -P)
heap=$folder/heap
text=$folder/text
script=$folder/script
short=$folder/short
wrong=0
cc -O1 -o "$short" "$here/short.c" 2>/dev/null || { echo "no C compiler for Linux on x86-64: no call is short, and no file is cut"; short=; }

# What was done before, and the updates that are run; so many lines that a script is read by several reads.
printf 'enq 5\nput 1 10\nadd 4\n' >"$folder/done"
printf 'enq 7\nput 1 5\nadd 3\ndeq\nput 2 6\nrem 4\ndel 1\n' >"$script"
awk 'BEGIN { for (i = 0; i < 1500; i++) print "unread " i }' >"$folder/many"
printf 'add 9\n' >"$folder/one"

# Looks at a run: its status, the scripts before it and its own, its text and what `stat` shows. Prints what
# is wrong.
judge() {
    awk -v status="$1" -v cut="$2" -v fail="$3" '
        FNR == 1 { file++ }
        file == 1 { before[++befores] = $0 }
        file == 2 { line[++lines] = $0 }
        file == 3 { told[++many] = $0 }
        file == 4 { shown = shown $0 "\n" }
        # Does an update, and gives its reply.
        function done(update,  w, was) {
            split(update, w, " ")
            count++
            if (w[1] == "enq") { queue[++last] = w[2]; return "queued" }
            if (w[1] == "deq") { if (first == last) return "empty"; return "head " queue[++first] }
            if (w[1] == "add") { if (w[2] in set) return "present"; set[w[2]]; sets++; return "added" }
            if (w[1] == "rem") { if (!(w[2] in set)) return "absent"; delete set[w[2]]; sets--; return "removed" }
            if (w[1] == "put") { was = w[2] in map ? "was " map[w[2]] : "none"; if (!(w[2] in map)) maps++; map[w[2]] = w[3]; return was }
            if (w[1] == "del") { if (!(w[2] in map)) return "none"; was = "was " map[w[2]]; delete map[w[2]]; maps--; return was }
        }
        function state(  total, key) {
            for (key in map) total += map[key]
            return sprintf("order 4\ncount %d\nqueue %d set %d map %d\nfree %d\ntotal %d\n", count, last - first, sets, maps, 15 - (last - first) - sets - maps, total)
        }
        function is_wrong(what) { print what; exit }
        END {
            for (i = 1; i <= befores; i++) done(before[i])
            faults = 0
            if (many == 1 && told[1] == fail) { if (status + 0 != (fail ~ /^script/ ? 4 : 7)) is_wrong("status " status " with " fail) }
            else {
                if (told[1] != "caller 1") is_wrong("it does not begin with its caller but with " told[1])
                for (i = 1; i <= lines; i++) {
                    if (told[i + 1] == "fault") { faults++; continue }
                    if (told[i + 1] == "doubt") { faults++; doubt = line[i]; continue }
                    doubt = ""
                    place = count
                    want = done(line[i]) " @" place
                    if (told[i + 1] != want) is_wrong("\"" told[i + 1] "\" in place of \"" want "\"")
                }
                if (told[lines + 2] != "count " count || many != lines + 2) is_wrong("the end is " told[many])
                if (status + 0 != (faults ? 7 : 0)) is_wrong("status " status " with " faults " faults")
            }
            if (shown == state()) exit
            if (doubt != "") { done(doubt); if (shown == state()) exit }
            if (cut != "" && shown ~ /^refused: /) exit
            print "another state: " shown
        }' "$folder/done" "$4" "$text" "$folder/shown"
}

# The heap that a case begins with: at rest, or in the midst of an update, one region being of no use.
begin() {
    cp "$folder/$1" "$heap" || exit 1
}
"$program" format "$folder/rest" --order 4 >"$text" && "$program" run "$folder/rest" "$folder/done" >"$text" || { cat "$text" >&2; exit 1; }
for torn in main back; do
    cp "$folder/rest" "$folder/$torn"
    case $torn in main) from=8 state='\001' ;; back) from=120 state='\002' ;; esac
    awk 'BEGIN { for (i = 0; i < 112; i++) printf "romulus!" }' | dd of="$folder/$torn" bs=8 seek="$from" conv=notrunc 2>/dev/null
    printf "$state" | dd of="$folder/$torn" bs=1 seek=24 conv=notrunc 2>/dev/null
done

# Looks at the run that was made, of that name.
look() {
    looked=$((looked + 1))
    [ ! -e "$heap" ] || timeout 20 "$program" stat "$heap" >"$folder/shown"
    found=$(judge "$status" "$2" "$3" "$4")
    echo "$status" >>"$folder/statuses"
    [ -z "$found" ] || { echo "WRONG: $1: $found"; wrong=1; }
}

# faulty NAME BEGIN SCRIPT PATH FAIL CALLS FAULT: each such call of a file has that fault in turn.
faulty() {
    looked=0
    nth=1
    while :; do
        begin "$2"
        timeout 20 strace -f -qq -o "$folder/calls" -P "$4" -e trace="$6" -e inject="$6:$7:when=$nth" "$program" run "$heap" "$3" >"$text"
        status=$?
        grep -q INJECTED "$folder/calls" || break
        look "$1, $6 $nth, $7" "" "$5" "$3"
        nth=$((nth + 1))
    done
    [ "$looked" -gt 0 ] || { echo "WRONG: $1: no $6 was made"; wrong=1; }
    echo "$1: $6 with $7: $looked runs"
}

# each NAME BEGIN SCRIPT PATH FAIL FAULT..: a fault is a call and what it gives.
each() {
    each_name=$1 each_begin=$2 each_script=$3 each_path=$4 each_fail=$5
    shift 5
    for fault in "$@"; do
        faulty "$each_name" "$each_begin" "$each_script" "$each_path" "$each_fail" "${fault%%:*}" "${fault#*:}"
    done
}
each "seven updates" rest "$script" "$heap" "device failed" \
    openat:error=EIO flock:error=EIO statx:error=EIO pread64:error=EIO pread64:retval=0 \
    pwrite64:error=EIO pwrite64:error=ENOSPC pwrite64:retval=0 fdatasync:error=EIO fdatasync:error=ENOSPC
for torn in main back; do
    each "a heap whose $torn is made again, and an update" "$torn" "$folder/one" "$heap" "device failed" \
        pread64:error=EIO pread64:retval=0 pwrite64:error=EIO pwrite64:error=ENOSPC pwrite64:retval=0 fdatasync:error=EIO
done
each "a script's own file" rest "$folder/many" "$folder/many" "script 1 failed" openat:error=EIO read:error=EIO

# Texts whose write fails: status 5, and each update is done.
looked=0
begin rest
timeout 20 strace -f -qq -o "$folder/calls" -P "$text" -e trace=write -e inject=write:error=ENOSPC:when=1+ "$program" run "$heap" "$script" >"$text"
status=$?
cp "$heap" "$folder/full"
begin rest
"$program" run "$heap" "$script" >"$text"
"$program" stat "$heap" >"$folder/shown"
"$program" stat "$folder/full" | cmp - "$folder/shown" && [ "$status" -eq 5 ] || { echo "WRONG: a text that fails: status $status"; wrong=1; }
echo "$status" >>"$folder/statuses"
echo "a text whose writes fail: status $status"

# new FROM CALL FAULT: a new heap where no file is, or in one that holds none, with each call failing: a file that is
# no heap, or the empty one; then one is made all the same.
new() {
    from=$1
    shift
    nth=1
    looked=0
    while :; do
        rm -f "$heap"
        [ "$from" = none ] || cp "$folder/$from" "$heap"
        timeout 20 strace -f -qq -o "$folder/calls" -P "$heap" -e trace="$1" -e inject="$1:$2:when=$nth" "$program" format "$heap" --order 4 >"$text"
        status=$?
        grep -q INJECTED "$folder/calls" || break
        looked=$((looked + 1))
        echo "$status" >>"$folder/statuses"
        [ "$status: $(cat "$text")" = "7: device failed" ] || { echo "WRONG: format, $1 $nth, $2: status $status, $(cat "$text")"; wrong=1; }
        case $("$program" stat "$heap") in
            "refused: not a heap" | "refused: too small, need 8, have 0" | "device failed" | "$empty") ;;
            *) echo "WRONG: format over $from, $1 $nth, $2: then $("$program" stat "$heap")"; wrong=1 ;;
        esac
        "$program" format "$heap" --order 4 >"$text"
        [ "$("$program" stat "$heap")" = "$empty" ] || { echo "WRONG: format, $1 $nth, $2: no heap can be made then"; wrong=1; }
        nth=$((nth + 1))
    done
    [ "$looked" -gt 0 ] || { echo "WRONG: a new heap over $from: no $1 was made"; wrong=1; }
    echo "a new heap over $from: $1 with $2: $looked runs"
}
rm -f "$heap"
"$program" format "$heap" --order 4 >"$text"
empty=$("$program" stat "$heap")
head -c 1500 "$folder/main" | tail -c 1400 >"$folder/other"
for fault in openat:error=EIO flock:error=EIO statx:error=EIO ftruncate:error=ENOSPC pread64:error=EIO pwrite64:error=EIO pwrite64:error=ENOSPC pwrite64:retval=0 fdatasync:error=EIO; do
    new none "${fault%%:*}" "${fault#*:}"
    new other "${fault%%:*}" "${fault#*:}"
done

# halved NAME BEGIN SCRIPT PATH CALL CUT: each such call in turn, and where nothing is cut all of them, do half
# of it, and no line is another for that; or the file is cut before it.
halved() {
    looked=0
    nth=1
    while :; do
        begin "$2"
        timeout 20 "$short" "$4" "$5" "$nth" "$nth" "$6" "$program" run "$heap" "$3" >"$text"
        status=$?
        [ "$status" -ne 98 ] || { echo "bench/short.c cannot trace here" >&2; exit 1; }
        [ "$status" -ne 99 ] || break
        [ "$6" != - ] || [ "$status" -eq 0 ] || { echo "WRONG: $1, $5 $nth is short: status $status"; wrong=1; }
        look "$1, $5 $nth, $6" "${6#-}" "device failed" "$3"
        nth=$((nth + 1))
    done
    [ "$6" != - ] || {
        begin "$2"
        timeout 20 "$short" "$4" "$5" 1 1000000 - "$program" run "$heap" "$3" >"$text"
        status=$?
        [ "$status" -eq 0 ] || { echo "WRONG: $1, all are short: status $status"; wrong=1; }
        look "$1, each $5, $6" "" "device failed" "$3"
    }
    case $6 in -) what="does half" ;; *) what="finds $6 bytes in the file" ;; esac
    [ "$looked" -gt 0 ] || { echo "WRONG: $1: no $5 was made"; wrong=1; }
    echo "$1: each $5 $what: $looked runs"
}
if [ "$short" ]; then
    for call in read write; do
        halved "seven updates" rest "$script" "$heap" "$call" -
        for torn in main back; do
            halved "a heap whose $torn is made again, and an update" "$torn" "$folder/one" "$heap" "$call" -
        done
    done
    halved "a script's own file" rest "$script" "$script" read -
    for bytes in 0 8 24 64 500 960 1000 1855; do
        for call in read write; do
            halved "seven updates" rest "$script" "$heap" "$call" "$bytes"
        done
    done
fi
sort "$folder/statuses" | uniq -c | awk '{ printf "%s%d with status %d", (NR > 1 ? ", " : ""), $1, $2 } END { print "" }'
exit "$wrong"
