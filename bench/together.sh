#!/bin/sh
# Runs programs beside each other on one heap, and tells what each prints and how it ends. It fails where
# one works on a heap that another holds, where a file changes that was locked, or where an update is lost.
# Usage, from any folder, once the program is built: bench/together.sh [UPDATES [TURNS]]
updates=${1:-6000}
turns=${2:-6}
built=crates/romulus/out/romulus
build="./romulus try examples/queue.txt"
. "$(dirname "$0")/begin.sh"
heap=$folder/heap
wrong=0
holder=

# Some key gets another value with each update.
puts() {
    awk -v lines="$1" 'BEGIN { for (i = 0; i < lines; i++) print "put", i % 10 + 1, i }'
}

# The updates that the heap has counted.
counted() {
    "$program" stat "$1" | awk '/^count / { print $2 }'
}

# Says that something is not as it must be.
is_wrong() {
    echo "WRONG: $*"
    wrong=1
}

# Runs a command that is to be refused, since another program holds the file, after it has waited some seconds.
refused() {
    errors=$(mktemp "$folder/errors.XXXXXX")
    began=$(date +%s)
    text=$("$program" "$@" 2>"$errors")
    status=$?
    waited=$(($(date +%s) - began))
    told=$(cat "$errors")
    echo "  $1: status $status, $text; $told; $waited s"
    [ "$status: $text" = "7: device failed" ] && [ "$told" = "romulus: $2: locked by another program" ] &&
        [ "$waited" -ge 4 ] && [ "$waited" -le 30 ]
}

# Runs these commands side by side, since each of them waits; all are to be refused.
all_refused() {
    waiting=
    while read -r words; do
        refused $words &
        waiting="$waiting $!"
    done
    for one in $waiting; do
        wait "$one" || is_wrong "one was not refused as it should be"
    done
}

# Waits, for half a minute at most, until the heap's main counts two updates more, of which one is certain then. The
# count is the eleventh word of the file, which is read here without its lock.
until_updated() {
    for _ in $(seq 3000); do
        [ "$(od -An -j80 -N8 -tu8 "$heap" | tr -d ' ')" -lt $((before + 2)) ] || return 0
        sleep 0.01
    done
    is_wrong "no update was done"
}

puts "$updates" >"$folder/script"
puts 80000 >"$folder/long"
echo peek >"$folder/short"
"$program" format "$heap" --order 6 || { echo "no heap was made" >&2; exit 1; }

echo "two runs of $updates updates each, begun at the same moment, $turns times:"
done_before=0
for turn in $(seq "$turns"); do
    "$program" run "$heap" "$folder/script" >"$folder/one" &
    first=$!
    "$program" run "$heap" "$folder/script" >"$folder/two"
    second_ended=$?
    wait "$first"
    first_ended=$?
    now=$(counted "$heap")
    echo "  turn $turn: status $first_ended, $(tail -n 1 "$folder/one"); status $second_ended, $(tail -n 1 "$folder/two"); now count $now"
    wanted=$done_before
    for ended in "$first_ended" "$second_ended"; do
        case $ended in
            0) wanted=$((wanted + updates)) ;;
            7) ;;
            *) is_wrong "a run ended with $ended" ;;
        esac
    done
    [ "$wanted" -gt "$done_before" ] || is_wrong "both runs were refused"
    [ "$now" = "$wanted" ] || is_wrong "the count is $now in place of $wanted"
    done_before=$now
done

echo "beside a run that waits for its script, which keeps nobody off:"
mkfifo "$folder/waiting" || exit 1
exec 3<>"$folder/waiting"
"$program" run "$heap" "$folder/waiting" >"$folder/one" 3>&- &
holder=$!
sleep 0.5
now=$(counted "$heap")
echo "  stat: count $now"
[ "$now" = "$done_before" ] || is_wrong "the count is $now in place of $done_before"
cat "$folder/script" >"$folder/waiting"
exec 3>&-
wait "$holder"
ended=$?
now=$(counted "$heap")
echo "  the run itself: status $ended, $(tail -n 1 "$folder/one")"
[ "$ended $now" = "0 $((done_before + updates))" ] || is_wrong "the run ended with $ended, and the count is $now"

echo "beside another program that has the heap, and one that has a file of no bytes:"
: >"$folder/empty"
exec 8<"$heap" 9<"$folder/empty"
flock 8 && flock 9 || exit 1
cp "$heap" "$folder/before"
all_refused <<END
run $heap $folder/short
stat $heap
format $heap --order 4
format $heap --order 16
upgrade $heap
format $folder/empty --order 4
END
cmp "$folder/before" "$heap" || is_wrong "the heap's file changed"
[ ! -s "$folder/empty" ] || is_wrong "the file of no bytes was lengthened"

echo "a stat that waits for the heap, which is let go meanwhile:"
counted "$heap" >"$folder/one" &
holder=$!
sleep 1
flock -u 8
wait "$holder"
exec 8<&- 9<&-
echo "  stat: count $(cat "$folder/one")"
[ "$(cat "$folder/one")" = "$now" ] || is_wrong "it did not come to the heap"

echo "a run that is killed among its updates:"
before=$(counted "$heap")
"$program" run "$heap" "$folder/long" "$folder/long" "$folder/long" >/dev/null &
holder=$!
until_updated
# It stands still while another waits for the lock in vain: on a quick disk its updates take less than these seconds.
kill -STOP "$holder"
refused stat "$heap" || is_wrong "stat was not refused"
kill -9 "$holder"
wait "$holder" 2>/dev/null
now=$(counted "$heap")
echo "  it is gone, and stat opens the heap: $((now - before)) updates were done"
[ "$now" -gt "$before" ] || is_wrong "no update was done before the kill"
"$program" run "$heap" "$folder/script" >"$folder/one"
ended=$?
echo "  the next run: status $ended, $(tail -n 1 "$folder/one")"
[ "$ended $(counted "$heap")" = "0 $((now + updates))" ] || is_wrong "the next run ended with $ended"

echo "a copy that is made under the lock:"
flock "$heap" cp "$heap" "$folder/copy"
"$program" stat "$folder/copy" >"$folder/two"
"$program" stat "$heap" | cmp - "$folder/two" && echo "  the copy and the heap show the same" || is_wrong "the copy is another heap"
exit "$wrong"
