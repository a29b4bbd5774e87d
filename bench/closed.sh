#!/bin/sh
# Runs both programs with each choice of the descriptors 0, 1 and 2 closed, and tells how they ended; then one
# whose standard output or error is the heap's own file, and one that may not make a file so long.
# It fails where the heap's file changed, or where a text was lost and the status does not say so.
# Usage, from any folder, once both programs are built: bench/closed.sh
built=crates/rom_bench/out/rom_bench
build="rt run, in crates/rom_bench"
. "$(dirname "$0")/begin.sh"
romulus=${program%rom_bench/out/rom_bench}romulus/out/romulus
[ -x "$romulus" ] || { echo "build the program first: ./romulus try examples/queue.txt" >&2; exit 1; }
made=$folder/made
heap=$folder/heap
script=$folder/script
head -c 1856 /dev/zero >"$made"
"$program" make "$made" 4 || { echo "no heap was made" >&2; exit 1; }
printf 'enq 9\ndeq\n' >"$script"

# Runs a command with the descriptors closed that the first word names.
closed() {
    case $1 in *0*) exec 0<&- ;; esac
    case $1 in *1*) exec 1>&- ;; esac
    case $1 in *2*) exec 2>&- ;; esac
    shift
    exec "$@"
}
# Where 1 is closed, these are the statuses that say so.
wrong=0
for which in none 0 1 2 01 02 12 012; do
    cp "$made" "$heap"
    (closed "$which" "$program" open "$heap") </dev/null >"$folder/text" 2>"$folder/errors"
    opened=$?
    (closed "$which" "$romulus" try "$script") </dev/null >>"$folder/text" 2>>"$folder/errors"
    tried=$?
    cmp -s "$made" "$heap" && file=unchanged || { file=CHANGED; wrong=1; }
    case $which in *1*) told="1 5" ;; *) told="0 0" ;; esac
    [ "$opened $tried" = "$told" ] || wrong=1
    echo "closed $which: rom_bench open ends with $opened, romulus try with $tried, $(wc -l <"$folder/text") lines of text; the heap's file is $file"
done

# looks STATUS TEXT ERROR: how a run ended whose text went to the file text, and what it told to errors.
looks() {
    echo "status $ended, $(head -n 1 "$folder/text"), $(head -n 1 "$folder/errors")"
    [ "$ended" = "$1" ] && [ "$(cat "$folder/text")" = "$2" ] && [ "$(cat "$folder/errors")" = "$3" ] && cmp -s "$made" "$heap" ||
        { echo "  that is not as it must be, or the heap CHANGED"; wrong=1; }
}
own="romulus: $heap: is this program's own standard output or standard error"
for words in "run $heap $script" "stat $heap" "format $heap --order 4"; do
    cp "$made" "$heap"
    : >"$folder/text"
    "$romulus" $words 1<>"$heap" 2>"$folder/errors"
    ended=$?
    printf '%s, its output in the heap: ' "${words%% *}"
    looks 7 "" "$own"
    cp "$made" "$heap"
    : >"$folder/errors"
    "$romulus" $words >"$folder/text" 2>>"$heap"
    ended=$?
    printf '%s, its errors in the heap: ' "${words%% *}"
    looks 7 "device failed" ""
done

# With the signal ignored, as the launcher has it, a write past the limit is a fault like another.
limited() {
    (trap '' XFSZ && ulimit -f 1 && exec "$romulus" "$@") >"$folder/text" 2>"$folder/errors"
    ended=$?
    printf '%s, where no file may be so long: ' "$1"
}
cp "$made" "$heap"
limited format "$heap" --order 16
looks 7 "device failed" "romulus: $heap: File too large (os error 27)"
rm "$heap"
"$romulus" format "$heap" --order 4 >"$folder/text"
limited run "$heap" "$script"
echo "status $ended, $(tail -n 3 "$folder/text" | tr '\n' ';')"
[ "$ended" = 7 ] && "$romulus" stat "$heap" | grep -qx "$(tail -n 1 "$folder/text")" || { echo "  that is not as it must be"; wrong=1; }
exit "$wrong"
