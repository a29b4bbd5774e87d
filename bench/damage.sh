#!/bin/sh
# Changes each of the 232 words of a heap of order 4, one at a time: to 0, to its value plus 1, to
# 2^64 - 1, and to another word of the heap; a word of a region in main alone, in back alone, and in both
# alike. The heap has two numbers in its queue, two in its set and two keys in its map. Each time `stat`,
# and on another copy `run` of a script that tells the whole state, is to refuse the heap by name, with
# status 3, or to tell the same state. Where a word that the state is made of (the count, a number, a key
# or a value) is changed in both copies alike, nothing can know, and then it is to be told with that word or
# refused by a rule of its place (the count has two, any other one). A run that takes longer than 20 seconds
# or ends by a signal is wrong. With STATE 1 or 2 the heap says that its main, or its back, is to be made
# again: then no word of that region may matter.
# It needs the `od` and `timeout` of GNU's coreutils.
# Usage, from any folder, once the program is built: bench/damage.sh [STATE]
state=${1:-0}
built=crates/romulus/out/romulus
build="./romulus try examples/queue.txt"
. "$(dirname "$0")/begin.sh"
export LC_ALL=C
heap=$folder/heap
made=$folder/made
printf 'enq 9\nenq 8\nadd 3\nadd 7\nput 1 5\nput 2 6\n' >"$folder/first"
printf 'len\npeek\nhas 3\nhas 7\nhas 4\nhas 8\nget 1\nget 2\nget 3\ntotal\ndeq\ndeq\n' >"$folder/reads"
"$program" format "$made" --order 4 >"$folder/text" && "$program" run "$made" "$folder/first" >"$folder/text" ||
    { cat "$folder/text" >&2; exit 1; }
printf "\\00$state" | dd of="$made" bs=1 seek=24 conv=notrunc 2>/dev/null

# Each change: its place, the second place or -, the bytes for printf, and the number that they are.
od -An -v -tx1 -w8 "$made" | awk '
    function digit(c) { return index("0123456789abcdef", c) - 1 }
    { for (i = 1; i <= 8; i++) byte[NR - 1, i] = digit(substr($i, 1, 1)) * 16 + digit(substr($i, 2, 1)) }
    function show(place, second,  i, value, text, differs) {
        value = 0
        for (i = 8; i >= 1; i--) value = value * 256 + new[i]
        for (i = 1; i <= 8; i++) { text = text sprintf("\\%03o", new[i]); if (new[i] != byte[place, i]) differs = 1 }
        if (new[8] == 255) value = "18446744073709551615"
        if (differs) print place, second, text, value
    }
    function change(place, second,  i, other) {
        for (i = 1; i <= 8; i++) new[i] = 0
        show(place, second)
        for (i = 1; i <= 8; i++) new[i] = byte[place, i]
        for (i = 1; i <= 8; i++) { new[i] = (new[i] + 1) % 256; if (new[i]) break }
        show(place, second)
        for (i = 1; i <= 8; i++) new[i] = 255
        show(place, second)
        other = 8 + (place * 37 + 11) % 112
        for (i = 1; i <= 8; i++) new[i] = byte[other, i]
        show(place, second)
    }
    END {
        for (place = 0; place < 232; place++) change(place, "-")
        for (place = 8; place < 120; place++) change(place, place + 112)
    }' >"$folder/changes"

# What is to be told, of a number at an offset of both regions, or of no number where none is changed that
# the state is made of; and by which rule the heap may be refused then.
expected() {
    awk -v offset="$1" -v number="$2" -v command="$3" '
        function less(a, b) { return length(a) != length(b) ? length(a) < length(b) : ("d" a) < ("d" b) }
        BEGIN {
            count = 6; q1 = 9; q2 = 8; k1 = 1; v1 = 5; k2 = 2; v2 = 6; s1 = 3; s2 = 7
            if (offset == 2) count = number
            if (offset == 52) q1 = number
            if (offset == 56) q2 = number
            if (offset == 60) s1 = number
            if (offset == 64) s2 = number
            if (offset == 68) k1 = number
            if (offset == 69) v1 = number
            if (offset == 72) k2 = number
            if (offset == 73) v2 = number
            # At most one of the two is great, and such a sum is 2^64 - 1 and 5 or 6 more.
            if (v1 "" == "18446744073709551615") total = "18446744073709551621"
            else if (v2 "" == "18446744073709551615") total = "18446744073709551620"
            else total = v1 + v2
            if (command == "stat") { printf "order 4\ncount %s\nqueue 2 set 2 map 2\nfree 9\ntotal %s\n", count, total; exit }
            print "caller 1\nqueue 2 set 2 map 2 #" count "\nhead " q1 " #" count
            split("3 7 4 8", asked, " ")
            for (i = 1; i <= 4; i++) print (asked[i] "" == s1 "" || asked[i] "" == s2 "" ? "yes" : "no") " #" count
            for (i = 1; i <= 3; i++) print (i "" == k1 "" ? "value " v1 : i "" == k2 "" ? "value " v2 : "none") " #" count
            print "total " total " #" count
            print "head " q1 " @" count
            print "head " q2 " @" count + 1
            print "count " count + 2
        }'
}
# Which rule may refuse a number that the state is made of. The count is refused as too great, or as less
# than the stamp of a key.
rule_of() {
    case $1 in
        2) echo '(root|stamp)' ;;
        60 | 64) echo order ;;
        68 | 72) echo bucket ;;
        *) echo none ;;
    esac
}
expected - - stat >"$folder/same-stat"
expected - - run >"$folder/same-run"
is_wrong() {
    echo "WRONG: $1 with the words at $place and $second being $number: status $status: $(head -c 300 "$folder/text")"
    wrong=1
}
[ -s "$folder/changes" ] || { echo "no changes were made" >&2; exit 1; }
wrong=0
while read -r place second bytes number; do
    for command in stat run; do
        cp "$made" "$heap"
        for at in "$place" "$second"; do
            [ "$at" = - ] || printf "$bytes" | dd of="$heap" bs=8 seek="$at" conv=notrunc 2>/dev/null
        done
        case $command in stat) set -- ;; run) set -- "$folder/reads" ;; esac
        timeout 20 "$program" "$command" "$heap" "$@" >"$folder/text"
        status=$?
        offset=-
        [ "$second" = - ] || offset=$((place - 8))
        [ "$second$state" != -1 ] || [ "$place" -lt 120 ] || offset=$((place - 120))
        [ "$second$state" != -2 ] || [ "$place" -lt 8 ] || [ "$place" -ge 120 ] || offset=$((place - 8))
        # No word of a region that is made again may matter.
        must=no
        [ "$second$state" != -1 ] || [ "$place" -lt 8 ] || [ "$place" -ge 120 ] || must=yes
        [ "$second$state" != -2 ] || [ "$place" -lt 120 ] || must=yes
        if [ "$status" -eq 0 ] && cmp -s "$folder/text" "$folder/same-$command"; then
            echo "$command same" >>"$folder/outcomes"
        elif [ "$status" -eq 3 ] && [ "$must" = no ] && [ "$(wc -l <"$folder/text")" -eq 1 ] && grep -q '^refused: ' "$folder/text"; then
            case $offset in
                52 | 56 | 69 | 73) is_wrong "$command refused" ;;
                2 | 60 | 64 | 68 | 72) grep -Eq "^refused: malformed at [0-9]*, rule $(rule_of "$offset")\$" "$folder/text" || is_wrong "$command refused by another rule" ;;
            esac
            echo "$command refused" >>"$folder/outcomes"
        elif [ "$status" -eq 0 ] && [ "$offset" != - ] && expected "$offset" "$number" "$command" | cmp -s "$folder/text" -; then
            echo "$command told with that word" >>"$folder/outcomes"
        else
            is_wrong "$command"
        fi
    done
done <"$folder/changes"
echo "state $state, $(wc -l <"$folder/changes") changes:"
sort "$folder/outcomes" | uniq -c
exit "$wrong"
