#!/bin/sh
# Runs the program with so many random command lines, drawn from a seed: words of the command line, words
# that are nearly such, and names of files of each kind (heaps, a damaged one, scripts, one of one line too
# many, one without bytes, a folder, none). It fails where a run ends by a signal, or with a status above
# 8, or in more than a minute; where status 2 does not come exactly for the words that are no command, by
# a reader in awk that shares no code with the program; where a refused run prints another thing than one
# line, or one of another status; or where a file was made or touched with status 2, 4 or 8.
# It needs the `stat` and `timeout` of GNU's coreutils.
# Usage, from any folder, once the program is built: bench/lines.sh [LINES [SEED]]
lines=${1:-1000}
seed=${2:-1}
built=crates/romulus/out/romulus
build="./romulus try examples/queue.txt"
. "$(dirname "$0")/begin.sh"
export LC_ALL=C
work=$folder/work
kept=$folder/kept

# The folder that each run begins with.
mkdir "$kept" && cd "$kept" || exit 1
printf 'enq 9\ndeq\nput 1 2\nget 1\nmove 1 1 1\nlen\n' >script
printf 'add 1\nadd 01\n\nrem 1\nunknown\n' >other
: >empty
mkdir directory
awk 'BEGIN { for (i = 0; i < 131073; i++) print "len" }' >long
printf 'put 5 7' >-x
cp ./-x ./-
for name in heap great; do
    case $name in heap) order=4 ;; great) order=6 ;; esac
    "$program" format "$name" --order "$order" >"$folder/text" || { cat "$folder/text" >&2; exit 1; }
done
cp heap damaged
printf '\007' | dd of=damaged bs=1 seek=64 conv=notrunc 2>/dev/null
head -c 1856 /dev/zero >zeros

# Command lines, one a line: whether it is a command (by the reader below), and its words, quoted.
awk -v seed="$seed" -v lines="$lines" '
    function any(most) { state = state * 16807 % 2147483647; return int(state / 2147483647 * most) + 1 }
    function one_of(list, parts) { return parts[any(split(list, parts, " "))] }
    function file() {
        return one_of("heap heap heap great damaged script script other empty long directory missing zeros - -x ./- a/b")
    }
    function script() { return one_of("script script script other empty long missing directory heap -") }
    function number() {
        return one_of("0 1 3 4 4 5 8 10 16 17 04 +4 4.0 0x4 9999 10000 10001 18446744073709551615 18446744073709551616 99999999999999999999999 four - -4 ~")
    }
    function add(word) { words[++many] = word == "~" ? "" : word }
    # An option in either form, its value good for the most part.
    function option(name, good, value) {
        value = any(5) > 1 ? good : number()
        if (any(2) == 1) add("--" name "=" (value == "~" ? "" : value))
        else { add("--" name); add(value) }
    }
    # A command, for the most part well written.
    function draw(  i, which) {
        which = one_of("try run format stat drill try run format stat drill wrong random")
        if (which == "wrong") add(one_of("TRY Run formats sta help --help --version -h ~ - -- tryy -V"))
        else if (which != "random") add(which)
        if (which == "try") for (i = any(3); i > 0; i--) add(script())
        if (which == "run") { add(file()); for (i = any(3); i > 0; i--) add(script()) }
        if (which == "run" && any(12) == 1) for (i = any(16); i > 0; i--) add("script")
        if (which == "stat") add(file())
        if (which == "format") {
            if (any(2) == 1) { add(file()); option("order", any(13) + 3) }
            else { option("order", any(13) + 3); add(file()) }
        }
        if (which == "drill") {
            if (any(2) == 1) add(number())
            option("callers", any(16))
            option("calls", any(300))
            if (any(2) == 1) add(number())
        }
        if (which == "wrong" || which == "random") for (i = any(5) - 1; i > 0; i--) stray()
        if (any(4) == 1) mangle()
    }
    function stray() {
        add(one_of("try run format stat drill heap script missing -- - -x --order --order=4 --order= --orders=4 --calls --calls=3 --callers=2 --callers ~ 4 1 --x --=4 -o"))
    }
    # One word more, one less, two exchanged, or the rest made plain.
    function mangle(  at, how, i, kept) {
        how = any(4)
        at = any(many)
        if (how == 1) stray()
        if (how == 2) { for (i = at; i < many; i++) words[i] = words[i + 1]; many-- }
        if (how == 3) { kept = words[at]; words[at] = words[many]; words[many] = kept }
        if (how == 4) { for (i = many; i >= at; i--) words[i + 1] = words[i]; words[at] = "--"; many++ }
    }
    # A number without sign and leading zero, from least to most; both are compared as digits.
    function is_number(text, least, most) {
        if (text !~ /^(0|[1-9][0-9]*)$/) return 0
        return !less(text, least "") && !less(most "", text)
    }
    function less(a, b) { return length(a) != length(b) ? length(a) < length(b) : ("d" a) < ("d" b) }
    # Whether the words are a command, by docs/FORMATS.md.
    function is_command(  i, word, open, name, value, at, plain, given, asked, options, parts) {
        if (many == 0) return 0
        open = 1
        plain = options = 0
        split("", given)
        for (i = 2; i <= many; i++) {
            word = words[i]
            if (!open || word == "-" || substr(word, 1, 1) != "-") { if (word == "") return 0; plain++; plains[plain] = word; continue }
            if (word == "--") { open = 0; continue }
            if (substr(word, 1, 2) != "--") return 0
            at = index(word, "=")
            if (at) { name = substr(word, 3, at - 3); value = substr(word, at + 1) }
            else {
                name = substr(word, 3)
                if (i == many || substr(words[i + 1], 1, 1) == "-") return 0
                value = words[++i]
            }
            if (name == "" || value == "" || name in given) return 0
            given[name] = value
            options++
        }
        if (words[1] == "try") return options == 0 && plain >= 1 && plain <= 16
        if (words[1] == "run") return options == 0 && plain >= 2 && plain <= 17
        if (words[1] == "stat") return options == 0 && plain == 1
        if (words[1] == "format") return options == 1 && plain == 1 && is_number(given["order"], 4, 16)
        if (words[1] == "drill") return options == 2 && plain == 1 && is_number(plains[1], 0, "18446744073709551615") && is_number(given["callers"], 1, 16) && is_number(given["calls"], 1, 10000)
        return 0
    }
    BEGIN {
        state = seed * 7919 % 2147483646 + 1
        for (line = 0; line < lines; line++) {
            many = 0
            draw()
            text = is_command() ? "command" : "none"
            for (i = 1; i <= many; i++) text = text " \047" words[i] "\047"
            print text
        }
    }' >"$folder/lines"

# What a look from outside tells of the folder: names, lengths, and times to the nanosecond.
look() {
    (cd "$work" && stat -c '%n %s %y %z' . ./* | grep -v '^\./directory ')
}
fresh() {
    rm -rf "$work"
    cp -r "$kept" "$work" || exit 1
}
is_wrong() {
    echo "WRONG: $*: $words: status $status, $(head -c 200 "$folder/text")"
    wrong=1
}

# The line that a status is told by, where nothing is run.
line_of() {
    case $1 in
        2) echo '^not a command$' ;;
        3) echo '^refused: ' ;;
        4) echo '^script [0-9]* failed$' ;;
        6) echo '^no memory$' ;;
        7) echo '^device failed$' ;;
        8) echo '^script [0-9]* too long$' ;;
    esac
}
# Whether standard error has the usage of six lines with status 2, and causes with 4 and 7. With 8 it may have
# those of later scripts, and with 0 that a file is longer than the heap that was made in it.
told() {
    case $1 in
        2) [ "$(wc -l <"$folder/errors")" -eq 6 ] && grep -q '^usage: romulus ' "$folder/errors" ;;
        4 | 7) [ -s "$folder/errors" ] && ! grep -qvE '^romulus: .*: (no such file|permission denied|is a folder|Not a directory .*)$' "$folder/errors" ;;
        8) ;;
        *) ! grep -qvE '^romulus: .*: longer than this heap, so not begun anew: ' "$folder/errors" ;;
    esac
}
[ -s "$folder/lines" ] || { echo "no lines were drawn" >&2; exit 1; }
wrong=0
fresh
while read -r kind words; do
    look >"$folder/before"
    eval "set -- $words"
    (cd "$work" && exec timeout 60 "$program" "$@") >"$folder/text" 2>"$folder/errors" </dev/null
    status=$?
    echo "$status" >>"$folder/statuses"
    look >"$folder/after"
    cmp -s "$folder/before" "$folder/after" && touched=no || touched=yes
    [ "$status" -le 8 ] || is_wrong "no status"
    case $kind$status in command2 | none[!2]*) is_wrong "a $kind" ;; esac
    case $status in
        [234678]) [ "$(wc -l <"$folder/text")" -eq 1 ] && grep -q "$(line_of "$status")" "$folder/text" || is_wrong "another line" ;;
        [01]) [ -s "$folder/text" ] || is_wrong "no text" ;;
    esac
    told "$status" || is_wrong "on standard error: $(head -c 200 "$folder/errors")"
    case $status$touched in 2yes | 4yes | 8yes) is_wrong "a file was touched" ;; esac
    [ "$touched" = no ] || fresh
done <"$folder/lines"
sort "$folder/statuses" | uniq -c | awk '{ printf "%s%d with status %d", (NR > 1 ? ", " : ""), $1, $2 } END { print "" }'
exit "$wrong"
