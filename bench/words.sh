#!/usr/bin/env bash
# Words that are no command, one that is not UTF-8 among them, are told so, with status 2, and how it is used on
# standard error; no file is made.
# A heap that stands stays as it is, and so does the time of its last change.
# Once `./romulus` has built the program.
cd "$(dirname "$0")/.." || exit 1
romulus=$PWD/crates/romulus/out/romulus
room=$(mktemp -d) || exit 1
cd "$room" || exit 1
"$romulus" format heap --order 4 >/dev/null && cp heap "$room.heap" && touch -d '2 hours ago' heap || exit 1
before=$(stat -c '%y %z' heap)
refused() {
    said=$("$romulus" "$@" 2>"$room.errors")
    [ $? = 2 ] && [ "$said" = "not a command" ] && [ "$(ls -A)" = heap ] &&
        [ "$(grep -v '^romulus: a word of the command line is not UTF-8$' "$room.errors" | wc -l)" = 6 ] &&
        [ "$(stat -c '%y %z' heap)" = "$before" ] && cmp -s heap "$room.heap" || { echo "wrong: $*"; exit 1; }
}
refused format $'\xff' --order 4
refused format heap --order $'\xff'
refused try $'\xff'
refused format heap --order 04
refused format heap
refused format heap --order 4 --order 4
refused stat heap --order 4
refused run heap
refused drill 1 --callers 17 --calls 1
refused
echo "ten refused, no file made or touched"
rm -r "$room" "$room.heap" "$room.errors"
