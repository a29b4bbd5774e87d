#!/bin/sh
# Looks at a heap in a file that is write-protected, locked by others or damaged, and fails where
# romulus_dump tells another thing, or where the file changes. By strace it fails too where a file is opened
# to write, or written to or synced: that shows it for root as well, who may write a file that is protected.
# Then dump.py looks at heaps that a talk has open: at rest, at work, and stopped within an update; and kinds.py at heaps of
# each kind: new, full, torn and damaged.
# Stored runs are one process alone, so this is no part of `rt ci`. Usage, from any folder, once the programs
# are built: bench/dump.sh, or bench/dump.sh --short without heaps of order 16
cd "$(dirname "$0")/.." || exit 1
here=$PWD/bench
program=$PWD/crates/romulus_dump/out/romulus_dump
kept=$PWD/crates/romulus_dump/data/heap
[ -x "$program" ] || { echo "build it first: ./romulus_dump check heap"; exit 1; }
folder=$(mktemp -d) && cd "$folder" || exit 1
trap 'rm -rf "$folder"' EXIT
wrong=0

# What a command tells and how it ends are to be these: status, first line, command.
told() {
    status=$1 line=$2
    shift 2
    text=$("$@" 2>/dev/null)
    ended=$?
    [ "$ended: $(printf '%s\n' "$text" | head -1)" = "$status: $line" ] || {
        echo "WRONG: $*: status $ended, $text"
        wrong=1
    }
}

cp "$kept" heap
head -c 100 heap >short
: >empty
head -c 1848 heap >cut
chmod 400 heap
told 0 "region back: a batch is under way" "$program" check heap
told 0 "tx put 0 1 ; put 5 2" "$program" script heap
told 0 "" "$program" script heap --part 3
told 0 "tx put 0 1 ; put 5 2" "$program" script heap --from back
told 3 "refused: malformed at 4, rule ends" "$program" script heap --from main
told 0 "tx put 0 1 ; put 5 2" flock -s heap "$program" script heap
# Another program has it: it is read as it is committed, but for one region by itself.
told 0 "tx put 0 1 ; put 5 2" flock -x heap "$program" script heap
told 0 "region both: idle" flock -x heap "$program" check heap
told 7 "device failed" flock -x heap "$program" check heap --from back
told 7 "device failed" flock -x empty "$program" check empty
told 0 "copied order 4 count 2" "$program" copy heap new
told 7 "device failed" "$program" copy heap new
told 0 "copied order 4 count 2" flock -x heap "$program" copy heap other
told 0 "grown order 5 count 2" "$program" grow heap greater --order 5
told 7 "device failed" "$program" grow heap greater --order 5
told 7 "device failed" "$program" grow heap heap --order 5
told 3 "refused: has order 4" "$program" grow heap none --order 4
told 0 "grown order 5 count 2" flock -x heap "$program" grow heap greater2 --order 5
told 2 "not a command" "$program" grow heap none --order 5 --from main
cmp greater greater2 || wrong=1
told 0 "# TYPE romulus_order gauge" flock -x heap "$program" metrics heap
told 5 "" sh -c "exec '$program' metrics heap >/dev/full"
told 3 "refused: too small, need 8, have 0" "$program" copy empty none
told 7 "device failed" "$program" copy heap nowhere/new
told 0 "tx put 0 1 ; put 5 2" "$program" script new
cmp new other || wrong=1
[ "$(stat -c %a new)$(stat -c %a greater)" = 600600 ] && [ ! -e none ] || { echo "WRONG: a copy that others may read, or of no heap"; wrong=1; }
told 7 "device failed" "$program" check nothing
told 7 "device failed" "$program" check .
told 3 "refused: too small, need 8, have 0" "$program" check empty
told 3 "refused: too small, need 232, have 12" "$program" check short
told 3 "refused: too small, need 232, have 231" "$program" script cut
told 2 "not a command" "$program" --help
told 2 "not a command" "$program" check heap heap
told 5 "" sh -c "exec '$program' script heap >/dev/full"
told 5 "" sh -c "exec '$program' script heap >&-"
told 0 "" sh -c "exec '$program' check heap >&-"
cmp heap "$kept" || wrong=1

# A heap that a talk has open, and changes meanwhile.
if command -v python3 >/dev/null; then
    TMPDIR=$folder python3 "$here/dump.py" || wrong=1
    TMPDIR=$folder python3 "$here/kinds.py" "$@" || wrong=1
else
    echo "python3 is not here: no heap was read in use, and none of another kind"
    wrong=1
fi

# The calls of a command on files, but for those that make its output.
looks() {
    strace -f -o calls -e trace=file,desc "$program" "$@" >told 2>&1
    grep -E '"heap", O_RDONLY' calls >/dev/null || { echo "WRONG: $*: not opened to read"; wrong=1; }
    grep -E 'O_WRONLY|O_CREAT|O_TRUNC|"heap".*O_RDWR|pwrite|ftruncate|fallocate|fsync|fdatasync|sync_file_range' calls && {
        echo "WRONG: $*: it could write"
        wrong=1
    }
    grep -E '^[0-9]+ +write(v)?\(' calls | grep -vE 'write(v)?\([12],' && { echo "WRONG: $*: it writes"; wrong=1; }
}

if strace -o calls true 2>/dev/null; then
    looks check heap
    looks script heap
    looks metrics heap
else
    echo "strace is not here, or may not trace: that files are opened to read alone was not looked at"
    wrong=1
fi
[ "$wrong" = 0 ] && echo "all as it is to be"
exit "$wrong"
