#!/usr/bin/env bash
# Drills of 1, 4 and 16 callers: their five lines, the time, and by callgrind the instructions an item.
# Once `./romulus` has built the program.
cd "$(dirname "$0")/.." || exit 1
romulus=$PWD/crates/romulus/out/romulus
for callers in 1 4 16; do
    command time -f "%e s, %U s of it user time" "$romulus" drill 7 --callers $callers --calls 3000 || exit 1
done
for drill in "1 300" "4 300" "16 100"; do
    read -r callers calls <<<"$drill"
    refs=$(valgrind --tool=callgrind --callgrind-out-file=/dev/null "$romulus" drill 7 --callers "$callers" --calls "$calls" 2>&1 | sed -n 's/.*Collected : //p')
    echo "$callers callers, $calls items each: $((refs / (callers * calls))) instructions an item"
done
