#!/bin/sh
# Tells the largest function of each program that is built, and fails where one has more than 40 KB of code.
# A compiler that makes such a function of many that were called once takes minutes over it: `play_heap` had
# 179 KB, and took 505 of the 524 seconds that the compiler worked.
# It looks at the programs themselves, which have the names of their functions.
# Usage, from any folder, once the programs are built: bench/size.sh [BYTES]
most=${1:-40960}
cd "$(dirname "$0")/../crates" || exit 1
command -v nm >/dev/null || { echo "nm is not here, so no size was seen"; exit 1; }
wrong=0
for program in romulus romulus_blob romulus_order romulus_ledger romulus_replica romulus_dump romulus_talk bank jobs tally rom_bench; do
    made=$program/out/$program
    [ -f "$made" ] || { echo "build it first: cd crates/$program && rt run"; wrong=1; continue; }
    largest=$(nm -S -t d --defined-only "$made" | awk '$3 ~ /^[tTwW]$/ && $2 + 0 > most { most = $2 + 0; name = $4 } END { print most + 0, name }')
    echo "$program: $largest"
    [ "${largest%% *}" -gt 0 ] && [ "${largest%% *}" -le "$most" ] || { echo "WRONG: more than $most bytes, or no function at all"; wrong=1; }
done
exit $wrong
