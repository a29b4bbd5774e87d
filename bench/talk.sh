#!/bin/sh
# Talks to `romulus_talk`, one client at its standard streams or up to sixteen at named pipes, and tells a row for
# each thing that is looked at: the two examples; that a talk tells what `run` tells; the syncs that clients share
# where a sync takes 20 milliseconds; kills, behind which each update that was told is to be there; clients that
# are killed, read no more or never come; closed outputs, no input, a refused heap; that an idle talk makes no system
# call, and that none takes memory behind the first reply; and cuts of the power under a talk, by power/. It fails
# where a row does. Times, instructions and syncs of a quick disk are told alone.
# It needs Python 3.9 and strace, and without --short also valgrind and what power.sh needs. The short form leaves
# out two rows where strace is not here, or may not trace.
# Usage, from any folder, once the programs are built: bench/talk.sh [--short] [ROW..], the rows by their names
PATH=$PATH:/usr/sbin:/sbin
built=crates/romulus/out/romulus
build="./romulus try examples/queue.txt"
here=$(cd "$(dirname "$0")" && pwd)
. "$here/begin.sh"
talk=${program%romulus/out/romulus}romulus_talk/out/romulus_talk
[ -x "$talk" ] || { echo "build the program first: ./romulus_talk heap" >&2; exit 1; }
command -v python3 >/dev/null || { echo "python3 is not here, so nothing was looked at"; exit 1; }
strace -o "$folder/calls" true 2>/dev/null || export UNTRACED=1
export TMPDIR="$folder" PYTHONDONTWRITEBYTECODE=1
python3 "$here/talk.py" "$program" "$talk" "$@"
