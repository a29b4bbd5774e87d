#!/bin/sh
# Cuts the power below real file systems, and lets their disk fail, while the program works on a heap there: under
# `run` with one caller and four, under `format` and `upgrade`; and in what comes next where a write failed under
# `run`, under `upgrade` and under `format`. A disk in memory, served by FUSE, notes each write and flush; a loop
# device stands on it, and xfs or ext4 on that. A cut leaves what was flushed, and of the later writes all, none,
# some, or some of their sectors. Each disk that a cut may leave is mounted; a reader that shares no code with the
# program (power/heap.py) looks at the heap there, and `stat` opens it. A file system that keeps what was synced and
# nothing else, names too, is looked at as well.
# It fails where a heap is not as the texts told it, has a part of a batch, or is none. With --controls the program
# lacks one call in turn, which a library leaves out (power/calls.c): then it fails where that is not caught.
# It needs root, FUSE, loop devices, a C compiler, Python 3.9, and the tools of xfs and ext4. It takes a minute or two.
# Usage, from any folder, once the program is built: bench/power.sh [--controls] [--kinds xfs,ext4,btrfs,ext4-1k]
# [--only "doubt, xfs"] [--moments N] [--trials N] [--seed N]
PATH=$PATH:/usr/sbin:/sbin
for tool in python3 cc mkfs.ext4 mkfs.xfs; do
    command -v "$tool" >/dev/null || { echo "$tool is not here, so nothing was looked at"; exit 1; }
done
[ "$(id -u)" -eq 0 ] || { echo "only root can mount, so nothing was looked at"; exit 1; }
for device in /dev/fuse /dev/loop-control; do
    [ -e "$device" ] || { echo "$device is not here, so nothing was looked at"; exit 1; }
done
built=crates/romulus/out/romulus
build="./romulus try examples/queue.txt"
[ ! -w /dev/shm ] || export TMPDIR="${TMPDIR:-/dev/shm}"
. "$(dirname "$0")/begin.sh"
here=$(cd "$(dirname "$0")" && pwd)
export TMPDIR="$folder" PYTHONDONTWRITEBYTECODE=1
cc -O1 -shared -fPIC -o "$folder/calls.so" "$here/power/calls.c" -ldl || exit 1
python3 "$here/power/power.py" --program "$program" --calls "$folder/calls.so" "$@"
