#!/bin/sh
# Tells how often a heap that is in use can be read whole, by a model of the calls on its file (copy.c): in memory and
# on the disk of FOLDER, at four orders, with batch on batch and with pauses. It is a model, since a talk of real
# clients pauses more; `romulus_dump copy` itself is looked at by dump.sh.
# Usage, from any folder: bench/copy.sh [FOLDER]
folder=${1:-/tmp}
here=$(cd "$(dirname "$0")" && pwd)
command -v gcc >/dev/null || { echo "gcc is not here, so nothing was looked at"; exit 1; }
made=$(mktemp -d -p "$folder") && memory=$(mktemp -d -p /dev/shm) || exit 1
trap 'rm -rf "$made" "$memory"' EXIT
gcc -O2 -pthread -o "$made/copy" "$here/copy.c" || exit 1
for where in "$memory" "$made"; do
    echo "in $where, 40 tries a call"
    for order in 4 8 12 16; do
        for pause in 0 100 1000; do
            "$made/copy" "$where/heap" $order $pause 40 100 || exit 1
        done
    done
done
