#!/bin/sh
# Times the same durable updates, by one caller, by one caller in transactions, and by sixteen, and reads, by
# one caller and by four, through `romulus`, LMDB, SQLite, RocksDB, PostgreSQL and Redis, in turns, and prints
# each peer's time over that of `romulus` in the same turn. Then it counts how often each waits for the device,
# with syncs that take 5 milliseconds longer. A peer that is not here is skipped; from Debian: apt-get install
# gcc strace liblmdb-dev libsqlite3-dev librocksdb-dev libpq-dev postgresql redis-server. All of it runs on this
# machine, in a folder of its own below FOLDER, on whose device the syncs are made; servers listen on a socket in
# that folder alone, and PostgreSQL, which does not run as root, runs as `nobody` then. Each command that is timed
# has a limit of two minutes, and each peer; what makes the heap and starts the servers has none, nor has `romulus`
# where its waits are counted.
#
# What is not alike: the time of `romulus` is that of its process, with the reading of scripts and the printing,
# less that of a run of a line a script; a peer's begins once all its callers have opened or connected. LMDB,
# SQLite and RocksDB are called in one process with the callers, PostgreSQL and Redis through a socket. Sixteen
# updates are two groups of eight here, and one transaction there.
# Usage, from any folder, once the program is built: bench/peers.sh [TURNS [UPDATES [READS [FOLDER]]]]
turns=${1:-5}
updates=${2:-1000}
reads=${3:-100000}
TMPDIR=${4:-${TMPDIR:-/tmp}}
export TMPDIR
built=crates/romulus/out/romulus
build="./romulus try examples/queue.txt"
here=$(cd "$(dirname "$0")" && pwd)
. "$here/begin.sh"
command -v gcc >/dev/null || { echo "gcc is not here, so nothing was looked at"; exit 1; }
servers=
# shellcheck disable=SC2086
trap '[ -z "$servers" ] || { kill $servers 2>/dev/null; wait $servers 2>/dev/null; }; rm -rf "$folder"' EXIT
trap 'exit 130' HUP INT PIPE TERM
[ "$updates" -ge 1000 ] && [ "$reads" -ge 100000 ] ||
    echo "with fewer than 1,000 updates or 100,000 reads the start of the program hides the rest" >&2
[ "$reads" -le 100000 ] || { echo "a script has no room for so many reads" >&2; exit 1; }

# A script of so many updates or reads, over keys 0 to 999, by the caller with this number. Values are new in
# each turn, so that none is put where it stands already. Eight updates of a group are a line.
turn=0
script() {
    awk -v kind="$1" -v count="$2" -v at="$((7919 * $3))" -v base="$((turn * 1000000))" 'BEGIN {
        for (i = 0; i < count; i++) {
            at = (at + 7) % 1000
            if (kind == "get") print "get", at
            else if (kind == "put") print "put", at, base + i
            else printf "%sput %d %d%s", i % 8 ? "" : "tx ", at, base + i, i % 8 < 7 ? " ; " : "\n"
        }
    }'
}

# The seconds of a command.
seconds() {
    before=$(date +%s%N)
    timeout 120 "$@" >"$folder/text" || { cat "$folder/text" >&2; exit 1; }
    after=$(date +%s%N)
    awk -v time="$((after - before))" 'BEGIN { printf "%.6f\n", time / 1e9 }'
}

# Of `romulus`: a run of so many scripts, less the time of one whose scripts have a line each.
romulus() {
    all=
    [ "$1" = group ] && line=8 || line=1
    for count in "$3" "$line"; do
        scripts=
        i=0
        while [ "$i" -lt "$2" ]; do
            i=$((i + 1))
            script "$1" "$count" "$i" >"$folder/$1-$count-$i"
            scripts="$scripts $folder/$1-$count-$i"
        done
        # shellcheck disable=SC2086
        all="$all $(seconds "$program" run "$folder/heap" $scripts)" || exit 1
    done
    echo "$all" | awk '{ printf "%.6f\n", $1 - $2 }'
}

# Of a peer: what its program tells.
peer() {
    timeout 120 "$folder/peer-$1" "$folder/$1" "$2" "$3" "$4"
}

# Becomes a command, run by somebody who may run PostgreSQL.
plainly() {
    if [ "$(id -u)" = 0 ]; then
        exec setpriv --reuid=nobody --regid=nogroup --clear-groups "$@"
    else
        exec "$@"
    fi
}

# Starts the server of Redis or PostgreSQL, if it is one, with its socket in its own folder, or fails.
serve() {
    place=$folder/$1
    case $1 in
        Redis)
            command -v redis-server >/dev/null || return
            redis-server --port 0 --unixsocket "$place/socket" --dir "$place" --save '' --appendonly yes --appendfsync always >"$folder/log" 2>&1 &
            Redis=$! socket=$place/socket
            servers="$servers $Redis"
            ;;
        PostgreSQL)
            bin=$(pg_config --bindir) && [ -x "$bin/initdb" ] && [ -x "$bin/postgres" ] || return
            [ "$(id -u)" != 0 ] || { chmod 711 "$folder" && chown nobody "$place"; } || return
            (plainly "$bin/initdb" -D "$place/data" -U peer -A trust) >"$folder/log" 2>&1 || return
            plainly "$bin/postgres" -D "$place/data" -k "$place" -c listen_addresses= -c synchronous_commit=on >"$folder/log" 2>&1 &
            PostgreSQL=$! socket=$place/.s.PGSQL.5432
            servers="$servers $PostgreSQL"
            ;;
        *) return 0 ;;
    esac
    for _ in $(seq 100); do
        [ ! -S "$socket" ] || return 0
        sleep 0.1
    done
    return 1
}

# The version of a peer's package.
version() {
    case $1 in
        LMDB) package=liblmdb0 ;;
        SQLite) package=libsqlite3-0 ;;
        RocksDB) package=librocksdb-dev ;;
        PostgreSQL) "$bin/postgres" --version | awk '{ print $3 }' && return ;;
        Redis) redis-server --version | sed 's/.* v=\([^ ]*\).*/\1/' && return ;;
    esac
    dpkg-query -W -f '${Version}\n' "$package" 2>/dev/null || echo "of an unknown version"
}

one() {
    case $1 in
        romulus) romulus "$2" "$3" "$4" ;;
        *) peer "$1" "$2" "$3" "$4" ;;
    esac
}

names=romulus
echo "on $(date -u '+%-d %B %Y'), $(nproc) processors, $(uname -sr), load $(cut -d' ' -f1-3 /proc/loadavg)"
echo "the folder is on $(df --output=source,fstype "$folder" | tail -n 1)"
"$program" format "$folder/heap" --order 12 >/dev/null || exit 1
script put 1000 0 >"$folder/first"
"$program" run "$folder/heap" "$folder/first" >/dev/null || exit 1
echo "romulus, a heap of order 12"

for name in LMDB:-llmdb SQLite:-lsqlite3 RocksDB:-lrocksdb PostgreSQL:-lpq Redis:; do
    link=${name#*:}
    name=${name%%:*}
    define=$(echo "$name" | tr a-z A-Z)
    # shellcheck disable=SC2086
    if ! gcc -O2 -D"$define" -o "$folder/peer-$name" "$here/peers.c" $link -lpthread 2>"$folder/log"; then
        echo "$name cannot be built here: skipped"
        continue
    fi
    mkdir "$folder/$name"
    serve "$name" || { echo "$name is not here, or cannot be started: skipped"; continue; }
    for _ in 1 2 3 4 5; do
        filled=yes
        peer "$name" fill 1 1 2>"$folder/log" && break
        filled=
        sleep 1
    done
    [ "$filled" ] || { cat "$folder/log"; echo "$name cannot be filled: skipped"; continue; }
    echo "$name $(version "$name")"
    names="$names $name"
done
[ "$names" != romulus ] || { echo "none of the peers is here, so nothing was compared"; exit 1; }

# Each turn: every kind through every peer; the peers by turns come first.
: >"$folder/times"
while [ "$turn" -lt "$turns" ]; do
    turn=$((turn + 1))
    for kind in "put 1 $updates" "group 1 $((updates / 4 * 16))" "put 16 $((updates / 4))" "get 1 $reads" "get 4 $reads"; do
        for name in $names; do
            # shellcheck disable=SC2086
            time=$(one "$name" $kind) || { echo "$name failed at $kind" >&2; exit 1; }
            echo "$turn $name $kind $time" >>"$folder/times"
        done
    done
    names="${names#* } ${names%% *}"
done

# The middle of the turns (of `romulus` one line a script was taken off): microseconds each, how many a second, and the time over that of `romulus` in the same turn, with the least and the most.
awk '
    { key = $3 " " $4; each = $5 - ($2 == "romulus") * ($3 == "group" ? 8 : 1); time[$1, $2, key] = $6 / ($4 * each); names[$2] = 1; if ($1 > turns) turns = $1 }
    function sorted(n,  i, j, x) { for (i = 2; i <= n; i++) { x = list[i]; for (j = i - 1; j > 0 && list[j] > x; j--) list[j + 1] = list[j]; list[j + 1] = x } }
    END {
        kinds = split("put 1,group 1,put 16,get 1,get 4", order, ",")
        peers = split("romulus,LMDB,SQLite,RocksDB,PostgreSQL,Redis", all, ",")
        for (k = 1; k <= kinds; k++) for (p = 1; p <= peers; p++) {
            key = order[k]; name = all[p]
            if (!(name in names)) continue
            for (t = 1; t <= turns; t++) list[t] = time[t, name, key]
            sorted(turns); middle = list[int((turns + 1) / 2)]
            for (t = 1; t <= turns; t++) list[t] = time[t, name, key] / time[t, "romulus", key]
            sorted(turns)
            split(key, part, " ")
            printf "%s by %d, %s: %.2f microseconds each, %d a second; %.2f times romulus (%.2f to %.2f)\n", part[1], part[2], name, middle * 1e6, 1 / middle, list[int((turns + 1) / 2)], list[1], list[turns]
        }
    }' "$folder/times"

# How often a peer waits for the device, an update: its syncs, and its writes to files that sync each, less those
# of a run of no update. Each sync takes 5 milliseconds longer here, as on a slow disk, since that decides how many
# callers come meanwhile and share it. A write to a file that syncs each takes no longer: of the peers LMDB alone
# has such a file, and nobody shares its waits. What a server syncs in the background is counted too.
turn=$((turn + 1))
command -v strace >/dev/null || { echo "strace is not here, so no syncs were counted"; exit 1; }

# Becomes strace of a command, or, with -p, of servers that run already.
slowly() {
    exec strace -f -e trace=openat,fsync,fdatasync,pwrite64,pwritev -e inject=fsync,fdatasync:delay_enter=5000 -o "$folder/calls" "$@"
}

# Looks at a server and its processes while its peer does something.
attach() {
    server=$1
    shift
    attached=
    for process in "$server" $(pgrep -P "$server"); do
        attached="$attached -p $process"
    done
    # shellcheck disable=SC2086
    slowly $attached 2>/dev/null &
    tracer=$!
    sleep 1
    peer "$@"
    answered=$?
    kill "$tracer"
    wait "$tracer" 2>/dev/null
    return "$answered"
}

# The waits of a whole run: a peer, a kind, callers, and how many updates each.
waits() {
    : >"$folder/calls"
    case $1 in
        romulus)
            scripts=
            for i in $(seq "$3"); do
                script "$2" "$4" "$i" >"$folder/traced-$i"
                scripts="$scripts $folder/traced-$i"
            done
            # shellcheck disable=SC2086
            (slowly "$program" run "$folder/heap" $scripts)
            ;;
        Redis) attach "$Redis" "$@" ;;
        PostgreSQL) attach "$PostgreSQL" "$@" ;;
        *) (slowly timeout 120 "$folder/peer-$1" "$folder/$1" "$2" "$3" "$4") ;;
    esac >"$folder/text" || { echo "$1 failed under strace" >&2; exit 1; }
    awk '/openat\(.*O_DSYNC/ { synced[$NF] = 1 }
        match($0, /(fsync|fdatasync)\(/) { n++ }
        match($0, /pwrite(64|v)?\([0-9]+/) { fd = substr($0, RSTART, RLENGTH); sub(/.*\(/, "", fd); n += fd in synced }
        END { print n + 0 }' "$folder/calls"
}

for kind in "put 1 100" "group 1 1600" "put 16 100"; do
    # shellcheck disable=SC2086
    set -- $kind
    for name in $names; do
        all=$(waits "$name" "$@") && start=$(waits "$name" "$1" "$2" 0) || exit 1
        awk -v what="$1 by $2, $name" -v waits="$((all - start))" -v updates="$(($2 * $3))" 'BEGIN {
            printf "%s: %d waits for the device in %d updates, %.3f each; %.2f milliseconds where a wait takes 5\n", what, waits, updates, waits / updates, 5 * waits / updates
        }'
    done
done
