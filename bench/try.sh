#!/bin/sh
# Counts the instructions of `romulus try` on scripts of 1,048,576 bytes, or of 131,072 lines where these
# are fewer bytes, by callgrind, beside those of a plain Rust program that does the same with the standard
# library's queue, set and map. The two must print the same. Then the pages that the system gave to each,
# which no instruction of theirs counts.
# With a folder's name it leaves callgrind's files and the scripts there.
# Usage, from any folder, once the program is built: bench/try.sh [FOLDER]
for tool in valgrind rustc; do
    command -v "$tool" >/dev/null || { echo "$tool is not here, so nothing was looked at"; exit 1; }
done
built=crates/romulus/out/romulus
build="./romulus try examples/queue.txt"
. "$(dirname "$0")/begin.sh"
kept=${1:-$folder}

# The plain program: one pass, one block of 4 KiB before the output, no history.
cat >"$folder/plain.rs" <<'RUST'
use std::collections::{BTreeSet, HashMap, VecDeque};
use std::io::{self, BufWriter, Write};
use std::process::ExitCode;

#[derive(Default)]
struct Heap {
    queue: VecDeque<u64>,
    set: BTreeSet<u64>,
    map: HashMap<u64, u64>,
    count: u64,
}

fn number(word: &[u8]) -> Option<u64> {
    if matches!(word, [b'+', ..] | [b'0', _, ..]) {
        return None;
    }
    std::str::from_utf8(word).ok()?.parse().ok()
}

/// The first word, and the numbers behind it.
fn phrase<'a>(line: &'a [u8], numbers: &'a mut [u64; 3]) -> Option<(&'a [u8], &'a [u64])> {
    let mut words = line.split(|byte| *byte == b' ');
    let name = words.next()?;
    let mut count = 0;
    for word in words {
        *numbers.get_mut(count)? = number(word)?;
        count += 1;
    }
    Some((name, &numbers[..count]))
}

impl Heap {
    fn has_room(&self) -> bool {
        self.queue.len() + self.set.len() + self.map.len() < 15
    }

    fn shift(&mut self, from: u64, to: u64, amount: u64) -> (&'static str, Option<u64>) {
        let (Some(&rich), Some(&poor)) = (self.map.get(&from), self.map.get(&to)) else {
            return ("absent", None);
        };
        if rich < amount {
            return ("short", Some(rich));
        }
        if from != to {
            let Some(more) = poor.checked_add(amount) else {
                return ("over", None);
            };
            self.map.insert(from, rich - amount);
            self.map.insert(to, more);
        }
        ("moved", None)
    }

    fn update(&mut self, name: &[u8], numbers: &[u64]) -> Option<(&'static str, Option<u64>)> {
        Some(match (name, numbers) {
            (b"enq", &[value]) => {
                if self.has_room() {
                    self.queue.push_back(value);
                    ("queued", None)
                } else {
                    ("full", None)
                }
            }
            (b"deq", []) => match self.queue.pop_front() {
                Some(value) => ("head", Some(value)),
                None => ("empty", None),
            },
            (b"add", &[key]) => {
                if self.set.contains(&key) {
                    ("present", None)
                } else if self.has_room() {
                    self.set.insert(key);
                    ("added", None)
                } else {
                    ("full", None)
                }
            }
            (b"rem", [key]) => {
                if self.set.remove(key) {
                    ("removed", None)
                } else {
                    ("absent", None)
                }
            }
            (b"put", &[key, value]) => {
                let room = self.has_room();
                match self.map.get_mut(&key) {
                    Some(place) => ("was", Some(std::mem::replace(place, value))),
                    None if room => {
                        self.map.insert(key, value);
                        ("none", None)
                    }
                    None => ("full", None),
                }
            }
            (b"del", [key]) => match self.map.remove(key) {
                Some(value) => ("was", Some(value)),
                None => ("none", None),
            },
            (b"move", &[from, to, amount]) => self.shift(from, to, amount),
            _ => return None,
        })
    }

    /// Tells what a line is told, and whether it was a command.
    fn line(&mut self, line: &[u8], out: &mut impl Write) -> io::Result<bool> {
        let mut room = [0; 3];
        let Some((name, numbers)) = phrase(line, &mut room) else {
            writeln!(out, "unread")?;
            return Ok(false);
        };
        let count = self.count;
        if let Some((word, told)) = self.update(name, numbers) {
            self.count += 1;
            match told {
                Some(value) => writeln!(out, "{word} {value} @{count}")?,
                None => writeln!(out, "{word} @{count}")?,
            }
            return Ok(true);
        }
        match (name, numbers) {
            (b"has", [key]) if self.set.contains(key) => writeln!(out, "yes #{count}")?,
            (b"has", [_]) => writeln!(out, "no #{count}")?,
            (b"get", [key]) => match self.map.get(key) {
                Some(value) => writeln!(out, "value {value} #{count}")?,
                None => writeln!(out, "none #{count}")?,
            },
            (b"peek", []) => match self.queue.front() {
                Some(value) => writeln!(out, "head {value} #{count}")?,
                None => writeln!(out, "empty #{count}")?,
            },
            (b"len", []) => {
                let (queue, set, map) = (self.queue.len(), self.set.len(), self.map.len());
                writeln!(out, "queue {queue} set {set} map {map} #{count}")?
            }
            (b"total", []) => {
                let total: u128 = self.map.values().map(|value| u128::from(*value)).sum();
                writeln!(out, "total {total} #{count}")?
            }
            _ => {
                writeln!(out, "unread")?;
                return Ok(false);
            }
        }
        Ok(true)
    }
}

fn main() -> io::Result<ExitCode> {
    let script = std::fs::read(std::env::args().nth(1).unwrap())?;
    let mut out = BufWriter::with_capacity(4096, io::stdout().lock());
    let mut heap = Heap::default();
    let mut all_read = true;
    writeln!(out, "caller 1")?;
    for line in script.split_inclusive(|byte| *byte == b'\n') {
        let line = line.strip_suffix(b"\n").unwrap_or(line);
        all_read &= heap.line(line.strip_suffix(b"\r").unwrap_or(line), &mut out)?;
    }
    writeln!(out, "count {}", heap.count)?;
    out.flush()?;
    Ok(ExitCode::from(if all_read { 0 } else { 1 }))
}
RUST
rustc --edition 2021 -O -o "$folder/plain" "$folder/plain.rs" || exit 1

# The lines of a script of that kind, without end.
lines() {
    awk -v kind="$1" '
    function any(most) { state = state * 16807 % 2147483647; return state % most }
    BEGIN {
        state = 1
        unread = split(",word,,get,put 5,enq 007,,two words of no command", words, ",")
        split("enq deq add rem put del move has get peek len total", name, " ")
        split("1 0 1 1 2 1 3 1 1 0 0 0", numbers, " ")
        # 12 of the 24 keys that are asked for are there.
        if (kind == "get") for (i = 0; i < 24; i += 2) print "put", i * 40009, i * 7919
        for (;;) {
            if (kind == "unread") line = words[any(unread) + 1]
            if (kind == "get") line = "get " any(24) * 40009
            if (kind == "put-few") line = "put " any(12) * 40009 " " any(1000000)
            if (kind == "put-many") line = "put " any(1000000) " " any(1000000)
            if (kind == "mix") {
                which = any(12) + 1
                line = name[which]
                for (i = 0; i < numbers[which]; i++) line = line " " any(9)
            }
            print line
        }
    }'
}

# The pages that the system gave to a command.
pages() {
    [ -x /usr/bin/time ] || { echo "?"; return; }
    /usr/bin/time -q -f %R -o "$folder/pages" "$@" >/dev/null
    tail -n 1 "$folder/pages"
}

# The instructions of a command, whose text goes into the file `$folder/text`.
instructions() {
    out=$1
    shift
    valgrind --tool=callgrind --callgrind-out-file="$out" "$@" >"$folder/text" 2>"$folder/log"
    [ $? -le 1 ] || { cat "$folder/log" >&2; exit 1; }
    awk '/^summary:/ { print $2 }' "$out"
}
wrong=0
for kind in unread get put-few put-many mix; do
    script=$kept/$kind
    lines "$kind" 2>/dev/null | head -n 131072 | head -c 1048576 >"$script"
    ours=$(instructions "$kept/$kind.romulus" "$program" try "$script") || exit 1
    mv "$folder/text" "$folder/ours"
    plain=$(instructions "$kept/$kind.plain" "$folder/plain" "$script") || exit 1
    cmp -s "$folder/ours" "$folder/text" && same="the same text" || { same="ANOTHER TEXT"; wrong=1; }
    pages="$(pages "$program" try "$script"), the plain program $(pages "$folder/plain" "$script")"
    awk -v kind="$kind" -v ours="$ours" -v plain="$plain" -v same="$same" -v pages="$pages" 'END {
        printf "%s: %d lines, %.0f instructions a line, the plain program %.0f: %.2f of its speed; pages %s; %s\n",
            kind, NR, ours / NR, plain / NR, plain / ours, pages, same }' "$script"
done
exit "$wrong"
