# Read by stat.sh, once `folder` is an empty folder. It leaves two plain Rust programs there that do what
# `romulus format` and `romulus stat` do with a file: `plain` reads and writes pieces of 4 KiB, and `whole`
# each region in one call. They also make the heap that is to be opened, and time programs.
cat >"$folder/plain.rs" <<'RUST'
use std::error::Error;
use std::fs::{self, File, OpenOptions};
use std::io::{self, Write};
use std::os::unix::fs::FileExt;
use std::process::{Command, ExitCode, Stdio};
use std::time::Instant;

type Done<T> = Result<T, Box<dyn Error>>;

const MAGIC: u64 = 0x524F_4D55_4C55_5331;
/// Words before the regions, and before a region's tree.
const HEADER: usize = 8;
const TREE: usize = 16;
/// The node of the bucket table in each tree.
const TABLE: usize = 16;
/// The most bytes of a read or a write.
const PIECE: usize = if option_env!("WHOLE").is_some() { 1 << 30 } else { 4096 };
const ROUNDS: usize = 21;

/// The sizes of a heap of an order, in words.
#[derive(Clone, Copy)]
struct Shape {
    order: u32,
}

impl Shape {
    fn of(order: u64) -> Option<Shape> {
        (4..=16).contains(&order).then_some(Shape { order: order as u32 })
    }

    fn units(self) -> usize {
        1 << self.order
    }

    fn blocks(self) -> usize {
        TREE + 2 * self.units()
    }

    fn region(self) -> usize {
        TREE + 6 * self.units()
    }

    fn need(self) -> usize {
        HEADER + 2 * self.region()
    }

    fn bucket(self, key: u64) -> usize {
        (key.wrapping_mul(0x9E37_79B9_7F4A_7C15) >> (66 - self.order)) as usize
    }

    /// Marks of the tree's nodes, of which the bucket table's alone is taken.
    fn table_marks(self) -> Vec<bool> {
        let mut taken = vec![false; 2 * self.units()];
        taken[TABLE] = true;
        taken
    }

    /// The words of the tree for the nodes that are taken, the units' first.
    fn tree(self, taken: &[bool]) -> Vec<u64> {
        let mut words = vec![0; 2 * self.units()];
        for node in self.units()..2 * self.units() {
            words[node] = u64::from(!taken[node]);
        }
        for level in 1..=self.order {
            let (first, free) = (self.units() >> level, u64::from(level));
            for node in first..2 * first {
                let (left, right) = (words[2 * node], words[2 * node + 1]);
                words[node] = match (taken[node], left == free && right == free) {
                    (true, _) => 0,
                    (false, true) => free + 1,
                    (false, false) => left.max(right),
                };
            }
        }
        words
    }

    /// A region without elements.
    fn new_region(self) -> Vec<u64> {
        let mut region = vec![0; self.region()];
        region[0] = 1;
        region[1] = 2;
        region[8] = self.blocks() as u64;
        region[TREE..self.blocks()].copy_from_slice(&self.tree(&self.table_marks()));
        region
    }

    /// The region that is left by 50,000 updates on a new heap, each of which puts in a new element:
    /// of five two go into the queue, one into the set and two into the map.
    fn full_region(self) -> Vec<u64> {
        let mut region = self.new_region();
        let mut taken = self.table_marks();
        let mut members = Vec::new();
        for number in 0..50_000 {
            let unit = self.units() / 16 + number;
            taken[self.units() + unit] = true;
            let node = self.blocks() + 4 * unit;
            let scattered = (number as u64).wrapping_mul(0xD134_2543_DE82_EF95);
            match number % 5 {
                0 | 1 => {
                    let link = if region[5] == 0 { 3 } else { region[4] as usize + 1 };
                    region[link] = node as u64;
                    region[4] = node as u64;
                    region[5] += 1;
                    region[node] = scattered;
                }
                2 => members.push((scattered, node)),
                _ => {
                    let mut link = self.blocks() + self.bucket(scattered);
                    while region[link] != 0 && region[region[link] as usize] < scattered {
                        link = region[link] as usize + 2;
                    }
                    let words = [scattered, !scattered, region[link], number as u64 + 1];
                    region[node..node + 4].copy_from_slice(&words);
                    region[link] = node as u64;
                    region[9] += 1;
                }
            }
        }
        members.sort();
        let mut link = 6;
        for (key, node) in &members {
            region[link] = *node as u64;
            region[*node] = *key;
            link = node + 1;
        }
        region[7] = members.len() as u64;
        region[2] = 50_000;
        region[TREE..self.blocks()].copy_from_slice(&self.tree(&taken));
        region
    }
}

fn word(bytes: &[u8]) -> u64 {
    u64::from_le_bytes(bytes.try_into().unwrap())
}

/// Writes these words from that place on.
fn write_words(file: &File, at: usize, words: &[u64]) -> io::Result<()> {
    let mut bytes = vec![0; PIECE.min(8 * words.len())];
    let mut place = 8 * at as u64;
    for piece in words.chunks(PIECE / 8) {
        let bytes = &mut bytes[..8 * piece.len()];
        for (to, word) in bytes.chunks_exact_mut(8).zip(piece) {
            to.copy_from_slice(&word.to_le_bytes());
        }
        file.write_all_at(bytes, place)?;
        place += bytes.len() as u64;
    }
    Ok(())
}

/// Reads so many words from that place on, and hands over the bytes of each piece, and how many words
/// came before them.
fn read_words(file: &File, at: usize, count: usize, mut take: impl FnMut(usize, &[u8]) -> Done<()>) -> Done<()> {
    let mut bytes = vec![0; PIECE.min(8 * count)];
    for before in (0..count).step_by(PIECE / 8) {
        let bytes = &mut bytes[..PIECE.min(8 * (count - before))];
        file.read_exact_at(bytes, 8 * (at + before) as u64)?;
        take(before, bytes)?;
    }
    Ok(())
}

/// Makes a heap with this region in a file, unless one stands there.
fn write_new(path: &str, shape: Shape, region: &[u64]) -> Done<()> {
    let file = OpenOptions::new().read(true).write(true).create(true).truncate(false).open(path)?;
    let need = 8 * shape.need() as u64;
    if file.metadata()?.len() < need {
        file.set_len(need)?;
    }
    file.sync_data()?;
    let mut first = [0; 8];
    file.read_exact_at(&mut first, 0)?;
    if word(&first) == MAGIC {
        return Err("already a heap".into());
    }
    write_words(&file, HEADER, region)?;
    write_words(&file, HEADER + shape.region(), region)?;
    write_words(&file, 1, &[1, u64::from(shape.order), 0, 0, 0, 0, 0])?;
    file.sync_data()?;
    write_words(&file, 0, &[MAGIC])?;
    file.sync_data()?;
    Ok(())
}

#[cold]
fn malformed(offset: usize, rule: &str) -> Box<dyn Error> {
    format!("malformed at {offset}, rule {rule}").into()
}

fn hold(holds: bool, offset: usize, rule: &str) -> Done<()> {
    if holds { Ok(()) } else { Err(malformed(offset, rule)) }
}

/// A region that is inspected, and the nodes that were reached.
struct Inspection<'a> {
    shape: Shape,
    region: &'a [u64],
    taken: Vec<bool>,
}

impl Inspection<'_> {
    /// The node that a link leads to, which is marked.
    fn follow(&mut self, link: usize) -> Done<usize> {
        let node = self.region[link] as usize;
        let (units, words) = (self.shape.units(), node.wrapping_sub(self.shape.blocks()));
        let is_unit = words % 4 == 0 && (units / 16..units).contains(&(words / 4));
        hold(is_unit && !self.taken[units + words / 4], link, "link")?;
        self.taken[units + words / 4] = true;
        Ok(node)
    }

    fn hold_zero(&self, offset: usize, rule: &str) -> Done<()> {
        hold(self.region[offset] == 0, offset, rule)
    }

    fn root(&self) -> Done<()> {
        hold(self.region[0] == 1, 0, "root")?;
        hold(self.region[1] == 2, 1, "root")?;
        hold(self.region[2] <= 1 << 62, 2, "root")?;
        hold(self.region[8] == self.shape.blocks() as u64, 8, "root")?;
        (10..=16).try_for_each(|offset| self.hold_zero(offset, "root"))
    }

    fn queue(&mut self) -> Done<()> {
        let (mut link, mut last, mut count) = (3, 0, 0);
        while self.region[link] != 0 {
            last = self.follow(link)?;
            self.hold_zero(last + 2, "pad")?;
            self.hold_zero(last + 3, "pad")?;
            link = last + 1;
            count += 1;
        }
        hold(self.region[4] == last as u64, 4, "ends")?;
        hold(self.region[5] == count, 5, "count")
    }

    fn set(&mut self) -> Done<()> {
        let (mut link, mut before, mut count) = (6, None, 0);
        while self.region[link] != 0 {
            let node = self.follow(link)?;
            self.hold_zero(node + 2, "pad")?;
            self.hold_zero(node + 3, "pad")?;
            let key = Some(self.region[node]);
            hold(key > before, node, "order")?;
            before = key;
            link = node + 1;
            count += 1;
        }
        hold(self.region[7] == count, 7, "count")
    }

    /// The sum of the values.
    fn map(&mut self) -> Done<u128> {
        let (mut count, mut total) = (0, 0);
        for bucket in 0..self.shape.units() / 4 {
            let (mut link, mut before) = (self.shape.blocks() + bucket, None);
            while self.region[link] != 0 {
                let node = self.follow(link)?;
                hold(self.region[node + 3] <= self.region[2], node + 3, "stamp")?;
                let key = self.region[node];
                hold(self.shape.bucket(key) == bucket, node, "bucket")?;
                hold(Some(key) > before, node, "order")?;
                before = Some(key);
                total += u128::from(self.region[node + 1]);
                count += 1;
                link = node + 2;
            }
        }
        hold(self.region[9] == count, 9, "count")?;
        Ok(total)
    }

    fn tree(&self) -> Done<()> {
        let words = self.shape.tree(&self.taken);
        let there = &self.region[TREE..self.shape.blocks()];
        match words[1..].iter().zip(&there[1..]).position(|(word, there)| word != there) {
            Some(before) => Err(malformed(TREE + 1 + before, "tree")),
            None => Ok(()),
        }
    }
}

/// The shape of the heap that begins with these words, which is at rest.
fn shape_of(header: &[u8], len: u64) -> Done<Shape> {
    let words: Vec<u64> = header.chunks_exact(8).map(word).collect();
    if words[0] != MAGIC || words[1] != 1 {
        return Err("not a heap, or one of another version".into());
    }
    let shape = Shape::of(words[2]).ok_or("order")?;
    if len < 8 * shape.need() as u64 {
        return Err("too small".into());
    }
    if words[3] != 0 {
        return Err("not at rest: only heaps that are at rest are opened here".into());
    }
    Ok(shape)
}

/// Opens the heap in a file, and gives its five lines.
fn stat(path: &str) -> Done<String> {
    let file = OpenOptions::new().read(true).write(true).open(path)?;
    let len = file.metadata()?.len();
    let mut header = [0; 8 * HEADER];
    file.read_exact_at(&mut header, 0)?;
    let shape = shape_of(&header, len)?;
    file.sync_data()?;
    let mut main: Vec<u64> = Vec::with_capacity(shape.region());
    read_words(&file, HEADER, shape.region(), |_, bytes| {
        main.extend(bytes.chunks_exact(8).map(word));
        Ok(())
    })?;
    read_words(&file, HEADER + shape.region(), shape.region(), |before, bytes| {
        let differs = bytes.chunks_exact(8).zip(&main[before..]).position(|(back, main)| word(back) != *main);
        match differs {
            Some(index) => Err(format!("twins differ at {}", before + index).into()),
            None => Ok(()),
        }
    })?;
    let mut inspection = Inspection { shape, region: &main, taken: shape.table_marks() };
    inspection.root()?;
    inspection.queue()?;
    inspection.set()?;
    let total = inspection.map()?;
    inspection.tree()?;
    let (order, count, queue, set, map) = (shape.order, main[2], main[5], main[7], main[9]);
    let free = (15 << (order - 4)) - queue - set - map;
    Ok(format!("order {order}\ncount {count}\nqueue {queue} set {set} map {map}\nfree {free}\ntotal {total}\n"))
}

/// Runs a command of each of these programs in turn, and gives a line for each: the best time and the
/// middle one, in milliseconds. The file of a `format` is a new one each time.
fn time(programs: &[&str], name: &str, path: &str) -> Done<String> {
    let words: &[&str] = if name == "stat" { &[name, path] } else { &[name, path, "--order", "16"] };
    let mut times = vec![Vec::new(); programs.len()];
    for _ in 0..ROUNDS {
        for (program, times) in programs.iter().zip(&mut times) {
            if name == "format" {
                fs::remove_file(path)?;
            }
            let start = Instant::now();
            let status = Command::new(program).args(words).stdout(Stdio::null()).status()?;
            times.push(start.elapsed().as_secs_f64() * 1000.0);
            if !status.success() {
                return Err(format!("{program} {name}: {status}").into());
            }
        }
    }
    let mut text = String::new();
    for times in &mut times {
        times.sort_by(f64::total_cmp);
        text += &format!("{:.2} {:.2}\n", times[0], times[ROUNDS / 2]);
    }
    Ok(text)
}

fn done(words: &[&str]) -> Done<String> {
    match words {
        ["stat", path] => stat(path),
        ["format", path, "--order", order] => {
            let shape = Shape::of(order.parse()?).ok_or("order")?;
            write_new(path, shape, &shape.new_region())?;
            Ok(format!("formatted order {order}\n"))
        }
        ["fill", path] => {
            let shape = Shape { order: 16 };
            write_new(path, shape, &shape.full_region())?;
            Ok(String::new())
        }
        ["time", name, path, programs @ ..] => time(programs, name, path),
        _ => Err("not a command".into()),
    }
}

fn main() -> io::Result<ExitCode> {
    let words: Vec<String> = std::env::args().skip(1).collect();
    let words: Vec<&str> = words.iter().map(String::as_str).collect();
    let (text, status) = match done(&words) {
        Ok(text) => (text, 0),
        Err(why) => (format!("refused: {why}\n"), 3),
    };
    io::stdout().write_all(text.as_bytes())?;
    Ok(ExitCode::from(status))
}
RUST
rustc --edition 2021 -O -o "$folder/plain" "$folder/plain.rs" || exit 1
WHOLE=1 rustc --edition 2021 -O -o "$folder/whole" "$folder/plain.rs" || exit 1
