//! An unproved twin of `romulus try` and `romulus drill`, beside which the proved program's time is measured.
//!
//! It keeps a queue, a set and a map as two sides of words that all callers share, and the same two once more as
//! the words of a device in memory. One caller at a time, who has the lock, does what all have posted as one batch.
//! Readers go to the side that is whole, by two versions and an indicator for each caller and version. The places of
//! the words, the allocator, the chains, the steps of a pass and the waiting are those of docs/FORMATS.md and
//! docs/PROTOCOL.md. It has no groups, no `fresh` and no faults, and it trusts the words that it finds.
use std::io::{self, Write};
use std::sync::atomic::{AtomicU64, Ordering, Ordering::Relaxed, Ordering::SeqCst};
use std::sync::{Mutex, MutexGuard, OnceLock};
use std::thread::{self, Thread};
use std::time::Duration;

/// The order of steps on words that side, indicators, turns and the lock keep apart. With `SeqCst`, as each step of
/// the proved program is, the twin made 0.88 to 0.90 of its rate.
const APART: Ordering = Relaxed;
// Words of a region.
const COUNT: u64 = 2;
const QUEUE: u64 = 3; // head, tail, length
const SET: u64 = 6; // head, size
const TABLE: u64 = 8;
const MAP: u64 = 9; // size
const TREE: u64 = 16;
// Words of the table: a caller's indicators from FIRST on, and in its slot what it posts and is told.
const FIRST: usize = 14;
const SLOT: usize = 64;
const PLACE: usize = 42;
const REPLY: usize = 43;

/// The commands, and how many numbers each has: seven updates, five queries.
const COMMANDS: [(&[u8], usize); 12] = [
    (b"enq", 1),
    (b"deq", 0),
    (b"add", 1),
    (b"rem", 1),
    (b"put", 2),
    (b"del", 1),
    (b"move", 3),
    (b"has", 1),
    (b"get", 1),
    (b"peek", 0),
    (b"len", 0),
    (b"total", 0),
];
/// What a query was told, or that the line is no command, follows the thirteen replies.
const TOLD: [&str; 22] = [
    "queued", "full", "head ", "empty", "added", "present", "removed", "absent", "was ", "none", "moved",
    "short ", "over", "yes", "no", "value ", "none", "head ", "empty", "queue ", "total ", "unread",
];

/// A command by its place in `COMMANDS` and its numbers; 12 is none.
#[derive(Clone, Copy)]
struct Line {
    kind: u8,
    numbers: [u64; 3],
}

/// What a line was told, by its place in `TOLD`, its numbers, and its place or front.
#[derive(Clone, Copy)]
struct Told {
    kind: u8,
    numbers: [u64; 3],
    at: u64,
}

/// Words that can be read, and stored to.
trait Space {
    fn load(&self, at: u64) -> u64;
    fn store(&mut self, at: u64, word: u64);
}

fn blocks_at(order: u32) -> u64 {
    TREE + (2 << order)
}

/// Takes the first free unit of the tree.
fn take<S: Space>(s: &mut S, order: u32) -> Option<u64> {
    if s.load(TREE + 1) == 0 {
        return None;
    }
    let mut node = 1;
    for _ in 0..order {
        node = if s.load(TREE + 2 * node) > 0 {
            2 * node
        } else {
            2 * node + 1
        };
    }
    set_node(s, order, node, 0);
    Some(blocks_at(order) + 4 * (node - (1 << order)))
}

fn give<S: Space>(s: &mut S, order: u32, at: u64) {
    set_node(s, order, (1 << order) + (at - blocks_at(order)) / 4, 1);
}

fn set_node<S: Space>(s: &mut S, order: u32, mut node: u64, mut word: u64) {
    s.store(TREE + node, word);
    for level in 0..order {
        let other = s.load(TREE + (node ^ 1));
        let free = level as u64 + 1;
        let above = if word == free && other == free {
            free + 1
        } else {
            word.max(other)
        };
        node /= 2;
        if s.load(TREE + node) == above {
            return;
        }
        s.store(TREE + node, above);
        word = above;
    }
}

/// In a chain that begins at the word `link`: the word that leads to the first key not below this one, and that node.
fn walk<S: Space>(s: &S, mut link: u64, key: u64, next: u64) -> (u64, u64) {
    loop {
        let node = s.load(link);
        if node == 0 || s.load(node) >= key {
            return (link, node);
        }
        link = node + next;
    }
}

fn bucket(order: u32, key: u64) -> u64 {
    blocks_at(order) + (key.wrapping_mul(0x9E37_79B9_7F4A_7C15) >> (64 - (order - 2)))
}

fn key_node<S: Space>(s: &S, order: u32, key: u64) -> Option<u64> {
    let (_, node) = walk(s, bucket(order, key), key, 2);
    (node != 0 && s.load(node) == key).then_some(node)
}

fn shift<S: Space>(s: &mut S, order: u32, [from, to, amount]: [u64; 3], stamp: u64) -> (u64, u64) {
    let (Some(rich), Some(poor)) = (key_node(s, order, from), key_node(s, order, to)) else {
        return (7, 0);
    };
    let (have, other) = (s.load(rich + 1), s.load(poor + 1));
    if have < amount {
        return (11, have);
    }
    if from != to {
        let Some(more) = other.checked_add(amount) else {
            return (12, 0);
        };
        for (node, value) in [(rich, have - amount), (poor, more)] {
            s.store(node + 1, value);
            s.store(node + 3, stamp);
        }
    }
    (10, 0)
}

/// Puts a key before a node to which a word leads: in a node of its own, which has these words.
fn put_in<S: Space>(s: &mut S, order: u32, link: u64, size: u64, words: &[u64]) -> bool {
    let Some(new) = take(s, order) else { return false };
    for (i, word) in words.iter().enumerate() {
        s.store(new + i as u64, *word);
    }
    s.store(link, new);
    s.store(size, s.load(size) + 1);
    true
}

fn take_out<S: Space>(s: &mut S, order: u32, link: u64, size: u64, node: u64, next: u64) {
    s.store(link, s.load(node + next));
    s.store(size, s.load(size) - 1);
    give(s, order, node);
}

/// Does an update, and gives its reply by its place in `TOLD`, with its number.
fn apply<S: Space>(s: &mut S, order: u32, [kind, a, b, c]: [u64; 4]) -> (u64, u64) {
    let stamp = s.load(COUNT) + 1;
    s.store(COUNT, stamp);
    match kind {
        0 => {
            let tail = s.load(QUEUE + 1);
            if !put_in(
                s,
                order,
                if tail == 0 { QUEUE } else { tail + 1 },
                QUEUE + 2,
                &[a, 0],
            ) {
                return (1, 0);
            }
            let new = s.load(if tail == 0 { QUEUE } else { tail + 1 });
            s.store(QUEUE + 1, new);
            (0, 0)
        }
        1 => {
            let head = s.load(QUEUE);
            if head == 0 {
                return (3, 0);
            }
            let value = s.load(head);
            if s.load(head + 1) == 0 {
                s.store(QUEUE + 1, 0);
            }
            take_out(s, order, QUEUE, QUEUE + 2, head, 1);
            (2, value)
        }
        2 | 3 => {
            let (link, node) = walk(s, SET, a, 1);
            let there = node != 0 && s.load(node) == a;
            match (kind, there) {
                (2, true) => (5, 0),
                (2, false) => (
                    if put_in(s, order, link, SET + 1, &[a, node]) {
                        4
                    } else {
                        1
                    },
                    0,
                ),
                (_, true) => {
                    take_out(s, order, link, SET + 1, node, 1);
                    (6, 0)
                }
                (_, false) => (7, 0),
            }
        }
        4 | 5 => {
            let (link, node) = walk(s, bucket(order, a), a, 2);
            if node == 0 || s.load(node) != a {
                let full = kind == 4 && !put_in(s, order, link, MAP, &[a, b, node, stamp]);
                return (if full { 1 } else { 9 }, 0);
            }
            let was = s.load(node + 1);
            if kind == 4 {
                s.store(node + 1, b);
                s.store(node + 3, stamp);
            } else {
                take_out(s, order, link, MAP, node, 2);
            }
            (8, was)
        }
        _ => shift(s, order, [a, b, c], stamp),
    }
}

/// Answers a query: the answer's place in `TOLD`, and its numbers.
#[inline(always)]
fn answer<S: Space>(s: &S, order: u32, kind: u8, key: u64) -> (u8, [u64; 3]) {
    match kind {
        7 => {
            let (_, node) = walk(s, SET, key, 1);
            (if node != 0 && s.load(node) == key { 13 } else { 14 }, [0; 3])
        }
        8 => key_node(s, order, key).map_or((16, [0; 3]), |node| (15, [s.load(node + 1), 0, 0])),
        9 => match s.load(QUEUE) {
            0 => (18, [0; 3]),
            head => (17, [s.load(head), 0, 0]),
        },
        10 => (19, [s.load(QUEUE + 2), s.load(SET + 1), s.load(MAP)]),
        _ => {
            let mut total = 0u128;
            for i in 0..1 << (order - 2) {
                let mut node = s.load(blocks_at(order) + i);
                while node != 0 {
                    total += u128::from(s.load(node + 1));
                    node = s.load(node + 2);
                }
            }
            (20, [(total >> 64) as u64, total as u64, 0])
        }
    }
}

/// What all callers share.
struct Shared {
    words: Vec<AtomicU64>,
    order: u32,
    callers: usize,
    main: usize,
    back: usize,
    sleepers: Vec<OnceLock<Thread>>,
}

/// What stands behind the lock.
struct Core {
    version: usize,
    log: Vec<(u64, u64)>,
    found: Vec<(usize, [u64; 4])>,
    answers: Vec<(usize, u64, (u64, u64))>,
    // The words of a device: its state, main and back.
    state: u64,
    device: [Vec<u64>; 2],
}

struct Main<'a> {
    shared: &'a Shared,
    log: &'a mut Vec<(u64, u64)>,
}
impl Space for Main<'_> {
    fn load(&self, at: u64) -> u64 {
        self.shared.words[self.shared.main + at as usize].load(APART)
    }
    fn store(&mut self, at: u64, word: u64) {
        hold(self.log, at);
        self.shared.words[self.shared.main + at as usize].store(word, APART);
    }
}
struct Side<'a> {
    shared: &'a Shared,
    first: usize,
}
impl Space for Side<'_> {
    fn load(&self, at: u64) -> u64 {
        self.shared.words[self.first + at as usize].load(APART)
    }
    fn store(&mut self, _: u64, _: u64) {
        unreachable!()
    }
}

/// Adds a place to ranges that rise and do not touch.
fn hold(log: &mut Vec<(u64, u64)>, at: u64) {
    let i = match log.last() {
        Some(&(start, end)) if at >= start => {
            if end < at {
                log.len()
            } else {
                log.len() - 1
            }
        }
        _ => log.partition_point(|range| range.1 < at),
    };
    match log.get_mut(i) {
        Some(near) if at + 1 >= near.0 => {
            if at < near.0 {
                near.0 = at;
            } else if at >= near.1 {
                near.1 = at + 1;
                if i + 1 < log.len() && log[i + 1].0 == at + 1 {
                    log[i].1 = log.remove(i + 1).1;
                }
            }
        }
        _ => log.insert(i, (at, at + 1)),
    }
}

impl Shared {
    fn indicator(&self, caller: usize, version: usize) -> &AtomicU64 {
        &self.words[FIRST + 8 * caller + version]
    }
    fn slot(&self, caller: usize, j: usize) -> &AtomicU64 {
        &self.words[FIRST + 8 * self.callers + SLOT * caller + j]
    }
    fn is_posted(&self, caller: usize) -> bool {
        self.slot(caller, 0).load(SeqCst) % 2 == 1
    }

    #[inline(always)]
    fn read(&self, caller: usize, line: &Line) -> Told {
        let version = self.words[1].load(SeqCst) as usize;
        self.indicator(caller, version).store(1, SeqCst);
        let first = if self.words[0].load(SeqCst) == 0 {
            self.main
        } else {
            self.back
        };
        let side = Side { shared: self, first };
        let front = side.load(COUNT);
        let (kind, numbers) = answer(&side, self.order, line.kind, line.numbers[0]);
        self.indicator(caller, version).store(0, Ordering::Release);
        Told {
            kind,
            numbers,
            at: front,
        }
    }

    fn wait_for_all(&self, version: usize) {
        for caller in 0..self.callers {
            let mut step = 0;
            while self.indicator(caller, version).load(SeqCst) != 0 {
                if step <= 6 {
                    (0..1 << step).for_each(|_| std::hint::spin_loop())
                } else {
                    thread::yield_now()
                }
                step += 1;
            }
        }
    }

    fn settle(&self, core: &mut Core) {
        self.wait_for_all(1 - core.version);
        core.version = 1 - core.version;
        self.words[1].store(core.version as u64, SeqCst);
        self.wait_for_all(1 - core.version);
    }

    /// Brings the words that were stored to from main to a side of the device.
    fn persist(&self, core: &mut Core, side: usize) {
        for &(start, end) in &core.log {
            for at in start as usize..end as usize {
                core.device[side][at] = self.words[self.main + at].load(APART);
            }
        }
    }

    fn pass(&self, me: usize, core: &mut Core) {
        core.found.clear();
        for caller in 0..self.callers {
            if self.is_posted(caller) {
                let mut call = [0; 4];
                for j in 0..self.slot(caller, 1).load(APART) as usize {
                    call[j] = self.slot(caller, 2 + j).load(APART);
                }
                core.found.push((caller, call));
            }
        }
        if core.found.is_empty() {
            return;
        }
        core.state = 1;
        core.answers.clear();
        let mut main = Main {
            shared: self,
            log: &mut core.log,
        };
        for (caller, call) in &core.found {
            let place = main.load(COUNT);
            core.answers
                .push((*caller, place, apply(&mut main, self.order, *call)));
        }
        self.persist(core, 0);
        core.state = 2;
        self.words[0].store(0, SeqCst);
        for (caller, place, (reply, number)) in &core.answers {
            let words = [1 + u64::from(matches!(reply, 2 | 8 | 11)), *reply, *number];
            for j in 0..=words[0] as usize {
                self.slot(*caller, REPLY + j).store(words[j], APART);
            }
            self.slot(*caller, PLACE).store(*place, APART);
            self.slot(*caller, 0).fetch_add(1, SeqCst);
            if *caller != me {
                self.wake(*caller);
            }
        }
        self.settle(core);
        for &(start, end) in &core.log {
            for at in start as usize..end as usize {
                self.words[self.back + at].store(self.words[self.main + at].load(APART), APART);
            }
        }
        self.persist(core, 1);
        core.state = 0;
        core.log.clear();
        self.words[0].store(1, SeqCst);
        self.settle(core);
    }

    fn wake(&self, caller: usize) {
        if let Some(thread) = self.sleepers[caller].get() {
            thread.unpark();
        }
    }

    fn update(&self, caller: usize, line: &Line, lock: &Mutex<Core>) -> Told {
        let ([a, b, c], count) = (line.numbers, COMMANDS[line.kind as usize].1);
        self.slot(caller, 1).store(1 + count as u64, APART);
        for (j, word) in [u64::from(line.kind), a, b, c]
            .into_iter()
            .enumerate()
            .take(1 + count)
        {
            self.slot(caller, 2 + j).store(word, APART);
        }
        self.slot(caller, 0).fetch_add(1, SeqCst);
        let mut looked = 0;
        while self.is_posted(caller) {
            match lock.try_lock() {
                Ok(core) => self.look_or_pass(caller, core),
                Err(_) if looked < 64 => {
                    for _ in 0..20 {
                        if !self.is_posted(caller) {
                            break;
                        }
                        thread::yield_now();
                    }
                    looked += 1;
                    if self.is_posted(caller) {
                        thread::park_timeout(Duration::from_millis(looked));
                    }
                }
                Err(_) => self.look_or_pass(caller, lock.lock().unwrap()),
            }
        }
        let [kind, number, at] = [REPLY + 1, REPLY + 2, PLACE].map(|j| self.slot(caller, j).load(APART));
        Told {
            kind: kind as u8,
            numbers: [number, 0, 0],
            at,
        }
    }

    fn look_or_pass(&self, caller: usize, mut core: MutexGuard<Core>) {
        if self.is_posted(caller) {
            self.pass(caller, &mut core);
            drop(core);
            if let Some(next) = (0..self.callers).find(|other| self.is_posted(*other)) {
                self.wake(next);
            }
        }
    }
}

/// Runs the scripts on a new heap, each by a thread, and gives their results and the heap's last side.
fn play(order: u32, scripts: &[Vec<Line>]) -> (Vec<Vec<Told>>, Shared) {
    let (callers, units) = (scripts.len(), 1u64 << order);
    let region = blocks_at(order) + 4 * units;
    let mut new = vec![0; region as usize];
    (new[0], new[1], new[TABLE as usize]) = (1, 2, blocks_at(order));
    for node in (1..2 * units).rev() {
        // The bucket table, node 16, is taken, so those above it are not free as a whole.
        let whole = u64::from(order - node.ilog2()) + 1;
        let above = node < 16 && node.is_power_of_two();
        new[(TREE + node) as usize] = if node == 16 { 0 } else { whole - u64::from(above) };
    }
    let main = FIRST + 8 * callers + SLOT * callers;
    let mut words = vec![0; main];
    (words[0], words[1]) = (1, 0);
    words.extend_from_slice(&new);
    words.extend_from_slice(&new);
    let shared = Shared {
        words: words.into_iter().map(AtomicU64::new).collect(),
        order,
        callers,
        main,
        back: main + region as usize,
        sleepers: (0..callers).map(|_| OnceLock::new()).collect(),
    };
    let lock = Mutex::new(Core {
        version: 0,
        log: Vec::with_capacity(600),
        found: Vec::with_capacity(16),
        answers: Vec::with_capacity(16),
        state: 0,
        device: [new.clone(), new],
    });
    let mut results: Vec<Vec<Told>> = scripts
        .iter()
        .map(|script| Vec::with_capacity(script.len()))
        .collect();
    thread::scope(|scope| {
        for (caller, (script, told)) in scripts.iter().zip(&mut results).enumerate().rev() {
            let (shared, lock) = (&shared, &lock);
            let mut work = move || {
                if shared.callers > 1 {
                    let _ = shared.sleepers[caller].set(thread::current());
                }
                for line in script {
                    told.push(match line.kind {
                        0..=6 => shared.update(caller, line, lock),
                        7..=11 => shared.read(caller, line),
                        _ => Told {
                            kind: 21,
                            numbers: [0; 3],
                            at: 0,
                        },
                    });
                }
            };
            if caller == 0 {
                work()
            } else {
                scope.spawn(work);
            }
        }
    });
    (results, shared)
}

fn drill_script(start: u64, caller: u64, callers: u64, calls: u64) -> Vec<Line> {
    let line = |kind, numbers| Line { kind, numbers };
    let mut script = Vec::with_capacity(4 + 2 * calls as usize);
    script.extend((0..4).map(|i| line(4, [4 * (caller - 1) + i, 1000, 0])));
    let mut x = (start + caller) % (1 << 31);
    for _ in 0..calls {
        x = (x * 1_103_515_245 + 12_345) % (1 << 31);
        let (r, q) = (x / 65536, x / 65536 / 4);
        match r % 4 {
            0 => script.extend([line(0, [q, 0, 0]), line(1, [0; 3])]),
            1 => script.push(line(6, [q % (4 * callers), q / 64 % (4 * callers), q % 100])),
            2 => script.push(line(
                if q / 8 % 2 == 0 { 2 } else { 3 },
                [8 * (caller - 1) + q % 8, 0, 0],
            )),
            _ => script.push(match q % 5 {
                0 => line(8, [q / 5 % (4 * callers), 0, 0]),
                1 => line(7, [q / 5 % (8 * callers), 0, 0]),
                other => line(7 + other as u8, [0; 3]),
            }),
        }
    }
    script
}

fn drill(start: u64, callers: u64, calls: u64) {
    let scripts: Vec<_> = (1..=callers)
        .map(|caller| drill_script(start, caller, callers, calls))
        .collect();
    let (results, shared) = play(12, &scripts);
    let (mut enqueued, mut dequeued) = (0, 0);
    for (line, told) in scripts.iter().flatten().zip(results.iter().flatten()) {
        match told.kind {
            0 => enqueued += line.numbers[0],
            2 => dequeued += told.numbers[0],
            _ => {}
        }
    }
    let side = Side {
        shared: &shared,
        first: shared.main,
    };
    let (_, [queue, set, map]) = answer(&side, 12, 10, 0);
    let (_, [high, low, _]) = answer(&side, 12, 11, 0);
    println!("drill {start} callers {callers} calls {calls}\nenqueued {enqueued} dequeued {dequeued}");
    println!("queue {queue} set {set} map {map}");
    println!(
        "total {}\ncount {}",
        (u128::from(high) << 64) + u128::from(low),
        side.load(COUNT)
    );
}

fn number(word: &[u8]) -> Option<u64> {
    if word.is_empty() || (word[0] == b'0' && word.len() > 1) {
        return None;
    }
    word.iter().try_fold(0u64, |value, digit| match digit {
        b'0'..=b'9' => value.checked_mul(10)?.checked_add(u64::from(digit - b'0')),
        _ => None,
    })
}

fn read_line(line: &[u8]) -> Line {
    let none = Line {
        kind: 12,
        numbers: [0; 3],
    };
    let mut numbers = [0; 3];
    let mut count = 0;
    let mut words = line.split(|byte| *byte == b' ');
    let name = words.next().unwrap_or_default();
    for word in words {
        match (numbers.get_mut(count), number(word)) {
            (Some(place), Some(value)) => *place = value,
            _ => return none,
        }
        count += 1;
    }
    match COMMANDS.iter().position(|command| *command == (name, count)) {
        Some(kind) => Line {
            kind: kind as u8,
            numbers,
        },
        None => none,
    }
}

/// Text that is handed over 4 KiB at a time.
struct Out(Vec<u8>, io::StdoutLock<'static>);

impl Out {
    fn word(&mut self, word: &str) -> &mut Self {
        if self.0.len() > 4000 {
            self.flush();
        }
        self.0.extend_from_slice(word.as_bytes());
        self
    }

    fn number(&mut self, mut number: u64) -> &mut Self {
        let mut digits = [0; 20];
        let mut first = 20;
        loop {
            first -= 1;
            digits[first] = b'0' + (number % 10) as u8;
            number /= 10;
            if number == 0 {
                break;
            }
        }
        self.0.extend_from_slice(&digits[first..]);
        self
    }

    fn flush(&mut self) {
        self.1.write_all(&self.0).unwrap();
        self.0.clear();
    }

    fn told(&mut self, told: &Told) {
        let [a, b, c] = told.numbers;
        self.word(TOLD[told.kind as usize]);
        match told.kind {
            2 | 8 | 11 | 15 | 17 => self.number(a),
            19 => self.number(a).word(" set ").number(b).word(" map ").number(c),
            20 => self.word(&((u128::from(a) << 64) + u128::from(b)).to_string()),
            _ => self,
        };
        match told.kind {
            0..=12 => self.word(" @").number(told.at),
            13..=20 => self.word(" #").number(told.at),
            _ => self,
        };
        self.word("\n");
    }
}

fn run_scripts(order: u32, names: &[String]) {
    let read = |name| {
        let bytes = std::fs::read(name).unwrap();
        let lines = bytes.split_inclusive(|byte| *byte == b'\n').map(|line| {
            let line = line.strip_suffix(b"\n").unwrap_or(line);
            read_line(line.strip_suffix(b"\r").unwrap_or(line))
        });
        let mut script = Vec::with_capacity(bytes.iter().filter(|byte| **byte == b'\n').count() + 1);
        script.extend(lines);
        script
    };
    let scripts: Vec<_> = names.iter().map(read).collect();
    let (results, shared) = play(order, &scripts);
    let mut out = Out(Vec::with_capacity(4096 + 128), io::stdout().lock());
    for (i, told) in results.iter().enumerate() {
        out.word("caller ").number(i as u64 + 1).word("\n");
        told.iter().for_each(|one| out.told(one));
    }
    out.word("count ")
        .number(shared.words[shared.main + COUNT as usize].load(SeqCst))
        .word("\n");
    out.flush();
}

/// `twin try SCRIPT..` on a heap of order 4, `twin try12 SCRIPT..` of order 12, `twin drill START CALLERS CALLS`.
fn main() {
    let words: Vec<String> = std::env::args().skip(1).collect();
    match words[0].as_str() {
        "try" => run_scripts(4, &words[1..]),
        "try12" => run_scripts(12, &words[1..]),
        _ => drill(
            words[1].parse().unwrap(),
            words[2].parse().unwrap(),
            words[3].parse().unwrap(),
        ),
    }
}
