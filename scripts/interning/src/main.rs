//! How long it takes several threads to number texts in one table, in the forms that a slot may have.
//!
//! `interning TEXTS THREADS` prints, for each form, the least milliseconds of several runs. A form is one word a slot (the
//! upper half the least number, the lower half the text that is held) or two words a slot, and how many homes are read
//! before the first of them is placed. `open` is the time in which one thread fills the table.
use std::sync::atomic::{AtomicU64, Ordering::SeqCst};
use std::time::Instant;

const NONE: u64 = u64::MAX;
const RUNS: usize = 7;

/// Texts that follow each other in one buffer, and each a second time, as names of objects and of those that use them.
struct Texts {
    bytes: Vec<u8>,
    ends: Vec<usize>,
}

impl Texts {
    fn of(count: usize, distinct: usize) -> Texts {
        let mut texts = Texts { bytes: Vec::new(), ends: Vec::new() };
        for i in 0..count {
            texts.bytes.extend_from_slice(format!("name_{}", i % distinct).as_bytes());
            texts.ends.push(texts.bytes.len());
        }
        texts
    }

    fn at(&self, i: usize) -> &[u8] {
        let start = if i == 0 { 0 } else { self.ends[i - 1] };
        &self.bytes[start..self.ends[i]]
    }
}

fn hash_of(text: &[u8]) -> u64 {
    text.iter().fold(0xcbf2_9ce4_8422_2325, |h, b| (h ^ u64::from(*b)).wrapping_mul(0x100_0000_01b3))
}

/// What is raced for: `stride` words a slot.
struct Table {
    words: Vec<AtomicU64>,
    mask: usize,
    stride: usize,
}

impl Table {
    /// By a row that is filled and then copied, as the base crate makes its tables.
    fn open(count: usize, stride: usize) -> Table {
        let slots = (2 * count).next_power_of_two().max(2);
        let row = vec![NONE; slots * stride];
        let mut words = Vec::with_capacity(slots * stride);
        for word in &row {
            words.push(AtomicU64::new(*word));
        }
        Table { words, mask: slots - 1, stride }
    }

    /// By a copy of zeros that are never written: the row costs no memory of its own.
    fn open_zeros(count: usize, stride: usize, zeros: &[u64]) -> Table {
        let slots = (2 * count).next_power_of_two().max(2);
        let mut words = Vec::with_capacity(slots * stride);
        for word in &zeros[..slots * stride] {
            words.push(AtomicU64::new(*word));
        }
        Table { words, mask: slots - 1, stride }
    }

    fn warm(&self, hash: u64) {
        std::hint::black_box(self.words[(hash as usize & self.mask) * self.stride].load(SeqCst));
    }

    /// One word a slot.
    fn place(&self, texts: &Texts, i: usize, hash: u64) -> u32 {
        let word = (0xffff_ffff << 32) | i as u64;
        for far in 0..=self.mask {
            let slot = (hash as usize).wrapping_add(far) & self.mask;
            let mut found = self.words[slot].load(SeqCst);
            if found == NONE {
                found = self.words[slot].compare_exchange(NONE, word, SeqCst, SeqCst).unwrap_or_else(|f| f);
                if found == NONE {
                    found = word;
                }
            }
            let holder = found & 0xffff_ffff;
            if holder == i as u64 || texts.at(holder as usize) == texts.at(i) {
                self.words[slot].fetch_min(((i as u64) << 32) | holder, SeqCst);
                return slot as u32;
            }
        }
        unreachable!()
    }

    /// Two words a slot: the holder, and the least number.
    fn place_pair(&self, texts: &Texts, i: usize, hash: u64) -> u32 {
        for far in 0..=self.mask {
            let slot = (hash as usize).wrapping_add(far) & self.mask;
            let mut holder = self.words[2 * slot].load(SeqCst);
            if holder == NONE {
                holder = self.words[2 * slot].compare_exchange(NONE, i as u64, SeqCst, SeqCst).unwrap_or_else(|f| f);
                if holder == NONE {
                    holder = i as u64;
                }
            }
            if holder == i as u64 || texts.at(holder as usize) == texts.at(i) {
                self.words[2 * slot + 1].fetch_min(i as u64, SeqCst);
                return slot as u32;
            }
        }
        unreachable!()
    }

    fn first(&self, slot: u32) -> u32 {
        if self.stride == 2 {
            self.words[2 * slot as usize + 1].load(SeqCst) as u32
        } else {
            (self.words[slot as usize].load(SeqCst) >> 32) as u32
        }
    }
}

/// Places a piece of the texts, so many homes at a time.
fn place_piece(table: &Table, texts: &Texts, from: usize, hashes: &[u64], block: usize) -> Vec<u32> {
    let mut slots = Vec::with_capacity(hashes.len());
    let mut at = from;
    for homes in hashes.chunks(block.max(1)) {
        if block > 1 {
            for hash in homes {
                table.warm(*hash);
            }
        }
        for hash in homes {
            slots.push(if table.stride == 2 { table.place_pair(texts, at, *hash) } else { table.place(texts, at, *hash) });
            at += 1;
        }
    }
    slots
}

fn number(texts: &Texts, hashes: &[u64], threads: usize, stride: usize, block: usize) -> (f64, f64, u64) {
    let start = Instant::now();
    let table = Table::open(hashes.len(), stride);
    let opened = start.elapsed().as_secs_f64() * 1e3;
    let start = Instant::now();
    let piece = hashes.len().div_ceil(threads);
    let numbers: Vec<Vec<u32>> = std::thread::scope(|scope| {
        let tasks: Vec<_> = hashes
            .chunks(piece)
            .enumerate()
            .map(|(w, part)| {
                let table = &table;
                scope.spawn(move || place_piece(table, texts, w * piece, part, block))
            })
            .collect();
        tasks.into_iter().map(|task| task.join().unwrap()).collect()
    });
    let firsts: u64 = std::thread::scope(|scope| {
        let tasks: Vec<_> = numbers
            .iter()
            .map(|part| {
                let table = &table;
                scope.spawn(move || part.iter().map(|slot| u64::from(table.first(*slot))).fold(0u64, |a, b| a.wrapping_mul(31).wrapping_add(b)))
            })
            .collect();
        tasks.into_iter().map(|task| task.join().unwrap()).fold(0u64, |a, b| a.wrapping_add(b))
    });
    (opened, start.elapsed().as_secs_f64() * 1e3, firsts)
}

fn peak() -> u64 {
    let status = std::fs::read_to_string("/proc/self/status").unwrap();
    status.lines().find(|l| l.starts_with("VmHWM")).and_then(|l| l.split_whitespace().nth(1)?.parse().ok()).unwrap_or(0)
}

fn least(mut run: impl FnMut() -> f64) -> f64 {
    (0..RUNS).map(|_| run()).fold(f64::MAX, f64::min)
}

fn main() {
    let words: Vec<String> = std::env::args().collect();
    let count: usize = words[1].parse().unwrap();
    let threads: usize = words[2].parse().unwrap();
    let texts = Texts::of(count, (count / 2).max(1));
    let hashes: Vec<u64> = (0..count).map(|i| hash_of(texts.at(i))).collect();
    let before = peak();
    if words.len() > 3 {
        let stride: usize = words[3].parse().unwrap();
        number(&texts, &hashes, threads, stride, 16);
        println!("{count} texts, {threads} threads, {stride} words a slot: peak {} KB above the texts", peak() - before);
        return;
    }
    for stride in [1, 2] {
        for block in [0, 8, 16, 32] {
            let mut opened = f64::MAX;
            let placed = least(|| {
                let run = number(&texts, &hashes, threads, stride, block);
                opened = opened.min(run.0);
                run.1
            });
            println!("{count} texts, {threads} threads, {stride} words a slot, blocks of {block}: open {opened:.1} ms, place and first {placed:.1} ms");
        }
    }
    let slots = (2 * count).next_power_of_two().max(2);
    let zeros = vec![0u64; slots];
    let zeroed = least(|| {
        let start = Instant::now();
        std::hint::black_box(Table::open_zeros(count, 1, &zeros).words.len());
        start.elapsed().as_secs_f64() * 1e3
    });
    println!("{count} texts: a copy of untouched zeros opens in {zeroed:.1} ms");
}
