// The same work as crates/bench_pool, in plain Rust, for `rustc -O`: one region, chains of blocks that are linked by number.
use std::env;
use std::time::Instant;

const BLOCK_RECORDS: u32 = 1_024;
const BLOCKS: u32 = 4_096;
const CHAINS: u32 = 64;

#[derive(Clone, Copy)]
struct Record {
    a: u64,
    #[allow(dead_code)]
    b: u64,
    ordinal: u64,
}

#[derive(Clone, Copy)]
struct Chain {
    head: u32,
    tail: u32,
    len: u32,
}

struct Pool {
    records: Vec<Record>,
    next: Vec<u32>,
    spare: Vec<u32>,
    chains: Vec<Chain>,
}

impl Pool {
    fn new() -> Self {
        Self {
            records: Vec::with_capacity((BLOCKS * BLOCK_RECORDS) as usize),
            next: vec![0; BLOCKS as usize],
            spare: Vec::with_capacity(BLOCKS as usize),
            chains: vec![Chain { head: 0, tail: 0, len: 0 }; CHAINS as usize],
        }
    }

    fn block(&mut self) -> Option<u32> {
        if let Some(block) = self.spare.pop() {
            return Some(block);
        }
        let made = self.records.len() as u32 / BLOCK_RECORDS;
        if made == BLOCKS {
            return None;
        }
        let empty = Record { a: 0, b: 0, ordinal: 0 };
        self.records.resize(self.records.len() + BLOCK_RECORDS as usize, empty);
        Some(made)
    }

    fn push(&mut self, chain: u32, item: Record) -> Option<Record> {
        let held = self.chains[chain as usize];
        let offset = held.len % BLOCK_RECORDS;
        let mut tail = held.tail;
        if offset == 0 {
            let Some(block) = self.block() else {
                return Some(item);
            };
            tail = block;
            let chain = &mut self.chains[chain as usize];
            if held.len > 0 {
                self.next[held.tail as usize] = block;
            } else {
                chain.head = block;
            }
            chain.tail = block;
        }
        self.records[(tail * BLOCK_RECORDS + offset) as usize] = item;
        self.chains[chain as usize].len += 1;
        None
    }

    fn front(&self, chain: u32) -> &[Record] {
        let held = self.chains[chain as usize];
        let start = (held.head * BLOCK_RECORDS) as usize;
        if held.len == 0 { &[] } else { &self.records[start..start + held.len.min(BLOCK_RECORDS) as usize] }
    }

    fn drop_front(&mut self, chain: u32) {
        let held = &mut self.chains[chain as usize];
        if held.len > 0 {
            self.spare.push(held.head);
            held.head = self.next[held.head as usize];
            held.len = held.len.saturating_sub(BLOCK_RECORDS);
        }
    }

    fn longest(&self) -> u32 {
        let mut longest = 0;
        for k in 1..self.chains.len() {
            if self.chains[k].len > self.chains[longest].len {
                longest = k;
            }
        }
        longest as u32
    }
}

fn sum_of(records: &[Record], checksum: u64) -> u64 {
    records.iter().fold(checksum, |sum, record| sum.wrapping_mul(31).wrapping_add(record.a ^ record.ordinal))
}

fn main() {
    let count = env::args().nth(1).and_then(|word| word.parse::<u64>().ok()).unwrap_or(10_000);
    let mut pool = Pool::new();
    let start = Instant::now();
    let mut checksum = 0u64;
    let mut state = 1u64;
    for ordinal in 0..count {
        state = state.wrapping_mul(6_364_136_223_846_793_005).wrapping_add(1_442_695_040_888_963_407);
        let item = Record { a: state, b: state >> 1, ordinal };
        let chain = (state >> 58) as u32;
        if let Some(item) = pool.push(chain, item) {
            let longest = pool.longest();
            checksum = sum_of(pool.front(longest), checksum);
            pool.drop_front(longest);
            pool.push(chain, item);
        }
    }
    for chain in 0..CHAINS {
        for _ in 0..BLOCKS {
            checksum = sum_of(pool.front(chain), checksum);
            pool.drop_front(chain);
        }
    }
    println!("{} {checksum}", start.elapsed().as_nanos());
}
