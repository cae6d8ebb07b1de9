// The same parts as crates/bench_index, in plain Rust, as fast as they can be written without proofs: what packed.rs and codes.rs say,
// sums and reciprocals that are made once, and no division in a lookup.
mod codes;
mod hash;
mod numbers;
mod packed;

use codes::List;
use hash::{hash_pair, murmur64, pilot_hash};
use numbers::Numbers;
use packed::{EliasFano, put, take_number, take_words};
use std::time::Instant;
use std::{env, fs};

const FRONT_HASHES: u64 = 11_068_046_444_225_730_969;
const QUESTIONS: u32 = 2_000_000;
const CODES: [&str; 5] = ["", "c", "pc", "d", "ef"];

// Remainders by a divisor from 1 to 2^32 - 1, by a high product and one subtraction.
struct Divisor {
    value: u64,
    reciprocal: u64,
}

impl Divisor {
    fn new(value: u64) -> Divisor {
        let value = value.max(1);
        Divisor { value, reciprocal: u64::MAX / value }
    }

    #[inline]
    fn remainder(&self, x: u64) -> u64 {
        let quotient = (u128::from(x) * u128::from(self.reciprocal) >> 64) as u64;
        let rest = x - quotient * self.value;
        if rest >= self.value { rest - self.value } else { rest }
    }
}

struct Part {
    n: u64,
    before: u64,
    front_count: u64,
    front: Divisor,
    back: Divisor,
    size: Divisor,
    pilots: List,
    back_pilots: Option<List>,
    free: EliasFano,
}

struct Index {
    head: Vec<u8>,
    seed: u64,
    codes: (&'static str, &'static str),
    parts: Vec<Part>,
}

fn table_size(n: u64, alpha: u64) -> u64 {
    let size = (100 * n).div_ceil(alpha);
    if size.is_power_of_two() { size + 1 } else { size }
}

fn bucket_count(n: u64, c: u64) -> u64 {
    (c * n).div_ceil(100 * u64::from(n.ilog2()).max(1))
}

/// An index of the second version under the skewed map, with the checks of our reader.
fn read(bytes: &[u8]) -> Option<Index> {
    let (body, end) = bytes.split_at_checked(bytes.len().checked_sub(8)?)?;
    if body.len() < 64 || body[..5] != *b"PTHX\x02" || body[7] != 0 || take_number(end)?.0 != murmur64(body, 0) {
        return None;
    }
    let codes = (*CODES.get(usize::from(body[5]))?, *CODES.get(usize::from(body[6]))?);
    let (head, rest) = take_words(&body[8..], 5)?;
    let [seed, n, alpha, c, parts] = head[..] else { return None };
    if codes.0.is_empty() || n > 67_108_864 || !(50..=100).contains(&alpha) || !(100..=1_500).contains(&c) || parts > 4_096 {
        return None;
    }
    let (counts, mut rest) = take_words(&rest[16..], parts as usize)?;
    if counts.iter().any(|n| *n > 67_108_864) || counts.iter().sum::<u64>() != n {
        return None;
    }
    let mut index = Index { head: body[..64 + 8 * parts as usize].to_vec(), seed, codes, parts: Vec::with_capacity(parts as usize) };
    let mut before = 0;
    for n in counts {
        let m = if n == 0 { 0 } else { bucket_count(n, c) };
        let size = if n == 0 { 0 } else { table_size(n, alpha) };
        let front_count = 3 * m / 10;
        let (first, second) = if codes.1.is_empty() { (m, None) } else { (front_count, Some(m - front_count)) };
        let (pilots, after) = List::read(first, codes.0, if n == 0 { &[0; 16] } else { rest })?;
        let (back_pilots, after) = match second {
            Some(count) if n > 0 => {
                let (list, after) = List::read(count, codes.1, after)?;
                if !list.below(count, u64::from(u32::MAX)) {
                    return None;
                }
                (Some(list), after)
            }
            _ => (None, after),
        };
        let (free, after) = EliasFano::read(size - n, if n == 0 { &[0; 16] } else { after })?;
        if !pilots.below(first, u64::from(u32::MAX)) || size > n && free.last >= n {
            return None;
        }
        if n > 0 {
            rest = after;
        }
        let (front, back) = (Divisor::new(front_count), Divisor::new(m - front_count));
        index.parts.push(Part { n, before, front_count, front, back, size: Divisor::new(size), pilots, back_pilots, free });
        before += n;
    }
    if rest.is_empty() { Some(index) } else { None }
}

impl Index {
    #[inline]
    fn lookup(&self, key: &[u8]) -> Option<u64> {
        let (a, b) = hash_pair(key, self.seed);
        let q = (u128::from(a ^ b) * self.parts.len() as u128 >> 64) as usize;
        let part = self.parts.get(q)?;
        if part.n == 0 {
            return None;
        }
        let is_front = a < FRONT_HASHES && part.front_count > 0;
        let pilot = match (&part.back_pilots, is_front) {
            (_, true) => part.pilots.get(part.front.remainder(a))?,
            (Some(list), false) => list.get(part.back.remainder(a))?,
            (None, false) => part.pilots.get(part.front_count + part.back.remainder(a))?,
        };
        let position = part.size.remainder(b ^ pilot_hash(pilot, self.seed));
        Some(part.before + if position < part.n { position } else { part.free.get(position - part.n)? })
    }
}

// What a build leaves: the pilots of a partition, and its free list.
struct Built {
    pilots: Vec<u64>,
    front_count: usize,
    n: u64,
    free: EliasFano,
}

fn built(index: Index) -> Vec<Built> {
    let unpack = |part: Part| {
        let mut pilots: Vec<u64> = (0..).map_while(|i| part.pilots.get(i)).collect();
        if let Some(list) = &part.back_pilots {
            pilots.extend((0..).map_while(|i| list.get(i)));
        }
        Built { pilots, front_count: part.front_count as usize, n: part.n, free: part.free }
    };
    index.parts.into_iter().map(unpack).collect()
}

fn write(head: &[u8], codes: (&str, &str), parts: &[Built]) -> Vec<u8> {
    let mut out = head.to_vec();
    for part in parts.iter().filter(|part| part.n > 0) {
        if codes.1.is_empty() {
            List::encode(&part.pilots, codes.0).write(&mut out);
        } else {
            let (front, back) = part.pilots.split_at(part.front_count);
            List::encode(front, codes.0).write(&mut out);
            List::encode(back, codes.1).write(&mut out);
        }
        part.free.write(&mut out);
    }
    let digest = murmur64(&out, 0);
    put(&mut out, &[digest]);
    out
}

fn key_of(number: u64) -> [u8; 16] {
    let word = number.wrapping_mul(0x9e37_79b9_7f4a_7c15);
    (u128::from(word) << 64 | u128::from(word ^ (word >> 29))).to_le_bytes()
}

// The bytes of memory that this program takes.
fn resident() -> u64 {
    let text = fs::read_to_string("/proc/self/statm").unwrap();
    4_096 * text.split(' ').nth(1).unwrap().parse::<u64>().unwrap()
}

fn main() {
    let words: Vec<String> = env::args().collect();
    let count: u64 = words[3].parse().unwrap();
    let before = resident();
    let bytes = fs::read(&words[2]).unwrap();
    let start = Instant::now();
    let index = read(&bytes).expect("a fault");
    let nanos = start.elapsed().as_nanos();
    let (nanos, checksum) = match words[1].as_str() {
        "write" => {
            let (head, codes) = (index.head.clone(), index.codes);
            let parts = built(index);
            let start = Instant::now();
            let out = write(&head, codes, &parts);
            let nanos = start.elapsed().as_nanos();
            assert!(out == bytes, "another file");
            (nanos, out.len() as u64)
        }
        "lookup" => {
            let start = Instant::now();
            let mut numbers = Numbers { state: 2 };
            let mut sum = 0u64;
            for _ in 0..QUESTIONS {
                let number = ((numbers.next() >> 32) * count) >> 32;
                sum = sum.wrapping_add(index.lookup(&key_of(number)).unwrap_or(0));
            }
            (start.elapsed().as_nanos(), sum)
        }
        "memory" => {
            let length = bytes.len() as u64;
            drop(bytes);
            (u128::from(resident() - before), length)
        }
        _ => (nanos, index.parts.iter().map(|part| part.free.count).sum()),
    };
    println!("{nanos} {checksum}");
}
