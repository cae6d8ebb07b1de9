// The same parts as crates/bench_lists, in plain Rust: what packed.rs and codes.rs say.
mod codes;
mod numbers;
mod packed;

use codes::List;
use numbers::Numbers;
use packed::{EliasFano, Selector};
use std::env;
use std::time::Instant;

const QUESTIONS: u32 = 1_000_000;

fn rising(count: u32, shift: u32) -> Vec<u64> {
    let mut numbers = Numbers { state: 1 };
    let mut values = Vec::new();
    let mut total = 0u64;
    for _ in 0..count {
        total = total.saturating_add(numbers.next() >> shift);
        values.push(total);
    }
    values
}

fn place_below(numbers: &mut Numbers, bound: u32) -> u64 {
    ((numbers.next() >> 32).wrapping_mul(u64::from(bound))) >> 32
}

fn sum(count: u32, answer: impl Fn(u64) -> Option<u64>) -> (u128, u64) {
    let start = Instant::now();
    let mut numbers = Numbers { state: 2 };
    let mut sum = 0u64;
    for _ in 0..QUESTIONS {
        let i = place_below(&mut numbers, count);
        sum = sum.wrapping_add(answer(i).unwrap_or(0));
    }
    (start.elapsed().as_nanos(), sum)
}

fn small_numbers(count: u32) -> Vec<u64> {
    let mut numbers = Numbers { state: 3 };
    let number = |_| {
        let random = numbers.next();
        let value = u64::from(random.trailing_zeros()) * 16 + (random >> 60);
        let rare = (random >> 40) & 1023 == 0;
        if rare { value * 256 } else { value }
    };
    (0..count).map(number).collect()
}

fn time_code(part: &str, count: u32, code: &str) -> (u128, u64) {
    let values = small_numbers(count);
    let start = Instant::now();
    let list = List::encode(&values, code);
    let nanos = start.elapsed().as_nanos();
    if part == "get" {
        return sum(count, |i| list.get(i));
    }
    let mut text = Vec::new();
    list.write(&mut text);
    if part == "encode" {
        return (nanos, text.len() as u64);
    }
    let start = Instant::now();
    let (list, _) = List::read(u64::from(count), code, &text).unwrap();
    (start.elapsed().as_nanos(), list.get(u64::from(count / 2)).unwrap())
}

fn main() {
    let words: Vec<String> = env::args().collect();
    let count: u32 = words[2].parse().unwrap();
    let (nanos, checksum) = match words[1].as_str() {
        "select1" => {
            let mut numbers = Numbers { state: 1 };
            let selector = Selector::new((0..count / 32 + 1).map(|_| numbers.next()).collect());
            sum(count, |i| selector.select1(i))
        }
        "get_dense" => {
            let list = EliasFano::build(&rising(count, 62));
            sum(count, |i| list.get(i))
        }
        "get_sparse" => {
            let list = EliasFano::build(&rising(count, 44));
            sum(count, |i| list.get(i))
        }
        part @ ("encode" | "read" | "get") => time_code(part, count, &words[3]),
        _ => {
            // the bits that the samples add to each of these bits
            let mut numbers = Numbers { state: 1 };
            let selector = Selector::new((0..count / 32 + 1).map(|_| numbers.next()).collect());
            let samples = selector.sample_bits() as f64 / (64 * selector.words().len()) as f64;
            println!("{samples:.3} bits of samples for each bit");
            return;
        }
    };
    println!("{nanos} {checksum}");
}
