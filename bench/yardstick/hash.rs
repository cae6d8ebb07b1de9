// The hash of bytes, the pair of hashes of a key, and the hash of a pilot, in plain Rust.
const MULTIPLIER: u64 = 0xc6a4_a793_5bd1_e995;

fn fold_high(x: u64) -> u64 {
    x ^ (x >> 47)
}

fn mix_block(h: u64, block: u64) -> u64 {
    let k = fold_high(block.wrapping_mul(MULTIPLIER)).wrapping_mul(MULTIPLIER);
    (h ^ k).wrapping_mul(MULTIPLIER)
}

fn mix_rest(h: u64, rest: &[u8]) -> u64 {
    if rest.is_empty() {
        return h;
    }
    let mut number = [0; 8];
    number[..rest.len()].copy_from_slice(rest);
    (h ^ u64::from_le_bytes(number)).wrapping_mul(MULTIPLIER)
}

fn finish(h: u64) -> u64 {
    fold_high(fold_high(h).wrapping_mul(MULTIPLIER))
}

pub fn murmur64(bytes: &[u8], seed: u64) -> u64 {
    let mut h = seed ^ (bytes.len() as u64).wrapping_mul(MULTIPLIER);
    let mut rest = bytes;
    while rest.len() >= 8 {
        h = mix_block(h, u64::from_le_bytes(rest[..8].try_into().unwrap()));
        rest = &rest[8..];
    }
    finish(mix_rest(h, rest))
}

pub fn hash_pair(key: &[u8], seed: u64) -> (u64, u64) {
    (murmur64(key, seed), murmur64(key, !seed))
}

pub fn pilot_hash(pilot: u64, seed: u64) -> u64 {
    let h = seed ^ 8u64.wrapping_mul(MULTIPLIER);
    finish(mix_block(h, pilot))
}
