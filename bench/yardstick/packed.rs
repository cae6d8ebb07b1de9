// Packed words, select and Elias-Fano in plain Rust, as fast as they can be written: unchecked reads without a branch, select by
// pdep with a sample for each 64 ones, a value by one select.
use std::arch::x86_64::_pdep_u64;

// How many ones a sample stands for.
const STEP: u64 = 64;

/// The lowest bits of a word.
pub fn low_bits(word: u64, width: u32) -> u64 {
    word & !(!0u64).checked_shl(width).unwrap_or(0)
}

/// Words with one more behind them, so that a read across the end needs no test.
pub struct Words {
    words: Vec<u64>,
}

impl Words {
    pub fn with(mut words: Vec<u64>) -> Words {
        words.push(0);
        Words { words }
    }

    pub fn as_slice(&self) -> &[u64] {
        &self.words[..self.words.len() - 1]
    }

    /// A field of a width from 1 to 64: two reads, and no branch.
    #[inline]
    pub fn field(&self, at: usize, width: u32) -> u64 {
        debug_assert!(at + width as usize <= 64 * self.as_slice().len());
        let shift = (at % 64) as u32;
        // SAFETY: the field ends within the words, and one word more stands behind them.
        let (low, high) = unsafe { (*self.words.get_unchecked(at / 64), *self.words.get_unchecked(at / 64 + 1)) };
        let bits = low >> shift | high << 1 << (63 - shift);
        bits & (!0 >> (64 - width))
    }
}

/// Packs values of one width into words.
pub fn pack(values: impl Iterator<Item = u64>, count: usize, width: u32) -> Vec<u64> {
    let mut words = Vec::with_capacity((count * width as usize).div_ceil(64) + 1);
    let (mut rest, mut used) = (0u64, 0u32);
    for value in values {
        rest |= value << used;
        used += width;
        if used >= 64 {
            words.push(rest);
            used -= 64;
            rest = if used == 0 { 0 } else { value >> (width - used) };
        }
    }
    if used > 0 {
        words.push(rest);
    }
    words
}

/// Calls a function for each field of one width in turn, by a word that is shifted on; stops where it answers no.
pub fn each_field(words: &[u64], count: u64, width: u32, mut see: impl FnMut(u64) -> bool) -> bool {
    let mask = !0 >> (64 - width);
    let (mut word, mut left, mut next) = (0u64, 0u32, 0usize);
    for _ in 0..count {
        let value = if left >= width {
            let value = word & mask;
            word = if width == 64 { 0 } else { word >> width };
            left -= width;
            value
        } else {
            // SAFETY: the words have room for all fields.
            let more = unsafe { *words.get_unchecked(next) };
            next += 1;
            let value = (word | if left == 64 { 0 } else { more << left }) & mask;
            let taken = width - left;
            word = if taken == 64 { 0 } else { more >> taken };
            left = 64 - taken;
            value
        };
        if !see(value) {
            return false;
        }
    }
    true
}

/// Bits with the place of every so many ones.
pub struct Selector {
    words: Words,
    ones: u64,
    samples: Vec<u32>,
}

impl Selector {
    /// At most 2^32 bits.
    pub fn new(words: Vec<u64>) -> Selector {
        let mut ones = 0u64;
        let mut samples = Vec::new();
        for (at, word) in words.iter().enumerate() {
            let here = u64::from(word.count_ones());
            // SAFETY: the program is built for processors with pdep.
            if (ones + here).div_ceil(STEP) > samples.len() as u64 && here > 0 {
                let first = samples.len() as u64 * STEP - ones;
                samples.push(64 * at as u32 + unsafe { place_in(*word, first) });
            }
            ones += here;
        }
        Selector { words: Words::with(words), ones, samples }
    }

    pub fn ones(&self) -> u64 {
        self.ones
    }

    pub fn words(&self) -> &[u64] {
        self.words.as_slice()
    }

    // Only lists.rs asks this.
    #[allow(dead_code)]
    pub fn sample_bits(&self) -> usize {
        32 * self.samples.len()
    }

    /// The place of a one: its sample, and the next words up to the one that has it.
    #[inline]
    pub fn select1(&self, i: u64) -> Option<u64> {
        if i >= self.ones {
            return None;
        }
        // SAFETY: there are more than i ones, so a sample stands before this one, and a word has it.
        unsafe {
            let start = *self.samples.get_unchecked((i / STEP) as usize);
            let mut left = i % STEP;
            let mut at = (start / 64) as usize;
            let mut word = *self.words.words.get_unchecked(at) & (!0 << (start % 64));
            loop {
                let here = u64::from(word.count_ones());
                if left < here {
                    return Some(64 * at as u64 + u64::from(place_in(word, left)));
                }
                left -= here;
                at += 1;
                word = *self.words.words.get_unchecked(at);
            }
        }
    }

    /// The next one from a place on, which is there.
    #[inline]
    pub fn next1(&self, from: u64) -> u64 {
        let mut at = (from / 64) as usize;
        // SAFETY: a one follows.
        unsafe {
            let mut word = *self.words.words.get_unchecked(at) & (!0 << (from % 64));
            while word == 0 {
                at += 1;
                word = *self.words.words.get_unchecked(at);
            }
            64 * at as u64 + u64::from(word.trailing_zeros())
        }
    }
}

// The place of a one in a word.
#[inline]
#[target_feature(enable = "bmi2")]
unsafe fn place_in(word: u64, i: u64) -> u32 {
    _pdep_u64(1 << i, word).trailing_zeros()
}

/// Numbers that don't fall.
pub struct EliasFano {
    pub count: u64,
    pub last: u64,
    width: u32,
    low: Words,
    high: Selector,
}

fn low_width(count: u64, last: u64) -> u32 {
    if count == 0 || last / count == 0 { 0 } else { (last / count).ilog2() }
}

impl EliasFano {
    pub fn build(values: &[u64]) -> EliasFano {
        let count = values.len() as u64;
        let last = values.last().copied().unwrap_or(0);
        let width = low_width(count, last);
        let low = if width == 0 {
            Vec::new()
        } else {
            pack(values.iter().map(|v| low_bits(*v, width)), values.len(), width)
        };
        let mut high = vec![0u64; (count + (last >> width) + 1).div_ceil(64) as usize];
        for (i, value) in values.iter().enumerate() {
            let place = (value >> width) as usize + i;
            // SAFETY: no place is behind that of the last value.
            unsafe { *high.get_unchecked_mut(place / 64) |= 1 << (place % 64) };
        }
        EliasFano { count, last, width, low: Words::with(low), high: Selector::new(high) }
    }

    #[inline]
    fn joined(&self, i: u64, place: u64) -> u64 {
        if self.width == 0 {
            return place - i;
        }
        (place - i) << self.width | self.low.field((i * u64::from(self.width)) as usize, self.width)
    }

    #[inline]
    pub fn get(&self, i: u64) -> Option<u64> {
        Some(self.joined(i, self.high.select1(i)?))
    }

    /// A value less the one before it, by one select.
    #[inline]
    pub fn step(&self, i: u64) -> Option<u64> {
        if i == 0 {
            return self.get(0);
        }
        let before = self.high.select1(i - 1)?;
        if i >= self.count {
            return None;
        }
        Some(self.joined(i, self.high.next1(before + 1)) - self.joined(i - 1, before))
    }

    pub fn write(&self, out: &mut Vec<u8>) {
        put(out, &[self.last]);
        put(out, self.low.as_slice());
        put(out, self.high.words());
    }

    /// With every check: the padding, the number of ones, the order by one walk, the last value.
    pub fn read(count: u64, bytes: &[u8]) -> Option<(EliasFano, &[u8])> {
        let (last, rest) = take_number(bytes)?;
        let width = low_width(count, last);
        let low_bits = count * u64::from(width);
        let high_bits = count + (last >> width) + 1;
        let (low, rest) = take_words(rest, low_bits.div_ceil(64) as usize)?;
        let (high, rest) = take_words(rest, high_bits.div_ceil(64) as usize)?;
        if !is_padded(&low, low_bits) || !is_padded(&high, high_bits) {
            return None;
        }
        let list = EliasFano { count, last, width, low: Words::with(low), high: Selector::new(high) };
        if list.high.ones() != count {
            return None;
        }
        let (mut before, mut i) = (0, 0);
        for (at, word) in list.high.words().iter().enumerate() {
            let mut rest = *word;
            while rest != 0 {
                let value = list.joined(i, 64 * at as u64 + u64::from(rest.trailing_zeros()));
                if value < before {
                    return None;
                }
                (before, i) = (value, i + 1);
                rest &= rest - 1;
            }
        }
        if before == last { Some((list, rest)) } else { None }
    }
}

pub fn put(out: &mut Vec<u8>, numbers: &[u64]) {
    for n in numbers {
        out.extend_from_slice(&n.to_le_bytes());
    }
}

pub fn take_number(bytes: &[u8]) -> Option<(u64, &[u8])> {
    let (first, rest) = bytes.split_first_chunk::<8>()?;
    Some((u64::from_le_bytes(*first), rest))
}

pub fn take_words(bytes: &[u8], count: usize) -> Option<(Vec<u64>, &[u8])> {
    if bytes.len() < 8 * count {
        return None;
    }
    let (words, rest) = bytes.split_at(8 * count);
    let mut taken = Vec::with_capacity(count + 1);
    taken.extend(words.chunks_exact(8).map(|b| u64::from_le_bytes(b.try_into().unwrap())));
    Some((taken, rest))
}

pub fn is_padded(words: &[u64], bits: u64) -> bool {
    bits % 64 == 0 || words[words.len() - 1] >> (bits % 64) == 0
}
