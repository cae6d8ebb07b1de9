// The codes of lists of small numbers in plain Rust, as fast as they can be written without proofs: what packed.rs says, groups with
// their words in one buffer, a dictionary by a table or a sort, and each check of a reading in one pass.
use crate::packed::{EliasFano, Words, each_field, is_padded, pack, put, take_number, take_words};

const GROUP: u64 = 256;

fn digits(n: u64) -> u32 {
    (64 - n.leading_zeros()).max(1)
}

pub struct Compact {
    count: u64,
    width: u32,
    words: Words,
}

impl Compact {
    pub fn encode(values: impl ExactSizeIterator<Item = u64> + Clone) -> Compact {
        let width = digits(values.clone().max().unwrap_or(0));
        let count = values.len();
        Compact { count: count as u64, width, words: Words::with(pack(values, count, width)) }
    }

    #[inline]
    pub fn get(&self, i: u64) -> Option<u64> {
        if i >= self.count {
            return None;
        }
        Some(self.words.field((i * u64::from(self.width)) as usize, self.width))
    }

    pub fn write(&self, out: &mut Vec<u8>) {
        put(out, &[u64::from(self.width)]);
        put(out, self.words.as_slice());
    }

    pub fn read(count: u64, bytes: &[u8]) -> Option<(Compact, &[u8])> {
        let (width, rest) = take_width(bytes)?;
        let bits = count * u64::from(width);
        let (words, rest) = take_words(rest, bits.div_ceil(64) as usize)?;
        if !is_width_of(&words, count, width) || !is_padded(&words, bits) {
            return None;
        }
        Some((Compact { count, width, words: Words::with(words) }, rest))
    }
}

fn take_width(bytes: &[u8]) -> Option<(u32, &[u8])> {
    let (width, rest) = take_number(bytes)?;
    if width == 0 || width > 64 { None } else { Some((width as u32, rest)) }
}

// A width is right where it is 1, or some value has its top bit.
fn is_width_of(words: &[u64], count: u64, width: u32) -> bool {
    let step = width as usize;
    let top = |i: usize| words[(i * step + step - 1) / 64] >> ((i * step + step - 1) % 64) & 1 == 1;
    width == 1 || (0..count as usize).any(top)
}

struct Head {
    width: u32,
    start: usize,
}

pub struct Parted {
    count: u64,
    heads: Vec<Head>,
    words: Words,
}

impl Parted {
    pub fn encode(values: &[u64]) -> Parted {
        let mut heads = Vec::with_capacity(values.len().div_ceil(GROUP as usize));
        let mut words = Vec::new();
        for group in values.chunks(GROUP as usize) {
            let width = digits(group.iter().copied().max().unwrap_or(0));
            heads.push(Head { width, start: words.len() });
            words.extend_from_slice(&pack(group.iter().copied(), group.len(), width));
        }
        Parted { count: values.len() as u64, heads, words: Words::with(words) }
    }

    #[inline]
    pub fn get(&self, i: u64) -> Option<u64> {
        if i >= self.count {
            return None;
        }
        // SAFETY: each value is in a group.
        let head = unsafe { self.heads.get_unchecked((i / GROUP) as usize) };
        Some(self.words.field(64 * head.start + (i % GROUP) as usize * head.width as usize, head.width))
    }

    pub fn write(&self, out: &mut Vec<u8>) {
        let words = self.words.as_slice();
        for (g, head) in self.heads.iter().enumerate() {
            let end = self.heads.get(g + 1).map_or(words.len(), |next| next.start);
            put(out, &[u64::from(head.width)]);
            put(out, &words[head.start..end]);
        }
    }

    pub fn read(count: u64, bytes: &[u8]) -> Option<(Parted, &[u8])> {
        let (mut heads, mut words) = (Vec::new(), Vec::new());
        let (mut left, mut rest) = (count, bytes);
        while left > 0 {
            let size = left.min(GROUP);
            let (width, after) = take_width(rest)?;
            let bits = size * u64::from(width);
            let (group, after) = take_words(after, bits.div_ceil(64) as usize)?;
            if !is_width_of(&group, size, width) || !is_padded(&group, bits) {
                return None;
            }
            heads.push(Head { width, start: words.len() });
            words.extend_from_slice(&group);
            left -= size;
            rest = after;
        }
        Some((Parted { count, heads, words: Words::with(words) }, rest))
    }
}

pub struct Dict {
    entries: Vec<u64>,
    places: Compact,
}

impl Dict {
    pub fn encode(values: &[u64]) -> Dict {
        let most = values.iter().copied().max().unwrap_or(0);
        if most / 8 < values.len() as u64 {
            let mut table = vec![0u32; most as usize + 1];
            values.iter().for_each(|v| table[*v as usize] = 1);
            let mut entries = Vec::new();
            for (value, place) in table.iter_mut().enumerate() {
                if *place != 0 {
                    *place = entries.len() as u32;
                    entries.push(value as u64);
                }
            }
            return Dict { entries, places: Compact::encode(values.iter().map(|v| u64::from(table[*v as usize]))) };
        }
        let mut entries = values.to_vec();
        entries.sort_unstable();
        entries.dedup();
        let places: Vec<u64> = values.iter().map(|v| entries.partition_point(|e| e < v) as u64).collect();
        Dict { entries, places: Compact::encode(places.iter().copied()) }
    }

    #[inline]
    pub fn get(&self, i: u64) -> Option<u64> {
        let place = self.places.get(i)?;
        // SAFETY: each place is below the number of entries.
        Some(unsafe { *self.entries.get_unchecked(place as usize) })
    }

    pub fn write(&self, out: &mut Vec<u8>) {
        put(out, &[self.entries.len() as u64]);
        put(out, &self.entries);
        self.places.write(out);
    }

    pub fn read(count: u64, bytes: &[u8]) -> Option<(Dict, &[u8])> {
        let (size, rest) = take_number(bytes)?;
        if size > count || size == 0 && count != 0 {
            return None;
        }
        let (entries, rest) = take_words(rest, size as usize)?;
        if !entries.windows(2).all(|pair| pair[0] < pair[1]) {
            return None;
        }
        let (places, rest) = Compact::read(count, rest)?;
        let mut used = vec![false; entries.len()];
        let below = each_field(places.words.as_slice(), count, places.width, |place| match used.get_mut(place as usize) {
            None => false,
            Some(used) => {
                *used = true;
                true
            }
        });
        if !below || used.contains(&false) { None } else { Some((Dict { entries, places }, rest)) }
    }
}

pub enum List {
    Compact(Compact),
    Parted(Parted),
    Dict(Dict),
    EliasFano(EliasFano),
}

impl List {
    pub fn encode(values: &[u64], code: &str) -> List {
        match code {
            "c" => List::Compact(Compact::encode(values.iter().copied())),
            "pc" => List::Parted(Parted::encode(values)),
            "d" => List::Dict(Dict::encode(values)),
            _ => {
                let mut total = 0;
                let sums: Vec<u64> = values
                    .iter()
                    .map(|v| {
                        total += v;
                        total
                    })
                    .collect();
                List::EliasFano(EliasFano::build(&sums))
            }
        }
    }

    #[inline]
    pub fn get(&self, i: u64) -> Option<u64> {
        match self {
            List::Compact(list) => list.get(i),
            List::Parted(list) => list.get(i),
            List::Dict(list) => list.get(i),
            List::EliasFano(list) => list.step(i),
        }
    }

    pub fn write(&self, out: &mut Vec<u8>) {
        match self {
            List::Compact(list) => list.write(out),
            List::Parted(list) => list.write(out),
            List::Dict(list) => list.write(out),
            List::EliasFano(list) => list.write(out),
        }
    }

    /// Whether each of so many values is below a bound: by the width, the last entry, or one pass. Only index.rs asks this.
    #[allow(dead_code)]
    pub fn below(&self, count: u64, bound: u64) -> bool {
        match self {
            List::Compact(list) if digits(bound) > list.width => true,
            List::Dict(list) => list.entries.last().is_none_or(|entry| *entry < bound),
            List::EliasFano(list) if list.last < bound => true,
            _ => (0..count).all(|i| self.get(i).is_some_and(|value| value < bound)),
        }
    }

    /// The list and the bytes after it.
    pub fn read<'a>(count: u64, code: &str, bytes: &'a [u8]) -> Option<(List, &'a [u8])> {
        Some(match code {
            "c" => Compact::read(count, bytes).map(|(list, rest)| (List::Compact(list), rest))?,
            "pc" => Parted::read(count, bytes).map(|(list, rest)| (List::Parted(list), rest))?,
            "d" => Dict::read(count, bytes).map(|(list, rest)| (List::Dict(list), rest))?,
            _ => EliasFano::read(count, bytes).map(|(list, rest)| (List::EliasFano(list), rest))?,
        })
    }
}
