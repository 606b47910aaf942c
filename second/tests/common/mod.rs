//! Random well-formed records and accepted geometries, for tests and timing.
#![allow(dead_code)]

use second::{Numbers, WORDS};

pub struct Random(pub u64);

impl Random {
    pub fn below(&mut self, n: u32) -> u32 {
        self.0 ^= self.0 << 13;
        self.0 ^= self.0 >> 7;
        self.0 ^= self.0 << 17;
        ((self.0 >> 32) as u32) % n
    }

    pub fn within(&mut self, low: i32, high: i32) -> i32 {
        low + self.below((high - low + 1) as u32) as i32
    }
}

pub fn intra() -> [i16; WORDS] {
    let mut words = [0; WORDS];
    words[5..13].fill(-1);
    words
}

pub fn whole(reference: [i16; 2], vector: [i16; 4]) -> [i16; WORDS] {
    let mut words = intra();
    words[0] = 1;
    words[5..13].chunks_mut(2).for_each(|two| two.copy_from_slice(&reference));
    words[13..77].chunks_mut(4).for_each(|four| four.copy_from_slice(&vector));
    words
}

/// The same record with another detail.
pub fn with_detail(mut words: [i16; WORDS], detail: i16) -> [i16; WORDS] {
    words[77] = detail;
    words
}

/// The same words, wide.
pub fn wide<const N: usize>(words: [i16; N]) -> [i32; N] {
    words.map(i32::from)
}

pub fn wide_whole(reference: [i16; 2], vector: [i32; 4]) -> [i32; WORDS] {
    let mut words = wide(whole(reference, [0; 4]));
    words[13..77].chunks_mut(4).for_each(|four| four.copy_from_slice(&vector));
    words
}

/// A well-formed wide record of the type given, with a random detail: each
/// piece's first block gets random motion and the others copy it.
pub fn wide_record_of(random: &mut Random, kind: i16, span: i32) -> [i32; WORDS] {
    let mut words = wide(intra());
    words[0] = kind.into();
    words[77] = random.below(16) as i32;
    if kind == 0 {
        return words;
    }
    if kind == 4 {
        words[1..5].iter_mut().for_each(|sub| *sub = random.below(4) as i32);
    }
    for b in 0..16 {
        let q = b / 8 * 2 + b % 4 / 2;
        let (width, height) = match kind {
            1 => (16, 16),
            2 => (16, 8),
            3 => (8, 16),
            _ => [(8, 8), (8, 4), (4, 8), (4, 4)][words[1 + q] as usize],
        };
        let (x, y) = (b % 4 * 4, b / 4 * 4);
        let lead = y / height * height / 4 * 4 + x / width * width / 4;
        let lead_q = lead / 8 * 2 + lead % 4 / 2;
        let first_of_quadrant = b % 2 == 0 && b / 4 % 2 == 0;
        if first_of_quadrant {
            if lead == b {
                let used = random.within(1, 3);
                for l in 0..2 {
                    words[5 + 2 * q + l] = if used >> l & 1 == 1 { random.within(0, 3) } else { -1 };
                }
            } else {
                words.copy_within(5 + 2 * lead_q..7 + 2 * lead_q, 5 + 2 * q);
            }
        }
        if lead == b {
            for w in 0..4 {
                let used = words[5 + 2 * q + w / 2] != -1;
                words[13 + 4 * b + w] = if used { random.within(-span - 1, span) } else { 0 };
            }
        } else {
            words.copy_within(13 + 4 * lead..17 + 4 * lead, 13 + 4 * b);
        }
    }
    words
}

/// The same, narrow.
pub fn record_of(random: &mut Random, kind: i16, span: i32) -> [i16; WORDS] {
    wide_record_of(random, kind, span).map(|word| word as i16)
}

/// A wide base of well-formed records.
pub fn wide_base_of(random: &mut Random, records: usize, kinds: &[i16], span: i32) -> Vec<i32> {
    let kind = |random: &mut Random| kinds[random.below(kinds.len() as u32) as usize];
    (0..records)
        .flat_map(|_| {
            let kind = kind(random);
            wide_record_of(random, kind, span)
        })
        .collect()
}

/// The same, narrow.
pub fn base_of(random: &mut Random, records: usize, kinds: &[i16], span: i32) -> Vec<i16> {
    wide_base_of(random, records, kinds, span).into_iter().map(|word| word as i16).collect()
}

/// An accepted geometry of small pictures.
pub fn geometry(random: &mut Random) -> Numbers {
    let mut axis = || {
        let base = 16 * random.within(1, 5);
        let scaled = match random.below(5) {
            0 => base,
            1 => 2 * base,
            2 => base + base / 2,
            _ => base + 2 * random.within(0, base / 2),
        };
        let offset = 2 * random.within(-12, 12);
        (base, scaled, offset, 16 * random.within(1, 7))
    };
    let (x, y) = (axis(), axis());
    Numbers::from_array([x.0, y.0, x.1, y.1, x.2, y.2, x.3, y.3])
}

pub fn base_records(numbers: Numbers) -> usize {
    (numbers.base_width / 16 * (numbers.base_height / 16)) as usize
}

pub fn full_records(numbers: Numbers) -> usize {
    (numbers.full_width / 16 * (numbers.full_height / 16)) as usize
}
