//! Tests that go through all cases of a kind, of either width.

use crate::calls::{Called, Calls};
use crate::coverage::map_row;
use crate::lent::Lent;
use crate::pictures::{positions, whole_and_single};
use compare::generate::{
    base_macroblocks, detailed, distinct, full_macroblocks, intra, whole, Eight, Mood, Record,
};
use compare::random::Random;
use second::geometry::{Axis, Geometry};
use second::record::DETAIL;
use second::{Numbers, WORDS};

/// A picture of 3 by 3 macroblocks over a base of 2 by 2, with every class.
const SMALL: Eight = [32, 32, 48, 48, 0, 0, 48, 48];

/// Numbers of a geometry at and beside every limit, and far from all.
const NUMBER_LIMITS: [i32; 30] = [
    i32::MIN,
    -65536,
    -8194,
    -8193,
    -8192,
    -4096,
    -16,
    -2,
    -1,
    0,
    1,
    2,
    8,
    15,
    16,
    17,
    30,
    32,
    34,
    48,
    4080,
    4096,
    4097,
    4112,
    8190,
    8191,
    8192,
    65536,
    65552,
    i32::MAX,
];

fn small_base<W: Called>() -> Vec<W> {
    [
        detailed(distinct(1, [0; 4], W::FIRST), 8),
        detailed(intra(), 6),
        distinct(4, [0, 1, 2, 3], W::FIRST + 19),
        detailed(distinct(3, [0; 4], W::FIRST + 39), 15),
    ]
    .concat()
}

/// Both calls are refused by `number`, or answered if that is 0.
fn expect(calls: &mut Calls, eight: &Eight, base: &[i16], number: u32) {
    let base = Lent::of(base);
    let picture = calls.picture(eight, &base, full_macroblocks(eight) * WORDS);
    let single = calls.single(eight, &base, (0, 0), WORDS, &[]);
    for found in [picture, single] {
        let found = found.err().unwrap_or(0);
        if found != number {
            calls.differs(|| format!("{eight:?}: refused by {found}, not by {number}"));
        }
    }
}

/// S 2B passes, 2B + 2 is refused.
pub fn bench_scaled(calls: &mut Calls) {
    for axis in 0..2 {
        for (scaled, number) in [(64, 0), (66, 3)] {
            let mut eight = SMALL;
            eight[2 + axis] = scaled;
            expect(calls, &eight, &small_base(), number);
        }
    }
}

/// Offset -8,192 passes, -8,194 is refused.
pub fn bench_offset(calls: &mut Calls) {
    for axis in 0..2 {
        for (offset, number) in [(-8192, 0), (-8194, 4)] {
            let mut eight = SMALL;
            eight[4 + axis] = offset;
            expect(calls, &eight, &small_base(), number);
        }
    }
}

/// At ratio 1 each split of the base comes out as it is, and so does its detail.
pub fn splits<W: Called>(calls: &mut Calls) {
    let eight = [16, 16, 16, 16, 0, 0, 16, 16];
    let mut records: Vec<Record<W>> = vec![
        distinct(1, [0; 4], W::FIRST),
        distinct(2, [0; 4], W::FIRST),
        distinct(3, [0; 4], W::FIRST),
    ];
    for n in 0..256 {
        let subs = [n / 64, n / 16 % 4, n / 4 % 4, n % 4];
        records.push(distinct(4, subs, W::FIRST));
    }
    for (detail, record) in (0..).zip(records) {
        let record = detailed(record, detail % 16);
        whole_and_single(calls, &eight, &Lent::of(&record), &[(0, 0)]);
        let words = calls.single(&eight, &Lent::of(&record), (0, 0), WORDS, &[]);
        if words.as_deref() != Ok(&record[..]) {
            calls.differs(|| format!("a split is not kept at ratio 1: {:?}", &record[..5]));
        }
    }
}

/// Every B to 128, S and P - o of a macroblock inside, as B, S and P - o.
fn accepted_windows() -> Vec<(i32, i32, i32)> {
    let mut found = Vec::new();
    for base in (16..=128).step_by(16) {
        for scaled in (base..=2 * base).step_by(2) {
            found.extend(
                (0..=scaled - 16)
                    .step_by(2)
                    .map(|distance| (base, scaled, distance)),
            );
        }
    }
    found
}

/// So many records with another vector in each block, and any details.
fn stepping<W: Called>(random: &mut Random, records: i32) -> Vec<Record<W>> {
    let record = |n| distinct(4, [3; 4], W::FIRST + 16 * n);
    (0..records)
        .map(|n| detailed(record(n), random.below(16) as i16))
        .collect()
}

/// Each of them along either axis, with another vector in each base block, and any
/// details.
pub fn windows<W: Called>(calls: &mut Calls) {
    let random = &mut Random::new(6);
    for (base, scaled, distance) in accepted_windows() {
        let records = stepping::<W>(random, base / 16);
        let lent = Lent::of(&records.concat());
        whole_and_single(
            calls,
            &[base, 16, scaled, 16, -distance, 0, 16, 16],
            &lent,
            &[(0, 0)],
        );
        whole_and_single(
            calls,
            &[16, base, 16, scaled, 0, -distance, 16, 16],
            &lent,
            &[(0, 0)],
        );
    }
}

/// Random windows of bases to 4096 along either axis.
pub fn long_windows<W: Called>(calls: &mut Calls) {
    let random = &mut Random::new(4);
    let words = stepping::<W>(random, 256).concat();
    for _ in 0..5_000 {
        let base = 16 * random.within(1, 256);
        let scaled = base + 2 * random.within(0, base / 2);
        let offset = -2 * random.within(0, (scaled - 16) / 2);
        let lent = Lent::of(&words[..base as usize / 16 * WORDS]);
        let full = 16 * random.within(1, 256);
        // A position inside the window, if the picture has it.
        let inside = random
            .within(0, (scaled + offset) / 16 - 1)
            .min(full / 16 - 1)
            .max(0);
        let _ = calls.single(
            &[base, 16, scaled, 16, offset, 0, full, 16],
            &lent,
            (inside, 0),
            WORDS,
            &[],
        );
        let _ = calls.single(
            &[16, base, 16, scaled, 0, offset, 16, full],
            &lent,
            (0, inside),
            WORDS,
            &[],
        );
    }
}

/// For every two rows of the block map the geometry of a picture of one macroblock.
fn two_map_rows() -> Vec<Eight> {
    let mut examples = [None; 32];
    for (base, scaled, distance) in accepted_windows() {
        let axis = Axis {
            base,
            scaled,
            offset: -distance,
            full: 16,
        };
        let row = map_row(&axis, 0);
        if examples[row].is_none() {
            examples[row] = Some((base, scaled, distance));
        }
    }
    let examples: Vec<(i32, i32, i32)> = examples.iter().flatten().copied().collect();
    let mut found = Vec::new();
    for &(base_width, scaled_width, x) in &examples {
        for &(base_height, scaled_height, y) in &examples {
            found.push([
                base_width,
                base_height,
                scaled_width,
                scaled_height,
                -x,
                -y,
                16,
                16,
            ]);
        }
    }
    found
}

/// Which of four base macroblocks that are neighbours one is: they differ in the
/// lowest bit of column or row.
fn neighbour(eight: &Eight, address: usize) -> usize {
    let columns = eight[0] as usize / 16;
    address / columns % 2 * 2 + address % columns % 2
}

/// With each of the sixteen ways in which four base macroblocks are intra or not.
pub fn intra_patterns<W: Called>(calls: &mut Calls) {
    let random = &mut Random::new(1);
    for eight in two_map_rows() {
        let mood = Mood::<W>::without_intra(random);
        let base = mood.base(random, base_macroblocks(&eight));
        for pattern in 0..16 {
            let mut base = base.clone();
            for (address, record) in base.chunks_mut(WORDS).enumerate() {
                if pattern >> neighbour(&eight, address) & 1 == 1 {
                    // It keeps its detail.
                    record[..DETAIL].copy_from_slice(&intra()[..DETAIL]);
                }
            }
            whole_and_single(calls, &eight, &Lent::of(&base), &[(0, 0)]);
        }
    }
}

/// With one quadrant of four base macroblocks that has detail, and with one that has
/// none; the macroblock is intra, or all others are, or none is.
pub fn detail_patterns<W: Called>(calls: &mut Calls) {
    let moving = distinct(4, [0, 1, 2, 3], W::FIRST);
    for eight in two_map_rows() {
        for one in 0..16 {
            for (bits, intras) in [(0, 1), (0, 2), (0, 0), (15, 1), (15, 2), (15, 0)] {
                let records: Vec<Record<W>> = (0..base_macroblocks(&eight))
                    .map(|address| {
                        let named = neighbour(&eight, address) == one / 4;
                        let record = match (intras, named) {
                            (1, true) | (2, false) => intra(),
                            _ => moving,
                        };
                        detailed(record, bits ^ (named as i16) << (one % 4))
                    })
                    .collect();
                whole_and_single(calls, &eight, &Lent::of(&records.concat()), &[(0, 0)]);
            }
        }
    }
}

/// In records of every type, each word is set to every limit in turn.
pub fn words<W: Called>(calls: &mut Calls) {
    let eight = [16, 16, 24, 32, 0, 0, 32, 32];
    let mut records: Vec<Record<W>> = vec![
        intra(),
        distinct(1, [0; 4], W::FIRST),
        distinct(2, [0; 4], W::FIRST),
        distinct(3, [0; 4], W::FIRST),
    ];
    for subs in [[0; 4], [1; 4], [2; 4], [3; 4], [0, 1, 2, 3]] {
        records.push(distinct(4, subs, W::FIRST));
    }
    let random = &mut Random::new(2);
    for _ in 0..8 {
        records.push(Mood::without_intra(random).record(random));
    }
    for record in records {
        for at in 0..WORDS {
            for &value in W::LIMITS {
                let mut record = record;
                record[at] = value;
                let base = Lent::of(&record);
                let _ = calls.picture(&eight, &base, 4 * WORDS);
                let _ = calls.single(&eight, &base, (0, 0), WORDS, &[]);
            }
        }
    }
}

/// Every vector word is scaled (of wide records one in so many, and both ends), for more
/// than 200 pairs B, S along either axis: the smallest and the largest of both, ratios whose
/// scale is exact and some whose is not. The macroblock at 0,0 reads base macroblock 0 alone,
/// which moves as a whole, by a word below zero in list 0 and one from 0 on in list 1, with
/// any detail.
pub fn scaled_words<W: Called>(calls: &mut Calls) {
    let (limit, step) = (-W::VECTORS.start().number(), W::STEP as i32);
    // In each step another one of its words, -limit first; and the last before 0.
    let mut words: Vec<i32> = (-limit..0)
        .step_by(W::STEP)
        .map(|word| word + (word / step * 37).rem_euclid(step))
        .collect();
    if words.last() != Some(&-1) {
        words.push(-1);
    }
    let random = &mut Random::new(5);
    let mut pairs: Vec<(i32, i32)> = vec![(32, 48), (80, 156), (112, 130)];
    for base in [
        16, 32, 48, 80, 112, 144, 240, 256, 528, 1008, 1024, 2032, 3056, 4080, 4096,
    ] {
        pairs.extend([0, 2, base / 2, base - 2, base].map(|more| (base, base + more)));
        for _ in 0..20 {
            pairs.push((base, base + 2 * random.within(0, base / 2)));
        }
    }
    pairs.sort();
    pairs.dedup();
    assert!(pairs.len() >= 200, "{} pairs", pairs.len());
    for &(base, scaled) in &pairs {
        let other = 16 + 2 * random.within(0, 8);
        let mut lent = Lent::of(&vec![W::from(0); base as usize / 16 * WORDS]);
        for eight in [
            [base, 16, scaled, other, 0, 0, 16, 16],
            [16, base, other, scaled, 0, 0, 16, 16],
        ] {
            for &word in &words {
                lent.lend_first(&detailed(whole(word, word + limit), (word & 15) as i16));
                let _ = calls.single(&eight, &lent, (0, 0), WORDS, &[]);
            }
        }
    }
    println!(
        "{} pairs of B and S with {} words",
        pairs.len(),
        2 * words.len()
    );
}

/// Every two of a geometry's numbers are set to every two limits. The calls are
/// made with the base as it was, and if the geometry is accepted and small with
/// one that fits.
pub fn numbers<W: Called>(calls: &mut Calls) {
    let base = Lent::of(&small_base::<W>());
    let random = &mut Random::new(3);
    for first in 0..8 {
        for second in first + 1..8 {
            for a in NUMBER_LIMITS {
                for b in NUMBER_LIMITS {
                    let mut eight = SMALL;
                    eight[first] = a;
                    eight[second] = b;
                    let _ = calls.picture(&eight, &base, 9 * WORDS);
                    let _ = calls.single(&eight, &base, (1, 1), WORDS, &[]);
                    let accepted = Geometry::new(Numbers::from_array(eight)).is_ok();
                    if accepted && base_macroblocks(&eight).max(full_macroblocks(&eight)) <= 768 {
                        let mood = Mood::<W>::mixed(random);
                        let base = Lent::of(&mood.base(random, base_macroblocks(&eight)));
                        let positions = positions(&eight);
                        let some = [random.pick(&positions), random.pick(&positions)];
                        whole_and_single(calls, &eight, &base, &some);
                    }
                }
            }
        }
    }
}

/// Every set of the faults 1 to 8, on either axis: the lowest is the refusal.
pub fn faults<W: Called>(calls: &mut Calls) {
    for axis in 0..2 {
        for set in 0..256u32 {
            let has = |number: u32| set >> (number - 1) & 1 == 1;
            let mut eight = SMALL;
            for (number, at, wrong) in [(1, 0, 24), (2, 6, 4112), (3, 2, 49), (4, 4, 8192)] {
                if has(number) {
                    eight[at + axis] = wrong;
                }
            }
            let mut base = small_base::<W>();
            if has(8) {
                // By rule 3, or by rule 7.
                base[2 * WORDS + [5, DETAIL][axis]] = W::from(32);
            }
            if has(5) {
                base.pop();
            }
            let base = Lent::of(&base);
            let off = has(6) as usize;
            let position = match (has(7), axis) {
                (false, _) => (1, 1),
                (true, 0) => (3, 1),
                (true, _) => (1, -1),
            };
            let picture = calls.picture(&eight, &base, 9 * WORDS - off);
            let single = calls.single(&eight, &base, position, WORDS - off, &[]);
            let lowest = |not: u32| {
                (1..=8)
                    .find(|&number| number != not && has(number))
                    .unwrap_or(0)
            };
            // A picture has no position to judge by 7.
            for (found, number) in [(picture, lowest(7)), (single, lowest(0))] {
                let found = found.err().unwrap_or(0);
                if found != number {
                    calls.differs(|| {
                        format!("faults {set:08b}: refused by {found}, not by {number}")
                    });
                }
            }
        }
    }
}
