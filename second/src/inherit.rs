//! Inheriting: steps 1 to 4 on the sixteen blocks' motions, step 4 as document
//! 02's request E3 has it. The motions are held by quadrant: four quadrants in
//! raster order, of four blocks in raster order. In both fours the horizontal
//! neighbour of i is i ^ 1, the vertical one i ^ 2 and the diagonal one i ^ 3.
//! Steps 1 to 3 look at references and move vectors; neither they nor step 4
//! know how wide a word is.

use crate::record::Motion;
use crate::word::Word;

pub type Quadrants<W = i16> = [[Motion<W>; 4]; 4];

/// The blocks that read intra macroblocks: bit 4q + i for block i of quadrant q.
pub type IntraSet = u16;

/// Nine or more make the answer intra.
pub const INTRA_FROM: u32 = 9;

const ALL_INTRA: u16 = 0b1111;

/// The members in quadrant q, as four bits.
fn intra_in(intra: IntraSet, q: usize) -> u16 {
    intra >> (4 * q) & ALL_INTRA
}

/// The first of horizontal, vertical and diagonal neighbour with a property.
fn neighbour(i: usize, has: impl Fn(usize) -> bool) -> Option<usize> {
    [i ^ 1, i ^ 2, i ^ 3].into_iter().find(|&j| has(j))
}

/// Step 1: each intra block of a quadrant that is not all intra takes the
/// motion of a neighbour that is not.
fn fill_intra_blocks<W: Word>(quadrant: &mut [Motion<W>; 4], intra: u16) {
    let before = *quadrant;
    for i in 0..4 {
        if intra >> i & 1 == 1 {
            if let Some(j) = neighbour(i, |j| intra >> j & 1 == 0) {
                quadrant[i] = before[j];
            }
        }
    }
}

/// Step 2: per list, one reference for the quadrant, the lowest used one.
fn merge_references<W: Word>(quadrant: &mut [Motion<W>; 4]) {
    let unused = W::from(-1);
    for list in 0..2 {
        let first = quadrant[0].reference[list];
        if quadrant.iter().all(|block| block.reference[list] == first) {
            continue;
        }
        let before = *quadrant;
        let used = before.iter().map(|block| block.reference[list]).filter(|&reference| reference != unused);
        let lowest = used.min().unwrap_or(unused);
        for i in 0..4 {
            if before[i].reference[list] != lowest {
                if let Some(j) = neighbour(i, |j| before[j].reference[list] == lowest) {
                    let words = 2 * list..2 * list + 2;
                    quadrant[i].reference[list] = lowest;
                    quadrant[i].vector[words.clone()].copy_from_slice(&before[j].vector[words]);
                }
            }
        }
    }
}

/// Step 3: a quadrant that is all intra copies its horizontal neighbour, or
/// the vertical one if that was all intra too.
fn fill_intra_quadrants<W: Word>(quadrants: &mut Quadrants<W>, intra: IntraSet) {
    let before = *quadrants;
    for q in 0..4 {
        if intra_in(intra, q) == ALL_INTRA {
            let from = if intra_in(intra, q ^ 1) == ALL_INTRA { q ^ 2 } else { q ^ 1 };
            quadrants[q] = before[from];
        }
    }
}

/// Bits of a scale's fraction: it counts in parts of 65,536.
const FRACTION_BITS: u32 = 16;

/// What the vector words of one axis are scaled by (E3). It is made when a
/// geometry is accepted, so that no word is divided by B.
#[derive(Clone, Copy, Debug, PartialEq, Eq)]
pub struct Scale(i64);

impl Scale {
    /// (S * 65,536 + B/2) / B, rounded down, for B and S of an accepted
    /// geometry. With B <= S <= 2B it lies in 65,536..=131,072: different
    /// words stay different, and a word grows to at most its double.
    pub fn new(base: i32, scaled: i32) -> Scale {
        let (b, s) = (base as u32, scaled as u32);
        Scale((((s << FRACTION_BITS) + b / 2) / b).into())
    }

    /// (v * scale + 32,768) / 65,536, rounded down below zero too, as the
    /// shift of a signed number does. The product has 64 bits: that of a wide
    /// word does not fit 32.
    pub fn word(self, v: i32) -> i32 {
        const HALF: i64 = 1 << (FRACTION_BITS - 1);
        ((i64::from(v) * self.0 + HALF) >> FRACTION_BITS) as i32
    }
}

/// Both axes' scales.
#[derive(Clone, Copy, Debug, PartialEq, Eq)]
pub struct Scales {
    pub x: Scale,
    pub y: Scale,
}

impl Scales {
    /// Step 4 for a motion's vector words; doubled, those within the limits
    /// still fit their width.
    pub fn vector<W: Word>(&self, [h0, v0, h1, v1]: [W; 4]) -> [W; 4] {
        let word = |scale: Scale, v: W| W::fitting(scale.word(v.number()));
        [word(self.x, h0), word(self.y, v0), word(self.x, h1), word(self.y, v1)]
    }
}

/// Steps 1 to 3, for a set of at most eight members.
pub fn inherit<W: Word>(quadrants: &mut Quadrants<W>, intra: IntraSet) {
    for (q, quadrant) in quadrants.iter_mut().enumerate() {
        let intra = intra_in(intra, q);
        if intra == ALL_INTRA {
            continue;
        }
        if intra != 0 {
            fill_intra_blocks(quadrant, intra);
        }
        merge_references(quadrant);
    }
    if intra != 0 {
        fill_intra_quadrants(quadrants, intra);
    }
}

#[cfg(test)]
pub mod tests {
    use super::*;
    use crate::record::{block_in, quadrant_of};
    use crate::split::fewest_pieces;

    /// A small generator for tests (xorshift).
    pub struct Random(pub u64);

    impl Random {
        pub fn below(&mut self, n: u32) -> u32 {
            self.0 ^= self.0 << 13;
            self.0 ^= self.0 >> 7;
            self.0 ^= self.0 << 17;
            ((self.0 >> 32) as u32) % n
        }

        pub fn within(&mut self, low: i32, high: i32) -> i32 {
            low + self.below((high - low + 1) as u32) as i32
        }
    }

    pub fn random_motion<W: Word>(random: &mut Random) -> Motion<W> {
        let mut motion = Motion::none();
        let used = random.within(1, 3);
        for list in 0..2 {
            if used >> list & 1 == 1 {
                motion.reference[list] = W::fitting(random.within(0, 2));
                let span = if random.below(2) == 0 { 3 } else { W::VECTORS.end().number() };
                motion.vector[2 * list] = W::fitting(random.within(-span - 1, span));
                motion.vector[2 * list + 1] = W::fitting(random.within(-span - 1, span));
            }
        }
        motion
    }

    /// Sixteen motions in raster order; `mood` says how much they repeat.
    pub fn random_blocks<W: Word>(random: &mut Random, mood: u32) -> [Motion<W>; 16] {
        let motions = [0; 3].map(|_| random_motion(random));
        let key: Vec<u32> = (0..16).map(|_| random.below(3)).collect();
        std::array::from_fn(|b| {
            let (x, y, q) = (b % 4, b / 4, quadrant_of(b));
            match mood {
                0 => motions[key[b] as usize],
                1 => motions[key[q] as usize],
                2 => motions[if key[q] == 0 { key[4 + q * 2 + x % 2] } else { key[4 + q * 2 + y % 2] } as usize],
                3 => motions[if key[0] == 0 { key[1 + x / 2] } else { key[1 + y / 2] } as usize],
                _ => motions[(key[0] == 0 && key[b] == 0) as usize],
            }
        })
    }

    pub fn to_quadrants<W: Word>(blocks: &[Motion<W>; 16]) -> Quadrants<W> {
        std::array::from_fn(|q| std::array::from_fn(|i| blocks[block_in(q, i)]))
    }

    pub fn to_blocks<W: Word>(quadrants: &Quadrants<W>) -> [Motion<W>; 16] {
        std::array::from_fn(|b| {
            let q = quadrant_of(b);
            quadrants[q][(0..4).find(|&i| block_in(q, i) == b).unwrap()]
        })
    }

    /// The greatest n with n * d <= a, for d > 0.
    fn divided(a: i128, d: i128) -> i128 {
        a / d - (a % d < 0) as i128
    }

    /// E3's rule as it is written, for one word and B and S of its axis.
    fn slow_word(v: i32, (base, scaled): (i32, i32)) -> i32 {
        let (b, s) = (base as i128, scaled as i128);
        let scale = divided(s * 65_536 + b / 2, b);
        divided(v as i128 * scale + 32_768, 65_536) as i32
    }

    /// Steps 1 to 4 once more on raster coordinates, one whole step after
    /// the other and each from a copy. `x` and `y` are B and S of the axes.
    fn slow<W: Word>(blocks: &[Motion<W>; 16], intra: &[bool; 16], x: (i32, i32), y: (i32, i32)) -> [Motion<W>; 16] {
        let at = |column: usize, row: usize| row * 4 + column;
        let flip = |c: usize| c / 2 * 2 + 1 - c % 2;
        let around = |b: usize| {
            let (c, r) = (b % 4, b / 4);
            [at(flip(c), r), at(c, flip(r)), at(flip(c), flip(r))]
        };
        let members = |b: usize| (0..16).filter(move |&o| o % 4 / 2 == b % 4 / 2 && o / 8 == b / 8);
        let all_intra = |b: usize| members(b).all(|o| intra[o]);

        let mut one = *blocks;
        for b in 0..16 {
            if intra[b] && !all_intra(b) {
                one[b] = blocks[*around(b).iter().find(|&&o| !intra[o]).unwrap()];
            }
        }
        let mut two = one;
        for b in 0..16 {
            for list in 0..2 {
                let used = members(b).map(|o| one[o].reference[list]).filter(|&r| r != W::from(-1));
                if let (false, Some(r)) = (all_intra(b), used.min()) {
                    if one[b].reference[list] != r {
                        let from = around(b).into_iter().find(|&o| one[o].reference[list] == r).unwrap();
                        two[b].reference[list] = r;
                        two[b].vector[2 * list] = one[from].vector[2 * list];
                        two[b].vector[2 * list + 1] = one[from].vector[2 * list + 1];
                    }
                }
            }
        }
        let mut three = two;
        for b in 0..16 {
            let (c, r) = (b % 4, b / 4);
            let (beside, below) = (at((c + 2) % 4, r), at(c, (r + 2) % 4));
            if all_intra(b) {
                three[b] = if all_intra(beside) { two[below] } else { two[beside] };
            }
        }
        three.map(|mut motion| {
            for (word, sizes) in motion.vector.iter_mut().zip([x, y, x, y]) {
                *word = W::fitting(slow_word(word.number(), sizes));
            }
            motion
        })
    }

    fn quick_is_slow<W: Word>() {
        let mut random = Random(11);
        let mut tried = 0;
        while tried < 30_000 {
            let mood = random.below(5);
            let mut blocks = random_blocks::<W>(&mut random, mood);
            let often = random.within(1, 8);
            let mut intra = [0; 16].map(|_| random.within(0, 8) > often);
            for q in 0..4 {
                if random.below(6) == 0 {
                    (0..4).for_each(|i| intra[block_in(q, i)] = true);
                }
            }
            if intra.iter().filter(|&&i| i).count() >= 9 {
                continue;
            }
            let mut set = 0;
            for b in 0..16 {
                if intra[b] {
                    blocks[b] = Motion::none();
                    let q = quadrant_of(b);
                    set |= 1 << (4 * q + (0..4).find(|&i| block_in(q, i) == b).unwrap());
                }
            }
            let base = random.within(1, 256) * 16;
            let (x, y) = ((base, base + 2 * random.within(0, base / 2)), (base, 2 * base));
            let mut quick = to_quadrants(&blocks);
            inherit(&mut quick, set);
            let unscaled = fewest_pieces(&quick);
            let scales = Scales { x: Scale::new(x.0, x.1), y: Scale::new(y.0, y.1) };
            quick.as_flattened_mut().iter_mut().for_each(|block| block.vector = scales.vector(block.vector));
            assert_eq!(to_blocks(&quick), slow(&blocks, &intra, x, y));
            // The split is the same before and after step 4.
            assert_eq!(unscaled, fewest_pieces(&quick));
            tried += 1;
        }
    }

    #[test]
    fn quick_is_slow_on_both_widths() {
        quick_is_slow::<i16>();
        quick_is_slow::<i32>();
    }

    /// Bench example: quadrant references 2, 1, 1, 0: all take block 3's vector.
    #[test]
    fn bench_references() {
        let block = |r: i16| Motion { reference: [r, -1], vector: [10 + r, 20 + r, 0, 0] };
        let mut quadrant = [block(2), block(1), block(1), block(0)];
        merge_references(&mut quadrant);
        assert_eq!(quadrant, [block(0); 4]);
    }

    /// Lists are merged apart, and -1 is no minimum.
    #[test]
    fn lists_apart() {
        let block = |r: [i16; 2], v: i16| {
            let (v0, v1) = (if r[0] < 0 { 0 } else { v }, if r[1] < 0 { 0 } else { -v });
            Motion { reference: r, vector: [v0, v0, v1, v1] }
        };
        let mut quadrant = [block([-1, 3], 1), block([5, -1], 2), block([4, 3], 3), block([4, -1], 4)];
        merge_references(&mut quadrant);
        let motion = |v0: i16, v1: i16| Motion { reference: [4, 3], vector: [v0, v0, v1, v1] };
        assert_eq!(quadrant, [motion(3, -1), motion(4, -1), motion(3, -3), motion(4, -3)]);
    }

    /// Bench example, after E3: scaled vector words.
    #[test]
    fn bench_scaling() {
        let scale = Scale::new(32, 48);
        assert_eq!((scale.word(3), scale.word(-3)), (5, -4));
        for base in (16..=4096).step_by(16) {
            let twice = Scale::new(base, 2 * base);
            assert_eq!((twice.word(8191), twice.word(-8192)), (16382, -16384));
        }
    }

    /// The scales themselves, and words where they tell: 19.5 falls just short
    /// of 20 by a scale rounded down, -9493.48 goes past the half by one
    /// rounded up.
    #[test]
    fn scales_round_to_nearest() {
        assert_eq!(Scale::new(32, 48), Scale(98_304));
        assert_eq!(Scale::new(80, 156), Scale(127_795));
        assert_eq!(Scale::new(112, 130), Scale(76_069));
        assert_eq!(Scale::new(80, 156).word(10), 19);
        assert_eq!(Scale::new(80, 156).word(-10), -19);
        assert_eq!(Scale::new(112, 130).word(-8179), -9494);
        assert_eq!(Scale::new(112, 130).word(8179), 9494);
        // A half goes up on both sides of zero.
        let half = Scale::new(32, 48);
        assert_eq!([-5, -3, -1, 0, 1, 3, 5].map(|v| half.word(v)), [-7, -4, -1, 0, 2, 5, 8]);
    }

    /// Some dozens of B and S: B from the least to the most, S from B to 2B.
    fn some_sizes() -> impl Iterator<Item = (i32, i32)> {
        [16, 32, 48, 80, 112, 176, 352, 720, 1280, 1936, 4080, 4096].into_iter().flat_map(|base| {
            let part = |n: i32, d: i32| base + base * n / d / 2 * 2;
            [base, base + 2, part(1, 7), part(1, 2), part(5, 6), 2 * base - 2, 2 * base].map(|scaled| (base, scaled))
        })
    }

    /// Every word of the limits by the rule as it is written. They rise
    /// strictly, so two different words never scale to one, and 0 stays 0. The
    /// wide ones need more than 16 bits, and more than 32 in the product.
    fn words_rise<W: Word>() {
        for sizes in some_sizes() {
            let scale = Scale::new(sizes.0, sizes.1);
            let scales = Scales { x: scale, y: scale };
            let mut before = i32::MIN;
            for v in W::VECTORS.start().number()..=W::VECTORS.end().number() {
                let word = scale.word(v);
                assert_eq!(word, slow_word(v, sizes), "{v} by {sizes:?}");
                assert!(before < word, "{v} by {sizes:?}");
                assert_eq!(scales.vector([W::fitting(v); 4]).map(W::number), [word; 4]);
                before = word;
            }
            assert_eq!(scale.word(0), 0);
        }
    }

    #[test]
    fn words_rise_on_both_widths() {
        words_rise::<i16>();
        words_rise::<i32>();
        let twice = Scale::new(4096, 8192);
        assert_eq!((twice.word(131_071), twice.word(-131_072)), (262_142, -262_144));
    }

    /// Both axes' scales, each on its own words, at the ends of the limit.
    #[test]
    fn vectors_by_axis() {
        let scales = Scales { x: Scale::new(80, 156), y: Scale::new(112, 130) };
        assert_eq!(scales.vector::<i16>([10, -8179, -10, 8179]), [19, -9494, -19, 9494]);
        assert_eq!(scales.vector::<i32>([10, -8179, -10, 8179]), [19, -9494, -19, 9494]);
        let scales = Scales { x: Scale::new(16, 32), y: Scale::new(16, 16) };
        assert_eq!(scales.vector::<i16>([8191, 8191, -8192, -8192]), [16_382, 8191, -16_384, -8192]);
        let ends = [131_071, 131_071, -131_072, -131_072];
        assert_eq!(scales.vector::<i32>(ends), [262_142, 131_071, -262_144, -131_072]);
    }
}
