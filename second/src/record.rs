//! A motion record: 78 words, the last from document 02's request E7, and the
//! seven rules that make it well formed. The words are narrow unless said
//! otherwise.

use crate::word::Word;

/// Words of a record.
pub const WORDS: usize = 78;

/// Index of the first reference, of the first vector word and of the detail.
pub const REFERENCES: usize = 5;
pub const VECTORS: usize = 13;
pub const DETAIL: usize = 77;

/// The most that a detail says: all four of its bits, bit q for luma
/// coefficients in quadrant q.
pub const MAX_DETAIL: i16 = 15;

/// The types that a written record may have besides those of a split.
pub const TYPE_INTRA: i16 = 0;
pub const TYPE_OUTSIDE: i16 = 5;

pub type Record<W = i16> = [W; WORDS];

/// Motion of one block: both references and both vectors.
#[derive(Clone, Copy, Debug, PartialEq, Eq)]
pub struct Motion<W = i16> {
    /// By list; -1 is unused.
    pub reference: [W; 2],
    /// Horizontal and vertical word of list 0, then of list 1.
    pub vector: [W; 4],
}

impl<W: Word> Motion<W> {
    pub fn none() -> Motion<W> {
        Motion { reference: [W::from(-1); 2], vector: [W::from(0); 4] }
    }
}

/// The quadrant of block `b`, both in raster order.
pub const fn quadrant_of(b: usize) -> usize {
    b / 8 * 2 + b % 4 / 2
}

/// The raster number of block `i` of quadrant `q`.
pub const fn block_in(q: usize, i: usize) -> usize {
    (q / 2 * 2 + i / 2) * 4 + q % 2 * 2 + i % 2
}

/// Record `address` of a base whose length has been judged.
pub fn record_at<W: Word>(base: &[W], address: usize) -> &Record<W> {
    base[address * WORDS..][..WORDS].try_into().unwrap()
}

fn references<W: Word>(record: &Record<W>, q: usize) -> [W; 2] {
    [record[REFERENCES + 2 * q], record[REFERENCES + 2 * q + 1]]
}

fn vector<W: Word>(record: &Record<W>, b: usize) -> [W; 4] {
    record[VECTORS + 4 * b..][..4].try_into().unwrap()
}

pub fn motion<W: Word>(record: &Record<W>, b: usize) -> Motion<W> {
    Motion { reference: references(record, quadrant_of(b)), vector: vector(record, b) }
}

/// Fills a record with no motion under the type given, and with a detail.
pub fn write_without_motion<W: Word>(record: &mut Record<W>, kind: i16, detail: i16) {
    record.fill(W::from(0));
    record[0] = kind.into();
    record[REFERENCES..VECTORS].fill(W::from(-1));
    record[DETAIL] = detail.into();
}

/// The first block of the piece that block `b` lies in. A block's number has
/// its row in bits 2 and 3 and its column in bits 0 and 1; what is kept of
/// them here distinguishes the pieces.
fn lead<W: Word>(record: &Record<W>, b: usize) -> usize {
    let keep = match record[0].number() {
        1 => 0b0000,
        2 => 0b1000,
        3 => 0b0010,
        _ => [0b1010, 0b1110, 0b1011, 0b1111][record[1 + quadrant_of(b)].number() as usize % 4],
    };
    b & keep
}

/// The first of rules 1 to 7 that the record breaks, 0 if well formed. A wide
/// word is judged as the number that it says, never by its low half.
pub fn broken_rule<W: Word>(record: &Record<W>) -> u32 {
    let kind = record[0].number();
    let subs = &record[1..REFERENCES];
    let refs = &record[REFERENCES..VECTORS];
    let vecs = &record[VECTORS..DETAIL];
    if !(0..=4).contains(&kind) {
        return 1;
    }
    let highest_sub = if kind == 4 { 3 } else { 0 };
    if !subs.iter().all(|sub| (0..=highest_sub).contains(&sub.number())) {
        return 2;
    }
    if !refs.iter().all(|reference| (-1..=31).contains(&reference.number())) {
        return 3;
    }
    let (zero, unused) = (W::from(0), W::from(-1));
    let used = (0..4).filter(|&q| references(record, q) != [unused; 2]).count();
    if used != if kind == 0 { 0 } else { 4 } {
        return 4;
    }
    // Without a way out of the loop, the compiler takes many words at once.
    let mut in_range = true;
    for word in vecs {
        in_range &= W::VECTORS.contains(word);
    }
    if !in_range {
        return 5;
    }
    for (n, &reference) in refs.iter().enumerate() {
        if reference == unused {
            let (q, list) = (n / 2, n % 2);
            for i in 0..4 {
                // As a pair the two words are compared at once.
                let v = vector(record, block_in(q, i));
                if v[2 * list..2 * list + 2] != [zero; 2] {
                    return 5;
                }
            }
        }
    }
    // An intra record has no pieces.
    if kind != TYPE_INTRA.into() {
        for b in 0..16 {
            if motion(record, b) != motion(record, lead(record, b)) {
                return 6;
            }
        }
    }
    if !(0..=MAX_DETAIL.into()).contains(&record[DETAIL].number()) {
        return 7;
    }
    0
}

#[cfg(test)]
mod tests {
    use super::*;

    fn intra() -> Record {
        let mut r = [0; WORDS];
        write_without_motion(&mut r, 0, 0);
        r
    }

    fn whole(reference: [i16; 2], v: [i16; 4]) -> Record {
        let mut r = intra();
        r[0] = 1;
        for q in 0..4 {
            r[5 + 2 * q] = reference[0];
            r[6 + 2 * q] = reference[1];
        }
        for b in 0..16 {
            r[13 + 4 * b..17 + 4 * b].copy_from_slice(&v);
        }
        r
    }

    /// The rule broken after some words are set.
    fn broken(mut r: Record, words: &[(usize, i16)]) -> u32 {
        for &(at, value) in words {
            r[at] = value;
        }
        // A wide record breaks the same, if its vectors are drawn out as the
        // wide limits are: sixteen times, and different ones stay different.
        let mut wide = r.map(i32::from);
        wide[VECTORS..DETAIL].iter_mut().for_each(|v| *v = 16 * *v + (*v & 15));
        assert_eq!(broken_rule(&wide), broken_rule(&r));
        broken_rule(&r)
    }

    /// The rule broken by a wide record after some words are set.
    fn wide_broken(r: Record, words: &[(usize, i32)]) -> u32 {
        let mut wide = r.map(i32::from);
        for &(at, value) in words {
            wide[at] = value;
        }
        broken_rule(&wide)
    }

    #[test]
    fn numbering() {
        for q in 0..4 {
            for i in 0..4 {
                assert_eq!(quadrant_of(block_in(q, i)), q);
            }
        }
        assert_eq!([0, 1, 2, 3].map(|i| block_in(3, i)), [10, 11, 14, 15]);
        assert_eq!([0, 1, 2, 3].map(|i| block_in(1, i)), [2, 3, 6, 7]);
    }

    #[test]
    fn rules_in_order() {
        let w = whole([0, -1], [4, -8, 0, 0]);
        assert_eq!(broken(intra(), &[]), 0);
        assert_eq!(broken(w, &[]), 0);
        assert_eq!(broken(whole([31, 0], [-8192, 8191, 8191, -8192]), &[]), 0);
        for kind in [-1, 5, i16::MIN, i16::MAX] {
            assert_eq!(broken(w, &[(0, kind), (1, 9)]), 1);
        }
        assert_eq!(broken(w, &[(1, 1)]), 2);
        assert_eq!(broken(w, &[(0, 4), (4, 4), (5, -2)]), 2);
        assert_eq!(broken(w, &[(0, 4), (4, -1)]), 2);
        assert_eq!(broken(intra(), &[(3, 1)]), 2);
        assert_eq!(broken(w, &[(12, 32), (5, -1)]), 3);
        assert_eq!(broken(w, &[(5, -2)]), 3);
        assert_eq!(broken(intra(), &[(7, 0)]), 4);
        assert_eq!(broken(w, &[(11, -1), (13, 9000)]), 4);
        assert_eq!(broken(w, &[(13, 8192)]), 5);
        assert_eq!(broken(w, &[(14, -8193)]), 5);
        assert_eq!(broken(w, &[(15, 1), (17, 5)]), 5);
        assert_eq!(broken(w, &[(76, 1)]), 5);
        assert_eq!(broken(intra(), &[(76, 1)]), 5);
        assert_eq!(broken(w, &[(73, 5)]), 6);
        assert_eq!(broken(w, &[(7, 1)]), 6);
    }

    /// Rule 7 is tested last, on intra records too.
    #[test]
    fn detail_last() {
        let w = whole([0, -1], [4, -8, 0, 0]);
        for detail in 0..=15 {
            assert_eq!(broken(w, &[(77, detail)]), 0);
            assert_eq!(broken(intra(), &[(77, detail)]), 0);
        }
        for detail in [-1, 16, 17, 256, i16::MIN, i16::MAX] {
            assert_eq!(broken(w, &[(77, detail)]), 7);
            assert_eq!(broken(intra(), &[(77, detail)]), 7);
            assert_eq!(broken(w, &[(77, detail), (7, 1)]), 6);
            assert_eq!(broken(w, &[(77, detail), (73, 5)]), 6);
            assert_eq!(broken(w, &[(77, detail), (76, 1)]), 5);
            assert_eq!(broken(intra(), &[(77, detail), (76, 1)]), 5);
            assert_eq!(broken(intra(), &[(77, detail), (7, 0)]), 4);
            assert_eq!(broken(w, &[(77, detail), (5, -2)]), 3);
            assert_eq!(broken(w, &[(77, detail), (1, 1)]), 2);
            assert_eq!(broken(w, &[(77, detail), (0, 5)]), 1);
        }
        // Pieces of each type may have a detail.
        for kind in 1..=4 {
            assert_eq!(broken(w, &[(0, kind), (77, 9)]), 0);
        }
    }

    /// The vectors' limits on every vector word of wide records.
    #[test]
    fn wide_limits() {
        let w = whole([0, 1], [0; 4]);
        for at in VECTORS..DETAIL {
            // One 4x4 block differs from the others.
            let parts = [(0, 4), (1, 3), (2, 3), (3, 3), (4, 3)];
            let with = |v: i32| wide_broken(w, &[&parts[..], &[(at, v)]].concat());
            for good in [-131_072, 131_071, -8193, 8192, -32_769, 32_768, 65_536, -65_536] {
                assert_eq!(with(good), 0);
            }
            for bad in [-131_073, 131_072, 1 << 20, i32::MIN, i32::MAX] {
                assert_eq!(with(bad), 5);
            }
            // In a list that is not used, and of an intra record.
            for bad in [1, 65_536, -65_536, 131_071, 131_072] {
                assert_eq!(wide_broken(intra(), &[(at, bad)]), 5);
                let list = (at - VECTORS) / 2 % 2;
                let other = if list == 0 { [-1, 0] } else { [0, -1] };
                assert_eq!(wide_broken(whole(other, [0; 4]), &[(at, bad)]), 5);
            }
        }
    }

    /// Wide words whose low halves would pass, each by its rule.
    #[test]
    fn low_halves() {
        let w = whole([0, -1], [4, -8, 0, 0]);
        let (low, high) = (-65_536, 65_536);
        for kind in 0..=4 {
            for r in [w, intra()] {
                assert_eq!(wide_broken(r, &[(0, low + kind)]), 1);
                assert_eq!(wide_broken(r, &[(0, high + kind)]), 1);
                assert_eq!(wide_broken(r, &[(0, i32::MIN + kind)]), 1);
            }
        }
        for at in 1..REFERENCES {
            for sub in [low, high, high + 3, i32::MIN] {
                assert_eq!(wide_broken(w, &[(at, sub)]), 2);
                assert_eq!(wide_broken(w, &[(0, 4), (at, sub)]), 2);
                assert_eq!(wide_broken(intra(), &[(at, sub)]), 2);
            }
        }
        for at in REFERENCES..VECTORS {
            for reference in [low - 1, low, high - 1, high, high + 31, i32::MIN, i32::MAX] {
                assert_eq!(wide_broken(w, &[(at, reference)]), 3);
                assert_eq!(wide_broken(intra(), &[(at, reference)]), 3);
            }
        }
        for b in 0..16 {
            // 4 and 65,540 are two vectors.
            assert_eq!(wide_broken(w, &[(VECTORS + 4 * b, high + 4)]), 6);
            assert_eq!(wide_broken(w, &[(VECTORS + 4 * b + 1, low - 8)]), 6);
        }
        for detail in [low, low + 15, high, high + 1, high + 15, i32::MIN] {
            assert_eq!(wide_broken(w, &[(DETAIL, detail)]), 7);
            assert_eq!(wide_broken(intra(), &[(DETAIL, detail)]), 7);
        }
    }

    /// Of each split: a change of one block's vector is found, and a change
    /// of a whole piece is not a fault.
    #[test]
    fn pieces() {
        let w = whole([0, 1], [4, -8, 0, 0]);
        let change = |kind: i16, subs: [i16; 4], blocks: &[usize]| {
            let mut words = vec![(0, kind)];
            words.extend((0..4).map(|q| (1 + q, subs[q])));
            words.extend(blocks.iter().map(|b| (13 + 4 * b + 3, 7)));
            broken(w, &words)
        };
        let none = [0; 4];
        assert_eq!(change(2, none, &[0, 1, 2, 3, 4, 5, 6, 7]), 0);
        assert_eq!(change(2, none, &[8, 9, 10, 11, 12, 13, 14, 15]), 0);
        assert_eq!(change(2, none, &[0, 1, 4, 5, 8, 9, 12, 13]), 6);
        assert_eq!(change(3, none, &[0, 1, 4, 5, 8, 9, 12, 13]), 0);
        assert_eq!(change(3, none, &[2, 3, 6, 7, 10, 11, 14, 15]), 0);
        assert_eq!(change(3, none, &[0, 1, 2, 3, 4, 5, 6, 7]), 6);
        assert_eq!(change(4, none, &[10, 11, 14, 15]), 0);
        assert_eq!(change(4, none, &[10, 11]), 6);
        assert_eq!(change(4, [0, 0, 0, 1], &[10, 11]), 0);
        assert_eq!(change(4, [0, 0, 0, 1], &[10, 14]), 6);
        assert_eq!(change(4, [0, 0, 0, 2], &[10, 14]), 0);
        assert_eq!(change(4, [0, 0, 0, 2], &[10, 11]), 6);
        assert_eq!(change(4, [0, 0, 0, 3], &[10]), 0);
        assert_eq!(change(4, [0, 0, 0, 3], &[10, 2]), 6);
        assert_eq!(change(4, [0, 2, 0, 0], &[3, 7]), 0);
        assert_eq!(change(4, [0, 0, 1, 0], &[12, 13]), 0);
        assert_eq!(change(4, [0, 0, 2, 0], &[9, 13]), 0);
    }

    /// References differ between pieces but not in one.
    #[test]
    fn piece_references() {
        let w = whole([0, 1], [4, -8, 0, 0]);
        assert_eq!(broken(w, &[(0, 2), (5, 3), (7, 3)]), 0);
        assert_eq!(broken(w, &[(0, 2), (5, 3), (9, 3)]), 6);
        assert_eq!(broken(w, &[(0, 3), (5, 3), (9, 3)]), 0);
        assert_eq!(broken(w, &[(0, 3), (5, 3), (7, 3)]), 6);
        assert_eq!(broken(w, &[(0, 4), (5, 3)]), 0);
    }
}
