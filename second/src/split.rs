//! The 259 splits, and the one with the fewest pieces of one motion each.

use crate::inherit::Quadrants;
use crate::record::Motion;
use crate::word::Word;

/// Split of a quadrant, width by height.
#[derive(Clone, Copy, Debug, PartialEq, Eq)]
pub enum SubSplit {
    S8x8,
    S8x4,
    S4x8,
    S4x4,
}

/// Split of a macroblock, width by height.
#[derive(Clone, Copy, Debug, PartialEq, Eq)]
pub enum Split {
    S16x16,
    S16x8,
    S8x16,
    S8x8([SubSplit; 4]),
}

impl SubSplit {
    /// The sub-type in a record.
    pub fn number(self) -> i16 {
        match self {
            SubSplit::S8x8 => 0,
            SubSplit::S8x4 => 1,
            SubSplit::S4x8 => 2,
            SubSplit::S4x4 => 3,
        }
    }

    pub fn pieces(self) -> u32 {
        match self {
            SubSplit::S8x8 => 1,
            SubSplit::S8x4 => 2,
            SubSplit::S4x8 => 2,
            SubSplit::S4x4 => 4,
        }
    }
}

impl Split {
    /// The type in a record.
    pub fn number(self) -> i16 {
        match self {
            Split::S16x16 => 1,
            Split::S16x8 => 2,
            Split::S8x16 => 3,
            Split::S8x8(_) => 4,
        }
    }

    /// The four sub-types in a record.
    pub fn sub_numbers(self) -> [i16; 4] {
        match self {
            Split::S8x8(subs) => subs.map(SubSplit::number),
            _ => [0; 4],
        }
    }

    pub fn pieces(self) -> u32 {
        match self {
            Split::S16x16 => 1,
            Split::S16x8 => 2,
            Split::S8x16 => 2,
            Split::S8x8(subs) => subs.iter().map(|sub| sub.pieces()).sum(),
        }
    }
}

/// For four motions in raster order: are they alike along each row, and
/// along each column?
fn alike<W: Word>(a: &Motion<W>, b: &Motion<W>, c: &Motion<W>, d: &Motion<W>) -> (bool, bool) {
    (a == b && c == d, a == c && b == d)
}

fn sub_split<W: Word>([a, b, c, d]: &[Motion<W>; 4]) -> SubSplit {
    match alike(a, b, c, d) {
        (true, true) => SubSplit::S8x8,
        (true, false) => SubSplit::S8x4,
        (false, true) => SubSplit::S4x8,
        (false, false) => SubSplit::S4x4,
    }
}

/// The split with the fewest pieces that have one motion each.
pub fn fewest_pieces<W: Word>(quadrants: &Quadrants<W>) -> Split {
    let [a, b, c, d] = quadrants;
    let subs = [sub_split(a), sub_split(b), sub_split(c), sub_split(d)];
    if subs != [SubSplit::S8x8; 4] {
        // A larger piece would hold this quadrant's different motions.
        return Split::S8x8(subs);
    }
    match alike(&a[0], &b[0], &c[0], &d[0]) {
        (true, true) => Split::S16x16,
        (true, false) => Split::S16x8,
        (false, true) => Split::S8x16,
        (false, false) => Split::S8x8(subs),
    }
}

#[cfg(test)]
pub mod reference {
    //! The same by search: every split, with its pieces as sets of blocks.

    use super::*;
    use crate::record::quadrant_of;

    const SUBS: [SubSplit; 4] = [SubSplit::S8x8, SubSplit::S8x4, SubSplit::S4x8, SubSplit::S4x4];

    pub fn all_splits() -> Vec<Split> {
        let mut all = vec![Split::S16x16, Split::S16x8, Split::S8x16];
        for n in 0..256 {
            all.push(Split::S8x8([SUBS[n / 64], SUBS[n / 16 % 4], SUBS[n / 4 % 4], SUBS[n % 4]]));
        }
        all
    }

    /// The pieces as lists of blocks in raster numbers, from width and height.
    pub fn pieces(split: Split) -> Vec<Vec<usize>> {
        // The piece that a block lies in is named by its corner sample.
        let corner = |b: usize| {
            let (x, y) = (b % 4 * 4, b / 4 * 4);
            let (width, height) = match split {
                Split::S16x16 => (16, 16),
                Split::S16x8 => (16, 8),
                Split::S8x16 => (8, 16),
                Split::S8x8(subs) => match subs[quadrant_of(b)] {
                    SubSplit::S8x8 => (8, 8),
                    SubSplit::S8x4 => (8, 4),
                    SubSplit::S4x8 => (4, 8),
                    SubSplit::S4x4 => (4, 4),
                },
            };
            (x / width * width, y / height * height)
        };
        let mut found: Vec<((usize, usize), Vec<usize>)> = Vec::new();
        for b in 0..16 {
            match found.iter_mut().find(|piece| piece.0 == corner(b)) {
                Some(piece) => piece.1.push(b),
                None => found.push((corner(b), vec![b])),
            }
        }
        found.into_iter().map(|piece| piece.1).collect()
    }

    /// All splits with one motion in each piece that have the fewest pieces.
    pub fn best<W: Word>(blocks: &[Motion<W>; 16]) -> Vec<Split> {
        let mut best = Vec::new();
        let mut least = usize::MAX;
        for split in all_splits() {
            let pieces = pieces(split);
            if pieces.iter().all(|piece| piece.iter().all(|&b| blocks[b] == blocks[piece[0]])) {
                if pieces.len() < least {
                    least = pieces.len();
                    best.clear();
                }
                if pieces.len() == least {
                    best.push(split);
                }
            }
        }
        best
    }

    #[test]
    fn counts() {
        let all = all_splits();
        assert_eq!(all.len(), 259);
        for split in all {
            assert_eq!(pieces(split).len() as u32, split.pieces());
        }
    }
}

#[cfg(test)]
mod tests {
    use super::*;
    use crate::inherit::tests::{random_blocks, to_quadrants, Random};

    /// The quick way and the search agree, and the search finds one only.
    fn quick_is_the_search<W: Word>() {
        let mut random = Random(7);
        for round in 0..4_000 {
            let blocks = random_blocks::<W>(&mut random, round % 5);
            let best = reference::best(&blocks);
            assert_eq!(best, [fewest_pieces(&to_quadrants(&blocks))]);
        }
    }

    #[test]
    fn quick_is_the_search_on_both_widths() {
        quick_is_the_search::<i16>();
        quick_is_the_search::<i32>();
    }
}
