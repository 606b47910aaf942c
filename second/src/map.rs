//! The block map: which base columns (or rows) a macroblock reads along one
//! axis, and which base 4 by 4 coordinate each of its four blocks reads.

use crate::geometry::Axis;

type Row = (i32, i32, [u8; 4]);

/// Document 01's rows for even k: M, N and the four m.
const K_EVEN: [Row; 16] = [
    (-16, 0, [1, 1, 2, 2]),
    (-16, 4, [1, 1, 1, 2]),
    (-12, 0, [1, 1, 2, 2]),
    (-12, 4, [0, 1, 1, 2]),
    (-12, 8, [0, 0, 1, 1]),
    (-8, 0, [0, 1, 2, 3]),
    (-8, 4, [0, 0, 1, 2]),
    (-8, 8, [0, 0, 1, 1]),
    (-8, 12, [0, 0, 1, 1]),
    (-4, 4, [3, 4, 5, 6]),
    (-4, 8, [3, 4, 5, 5]),
    (-4, 12, [3, 4, 4, 5]),
    (-4, 16, [3, 4, 4, 4]),
    (0, 8, [2, 3, 4, 5]),
    (0, 12, [3, 3, 4, 4]),
    (0, 16, [3, 3, 4, 4]),
];

/// Document 01's rows for odd k.
const K_ODD: [Row; 16] = [
    (0, -16, [3, 3, 4, 4]),
    (0, -12, [3, 3, 4, 4]),
    (0, -8, [2, 3, 4, 5]),
    (4, -16, [3, 3, 3, 4]),
    (4, -12, [2, 3, 3, 4]),
    (4, -8, [2, 2, 3, 4]),
    (4, -4, [1, 2, 3, 4]),
    (8, -12, [2, 2, 3, 3]),
    (8, -8, [2, 2, 3, 3]),
    (8, -4, [1, 2, 3, 3]),
    (8, 0, [0, 1, 2, 3]),
    (12, -8, [2, 2, 3, 3]),
    (12, -4, [1, 2, 2, 3]),
    (12, 0, [1, 1, 2, 2]),
    (16, -4, [1, 2, 2, 2]),
    (16, 0, [1, 1, 2, 2]),
];

/// The four m of a pair. Every accepted geometry gives a pair of the table.
fn coordinates(k_odd: bool, m: i32, n: i32) -> [u8; 4] {
    let table = if k_odd { &K_ODD } else { &K_EVEN };
    match table.iter().find(|row| row.0 == m && row.1 == n) {
        Some(row) => row.2,
        None => unreachable!("no row {m},{n} in the block map"),
    }
}

/// What a macroblock inside the window reads along one axis.
#[derive(Clone, Copy, Debug, PartialEq, Eq)]
pub struct Reading {
    /// First base column (or row).
    pub first: usize,
    /// Whether the next one is read too.
    pub two: bool,
    /// For each of the four blocks: 0 or 1 columns (rows) after the first.
    pub step: [u8; 4],
    /// For each of the four blocks: the block 0..3 in that base macroblock.
    pub block: [u8; 4],
    /// How many of the four blocks fall in the first column (row): 4 where one
    /// is read, 1 to 3 where two are.
    pub in_first: u8,
    /// For each half of the four blocks: the base quadrants along the axis
    /// that it reads, as a set of 0 and 1 in the first column (row) and 2 and
    /// 3 in the next.
    pub quadrants: [u8; 2],
}

/// Along one axis, for the macroblock at index `at`; `None` outside.
pub fn reading(axis: &Axis, at: usize) -> Option<Reading> {
    let p = 16 * at as i32;
    if !axis.inside(p) {
        return None;
    }
    let borders = axis.borders(p);
    let m = coordinates(borders.k_odd, borders.m, borders.n);
    let quadrants = |a: u8, b: u8| 1 << (a / 2) | 1 << (b / 2);
    Some(Reading {
        first: borders.first as usize,
        two: borders.m.abs() < 8,
        step: m.map(|m| m / 4),
        block: m.map(|m| m % 4),
        in_first: m.iter().filter(|&m| m / 4 == 0).count() as u8,
        quadrants: [quadrants(m[0], m[1]), quadrants(m[2], m[3])],
    })
}

#[cfg(test)]
mod tests {
    use super::*;
    use std::collections::BTreeSet;

    /// Every accepted (B, S, P - o) with B in `bases`: the pair is in the
    /// table, the columns named lie in the base, the columns read are those
    /// named, and as many blocks as is said read the first. Returns how many
    /// were tried and the pairs met.
    fn try_all(bases: impl Iterator<Item = i32>) -> (u64, BTreeSet<(bool, i32, i32)>) {
        let mut met = BTreeSet::new();
        let mut tried = 0;
        for base in bases {
            for scaled in (base..=2 * base).step_by(2) {
                for distance in (0..=scaled - 16).step_by(2) {
                    let axis = Axis { base, scaled, offset: -distance, full: 16 };
                    let b = axis.borders(0);
                    let r = reading(&axis, 0).unwrap();
                    let last = r.first + r.two as usize;
                    assert!(b.first >= 0 && last < axis.base_count());
                    assert!(r.step.contains(&0));
                    assert_eq!(r.two, r.step.contains(&1));
                    assert_eq!(r.in_first, 4 - r.step.iter().sum::<u8>());
                    assert!(if r.two { (1..=3).contains(&r.in_first) } else { r.in_first == 4 });
                    let quadrant = |i: usize| 1 << (2 * r.step[i] + r.block[i] / 2);
                    assert_eq!(r.quadrants, [quadrant(0) | quadrant(1), quadrant(2) | quadrant(3)]);
                    met.insert((b.k_odd, b.m, b.n));
                    tried += 1;
                }
            }
        }
        (tried, met)
    }

    #[test]
    fn small_bases() {
        let (_, met) = try_all((16..=256).step_by(16));
        assert_eq!(met.len(), 32);
    }

    /// Takes a while: `cargo test --release -- --ignored`.
    #[test]
    #[ignore]
    fn all_bases() {
        let (tried, met) = try_all((16..=4096).step_by(16));
        assert_eq!(met.len(), 32);
        println!("{tried} tried");
    }

    /// The bench example "two columns", and one that reads a single one.
    #[test]
    fn bench_two_columns() {
        let axis = Axis { base: 32, scaled: 64, offset: 6, full: 96 };
        assert_eq!(reading(&axis, 0), None);
        let one = reading(&axis, 1).unwrap();
        assert_eq!((one.first, one.two, one.step, one.block), (0, false, [0; 4], [1, 2, 2, 2]));
        assert_eq!((one.in_first, one.quadrants), (4, [0b0011, 0b0010]));
        let two = reading(&axis, 2).unwrap();
        assert_eq!((two.first, two.two, two.step, two.block), (0, true, [0, 1, 1, 1], [3, 0, 0, 0]));
        assert_eq!((two.in_first, two.quadrants), (1, [0b0110, 0b0100]));
    }

    /// 003's ratio 1 and 2 on aligned windows: a copy, and each half doubled.
    #[test]
    fn aligned_ratios() {
        let same = Axis { base: 64, scaled: 64, offset: 0, full: 64 };
        let twice = Axis { base: 64, scaled: 128, offset: 0, full: 128 };
        for at in 0..4 {
            let r = reading(&same, at).unwrap();
            assert_eq!((r.first, r.two, r.block), (at, false, [0, 1, 2, 3]));
        }
        for at in 0..8 {
            let r = reading(&twice, at).unwrap();
            let block = if at % 2 == 0 { [0, 0, 1, 1] } else { [2, 2, 3, 3] };
            assert_eq!((r.first, r.two, r.block), (at / 2, false, block));
        }
    }
}
