//! Where detail was sent (document 02's request E7): an answer's four bits,
//! from those of the base records that it reads.
//!
//! A quadrant's blocks stand in two columns and two rows. So the base quadrants
//! that they read are all those that lie both in a column of quadrants which
//! the former read and in a row of quadrants which the latter read, and no
//! block need be looked at.

use crate::map::Reading;
use crate::word::Word;

/// Base quadrants of the four macroblocks read, first, right, below and
/// diagonal: bit 4r + q for quadrant q of macroblock r.
type Set = u16;

/// For each set of places along an axis, as a reading has it: the base
/// quadrants at these places, along x or along y.
const fn quadrants_at(along_y: bool) -> [Set; 16] {
    let mut sets = [0; 16];
    let mut places = 0;
    while places < 16 {
        let mut n = 0;
        while n < 16 {
            let (r, q) = if along_y { (n / 8, n / 2 % 2) } else { (n / 4 % 2, n % 2) };
            sets[places] |= ((places >> (2 * r + q) & 1) as Set) << n;
            n += 1;
        }
        places += 1;
    }
    sets
}

const ALONG_X: [Set; 16] = quadrants_at(false);
const ALONG_Y: [Set; 16] = quadrants_at(true);

/// The four bits of an answer, from the details of the four macroblocks read,
/// which are 0 to 15. Where one column or row is read, what stands for the
/// other counts for nothing.
pub fn detail<W: Word>(details: [W; 4], x: &Reading, y: &Reading) -> u8 {
    let [first, right, below, diagonal] = details.map(W::number);
    let coded = (first | right << 4 | below << 8 | diagonal << 12) as Set;
    let [left, right] = x.quadrants.map(|places| coded & ALONG_X[places as usize % 16]);
    let [top, bottom] = y.quadrants.map(|places| ALONG_Y[places as usize % 16]);
    let bit = |columns: Set, rows: Set| (columns & rows != 0) as u8;
    bit(left, top) | bit(right, top) << 1 | bit(left, bottom) << 2 | bit(right, bottom) << 3
}

#[cfg(test)]
pub mod tests {
    use super::*;
    use crate::geometry::Axis;
    use crate::inherit::tests::Random;
    use crate::map::reading;

    /// One reading for each way in which the four blocks can read.
    pub fn readings() -> Vec<Reading> {
        let mut found: Vec<Reading> = Vec::new();
        for base in [16, 32, 48] {
            for scaled in (base..=2 * base).step_by(2) {
                for distance in (0..=scaled - 16).step_by(2) {
                    let axis = Axis { base, scaled, offset: -distance, full: 16 };
                    let new = reading(&axis, 0).unwrap();
                    if !found.iter().any(|old| (old.step, old.block) == (new.step, new.block)) {
                        found.push(new);
                    }
                }
            }
        }
        found
    }

    /// The same block by block, as it is written.
    fn slow(words: [i16; 4], x: &Reading, y: &Reading) -> u8 {
        let mut bits = 0;
        for row in 0..4 {
            for column in 0..4 {
                let word = words[(2 * y.step[row] + x.step[column]) as usize];
                let base_quadrant = y.block[row] / 2 * 2 + x.block[column] / 2;
                let quadrant = row / 2 * 2 + column / 2;
                bits |= ((word >> base_quadrant & 1) as u8) << quadrant;
            }
        }
        bits
    }

    /// Every pair of readings, with each single bit, all and some others.
    #[test]
    fn halves_are_blocks() {
        let mut random = Random(13);
        let readings = readings();
        assert!(readings.len() > 16, "{}", readings.len());
        for x in &readings {
            for y in &readings {
                assert_eq!(detail([0; 4], x, y), 0);
                assert_eq!(detail([15; 4], x, y), 15);
                for n in 0..16 {
                    let mut words = [0; 4];
                    words[n / 4] = 1 << (n % 4);
                    assert_eq!(detail(words, x, y), slow(words, x, y), "{words:?}, {x:?}, {y:?}");
                    let words = words.map(|word| word ^ random.within(0, 15) as i16);
                    assert_eq!(detail(words, x, y), slow(words, x, y), "{words:?}, {x:?}, {y:?}");
                }
            }
        }
    }

    /// Where one column or row is read, the other's bits count for nothing.
    #[test]
    fn unread_counts_for_nothing() {
        for x in &readings() {
            for y in &readings() {
                let counts = [true, x.two, y.two, x.two && y.two];
                let words = counts.map(|read| if read { 0 } else { 15 });
                assert_eq!(detail(words, x, y), 0);
            }
        }
    }
}
