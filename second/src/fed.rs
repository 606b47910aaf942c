//! Which small macroblock fed it (document 02's request E5): how many blocks of
//! a macroblock read each of the base macroblocks, counted block by block.

use crate::map::Reading;

/// Of a macroblock's sixteen blocks, how many read the base macroblock at
/// first, right, below and diagonal. It is by the block map alone: what a block
/// is later filled from does not count. Outside all four are 0.
#[derive(Clone, Copy, Debug, Default, PartialEq, Eq)]
pub struct Fed {
    pub first: u8,
    pub right: u8,
    pub below: u8,
    pub diagonal: u8,
}

/// The four counts of a macroblock inside the window. A block's base macroblock
/// is told by column and row: by address, right and below would be the same in
/// a base that is one macroblock wide.
pub fn fed(x: &Reading, y: &Reading) -> Fed {
    let mut fed = Fed::default();
    for row in 0..4 {
        for column in 0..4 {
            match (x.step[column], y.step[row]) {
                (0, 0) => fed.first += 1,
                (_, 0) => fed.right += 1,
                (0, _) => fed.below += 1,
                (_, _) => fed.diagonal += 1,
            }
        }
    }
    fed
}

#[cfg(test)]
mod tests {
    use super::*;
    use crate::detail::tests::readings;

    /// Every pair of readings: sixteen in all, some from each macroblock that
    /// is read, and none from one that is left out.
    #[test]
    fn sixteen_from_those_read() {
        for x in &readings() {
            for y in &readings() {
                let Fed { first, right, below, diagonal } = fed(x, y);
                assert_eq!(first + right + below + diagonal, 16);
                assert!(first > 0);
                assert_eq!([right > 0, below > 0, diagonal > 0], [x.two, y.two, x.two && y.two]);
            }
        }
    }

    /// Where the other axis reads one, four times what this axis says.
    #[test]
    fn one_axis_at_a_time() {
        let readings = readings();
        let one = readings.iter().find(|reading| !reading.two).unwrap();
        for reading in &readings {
            let (in_first, in_next) = (4 * reading.in_first, 16 - 4 * reading.in_first);
            assert_eq!(fed(reading, one), Fed { first: in_first, right: in_next, below: 0, diagonal: 0 });
            assert_eq!(fed(one, reading), Fed { first: in_first, right: 0, below: in_next, diagonal: 0 });
        }
    }
}
