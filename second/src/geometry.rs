//! The geometry's eight numbers, their refusals 1 to 4, and the borders that
//! an axis gives to a macroblock inside the window. An accepted geometry also
//! holds its axes' vector scales, made once for a picture, a call or a session.

use crate::inherit::{Scale, Scales};
use crate::refusal::Refusal;

/// The eight numbers as they are lent, not yet judged.
#[derive(Clone, Copy, Debug, Default, PartialEq, Eq)]
pub struct Numbers {
    pub base_width: i32,
    pub base_height: i32,
    pub scaled_width: i32,
    pub scaled_height: i32,
    pub offset_x: i32,
    pub offset_y: i32,
    pub full_width: i32,
    pub full_height: i32,
}

impl Numbers {
    /// In the order of the sync text: base, scaled, at, full.
    pub fn from_array(n: [i32; 8]) -> Numbers {
        Numbers {
            base_width: n[0],
            base_height: n[1],
            scaled_width: n[2],
            scaled_height: n[3],
            offset_x: n[4],
            offset_y: n[5],
            full_width: n[6],
            full_height: n[7],
        }
    }
}

/// One axis of an accepted geometry: B, S, o and E in luma samples.
#[derive(Clone, Copy, Debug, PartialEq, Eq)]
pub struct Axis {
    pub base: i32,
    pub scaled: i32,
    pub offset: i32,
    pub full: i32,
}

/// An accepted geometry, with what vector words are scaled by.
#[derive(Clone, Copy, Debug, PartialEq, Eq)]
pub struct Geometry {
    pub x: Axis,
    pub y: Axis,
    pub scales: Scales,
}

/// The borders around a macroblock's centre on one axis, and its first base
/// column (or row). `m` is 003's MbBorder, `n` its B8x8Border.
#[derive(Clone, Copy, Debug, PartialEq, Eq)]
pub struct Borders {
    pub k_odd: bool,
    pub m: i32,
    pub n: i32,
    pub first: i32,
}

fn good_size(size: i32) -> bool {
    (16..=4096).contains(&size) && size % 16 == 0
}

fn good_scale(scaled: i32, base: i32) -> bool {
    scaled % 2 == 0 && base <= scaled && scaled <= 2 * base
}

fn good_offset(offset: i32) -> bool {
    (-8192..=8190).contains(&offset) && offset % 2 == 0
}

/// To the nearest multiple of 4, halves away from zero.
fn to_fours(d: i32) -> i32 {
    d.signum() * 4 * ((d.abs() + 2) / 4)
}

impl Axis {
    /// Macroblocks of the base picture along this axis.
    pub fn base_count(&self) -> usize {
        self.base as usize / 16
    }

    /// Macroblocks of the full picture along this axis.
    pub fn full_count(&self) -> usize {
        self.full as usize / 16
    }

    pub fn inside(&self, p: i32) -> bool {
        self.offset <= p && p + 16 <= self.offset + self.scaled
    }

    /// For a macroblock at sample `p` that is inside.
    pub fn borders(&self, p: i32) -> Borders {
        let (b, s) = (self.base, self.scaled);
        let c = p - self.offset + 8;
        let z = (c * b + b / 2) / s;
        let k = z / 8;
        let border = |j: i32| to_fours((8 * j * s + b / 2) / b - c);
        let (d1, d2) = (border(k), border(k + 1));
        let k_odd = k % 2 == 1;
        let (m, n) = if k_odd { (d2, d1) } else { (d1, d2) };
        let first = if !k_odd && m > -8 { k / 2 - 1 } else { k / 2 };
        Borders { k_odd, m, n, first }
    }
}

impl Geometry {
    /// Refusals 1 to 4, by number first and then by axis.
    pub fn new(n: Numbers) -> Result<Geometry, Refusal> {
        if !good_size(n.base_width) || !good_size(n.base_height) {
            return Err(Refusal::of(1));
        }
        if !good_size(n.full_width) || !good_size(n.full_height) {
            return Err(Refusal::of(2));
        }
        if !good_scale(n.scaled_width, n.base_width) || !good_scale(n.scaled_height, n.base_height) {
            return Err(Refusal::of(3));
        }
        if !good_offset(n.offset_x) || !good_offset(n.offset_y) {
            return Err(Refusal::of(4));
        }
        Ok(Geometry {
            x: Axis { base: n.base_width, scaled: n.scaled_width, offset: n.offset_x, full: n.full_width },
            y: Axis { base: n.base_height, scaled: n.scaled_height, offset: n.offset_y, full: n.full_height },
            scales: Scales {
                x: Scale::new(n.base_width, n.scaled_width),
                y: Scale::new(n.base_height, n.scaled_height),
            },
        })
    }

    pub fn base_macroblocks(&self) -> usize {
        self.x.base_count() * self.y.base_count()
    }

    pub fn full_macroblocks(&self) -> usize {
        self.x.full_count() * self.y.full_count()
    }
}

#[cfg(test)]
mod tests {
    use super::*;

    const GOOD: Numbers = Numbers {
        base_width: 32,
        base_height: 16,
        scaled_width: 48,
        scaled_height: 16,
        offset_x: 0,
        offset_y: 0,
        full_width: 64,
        full_height: 32,
    };

    fn refused(change: impl Fn(&mut Numbers)) -> u32 {
        let mut n = GOOD;
        change(&mut n);
        Geometry::new(n).map_or_else(|r| r.number, |_| 0)
    }

    #[test]
    fn limits() {
        assert_eq!(refused(|_| ()), 0);
        for bad in [0, 8, 15, 17, 4112, -16, i32::MIN, i32::MAX] {
            assert_eq!(refused(|n| n.base_width = bad), 1);
            assert_eq!(refused(|n| n.base_height = bad), 1);
            assert_eq!(refused(|n| n.full_width = bad), 2);
            assert_eq!(refused(|n| n.full_height = bad), 2);
        }
        assert_eq!(refused(|n| n.full_width = 4096), 0);
        for bad in [30, 33, 31, 66, 65, 0, -32, i32::MIN, i32::MAX] {
            assert_eq!(refused(|n| n.scaled_width = bad), 3);
        }
        for bad in [14, 17, 34, 33, i32::MIN, i32::MAX] {
            assert_eq!(refused(|n| n.scaled_height = bad), 3);
        }
        for bad in [1, -1, -8194, -8193, 8191, 8192, i32::MIN, i32::MAX] {
            assert_eq!(refused(|n| n.offset_x = bad), 4);
            assert_eq!(refused(|n| n.offset_y = bad), 4);
        }
        for good in [-8192, 8190, -2, 2] {
            assert_eq!(refused(|n| n.offset_x = good), 0);
            assert_eq!(refused(|n| n.offset_y = good), 0);
        }
    }

    #[test]
    fn number_before_axis() {
        assert_eq!(refused(|n| (n.full_width, n.base_height) = (1, 1)), 1);
        assert_eq!(refused(|n| (n.scaled_width, n.full_height) = (1, 1)), 2);
        assert_eq!(refused(|n| (n.offset_x, n.scaled_height) = (1, 1)), 3);
    }

    /// Bench example: S 2B passes, 2B + 2 is refused; offset -8,192 passes, -8,194 is refused.
    #[test]
    fn bench_limits() {
        assert_eq!(refused(|n| n.scaled_width = 64), 0);
        assert_eq!(refused(|n| n.scaled_width = 66), 3);
        assert_eq!(refused(|n| n.scaled_height = 32), 0);
        assert_eq!(refused(|n| n.scaled_height = 34), 3);
        assert_eq!(refused(|n| n.offset_x = -8192), 0);
        assert_eq!(refused(|n| n.offset_x = -8194), 4);
    }

    fn axis(base: i32, scaled: i32, offset: i32) -> Axis {
        Axis { base, scaled, offset, full: 4096 }
    }

    /// The starred axis examples.
    #[test]
    fn bench_axes() {
        let at = |b, s, o, p| {
            assert!(axis(b, s, o).inside(p));
            let found = axis(b, s, o).borders(p);
            (found.m, found.n, found.first)
        };
        assert_eq!(at(32, 48, 0, 0), (-8, 4, 0));
        assert_eq!(at(32, 48, 0, 16), (0, 12, 0));
        assert_eq!(at(32, 48, 0, 32), (8, -4, 1));
        assert_eq!(at(16, 16, 0, 0), (8, 0, 0));
        assert!(!axis(32, 64, 6).inside(0));
        assert_eq!(at(32, 64, 6, 16), (16, -4, 0));
        assert_eq!(at(32, 64, 6, 32), (-4, 16, 0));
    }
}
