//! A record's word in its two widths: narrow, of 16 bits, and wide, of 32
//! (document 02's request E12). Records of either have the same places and
//! rules; only the limit of their vectors differs. What is done with records
//! is written once, for any width.

use std::fmt::Debug;
use std::ops::RangeInclusive;

pub trait Word: Copy + Ord + Debug + From<i16> + Into<i32> {
    /// The vector words of a well-formed record.
    const VECTORS: RangeInclusive<Self>;

    /// The word that says a number which is known to fit.
    fn fitting(number: i32) -> Self;

    /// The number that the word says.
    fn number(self) -> i32 {
        self.into()
    }
}

impl Word for i16 {
    const VECTORS: RangeInclusive<i16> = -8192..=8191;

    fn fitting(number: i32) -> i16 {
        debug_assert!(i16::try_from(number).is_ok());
        number as i16
    }
}

impl Word for i32 {
    const VECTORS: RangeInclusive<i32> = -131_072..=131_071;

    fn fitting(number: i32) -> i32 {
        number
    }
}
