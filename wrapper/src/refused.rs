//! The numbers of refusals. A call judges them in rising order, but 20 to 22
//! (sessions only) before the others; a text's order is given at its call.

/// Base width or height no multiple of 16 in 16..4096.
pub const BASE_SIZE: u32 = 1;

/// The same for the full picture.
pub const FULL_SIZE: u32 = 2;

/// Scaled width or height odd, below the base's or above twice that.
pub const SCALED_SIZE: u32 = 3;

/// An offset odd or outside -8192..8190.
pub const OFFSET: u32 = 4;

/// The base's length is not [`WORDS`](crate::WORDS) for each base macroblock.
pub const BASE_LENGTH: u32 = 5;

/// The output's length is not what the call writes; of
/// [`numbers::log`](crate::numbers::log) it is below [`LOG_BYTES`](crate::LOG_BYTES).
pub const OUTPUT_LENGTH: u32 = 6;

/// Column or row outside the picture (one macroblock only).
pub const POSITION: u32 = 7;

/// A malformed record: the place is the lowest malformed address among the
/// records checked, the rule the first that it breaks:
/// 1. type 0 to 4;
/// 2. sub-types 0 to 3, and 0 unless type 4;
/// 3. references -1 to 31;
/// 4. all references -1 in type 0, at least one used in each quadrant of another;
/// 5. vector words -8192 to 8191, of a wide record -131072 to 131071, and 0 where the
///    reference is -1;
/// 6. the same references and vectors all over a partition or sub-partition;
/// 7. detail 0 to 15.
pub const RECORD: u32 = 8;

/// A text that breaks the grammar: the place is the first byte offset at which
/// no text of the grammar, however long, can go on, and the text's length if it
/// ends early. A text of no bytes is not refused by it.
pub const GRAMMAR: u32 = 9;

/// A text above [`TEXT_BYTES`](crate::TEXT_BYTES) or with more than
/// [`TEXT_RECORDS`](crate::TEXT_RECORDS) record lines.
pub const LIMIT: u32 = 10;

/// Next or abandon with nothing begun.
pub const NOTHING_BEGUN: u32 = 20;

/// Next or abandon after the last macroblock.
pub const FINISHED: u32 = 21;

/// Begin while a picture is unfinished.
pub const UNFINISHED: u32 = 22;

pub(crate) fn meaning(number: u32) -> &'static str {
    match number {
        BASE_SIZE => "base size no multiple of 16 in 16..4096",
        FULL_SIZE => "full size no multiple of 16 in 16..4096",
        SCALED_SIZE => "scaled size odd, below the base's or above twice that",
        OFFSET => "offset odd or outside -8192..8190",
        BASE_LENGTH => "base length does not fit the base picture",
        OUTPUT_LENGTH => "output length is not what the call writes",
        POSITION => "column or row outside the picture",
        RECORD => "malformed record",
        GRAMMAR => "text breaks the grammar",
        LIMIT => "text has too many bytes or record lines",
        NOTHING_BEGUN => "nothing begun",
        FINISHED => "after the last macroblock",
        UNFINISHED => "a picture is unfinished",
        _ => "a number that no call gives",
    }
}
