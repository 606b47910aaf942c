//! The C interface as `include/spiewomir.h` declares it, and its calls on
//! slices. Answers are the interface's own numbers; what a refusal does not give
//! is 0. Lengths, refusals and their order are those of the crate's own calls.

/// The geometry's eight numbers in luma samples, not yet judged. The base picture,
/// scaled, is a window of the full picture at the offset; it may lie partly or
/// wholly off the picture.
#[repr(C)]
#[derive(Clone, Copy, Debug, Default, PartialEq, Eq)]
pub struct Geometry {
    /// A multiple of 16 in 16..4096.
    pub base_width: i32,
    /// The same.
    pub base_height: i32,
    /// Even, from `base_width` to twice that.
    pub scaled_width: i32,
    /// The same of `base_height`.
    pub scaled_height: i32,
    /// The window's left side, even, in -8192..8190.
    pub offset_x: i32,
    /// Its upper side, the same.
    pub offset_y: i32,
    /// A multiple of 16 in 16..4096.
    pub full_width: i32,
    /// The same.
    pub full_height: i32,
}

/// Answer of the one-macroblock call of either width; `refusal` 0 means answered.
#[repr(C)]
#[derive(Clone, Copy, Debug, Default, PartialEq, Eq)]
pub struct Macroblock {
    /// 0, or the refusal's number.
    pub refusal: u32,
    /// Its place; 0 but for 8.
    pub place: u32,
    /// Its rule; 0 but for 8.
    pub rule: u32,
    /// Word 0 of the written record.
    pub kind: u32,
    /// Sub-type of quadrant 0, word 1; 0 unless `kind` is 4.
    pub sub0: u32,
    /// Of quadrant 1.
    pub sub1: u32,
    /// Of quadrant 2.
    pub sub2: u32,
    /// Of quadrant 3.
    pub sub3: u32,
    /// 0 Corner, 1 Vert, 2 Hori, 3 Center.
    pub class: u32,
    /// First base column; 0 outside.
    pub column: u32,
    /// First base row; 0 outside.
    pub row: u32,
    /// Word 77 of the written record; 0 outside.
    pub detail: u32,
    /// Of the sixteen blocks, how many read the base macroblock at `column` and `row`.
    pub first: u32,
    /// The one to its right.
    pub right: u32,
    /// The one below it.
    pub below: u32,
    /// The one below and to the right. A macroblock that the class leaves out has 0; outside
    /// all four are 0.
    pub diagonal: u32,
}

/// Answer of the picture call of either width; `refusal` 0 means answered.
#[repr(C)]
#[derive(Clone, Copy, Debug, Default, PartialEq, Eq)]
pub struct Picture {
    /// 0, or the refusal's number.
    pub refusal: u32,
    /// Its place; 0 but for 8.
    pub place: u32,
    /// Its rule; 0 but for 8.
    pub rule: u32,
    /// Macroblocks with motion.
    pub inherited: u32,
    /// Macroblocks answered intra.
    pub intra: u32,
    /// Macroblocks outside.
    pub outside: u32,
}

/// A session. One that no list of calls makes is answered as a fresh one.
#[repr(C)]
#[derive(Clone, Copy, Debug, Default, PartialEq, Eq)]
pub struct Session {
    /// 1 once a picture is begun.
    pub begun: u32,
    /// The picture's.
    pub geometry: Geometry,
    /// Accepted next calls that gave motion.
    pub inherited: u32,
    /// Those that gave intra.
    pub intra: u32,
    /// Those that gave outside.
    pub outside: u32,
}

/// What begin and abandon hand back; `refusal` 0 means accepted.
#[repr(C)]
#[derive(Clone, Copy, Debug, Default, PartialEq, Eq)]
pub struct Judged {
    /// As it is now; as it was in a refusal.
    pub session: Session,
    /// 0, or the refusal's number.
    pub refusal: u32,
    /// 0, as these refusals have no place.
    pub place: u32,
    /// 0 too.
    pub rule: u32,
}

/// What next hands back.
#[repr(C)]
#[derive(Clone, Copy, Debug, Default, PartialEq, Eq)]
pub struct Advanced {
    /// As it is now; as it was in a refusal.
    pub session: Session,
    /// The answer.
    pub macroblock: Macroblock,
}

/// What totals hands back.
#[repr(C)]
#[derive(Clone, Copy, Debug, Default, PartialEq, Eq)]
pub struct Totals {
    /// As it was.
    pub session: Session,
    /// Its count of inherited macroblocks.
    pub inherited: u32,
    /// Of intra ones.
    pub intra: u32,
    /// Of those outside.
    pub outside: u32,
}

/// What a sync text has; `refusal` 0 means read, or no picture.
#[repr(C)]
#[derive(Clone, Copy, Debug, Default, PartialEq, Eq)]
pub struct Text {
    /// 0, or the refusal's number.
    pub refusal: u32,
    /// Its place; 0 but for 9.
    pub place: u32,
    /// 0, as these refusals have no rule.
    pub rule: u32,
    /// As it stands in the text, not judged.
    pub geometry: Geometry,
    /// Record lines.
    pub lines: u32,
    /// 1 where there is no picture: the text has no bytes, and 6 does not refuse; all else
    /// is 0 then. Else 0, also of a text whose numbers and lines are 0.
    pub empty: u32,
}

/// What the log call hands back; `refusal` 0 means written, also where the log says
/// that the text is refused.
#[repr(C)]
#[derive(Clone, Copy, Debug, Default, PartialEq, Eq)]
pub struct Log {
    /// The call's own: 0, or 6.
    pub refusal: u32,
    /// The text's: 0, or the number that the log says.
    pub text_refusal: u32,
    /// Its place, as the log says it; 0 but for 8 and 9.
    pub place: u32,
    /// Its rule; 0 but for 8.
    pub rule: u32,
    /// The log's length.
    pub bytes: usize,
    /// 1 if a log is written and the text has no bytes; else 0.
    pub empty: u32,
}

extern "C" {
    fn spiewomir_macroblock(
        geometry: Geometry,
        base: *const i16,
        base_len: usize,
        column: i32,
        row: i32,
        out: *mut i16,
        out_len: usize,
    ) -> Macroblock;

    fn spiewomir_picture(
        geometry: Geometry,
        base: *const i16,
        base_len: usize,
        out: *mut i16,
        out_len: usize,
    ) -> Picture;

    fn spiewomir_macroblock_wide(
        geometry: Geometry,
        base: *const i32,
        base_len: usize,
        column: i32,
        row: i32,
        out: *mut i32,
        out_len: usize,
    ) -> Macroblock;

    fn spiewomir_picture_wide(
        geometry: Geometry,
        base: *const i32,
        base_len: usize,
        out: *mut i32,
        out_len: usize,
    ) -> Picture;

    fn spiewomir_session_fresh() -> Session;

    fn spiewomir_session_begin(session: Session, geometry: Geometry) -> Judged;

    fn spiewomir_session_next(
        session: Session,
        base: *const i16,
        base_len: usize,
        out: *mut i16,
        out_len: usize,
    ) -> Advanced;

    fn spiewomir_session_abandon(session: Session) -> Judged;

    fn spiewomir_session_totals(session: Session) -> Totals;

    fn spiewomir_text(text: *const u8, text_len: usize, words: *mut i16, words_len: usize) -> Text;

    fn spiewomir_log(text: *const u8, text_len: usize, log: *mut u8, log_len: usize) -> Log;

    fn spiewomir_version() -> u32;
}

/// The one-macroblock call.
pub fn macroblock(
    geometry: Geometry,
    base: &[i16],
    column: i32,
    row: i32,
    out: &mut [i16],
) -> Macroblock {
    // SAFETY: the function asks nothing of its numbers, reads `base_len` words
    // at `base`, and reads and writes `out_len` words at `out`. Two slices lend
    // them, and they cannot overlap.
    unsafe {
        spiewomir_macroblock(
            geometry,
            base.as_ptr(),
            base.len(),
            column,
            row,
            out.as_mut_ptr(),
            out.len(),
        )
    }
}

/// The picture call.
pub fn picture(geometry: Geometry, base: &[i16], out: &mut [i16]) -> Picture {
    // SAFETY: as in `macroblock`.
    unsafe {
        spiewomir_picture(
            geometry,
            base.as_ptr(),
            base.len(),
            out.as_mut_ptr(),
            out.len(),
        )
    }
}

/// The one-macroblock call on wide records.
pub fn macroblock_wide(
    geometry: Geometry,
    base: &[i32],
    column: i32,
    row: i32,
    out: &mut [i32],
) -> Macroblock {
    // SAFETY: as in `macroblock`, with words of 32 bits.
    unsafe {
        spiewomir_macroblock_wide(
            geometry,
            base.as_ptr(),
            base.len(),
            column,
            row,
            out.as_mut_ptr(),
            out.len(),
        )
    }
}

/// The picture call on wide records.
pub fn picture_wide(geometry: Geometry, base: &[i32], out: &mut [i32]) -> Picture {
    // SAFETY: as in `macroblock`, with words of 32 bits.
    unsafe {
        spiewomir_picture_wide(
            geometry,
            base.as_ptr(),
            base.len(),
            out.as_mut_ptr(),
            out.len(),
        )
    }
}

/// The text call.
pub fn text(text: &[u8], words: &mut [i16]) -> Text {
    // SAFETY: as in `macroblock`, with bytes to read.
    unsafe { spiewomir_text(text.as_ptr(), text.len(), words.as_mut_ptr(), words.len()) }
}

/// The log call; `log` has [`LOG_BYTES`](crate::LOG_BYTES) or more.
pub fn log(text: &[u8], log: &mut [u8]) -> Log {
    // SAFETY: as in `macroblock`, with bytes to read and to write.
    unsafe { spiewomir_log(text.as_ptr(), text.len(), log.as_mut_ptr(), log.len()) }
}

/// The version of the library that is linked: [`VERSION`](crate::VERSION), unless
/// the archive is another version's.
pub fn version() -> u32 {
    // SAFETY: the function asks nothing.
    unsafe { spiewomir_version() }
}

impl Session {
    /// One with nothing begun.
    pub fn fresh() -> Session {
        // SAFETY: the function asks nothing.
        unsafe { spiewomir_session_fresh() }
    }

    /// Begins a picture.
    pub fn begin(self, geometry: Geometry) -> Judged {
        // SAFETY: the function asks nothing of its numbers.
        unsafe { spiewomir_session_begin(self, geometry) }
    }

    /// The next macroblock in raster order.
    pub fn next(self, base: &[i16], out: &mut [i16]) -> Advanced {
        // SAFETY: as in `macroblock`.
        unsafe {
            spiewomir_session_next(self, base.as_ptr(), base.len(), out.as_mut_ptr(), out.len())
        }
    }

    /// Makes it fresh.
    pub fn abandon(self) -> Judged {
        // SAFETY: the function asks nothing of its numbers.
        unsafe { spiewomir_session_abandon(self) }
    }

    /// The counts of its accepted next calls.
    pub fn totals(self) -> Totals {
        // SAFETY: the function asks nothing of its numbers.
        unsafe { spiewomir_session_totals(self) }
    }
}
