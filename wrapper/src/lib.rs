//! Safe calls of the proved motion upsampler: one macroblock, a picture, a
//! session over one picture, a sync text and its log.
//!
//! Records, refusals and answers are those of document 01, the project's scope
//! paper, with what document 02's E2 says of a text of no bytes, vectors rounded as
//! its E3 says, the counts of its E5 and the detail of its E7. No call asks anything
//! of its caller: it judges what it is lent, and a refused call leaves every lent
//! word and byte as it was. One macroblock and a picture can be made of wide records
//! too, of 32-bit words, as its E12 says. `numbers` has the same calls with plain numbers.
//!
//! The proved archive, libspiewomir.a, has to be there first: `tools/build
//! spiewomir` of the repository writes it to target/staticlib. SPIEWOMIR_LIB
//! names another folder, by an absolute path.
//!
//! ```
//! use spiewomir::{macroblock, picture, picture_words, refused, Text, TEXT_WORDS, WORDS};
//!
//! fn main() -> Result<(), Box<dyn std::error::Error>> {
//!     let text = b"(base 16 16)\n(scaled 32 32)\n(at 0 0)\n(full 48 32)\n(whole (0 -1) (4 -8 0 0) 2)\n";
//!     let mut base = vec![0; TEXT_WORDS];
//!     let Text::Picture { geometry, lines } = spiewomir::text(text, &mut base)? else {
//!         return Ok(()); // The text has no bytes: there is no picture.
//!     };
//!     base.truncate(lines as usize * WORDS);
//!
//!     let mut out = vec![0; picture_words(geometry.full_width, geometry.full_height)];
//!     let counts = picture(geometry, &base, &mut out)?;
//!     assert_eq!((counts.inherited, counts.intra, counts.outside), (4, 0, 2));
//!     assert_eq!(out[13..15], [8, -16]);
//!
//!     // The base has detail in its quadrant 1, which macroblock 1,0 lies on.
//!     let answer = macroblock(geometry, &base, 1, 0, &mut out[..WORDS])?;
//!     assert_eq!(answer.detail, 0b1111);
//!     assert_eq!(out[77], 0b1111);
//!
//!     let refusal = macroblock(geometry, &base, 3, 0, &mut out[..WORDS]).unwrap_err();
//!     assert_eq!(refusal.number, refused::POSITION);
//!     assert_eq!(refusal.to_string(), "refused 7: column or row outside the picture");
//!     Ok(())
//! }
//! ```

#![warn(missing_docs)]

pub mod numbers;
pub mod refused;

pub use numbers::{version, Geometry};
use std::fmt;

/// The version that this crate is of: major times 10,000, plus minor times 100,
/// plus patch. [`version`] gives that of the library.
pub const VERSION: u32 = 50_100;

/// Words of a motion record. Quadrants, blocks, and the macroblocks of a picture
/// go in raster order; `l` is the list, 0 or 1.
/// - 0: the type, 0 intra, 1 16x16, 2 16x8, 3 8x16, 4 8x8 (width by height); 5,
///   outside, in written records only.
/// - 1 to 4: the quadrants' sub-types, 0 8x8, 1 8x4, 2 4x8, 3 4x4; 0 unless type 4.
/// - 5 + 2q + l: the reference of quadrant `q`, -1 unused.
/// - 13 + 4b + 2l, and the next: the horizontal and vertical vector of 4x4 block
///   `b`, 0 to 15, in quarter samples; 0 where the reference is -1.
/// - 77: the detail, 0 to 15. Bit `q` says that quadrant `q` has luma coefficients in
///   the base.
///
/// [`refused::RECORD`] has the rules for a base's. A written vector word is (v * scale +
/// 32768) / 65536, rounded down, also below zero, of a base's word v, with scale = (S *
/// 65536 + B / 2) / B of its axis, rounded down (B is the base's size, S the scaled one):
/// -16384 to 16382. A written detail is [`Answer::detail`].
///
/// A wide record has words of 32 bits at the same places. Its vector words are -131072 to
/// 131071, and written ones -262144 to 262142; all else is the same. [`macroblock_wide`]
/// and [`picture_wide`] take and write such.
pub const WORDS: usize = 78;

/// The words of the records of a picture, [`WORDS`] for each macroblock; 0 for a
/// side outside 1..=4096, which the calls refuse.
pub fn picture_words(width: i32, height: i32) -> usize {
    let macroblocks = |side: i32| if (1..=4096).contains(&side) { side as usize / 16 } else { 0 };
    macroblocks(width) * macroblocks(height) * WORDS
}

/// Longest sync text, in bytes.
pub const TEXT_BYTES: usize = 65_536;

/// Most record lines of a sync text.
pub const TEXT_RECORDS: usize = 99;

/// The words of so many records.
pub const TEXT_WORDS: usize = TEXT_RECORDS * WORDS;

/// Bytes that every log fits.
pub const LOG_BYTES: usize = 1_179_679;

/// Why a call was refused.
#[derive(Clone, Copy, Debug, PartialEq, Eq)]
pub struct Refusal {
    /// One of [`refused`].
    pub number: u32,
    /// For 8 the lowest malformed address, for 9 a byte offset, otherwise 0.
    pub place: u32,
    /// For 8 the first broken rule, 1 to 7, otherwise 0.
    pub rule: u32,
}

impl fmt::Display for Refusal {
    fn fmt(&self, f: &mut fmt::Formatter) -> fmt::Result {
        let meaning = refused::meaning(self.number);
        write!(f, "refused {}: {meaning}", self.number)?;
        match self.number {
            refused::RECORD => write!(f, ", place {}, rule {}", self.place, self.rule),
            refused::GRAMMAR => write!(f, ", place {}", self.place),
            _ => Ok(()),
        }
    }
}

impl std::error::Error for Refusal {}

/// Split of a quadrant, width by height.
#[derive(Clone, Copy, Debug, PartialEq, Eq)]
pub enum SubSplit {
    /// One piece, sub-type 0.
    S8x8,
    /// Two pieces, one above the other, sub-type 1.
    S8x4,
    /// Two pieces side by side, sub-type 2.
    S4x8,
    /// Four pieces, sub-type 3.
    S4x4,
}

/// Split of a macroblock, width by height.
#[derive(Clone, Copy, Debug, PartialEq, Eq)]
pub enum Split {
    /// One piece, type 1.
    S16x16,
    /// Two pieces, one above the other, type 2.
    S16x8,
    /// Two pieces side by side, type 3.
    S8x16,
    /// Type 4, with the sub-splits of quadrants 0 to 3 in raster order.
    S8x8([SubSplit; 4]),
}

/// The sort of an answer. The written record says the same in words 0 to 4.
#[derive(Clone, Copy, Debug, PartialEq, Eq)]
pub enum Kind {
    /// Nine or more of the sixteen blocks read intra macroblocks: a record of
    /// type 0, references -1 and vectors 0, with its detail.
    Intra,
    /// A record with motion, in the fewest pieces.
    Inherited(Split),
    /// The macroblock does not lie wholly in the window, and reads nothing: a
    /// record of type 5, references -1, vectors 0 and detail 0.
    Outside,
}

/// The base macroblocks that are read.
#[derive(Clone, Copy, Debug, PartialEq, Eq)]
pub enum Class {
    /// One; also the class outside, where none is read.
    Corner,
    /// Two columns.
    Vert,
    /// Two rows.
    Hori,
    /// Two columns and two rows.
    Center,
}

/// What was made of one macroblock.
#[derive(Clone, Copy, Debug, PartialEq, Eq)]
pub struct Answer {
    /// The sort, with the split.
    pub kind: Kind,
    /// How many base columns and rows are read.
    pub class: Class,
    /// The first base column that is read; 0 outside.
    pub column: u32,
    /// The first base row that is read; 0 outside.
    pub row: u32,
    /// Where detail was sent, 0 to 15: bit `q` is set exactly when one of the blocks of
    /// quadrant `q` reads a base quadrant whose bit is set, of an intra macroblock too;
    /// 0 outside. The written record says the same in word 77.
    pub detail: u8,
    /// Which base macroblocks fed it.
    pub fed: Fed,
}

/// Of a macroblock's sixteen blocks, how many read each of the base macroblocks, before
/// any filling from neighbours. Together they are 16; outside all are 0.
#[derive(Clone, Copy, Debug, Default, PartialEq, Eq)]
pub struct Fed {
    /// The one at the answer's `column` and `row`.
    pub first: u8,
    /// The one to its right; 0 where one column is read.
    pub right: u8,
    /// The one below it; 0 where one row is read.
    pub below: u8,
    /// The one below and to the right; 0 unless two columns and two rows are read.
    pub diagonal: u8,
}

/// Macroblocks by the kind of their answers.
#[derive(Clone, Copy, Debug, PartialEq, Eq)]
pub struct Counts {
    /// Those with motion.
    pub inherited: u32,
    /// Those answered intra.
    pub intra: u32,
    /// Those not wholly in the window.
    pub outside: u32,
}

/// Makes the record of the macroblock at `column` and `row`. `base` has [`WORDS`]
/// for each base macroblock in raster order, `out` has [`WORDS`]. Refusals 1 to 8
/// in rising order; 8 checks only the records that are read, none outside. The
/// others may hold any words.
pub fn macroblock(
    geometry: Geometry,
    base: &[i16],
    column: i32,
    row: i32,
    out: &mut [i16],
) -> Result<Answer, Refusal> {
    numbers::macroblock(geometry, base, column, row, out).result()
}

/// Makes the records of all macroblocks of the full picture in raster order, each
/// as [`macroblock`] does. `base` is as there, `out` has [`WORDS`] for each
/// macroblock. Refusals 1 to 6 and 8 in rising order; 8 checks all base records.
pub fn picture(geometry: Geometry, base: &[i16], out: &mut [i16]) -> Result<Counts, Refusal> {
    numbers::picture(geometry, base, out).result()
}

/// [`macroblock`] on wide records: rule 5 of refusal 8 has another limit, all else is the
/// same. On a base whose vector words are all -8192 to 8191 both give the same.
pub fn macroblock_wide(
    geometry: Geometry,
    base: &[i32],
    column: i32,
    row: i32,
    out: &mut [i32],
) -> Result<Answer, Refusal> {
    numbers::macroblock_wide(geometry, base, column, row, out).result()
}

/// [`picture`] on wide records, each made as [`macroblock_wide`] does.
pub fn picture_wide(geometry: Geometry, base: &[i32], out: &mut [i32]) -> Result<Counts, Refusal> {
    numbers::picture_wide(geometry, base, out).result()
}

/// What a sync text has.
#[derive(Clone, Copy, Debug, PartialEq, Eq)]
pub enum Text {
    /// The text has no bytes: the camera filmed nothing.
    NoPicture,
    /// The text has a picture's lines.
    Picture {
        /// As it stands in the text, not judged.
        geometry: Geometry,
        /// How many record lines there are.
        lines: u32,
    },
}

/// Reads a sync text: the geometry's numbers and the count of record lines,
/// whose words stand first in `words`, which has [`TEXT_WORDS`]; the rest is as it
/// was. Neither numbers nor words are judged. Refusals 6, 10 by length, 9, 10 by
/// lines, in this order. A text of no bytes is refused by 6 only; else the answer is
/// [`Text::NoPicture`], and no word is written. `include/spiewomir.h` has the grammar.
pub fn text(text: &[u8], words: &mut [i16]) -> Result<Text, Refusal> {
    numbers::text(text, words).result()
}

/// What the log of a sync text tells of, where the text is not refused.
#[derive(Clone, Copy, Debug, PartialEq, Eq)]
pub enum Logged {
    /// The text has no bytes, and the log is `(sync 0 0 0 0)`.
    NoPicture,
    /// The macroblocks of a picture, one at least.
    Picture,
}

/// What [`log`] makes of a sync text.
#[derive(Clone, Debug, PartialEq, Eq)]
pub struct Log {
    /// The lines, which every text has.
    pub bytes: Vec<u8>,
    /// What they tell of, or the text's refusal, which they say but for its rule.
    pub verdict: Result<Logged, Refusal>,
}

/// The log of a sync text: a line `(mb column row type pieces)` for each
/// macroblock, then `(sync macroblocks inherited intra outside)`; or only
/// `(sync 0 0 0 0)` for a text of no bytes; or only `(refused number place)`, by the
/// first of 10 by length, 9, 10 by lines, 1 to 5, and 8 on all records. A refused text
/// has a log too, so that this is no `Result`.
pub fn log(text: &[u8]) -> Log {
    let mut bytes = vec![0; LOG_BYTES];
    let written = numbers::log(text, &mut bytes);
    Log {
        // Copied, so that the whole block is given back: shrunk, it would keep a page and a mapping of its own.
        bytes: bytes[..written.bytes].to_vec(),
        verdict: written.verdict(),
    }
}

/// A session: one picture made macroblock by macroblock. Each call hands it
/// back with its answer; a refused one hands it back as it was.
#[derive(Clone, Copy, Debug, PartialEq, Eq)]
pub struct Session(numbers::Session);

impl Session {
    /// One with nothing begun.
    pub fn fresh() -> Session {
        Session(numbers::Session::fresh())
    }

    /// Begins a picture, also after a finished one. Refusals 22, then 1 to 4.
    pub fn begin(self, geometry: Geometry) -> (Session, Result<(), Refusal>) {
        self.0.begin(geometry).result()
    }

    /// The next macroblock in raster order, as [`macroblock`] makes it: refusals
    /// 20 and 21, then 5, 6 and 8.
    pub fn next(self, base: &[i16], out: &mut [i16]) -> (Session, Result<Answer, Refusal>) {
        let advanced = self.0.next(base, out);
        (Session(advanced.session), advanced.macroblock.result())
    }

    /// Gives up an unfinished picture: the session is fresh. Refusals 20 and 21.
    pub fn abandon(self) -> (Session, Result<(), Refusal>) {
        self.0.abandon().result()
    }

    /// Counts of accepted next calls since the last accepted begin or abandon.
    pub fn totals(self) -> (Session, Counts) {
        let totals = self.0.totals();
        let counts = Counts {
            inherited: totals.inherited,
            intra: totals.intra,
            outside: totals.outside,
        };
        (Session(totals.session), counts)
    }
}

fn verdict(number: u32, place: u32, rule: u32) -> Result<(), Refusal> {
    match number {
        0 => Ok(()),
        number => Err(Refusal { number, place, rule }),
    }
}

impl numbers::Judged {
    fn result(self) -> (Session, Result<(), Refusal>) {
        (Session(self.session), verdict(self.refusal, self.place, self.rule))
    }
}

impl numbers::Macroblock {
    /// The answer or the refusal. Panics on numbers that the library's contract
    /// excludes.
    pub fn result(self) -> Result<Answer, Refusal> {
        verdict(self.refusal, self.place, self.rule)?;
        let subs = [self.sub0, self.sub1, self.sub2, self.sub3];
        let kind = match self.kind {
            0 => Kind::Intra,
            1 => Kind::Inherited(Split::S16x16),
            2 => Kind::Inherited(Split::S16x8),
            3 => Kind::Inherited(Split::S8x16),
            4 => Kind::Inherited(Split::S8x8(subs.map(sub_split))),
            5 => Kind::Outside,
            other => excluded("kind", other),
        };
        let class = match self.class {
            0 => Class::Corner,
            1 => Class::Vert,
            2 => Class::Hori,
            3 => Class::Center,
            other => excluded("class", other),
        };
        let detail = match self.detail {
            detail @ 0..=15 => detail as u8,
            other => excluded("detail", other),
        };
        let blocks = |n| match n {
            0..=16 => n as u8,
            other => excluded("count of blocks", other),
        };
        let fed = Fed {
            first: blocks(self.first),
            right: blocks(self.right),
            below: blocks(self.below),
            diagonal: blocks(self.diagonal),
        };
        Ok(Answer {
            kind,
            class,
            column: self.column,
            row: self.row,
            detail,
            fed,
        })
    }
}

impl numbers::Picture {
    /// The counts or the refusal.
    pub fn result(self) -> Result<Counts, Refusal> {
        verdict(self.refusal, self.place, self.rule)?;
        Ok(Counts {
            inherited: self.inherited,
            intra: self.intra,
            outside: self.outside,
        })
    }
}

impl numbers::Text {
    /// What the text has, or the refusal. Panics on numbers that the library's
    /// contract excludes.
    pub fn result(self) -> Result<Text, Refusal> {
        verdict(self.refusal, self.place, self.rule)?;
        Ok(match self.empty {
            0 => Text::Picture {
                geometry: self.geometry,
                lines: self.lines,
            },
            1 => Text::NoPicture,
            other => excluded("empty", other),
        })
    }
}

impl numbers::Log {
    /// What the log tells of, or the refusal: the call's own, with which nothing was
    /// judged, else the text's. Panics on numbers that the library's contract excludes.
    pub fn verdict(self) -> Result<Logged, Refusal> {
        verdict(self.refusal, 0, 0)?;
        verdict(self.text_refusal, self.place, self.rule)?;
        Ok(match self.empty {
            0 => Logged::Picture,
            1 => Logged::NoPicture,
            other => excluded("empty", other),
        })
    }
}

fn sub_split(number: u32) -> SubSplit {
    match number {
        0 => SubSplit::S8x8,
        1 => SubSplit::S8x4,
        2 => SubSplit::S4x8,
        3 => SubSplit::S4x4,
        other => excluded("sub-type", other),
    }
}

fn excluded(what: &str, number: u32) -> ! {
    panic!("{what} {number}, which the library's contract excludes")
}
