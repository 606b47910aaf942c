//! Each call made in both implementations, and the answers compared.

use crate::coverage::{detail, map_row, Block, Blocks, Counts, Coverage, Inside};
use crate::lent::{Guard, Lent};
use crate::session_coverage::SessionCoverage;
use crate::text_coverage::TextCoverage;
use crate::width_coverage::WidthCoverage;
use compare::generate::{library, Eight, Width};
use second::geometry::{Axis, Geometry};
use second::map::{reading, Reading};
use second::record::{block_in, broken_rule, record_at, DETAIL};
use second::{Numbers, WORDS};
use spiewomir::numbers;

/// What the words to write hold before a call, different for the two
/// implementations: a word that neither writes is a difference too.
pub const FILL: i16 = 0x6b31;
pub const FILL_SECOND: i16 = 0x5d17;

/// A width's calls in both implementations, and what was made of them.
pub trait Called: Width + Guard {
    /// Wide ones differ in both halves.
    const FILL: Self;
    const FILL_SECOND: Self;

    /// Which records these are, for messages.
    const NAME: &'static str;

    fn picture(geometry: spiewomir::Geometry, base: &[Self], out: &mut [Self]) -> numbers::Picture;

    fn macroblock(
        geometry: spiewomir::Geometry,
        base: &[Self],
        position: (i32, i32),
        out: &mut [Self],
    ) -> numbers::Macroblock;

    fn second_picture(
        numbers: Numbers,
        base: &[Self],
        out: &mut [Self],
    ) -> Result<second::Counts, second::Refusal>;

    fn second_macroblock(
        numbers: Numbers,
        base: &[Self],
        position: (i32, i32),
        out: &mut [Self],
    ) -> Result<second::Answer, second::Refusal>;

    fn made(calls: &mut Calls) -> &mut Made;
}

impl Called for i16 {
    const FILL: i16 = FILL;
    const FILL_SECOND: i16 = FILL_SECOND;
    const NAME: &'static str = "";

    fn picture(geometry: spiewomir::Geometry, base: &[i16], out: &mut [i16]) -> numbers::Picture {
        numbers::picture(geometry, base, out)
    }

    fn macroblock(
        geometry: spiewomir::Geometry,
        base: &[i16],
        (column, row): (i32, i32),
        out: &mut [i16],
    ) -> numbers::Macroblock {
        numbers::macroblock(geometry, base, column, row, out)
    }

    fn second_picture(
        numbers: Numbers,
        base: &[i16],
        out: &mut [i16],
    ) -> Result<second::Counts, second::Refusal> {
        second::picture(numbers, base, out)
    }

    fn second_macroblock(
        numbers: Numbers,
        base: &[i16],
        (column, row): (i32, i32),
        out: &mut [i16],
    ) -> Result<second::Answer, second::Refusal> {
        second::macroblock(numbers, base, column, row, out)
    }

    fn made(calls: &mut Calls) -> &mut Made {
        &mut calls.narrow
    }
}

impl Called for i32 {
    const FILL: i32 = 0x6b31_5c2d;
    const FILL_SECOND: i32 = 0x5d17_2e43;
    const NAME: &'static str = "wide ";

    fn picture(geometry: spiewomir::Geometry, base: &[i32], out: &mut [i32]) -> numbers::Picture {
        numbers::picture_wide(geometry, base, out)
    }

    fn macroblock(
        geometry: spiewomir::Geometry,
        base: &[i32],
        (column, row): (i32, i32),
        out: &mut [i32],
    ) -> numbers::Macroblock {
        numbers::macroblock_wide(geometry, base, column, row, out)
    }

    fn second_picture(
        numbers: Numbers,
        base: &[i32],
        out: &mut [i32],
    ) -> Result<second::Counts, second::Refusal> {
        second::picture_wide(numbers, base, out)
    }

    fn second_macroblock(
        numbers: Numbers,
        base: &[i32],
        (column, row): (i32, i32),
        out: &mut [i32],
    ) -> Result<second::Answer, second::Refusal> {
        second::macroblock_wide(numbers, base, column, row, out)
    }

    fn made(calls: &mut Calls) -> &mut Made {
        &mut calls.wide
    }
}

/// What was made of the calls of one width.
pub struct Made {
    pub pictures: u64,
    pub singles: u64,
    pub coverage: Coverage,
}

impl Made {
    fn new() -> Made {
        Made {
            pictures: 0,
            singles: 0,
            coverage: Coverage::new(),
        }
    }
}

/// Differences that are printed in full.
const SHOWN: u64 = 20;

pub struct Calls {
    /// By the width of records.
    pub narrow: Made,
    pub wide: Made,
    pub width_coverage: WidthCoverage,
    pub session_coverage: SessionCoverage,
    pub text_coverage: TextCoverage,
    /// What is being tried, for messages.
    pub at: String,
    /// How many of each were made.
    pub sessions: u64,
    pub texts: u64,
    /// Written words and bytes of logs that were compared.
    pub words: u64,
    pub log_bytes: u64,
    pub differences: u64,
}

/// The interface's numbers for what the second implementation answers.
pub fn macroblock_numbers(result: Result<second::Answer, second::Refusal>) -> numbers::Macroblock {
    match result {
        Err(refusal) => numbers::Macroblock {
            refusal: refusal.number,
            place: refusal.place,
            rule: refusal.rule,
            ..numbers::Macroblock::default()
        },
        Ok(answer) => {
            let subs = match answer.kind {
                second::Kind::Inherited(split) => split.sub_numbers(),
                _ => [0; 4],
            };
            numbers::Macroblock {
                kind: answer.type_number() as u32,
                sub0: subs[0] as u32,
                sub1: subs[1] as u32,
                sub2: subs[2] as u32,
                sub3: subs[3] as u32,
                class: match answer.class {
                    second::Class::Corner => 0,
                    second::Class::Vert => 1,
                    second::Class::Hori => 2,
                    second::Class::Center => 3,
                },
                column: answer.first_column as u32,
                row: answer.first_row as u32,
                detail: answer.detail as u32,
                first: answer.fed.first as u32,
                right: answer.fed.right as u32,
                below: answer.fed.below as u32,
                diagonal: answer.fed.diagonal as u32,
                ..numbers::Macroblock::default()
            }
        }
    }
}

fn picture_numbers(result: Result<second::Counts, second::Refusal>) -> numbers::Picture {
    match result {
        Err(refusal) => numbers::Picture {
            refusal: refusal.number,
            place: refusal.place,
            rule: refusal.rule,
            ..numbers::Picture::default()
        },
        Ok(counts) => numbers::Picture {
            inherited: counts.inherited,
            intra: counts.intra,
            outside: counts.outside,
            ..numbers::Picture::default()
        },
    }
}

/// What each block reads.
fn blocks_read<W: Called>(base: &[W], base_columns: usize, x: &Reading, y: &Reading) -> Blocks {
    let mut blocks = Blocks::default();
    for (q, quadrant) in blocks.iter_mut().enumerate() {
        for (i, block) in quadrant.iter_mut().enumerate() {
            let (column, row) = (block_in(q, i) % 4, block_in(q, i) / 4);
            let base_row = y.first + y.step[row] as usize;
            let base_column = x.first + x.step[column] as usize;
            let record = record_at(base, base_row * base_columns + base_column);
            let base_quadrant = y.block[row] / 2 * 2 + x.block[column] / 2;
            let detail = record[DETAIL].number();
            *block = Block {
                intra: record[0].number() == 0,
                bit: detail >> base_quadrant & 1 == 1,
                macroblock: detail != 0,
            };
        }
    }
    blocks
}

/// Along one axis, for a macroblock inside: what it reads and the map's row.
fn along(axis: &Axis, at: usize) -> Option<(Reading, usize)> {
    reading(axis, at).map(|reading| (reading, map_row(axis, 16 * at as i32)))
}

/// Counts what an answered macroblock had. Returns its detail, block by block.
fn count<W: Called>(
    counts: &mut Counts,
    base: &[W],
    base_columns: usize,
    x: &Option<(Reading, usize)>,
    y: &Option<(Reading, usize)>,
    words: &[W],
) -> i16 {
    match (x, y) {
        (Some((x, x_row)), Some((y, y_row))) => {
            let blocks = blocks_read(base, base_columns, x, y);
            counts.inside(Inside {
                map_rows: [*x_row, *y_row],
                class: x.two as usize + 2 * y.two as usize,
                falls: [x.in_first, y.in_first],
                blocks,
                words,
            });
            detail(&blocks)
        }
        _ => {
            counts.outside();
            0
        }
    }
}

/// The wrapper's answer says the same as the second implementation's.
pub fn same_answer(library: &spiewomir::Answer, second: &second::Answer) -> bool {
    let kind = match (library.kind, second.kind) {
        (spiewomir::Kind::Intra, second::Kind::Intra) => true,
        (spiewomir::Kind::Outside, second::Kind::Outside) => true,
        (spiewomir::Kind::Inherited(library), second::Kind::Inherited(second)) => {
            same_split(library, second)
        }
        _ => false,
    };
    let class = matches!(
        (library.class, second.class),
        (spiewomir::Class::Corner, second::Class::Corner)
            | (spiewomir::Class::Vert, second::Class::Vert)
            | (spiewomir::Class::Hori, second::Class::Hori)
            | (spiewomir::Class::Center, second::Class::Center)
    );
    kind && class
        && (library.column, library.row) == (second.first_column as u32, second.first_row as u32)
        && library.detail == second.detail
        && same_fed(library.fed, second.fed)
}

fn same_fed(library: spiewomir::Fed, second: second::Fed) -> bool {
    (library.first, library.right) == (second.first, second.right)
        && (library.below, library.diagonal) == (second.below, second.diagonal)
}

fn same_split(library: spiewomir::Split, second: second::Split) -> bool {
    use spiewomir::SubSplit::*;
    let number = |sub| match sub {
        S8x8 => 0,
        S8x4 => 1,
        S4x8 => 2,
        S4x4 => 3,
    };
    match (library, second) {
        (spiewomir::Split::S16x16, second::Split::S16x16) => true,
        (spiewomir::Split::S16x8, second::Split::S16x8) => true,
        (spiewomir::Split::S8x16, second::Split::S8x16) => true,
        (spiewomir::Split::S8x8(library), second::Split::S8x8(second)) => {
            library.map(number) == second.map(|sub| sub.number())
        }
        _ => false,
    }
}

/// The words that were written, or the number of the refusal.
pub fn answered<W: Called>(refusal: u32, words: &Lent<W>) -> Result<Vec<W>, u32> {
    match refusal {
        0 => Ok(words.words().to_vec()),
        number => Err(number),
    }
}

impl Calls {
    pub fn new() -> Calls {
        Calls {
            narrow: Made::new(),
            wide: Made::new(),
            width_coverage: WidthCoverage::default(),
            session_coverage: SessionCoverage::default(),
            text_coverage: TextCoverage::default(),
            at: String::new(),
            sessions: 0,
            texts: 0,
            words: 0,
            log_bytes: 0,
            differences: 0,
        }
    }

    pub fn differs(&mut self, what: impl FnOnce() -> String) {
        self.differences += 1;
        if self.differences <= SHOWN {
            println!("DIFFERENCE, {}: {}", self.at, what());
        }
    }

    /// What both calls must have left of the words lent to them, and the words
    /// that they wrote.
    pub fn words_agree<W: Called>(
        &mut self,
        call: impl Fn() -> String,
        refused: bool,
        base: &Lent<W>,
        ours: &Lent<W>,
        theirs: &[W],
    ) {
        if !base.untouched() {
            self.differs(|| format!("{}: the base or a word beside it was written", call()));
        }
        if !ours.guards_stand() {
            self.differs(|| format!("{}: a word beside the output was written", call()));
        }
        if refused {
            if !ours.untouched() {
                self.differs(|| format!("{}: refused, but the output was written", call()));
            }
            if theirs.iter().any(|&word| word != W::FILL_SECOND) {
                self.differs(|| {
                    format!("{}: refused, but the second implementation wrote", call())
                });
            }
        } else if ours.words() != theirs {
            let at = (0..theirs.len())
                .find(|&at| ours.words()[at] != theirs[at])
                .unwrap_or(0);
            let (library, second) = (ours.words()[at], theirs[at]);
            self.differs(|| {
                let (record, word) = (at / WORDS, at % WORDS);
                format!(
                    "{}: record {record} word {word}: library {library:?}, second {second:?}",
                    call()
                )
            });
        } else {
            self.words += theirs.len() as u64;
        }
    }

    /// The written detail is the answer's, or the definition's.
    pub fn detail_is<W: Called>(&mut self, call: impl Fn() -> String, words: &[W], detail: i16) {
        if words[DETAIL] != W::from(detail) {
            self.differs(|| format!("{}: detail {:?}, not {detail}", call(), words[DETAIL]));
        }
    }

    /// The picture call. Returns the words that the library wrote, or the number
    /// of its refusal.
    pub fn picture<W: Called>(
        &mut self,
        eight: &Eight,
        base: &Lent<W>,
        out_length: usize,
    ) -> Result<Vec<W>, u32> {
        let (library, ours) = self.picture_given(eight, base, out_length);
        answered(library.refusal, &ours)
    }

    /// The same with all that the library gave.
    pub fn picture_given<W: Called>(
        &mut self,
        eight: &Eight,
        base: &Lent<W>,
        out_length: usize,
    ) -> (numbers::Picture, Lent<W>) {
        let call = || {
            format!(
                "{}picture {eight:?}, {} base words, {out_length} to write",
                W::NAME,
                base.words().len()
            )
        };
        let mut ours = Lent::filled(out_length, W::FILL);
        let mut theirs = vec![W::FILL_SECOND; out_length];
        let library = W::picture(library(eight), base.words(), ours.words_mut());
        let result = W::second_picture(Numbers::from_array(*eight), base.words(), &mut theirs);
        let second = picture_numbers(result);
        W::made(self).pictures += 1;
        if library != second {
            self.differs(|| format!("{}: library {library:?}, second {second:?}", call()));
        }
        self.words_agree(call, result.is_err(), base, &ours, &theirs);
        match result {
            Err(refusal) => W::made(self)
                .coverage
                .picture
                .refused(refusal, base.words()),
            Ok(_) => {
                let geometry = Geometry::new(Numbers::from_array(*eight)).expect("accepted");
                let all = |axis: &Axis| -> Vec<Option<(Reading, usize)>> {
                    (0..axis.full_count()).map(|at| along(axis, at)).collect()
                };
                let (columns, rows) = (all(&geometry.x), all(&geometry.y));
                for (address, words) in theirs.chunks(WORDS).enumerate() {
                    let (x, y) = (
                        &columns[address % columns.len()],
                        &rows[address / columns.len()],
                    );
                    let detail = count(
                        &mut W::made(self).coverage.picture,
                        base.words(),
                        geometry.x.base_count(),
                        x,
                        y,
                        words,
                    );
                    self.detail_is(|| format!("{}: record {address}", call()), words, detail);
                }
            }
        }
        (library, ours)
    }

    /// The one-macroblock call. `broken` are the addresses of records that may
    /// be malformed. Returns the words that the library wrote, or the number of
    /// its refusal.
    pub fn single<W: Called>(
        &mut self,
        eight: &Eight,
        base: &Lent<W>,
        position: (i32, i32),
        out_length: usize,
        broken: &[usize],
    ) -> Result<Vec<W>, u32> {
        let (library, ours) = self.single_given(eight, base, position, out_length, broken);
        answered(library.refusal, &ours)
    }

    /// The same with all that the library gave.
    pub fn single_given<W: Called>(
        &mut self,
        eight: &Eight,
        base: &Lent<W>,
        (column, row): (i32, i32),
        out_length: usize,
        broken: &[usize],
    ) -> (numbers::Macroblock, Lent<W>) {
        let call = || {
            let (name, length) = (W::NAME, base.words().len());
            format!("{name}macroblock {column},{row} of {eight:?}, {length} base words, {out_length} to write")
        };
        let mut ours = Lent::filled(out_length, W::FILL);
        let mut theirs = vec![W::FILL_SECOND; out_length];
        let library = W::macroblock(
            library(eight),
            base.words(),
            (column, row),
            ours.words_mut(),
        );
        let numbers = Numbers::from_array(*eight);
        let result = W::second_macroblock(numbers, base.words(), (column, row), &mut theirs);
        let second = macroblock_numbers(result);
        W::made(self).singles += 1;
        let same = match (library == second, result) {
            (true, Ok(answer)) => library
                .result()
                .map_or(false, |library| same_answer(&library, &answer)),
            (same, _) => same,
        };
        if !same {
            self.differs(|| format!("{}: library {library:?}, second {second:?}", call()));
        }
        self.words_agree(call, result.is_err(), base, &ours, &theirs);
        match result {
            Err(refusal) => W::made(self).coverage.single.refused(refusal, base.words()),
            Ok(answer) => {
                let geometry = Geometry::new(numbers).expect("accepted");
                let x = along(&geometry.x, column as usize);
                let y = along(&geometry.y, row as usize);
                let detail = count(
                    &mut W::made(self).coverage.single,
                    base.words(),
                    geometry.x.base_count(),
                    &x,
                    &y,
                    &theirs,
                );
                self.detail_is(call, &theirs, detail);
                self.detail_is(call, ours.words(), answer.detail.into());
                for &address in broken {
                    let rule = broken_rule(record_at(base.words(), address));
                    W::made(self).coverage.unnamed[rule as usize] += 1;
                }
            }
        }
        (library, ours)
    }
}
