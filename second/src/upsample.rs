//! The calls on records: one macroblock, and a picture, each for narrow and for
//! wide words (document 02's request E12). The latter differ from the former in
//! nothing but the word.

use crate::detail::detail;
use crate::fed::{fed, Fed};
use crate::geometry::{Geometry, Numbers};
use crate::inherit::{inherit, IntraSet, Quadrants, Scales, INTRA_FROM};
use crate::map::{reading, Reading};
use crate::record::{
    block_in, broken_rule, motion, record_at, write_without_motion, Motion, Record, DETAIL, REFERENCES, TYPE_INTRA,
    TYPE_OUTSIDE, VECTORS, WORDS,
};
use crate::refusal::Refusal;
use crate::split::{fewest_pieces, Split, SubSplit};
use crate::word::Word;

#[derive(Clone, Copy, Debug, PartialEq, Eq)]
pub enum Kind {
    Outside,
    Intra,
    Inherited(Split),
}

/// How many base macroblocks are read: one, two columns, two rows, four.
#[derive(Clone, Copy, Debug, PartialEq, Eq)]
pub enum Class {
    Corner,
    Vert,
    Hori,
    Center,
}

#[derive(Clone, Copy, Debug, PartialEq, Eq)]
pub struct Answer {
    pub kind: Kind,
    pub class: Class,
    pub first_column: i32,
    pub first_row: i32,
    /// 0 to 15: bit q says that quadrant q reads a base quadrant with luma
    /// coefficients.
    pub detail: u8,
    /// How many of the sixteen blocks read each base macroblock.
    pub fed: Fed,
}

/// Numbers of macroblocks by the kind of their answers.
#[derive(Clone, Copy, Debug, Default, PartialEq, Eq)]
pub struct Counts {
    pub inherited: u32,
    pub intra: u32,
    pub outside: u32,
}

impl Answer {
    /// Word 0 of the written record.
    pub fn type_number(&self) -> i16 {
        match self.kind {
            Kind::Outside => TYPE_OUTSIDE,
            Kind::Intra => TYPE_INTRA,
            Kind::Inherited(split) => split.number(),
        }
    }

    pub fn pieces(&self) -> u32 {
        match self.kind {
            Kind::Inherited(split) => split.pieces(),
            _ => 0,
        }
    }
}

impl Counts {
    pub fn add(&mut self, kind: Kind) {
        match kind {
            Kind::Outside => self.outside += 1,
            Kind::Intra => self.intra += 1,
            Kind::Inherited(_) => self.inherited += 1,
        }
    }

    pub fn sum(&self) -> u32 {
        self.inherited + self.intra + self.outside
    }
}

/// A macroblock's readings on both axes; `None` outside the window.
type Both<'a> = Option<(&'a Reading, &'a Reading)>;

fn both<'a>(x: &'a Option<Reading>, y: &'a Option<Reading>) -> Both<'a> {
    Some((x.as_ref()?, y.as_ref()?))
}

fn class(x: &Reading, y: &Reading) -> Class {
    match (x.two, y.two) {
        (false, false) => Class::Corner,
        (true, false) => Class::Vert,
        (false, true) => Class::Hori,
        (true, true) => Class::Center,
    }
}

/// The records read: first, right, below and diagonal. Where one column or row
/// is read, it stands for the other too.
type Records<'a, W> = [&'a Record<W>; 4];

fn records<'a, W: Word>(base: &'a [W], base_columns: usize, x: &Reading, y: &Reading) -> Records<'a, W> {
    let record = |column, row| record_at(base, (y.first + row) * base_columns + x.first + column);
    let (right, below) = (x.two as usize, y.two as usize);
    [record(0, 0), record(right, 0), record(0, below), record(right, below)]
}

/// The motions of the sixteen blocks, and which of them read intra macroblocks.
fn gather<W: Word>(records: &Records<W>, x: &Reading, y: &Reading) -> (Quadrants<W>, IntraSet) {
    let mut quadrants = [[Motion::none(); 4]; 4];
    let mut intra: IntraSet = 0;
    for (q, quadrant) in quadrants.iter_mut().enumerate() {
        for (i, block) in quadrant.iter_mut().enumerate() {
            let (column, row) = (q % 2 * 2 + i % 2, q / 2 * 2 + i / 2);
            let record = records[(y.step[row] * 2 + x.step[column]) as usize];
            *block = motion(record, (y.block[row] * 4 + x.block[column]) as usize);
            intra |= ((record[0] == TYPE_INTRA.into()) as IntraSet) << (4 * q + i);
        }
    }
    (quadrants, intra)
}

/// The scaled vectors of a quadrant's blocks.
fn quadrant_vectors<W: Word>([a, b, c, d]: &[Motion<W>; 4], sub: SubSplit, scales: &Scales) -> [[W; 4]; 4] {
    let scaled = |block: &Motion<W>| scales.vector(block.vector);
    match sub {
        SubSplit::S8x8 => [scaled(a); 4],
        SubSplit::S8x4 => {
            let (top, bottom) = (scaled(a), scaled(c));
            [top, top, bottom, bottom]
        }
        SubSplit::S4x8 => {
            let (left, right) = (scaled(a), scaled(b));
            [left, right, left, right]
        }
        SubSplit::S4x4 => [scaled(a), scaled(b), scaled(c), scaled(d)],
    }
}

/// The scaled vectors of all blocks, by quadrant; scaled once for each piece.
fn vectors<W: Word>(quadrants: &Quadrants<W>, split: Split, scales: &Scales) -> [[[W; 4]; 4]; 4] {
    let scaled = |q: usize| [scales.vector(quadrants[q][0].vector); 4];
    match split {
        Split::S16x16 => [scaled(0); 4],
        Split::S16x8 => {
            let (top, bottom) = (scaled(0), scaled(2));
            [top, top, bottom, bottom]
        }
        Split::S8x16 => {
            let (left, right) = (scaled(0), scaled(1));
            [left, right, left, right]
        }
        Split::S8x8(subs) => std::array::from_fn(|q| quadrant_vectors(&quadrants[q], subs[q], scales)),
    }
}

fn write_inherited<W: Word>(out: &mut Record<W>, quadrants: &Quadrants<W>, split: Split, scales: &Scales, detail: i16) {
    out[0] = split.number().into();
    out[1..REFERENCES].copy_from_slice(&split.sub_numbers().map(W::from));
    let vectors = vectors(quadrants, split, scales);
    for q in 0..4 {
        // After step 2 a quadrant has one reference in each list.
        out[REFERENCES + 2 * q..][..2].copy_from_slice(&quadrants[q][0].reference);
        for i in 0..4 {
            out[VECTORS + 4 * block_in(q, i)..][..4].copy_from_slice(&vectors[q][i]);
        }
    }
    out[DETAIL] = detail.into();
}

/// Answers one macroblock whose records have been judged.
fn answer<W: Word>(geometry: &Geometry, base: &[W], readings: Both, out: &mut Record<W>) -> Answer {
    let Some((x, y)) = readings else {
        write_without_motion(out, TYPE_OUTSIDE, 0);
        return Answer {
            kind: Kind::Outside,
            class: Class::Corner,
            first_column: 0,
            first_row: 0,
            detail: 0,
            fed: Fed::default(),
        };
    };
    let records = records(base, geometry.x.base_count(), x, y);
    let detail = detail(records.map(|record| record[DETAIL]), x, y);
    let (mut quadrants, intra) = gather(&records, x, y);
    let kind = if intra.count_ones() >= INTRA_FROM {
        write_without_motion(out, TYPE_INTRA, detail.into());
        Kind::Intra
    } else {
        inherit(&mut quadrants, intra);
        // A scale is at least 65,536, so scaling keeps different words
        // different: the split may be found before step 4.
        let split = fewest_pieces(&quadrants);
        write_inherited(out, &quadrants, split, &geometry.scales, detail.into());
        Kind::Inherited(split)
    };
    Answer { kind, class: class(x, y), first_column: x.first as i32, first_row: y.first as i32, detail, fed: fed(x, y) }
}

fn judge_record<W: Word>(base: &[W], address: usize) -> Result<(), Refusal> {
    match broken_rule(record_at(base, address)) {
        0 => Ok(()),
        rule => Err(Refusal::malformed(address as u32, rule)),
    }
}

/// Refusal 5.
pub fn judge_base_length<W: Word>(geometry: &Geometry, base: &[W]) -> Result<(), Refusal> {
    if base.len() == geometry.base_macroblocks() * WORDS {
        Ok(())
    } else {
        Err(Refusal::of(5))
    }
}

/// Refusal 8 on all records of a base.
pub fn judge_records<W: Word>(base: &[W]) -> Result<(), Refusal> {
    (0..base.len() / WORDS).try_for_each(|address| judge_record(base, address))
}

/// One macroblock of an accepted geometry: refusals 5 to 8.
pub fn macroblock_of<W: Word>(
    geometry: &Geometry,
    base: &[W],
    column: i32,
    row: i32,
    out: &mut [W],
) -> Result<Answer, Refusal> {
    judge_base_length(geometry, base)?;
    let out: &mut Record<W> = out.try_into().map_err(|_| Refusal::of(6))?;
    if column < 0 || column as usize >= geometry.x.full_count() || row < 0 || row as usize >= geometry.y.full_count() {
        return Err(Refusal::of(7));
    }
    let (x, y) = (reading(&geometry.x, column as usize), reading(&geometry.y, row as usize));
    let readings = both(&x, &y);
    if let Some((x, y)) = readings {
        for base_row in y.first..=y.first + y.two as usize {
            for base_column in x.first..=x.first + x.two as usize {
                judge_record(base, base_row * geometry.x.base_count() + base_column)?;
            }
        }
    }
    Ok(answer(geometry, base, readings, out))
}

/// The readings along both axes of a picture, and its judged base.
pub struct Prepared<'a, W = i16> {
    geometry: &'a Geometry,
    base: &'a [W],
    columns: Vec<Option<Reading>>,
    rows: Vec<Option<Reading>>,
}

impl<'a, W: Word> Prepared<'a, W> {
    /// Refusals 5 and 8 have been judged.
    pub fn new(geometry: &'a Geometry, base: &'a [W]) -> Prepared<'a, W> {
        let columns = (0..geometry.x.full_count()).map(|column| reading(&geometry.x, column)).collect();
        let rows = (0..geometry.y.full_count()).map(|row| reading(&geometry.y, row)).collect();
        Prepared { geometry, base, columns, rows }
    }

    pub fn answer(&self, column: usize, row: usize, out: &mut Record<W>) -> Answer {
        answer(self.geometry, self.base, both(&self.columns[column], &self.rows[row]), out)
    }
}

/// A picture: refusals 1 to 6 and 8.
fn picture_of<W: Word>(numbers: Numbers, base: &[W], out: &mut [W]) -> Result<Counts, Refusal> {
    let geometry = Geometry::new(numbers)?;
    judge_base_length(&geometry, base)?;
    if out.len() != geometry.full_macroblocks() * WORDS {
        return Err(Refusal::of(6));
    }
    judge_records(base)?;
    let prepared = Prepared::new(&geometry, base);
    let width = geometry.x.full_count();
    let mut counts = Counts::default();
    for (address, record) in out.as_chunks_mut::<WORDS>().0.iter_mut().enumerate() {
        counts.add(prepared.answer(address % width, address / width, record).kind);
    }
    Ok(counts)
}

/// The one-macroblock call.
pub fn macroblock(numbers: Numbers, base: &[i16], column: i32, row: i32, out: &mut [i16]) -> Result<Answer, Refusal> {
    macroblock_of(&Geometry::new(numbers)?, base, column, row, out)
}

/// The one-macroblock call on wide records.
pub fn macroblock_wide(
    numbers: Numbers,
    base: &[i32],
    column: i32,
    row: i32,
    out: &mut [i32],
) -> Result<Answer, Refusal> {
    macroblock_of(&Geometry::new(numbers)?, base, column, row, out)
}

/// The picture call.
pub fn picture(numbers: Numbers, base: &[i16], out: &mut [i16]) -> Result<Counts, Refusal> {
    picture_of(numbers, base, out)
}

/// The picture call on wide records.
pub fn picture_wide(numbers: Numbers, base: &[i32], out: &mut [i32]) -> Result<Counts, Refusal> {
    picture_of(numbers, base, out)
}
