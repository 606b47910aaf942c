//! What is measured: a row of a table is a call on an input that is the same in
//! every run.

use crate::calls::{Call, Log, Picture, Text};
use compare::generate::{full_macroblocks, Eight};
use compare::random::Random;
use compare::sync::{long_notes, long_records, note};

pub enum Input {
    Picture(Eight),
    /// The same records in wide words, and such with long vectors.
    Wide(Eight),
    Long(Eight),
    Text(String),
    Log(String),
}

pub struct Row {
    pub name: String,
    pub input: Input,
    /// So many units are the whole of a call.
    pub amount: usize,
    pub unit: &'static str,
}

/// Square pictures: base, scaled, offset and full size as they are timed, and
/// smaller ones, on which instructions are counted.
type Sizes = (&'static str, [i32; 4], [i32; 4]);

#[rustfmt::skip]
const PICTURES: [Sizes; 8] = [
    ("ratio 1", [4096, 4096, 0, 4096], [1024, 1024, 0, 1024]),
    ("ratio 3/2", [2720, 4080, 0, 4096], [688, 1032, 0, 1024]),
    ("ratio 2", [2048, 4096, 0, 4096], [512, 1024, 0, 1024]),
    ("ratio 1, offset 6", [4096, 4096, 6, 4096], [1024, 1024, 6, 1024]),
    ("ratio 3/2, offset 6", [2736, 4104, 6, 4096], [688, 1032, 6, 1024]),
    ("ratio 2, offset 6", [2048, 4096, 6, 4096], [512, 1024, 6, 1024]),
    ("ratio 3/2", [48, 72, 0, 64], [48, 72, 0, 64]),
    ("ratio 2", [32, 64, 0, 64], [32, 64, 0, 64]),
];

impl Row {
    pub fn picture(name: &str, sizes: [i32; 4]) -> Row {
        Row::of_records("", name, sizes, Input::Picture)
    }

    fn of_records(
        kind: &str,
        name: &str,
        [base, scaled, offset, full]: [i32; 4],
        input: fn(Eight) -> Input,
    ) -> Row {
        let eight = [base, base, scaled, scaled, offset, offset, full, full];
        Row {
            name: format!("{kind}{full}x{full}, {name}"),
            amount: full_macroblocks(&eight),
            unit: "macroblock",
            input: input(eight),
        }
    }

    pub fn text(name: &str, text: String) -> Row {
        Row {
            name: format!("text call, {name}"),
            amount: text.len(),
            unit: "byte",
            input: Input::Text(text),
        }
    }

    pub fn log(name: &str, text: String) -> Row {
        Row {
            name: format!("log, {name}"),
            amount: text.len(),
            unit: "byte",
            input: Input::Log(text),
        }
    }

    pub fn call(&self) -> Box<dyn Call> {
        match &self.input {
            Input::Picture(eight) => Box::new(Picture::narrow(*eight)),
            Input::Wide(eight) => Box::new(Picture::wide(*eight)),
            Input::Long(eight) => Box::new(Picture::long(*eight)),
            Input::Text(text) => Box::new(Text::new(text)),
            Input::Log(text) => Box::new(Log::new(text)),
        }
    }
}

/// Pictures as they are timed.
pub fn pictures() -> Vec<Row> {
    PICTURES
        .iter()
        .map(|(name, timed, _)| Row::picture(name, *timed))
        .collect()
}

/// Wide pictures: all of the above, and the ratios 3/2 and 2 once more with long vectors.
fn wide_rows(sizes: fn(&Sizes) -> [i32; 4]) -> Vec<Row> {
    let wide = |row: &Sizes| Row::of_records("wide, ", row.0, sizes(row), Input::Wide);
    let long = |row: &Sizes| Row::of_records("long, ", row.0, sizes(row), Input::Long);
    let rows = PICTURES.iter().map(wide);
    rows.chain(PICTURES[1..3].iter().map(long)).collect()
}

/// Wide pictures as they are timed.
pub fn wide_pictures() -> Vec<Row> {
    wide_rows(|row| row.1)
}

/// The text call and the log of two texts, and the log of a large picture.
pub fn texts() -> Vec<Row> {
    let random = &mut Random::new(12);
    let notes = long_notes(65_536, || note(random));
    let records = long_records(64);
    let large = Row {
        amount: 65_536,
        unit: "line",
        ..Row::log("picture of 4096x4096", long_records(4096))
    };
    vec![
        Row::text("random notes", notes.clone()),
        Row::log("random notes", notes),
        Row::text("99 long (mb ..) lines", records.clone()),
        Row::log("99 long (mb ..) lines", records),
        large,
    ]
}

/// All rows of narrow records and of texts as they are timed.
pub fn timed() -> Vec<Row> {
    pictures().into_iter().chain(texts()).collect()
}

/// All rows as their instructions are counted.
pub fn counted() -> Vec<Row> {
    PICTURES
        .iter()
        .map(|(name, _, counted)| Row::picture(name, *counted))
        .chain(texts())
        .chain(wide_rows(|row| row.2))
        .collect()
}
