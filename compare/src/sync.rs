//! Sync texts: the lines of document 01, and texts with notes between them.

use crate::generate::{base_macroblocks, full_macroblocks, geometry, Eight};
use crate::random::Random;
use second::record::DETAIL;
use second::{TEXT_RECORDS, WORDS};

/// An intra record without detail.
pub const INTRA: &str = "(intra 0)\n";

/// The text of no bytes, and those nearest to it: a line feed alone, notes only, and
/// eight zeros without a record line.
pub const NEAREST: [&str; 4] = [
    "",
    "\n",
    "(note)\n(note rest day)\n",
    "(base 0 0)\n(scaled 0 0)\n(at 0 0)\n(full 0 0)\n",
];

/// Notes nest to this depth, the note being at 1.
const DEPTH: u32 = 8;

/// The most macroblocks of a random text's picture.
const LARGEST: usize = 512;

/// The four lines that give the geometry, as they stand in a text.
pub fn head(eight: &Eight) -> [String; 4] {
    let [bw, bh, sw, sh, x, y, fw, fh] = eight;
    [
        format!("(base {bw} {bh})\n"),
        format!("(scaled {sw} {sh})\n"),
        format!("(at {x} {y})\n"),
        format!("(full {fw} {fh})\n"),
    ]
}

fn spaced(words: &[i16]) -> String {
    let words: Vec<String> = words.iter().map(|word| word.to_string()).collect();
    words.join(" ")
}

pub fn intra_with(detail: i16) -> String {
    format!("(intra {detail})\n")
}

pub fn whole(references: &[i16], vectors: &[i16], detail: i16) -> String {
    let (references, vectors) = (spaced(references), spaced(vectors));
    format!("(whole ({references}) ({vectors}) {detail})\n")
}

pub fn mb(record: &[i16]) -> String {
    let (subs, references, vectors) = (&record[1..5], &record[5..13], &record[13..DETAIL]);
    format!(
        "(mb {} ({}) ({}) ({}) {})\n",
        record[0],
        spaced(subs),
        spaced(references),
        spaced(vectors),
        record[DETAIL]
    )
}

/// A well-formed record's line: (mb ..), or a shorter form where it has one.
pub fn line(random: &mut Random, record: &[i16]) -> String {
    if random.one_in(4) {
        return mb(record);
    }
    match record[0] {
        0 => intra_with(record[DETAIL]),
        1 => whole(&record[5..7], &record[13..17], record[DETAIL]),
        _ => mb(record),
    }
}

fn word(random: &mut Random) -> String {
    let names = ["a", "z", "base", "intra", "mb", "note", "cut", "take"];
    random.pick(&names).to_string()
}

/// An item of a note, in a list at this depth.
fn item(random: &mut Random, depth: u32) -> String {
    match random.below(if depth < DEPTH { 4 } else { 2 }) {
        0 => word(random),
        1 if random.one_in(2) => random.word().to_string(),
        1 => random.within(-3, 3).to_string(),
        _ => format!("({})", items(random, depth + 1)),
    }
}

fn items(random: &mut Random, depth: u32) -> String {
    let count = random.pick(&[1, 1, 1, 2, 3]);
    let items: Vec<String> = (0..count).map(|_| item(random, depth)).collect();
    items.join(" ")
}

pub fn note(random: &mut Random) -> String {
    match random.below(4) {
        0 => "(note)\n".to_string(),
        _ => format!("(note {})\n", items(random, 1)),
    }
}

/// The lines one after another, with notes before, between and after them.
pub fn noted(random: &mut Random, lines: &[String]) -> String {
    let once_in = random.pick(&[2, 4, 16, 1_000]);
    let mut text = String::new();
    for line in lines {
        while random.one_in(once_in) {
            text += &note(random);
        }
        text += line;
    }
    while random.one_in(once_in) {
        text += &note(random);
    }
    text
}

/// The lines of a geometry and of its base.
pub fn lines(random: &mut Random, eight: &Eight, base: &[i16]) -> Vec<String> {
    let mut lines = head(eight).to_vec();
    for record in base.chunks(WORDS) {
        lines.push(line(random, record));
    }
    lines
}

/// An accepted geometry whose base a text can hold; mostly of small pictures.
pub fn text_geometry(random: &mut Random) -> Eight {
    loop {
        let eight = geometry(random);
        if base_macroblocks(&eight) <= TEXT_RECORDS && full_macroblocks(&eight) <= LARGEST {
            return eight;
        }
    }
}

/// A text of 99 long (mb ..) lines: every vector word has a minus and four digits.
pub fn long_records(full: i32) -> String {
    let random = &mut Random::new(11);
    let mut text = head(&[144, 176, 288, 352, 0, 0, full, full]).concat();
    for _ in 0..TEXT_RECORDS {
        let mut record = [3; WORDS];
        record[0] = 4;
        record[5..13].fill_with(|| random.within(0, 31) as i16);
        record[13..DETAIL].fill_with(|| random.within(-8192, -1000) as i16);
        record[DETAIL] = random.within(0, 15) as i16;
        text += &mb(&record);
    }
    text
}

/// The Whole case after notes, one after another, of so many bytes in all. What
/// the last note lacks is one word.
pub fn long_notes(bytes: usize, mut note: impl FnMut() -> String) -> String {
    let whole_case =
        head(&[16, 16, 32, 32, 0, 0, 48, 32]).concat() + &whole(&[0, -1], &[4, -8, 0, 0], 0);
    let mut text = String::new();
    loop {
        let next = note();
        let left = bytes - text.len() - whole_case.len();
        if left < next.len() + "(note a)\n".len() {
            text += &format!("(note {})\n", "a".repeat(left - "(note )\n".len()));
            return text + &whole_case;
        }
        text += &next;
    }
}
