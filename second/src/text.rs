//! The sync text's reader. A text of no bytes means no picture. The machine of
//! `grammar` judges any other; what belongs is then read line by line without
//! further tests.

use crate::geometry::Numbers;
use crate::grammar::Machine;
use crate::record::{write_without_motion, Record, DETAIL, REFERENCES, TYPE_INTRA, VECTORS, WORDS};
use crate::refusal::Refusal;

/// Longest text, in bytes.
pub const TEXT_LIMIT: usize = 65_536;
/// Most record lines.
pub const TEXT_RECORDS: usize = 99;
/// Words to be lent for them.
pub const TEXT_WORDS: usize = TEXT_RECORDS * WORDS;

/// What an accepted text says.
#[derive(Clone, Copy, Debug, PartialEq, Eq)]
pub enum Text {
    /// The text has no bytes.
    NoPicture,
    /// The geometry's numbers and the count of record lines.
    Picture { numbers: Numbers, records: u32 },
}

/// The numbers on a line of a text that belongs to the grammar.
fn numbers(line: &[u8]) -> impl Iterator<Item = i16> + '_ {
    line.split(|byte| !matches!(byte, b'-' | b'0'..=b'9'))
        .filter(|digits| !digits.is_empty())
        .map(|digits| {
            digits.iter().fold((0i32, 1), |(value, sign), &digit| match digit {
                b'-' => (value, -1),
                _ => (10 * value + (digit - b'0') as i32, sign),
            })
        })
        .map(|(value, sign)| (sign * value) as i16)
}

/// The first numbers on a line, as many as fit.
fn read_numbers<const N: usize>(line: &[u8]) -> [i16; N] {
    let mut words = [0; N];
    words.iter_mut().zip(numbers(line)).for_each(|(word, number)| *word = number);
    words
}

/// Reads a record line. Its last number is the detail, in an mb line as in
/// the record itself.
fn read_record(line: &[u8], record: &mut Record) {
    match line[1] {
        b'i' => {
            let [detail] = read_numbers(line);
            write_without_motion(record, TYPE_INTRA, detail);
        }
        b'w' => {
            let [r0, r1, x0, y0, x1, y1, detail] = read_numbers(line);
            record[..REFERENCES].copy_from_slice(&[1, 0, 0, 0, 0]);
            for references in record[REFERENCES..VECTORS].chunks_exact_mut(2) {
                references.copy_from_slice(&[r0, r1]);
            }
            for vectors in record[VECTORS..DETAIL].chunks_exact_mut(4) {
                vectors.copy_from_slice(&[x0, y0, x1, y1]);
            }
            record[DETAIL] = detail;
        }
        _ => *record = read_numbers(line),
    }
}

/// The forms differ in their first letter.
fn is_head(line: &&[u8]) -> bool {
    matches!(line[1], b'b' | b's' | b'a' | b'f')
}

fn is_record(line: &&[u8]) -> bool {
    matches!(line[1], b'i' | b'w' | b'm')
}

/// The text call. The record lines' words stand first in `words`; without a
/// picture none is written. Refusals 6, 10 by length, 9, 10 by lines; only 6
/// for a text of no bytes.
pub fn text(bytes: &[u8], words: &mut [i16]) -> Result<Text, Refusal> {
    if words.len() != TEXT_WORDS {
        return Err(Refusal::of(6));
    }
    if bytes.is_empty() {
        return Ok(Text::NoPicture);
    }
    if bytes.len() > TEXT_LIMIT {
        return Err(Refusal::of(10));
    }
    if let Err(offset) = Machine::sync_text().belongs(bytes) {
        return Err(Refusal::grammar(offset as u32));
    }
    let lines = || bytes.split(|&byte| byte == b'\n').filter(|line| !line.is_empty());
    let count = lines().filter(is_record).count();
    if count > TEXT_RECORDS {
        return Err(Refusal::of(10));
    }
    for (line, record) in lines().filter(is_record).zip(words.as_chunks_mut().0) {
        read_record(line, record);
    }
    let mut eight = [0; 8];
    let heads = lines().filter(is_head).flat_map(numbers);
    eight.iter_mut().zip(heads).for_each(|(word, number)| *word = number as i32);
    Ok(Text::Picture { numbers: Numbers::from_array(eight), records: count as u32 })
}
