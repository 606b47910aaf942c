//! The log program: a sync text in, the log's lines out.

use crate::geometry::Geometry;
use crate::record::WORDS;
use crate::refusal::Refusal;
use crate::text::{text, Text, TEXT_WORDS};
use crate::upsample::{judge_base_length, judge_records, Counts, Prepared};

/// What a log tells of, when it is no refusal.
#[derive(Clone, Copy, Debug, PartialEq, Eq)]
pub enum Logged {
    /// The text has no bytes.
    NoPicture,
    Picture,
}

/// Writes one line: a name and numbers in brackets.
fn write_line(out: &mut Vec<u8>, name: &str, numbers: &[u32]) {
    out.push(b'(');
    out.extend_from_slice(name.as_bytes());
    for number in numbers {
        out.push(b' ');
        let digits = number.checked_ilog10().unwrap_or(0);
        for digit in (0..=digits).rev() {
            out.push(b'0' + (number / 10u32.pow(digit) % 10) as u8);
        }
    }
    out.extend_from_slice(b")\n");
}

/// Writes the lines for a text, none if it is refused.
fn write_lines(out: &mut Vec<u8>, bytes: &[u8]) -> Result<Logged, Refusal> {
    let mut words = vec![0; TEXT_WORDS];
    let Text::Picture { numbers, records } = text(bytes, &mut words)? else {
        write_line(out, "sync", &[0; 4]);
        return Ok(Logged::NoPicture);
    };
    let geometry = Geometry::new(numbers)?;
    let base = &words[..records as usize * WORDS];
    judge_base_length(&geometry, base)?;
    judge_records(base)?;

    let prepared = Prepared::new(&geometry, base);
    let mut record = [0; WORDS];
    let mut counts = Counts::default();
    for row in 0..geometry.y.full_count() {
        for column in 0..geometry.x.full_count() {
            let answer = prepared.answer(column, row, &mut record);
            counts.add(answer.kind);
            write_line(out, "mb", &[column as u32, row as u32, answer.type_number() as u32, answer.pieces()]);
        }
    }
    write_line(out, "sync", &[counts.sum(), counts.inherited, counts.intra, counts.outside]);
    Ok(Logged::Picture)
}

/// The log for a text, and what it tells of or the refusal that it says.
pub fn log_with_result(bytes: &[u8]) -> (Vec<u8>, Result<Logged, Refusal>) {
    let mut out = Vec::new();
    let result = write_lines(&mut out, bytes);
    if let Err(refusal) = result {
        write_line(&mut out, "refused", &[refusal.number, refusal.place]);
    }
    (out, result)
}

/// The log for a text, as the program writes it.
pub fn log(bytes: &[u8]) -> Vec<u8> {
    log_with_result(bytes).0
}
