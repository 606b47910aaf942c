//! Reads a sync text from standard input, makes its picture, and prints the
//! counts, and of one macroblock how many of its blocks each base macroblock fed,
//! and the record: `picture COLUMN ROW < TEXT`.
//!
//! The exit status is 0, 1 if a call refuses, which is printed, 2 if the
//! arguments are no two numbers or the text cannot be read, or 3 if the text has no
//! bytes: then "no picture" is printed.

use spiewomir::{Counts, Fed, Refusal, Text, TEXT_BYTES, TEXT_WORDS, WORDS};
use std::io::Read;
use std::process::ExitCode;

/// The counts, and what fed the macroblock at a column and row, and its record.
type Made = (Counts, Fed, [i16; WORDS]);

/// What is made of a text; nothing if it means no picture.
fn picture(text: &[u8], column: i32, row: i32) -> Result<Option<Made>, Refusal> {
    let mut base = vec![0; TEXT_WORDS];
    let Text::Picture { geometry, lines } = spiewomir::text(text, &mut base)? else {
        return Ok(None);
    };
    base.truncate(lines as usize * WORDS);

    // 78 words for each macroblock, none for sizes that the call refuses.
    let mut out = vec![0; spiewomir::picture_words(geometry.full_width, geometry.full_height)];
    let counts = spiewomir::picture(geometry, &base, &mut out)?;

    // One record: the words that the picture has from 78 * (row * columns + column)
    // on, columns being full_width / 16. The call judges column and row.
    let mut record = [0; WORDS];
    let answer = spiewomir::macroblock(geometry, &base, column, row, &mut record)?;
    Ok(Some((counts, answer.fed, record)))
}

/// Two arguments, each wholly a number.
fn position() -> Option<(i32, i32)> {
    let mut arguments = std::env::args_os().skip(1);
    let mut number = || arguments.next()?.to_str()?.parse().ok();
    let position = (number()?, number()?);
    arguments.next().is_none().then_some(position)
}

fn main() -> ExitCode {
    let Some((column, row)) = position() else {
        eprintln!("usage: picture COLUMN ROW < TEXT");
        return ExitCode::from(2);
    };
    let mut text = Vec::new();
    if let Err(error) = std::io::stdin().take(TEXT_BYTES as u64 + 1).read_to_end(&mut text) {
        eprintln!("picture: {error}");
        return ExitCode::from(2);
    }
    match picture(&text, column, row) {
        Ok(Some((counts, fed, record))) => {
            println!("inherited {} intra {} outside {}", counts.inherited, counts.intra, counts.outside);
            println!("first {} right {} below {} diagonal {}", fed.first, fed.right, fed.below, fed.diagonal);
            println!("{}", record.map(|word| word.to_string()).join(" "));
            ExitCode::SUCCESS
        }
        Ok(None) => {
            println!("no picture");
            ExitCode::from(3)
        }
        Err(refusal) => {
            println!("refused {} place {} rule {}", refusal.number, refusal.place, refusal.rule);
            ExitCode::FAILURE
        }
    }
}
