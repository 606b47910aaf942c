//! Speed of the picture call, narrow and wide, the text call and the log: the proved library beside
//! the second implementation, and beside a plain copy of a picture's words.
//!
//!     bench                          times, in turns
//!     bench instructions PROGRAM..   instructions in builds of this program
//!     bench turns OLD NEW            times of two builds of it, in turns
//!
//! These two run a build with
//!
//!     bench once ROW library|second  makes one call once
//!     bench round ROW                times one call of the library

mod calls;
mod instructions;
mod report;
mod rows;
mod times;
mod turns;

use calls::By;
use std::process::ExitCode;

fn number(row: &str) -> usize {
    row.parse().expect("a row's number")
}

fn main() -> ExitCode {
    let arguments: Vec<String> = std::env::args().skip(1).collect();
    let words: Vec<&str> = arguments.iter().map(String::as_str).collect();
    match words[..] {
        [] => report::report(),
        ["instructions", _, ..] => return instructions::report(&words[1..]),
        ["turns", old, new] => return turns::report([old, new]),
        ["once", row, "library"] => instructions::once(number(row), By::Library),
        ["once", row, "second"] => instructions::once(number(row), By::Second),
        ["round", row] => turns::round(number(row)),
        _ => {
            eprintln!("usage: see src/main.rs");
            return ExitCode::from(2);
        }
    }
    ExitCode::SUCCESS
}
