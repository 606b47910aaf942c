//! A vector of any length: one base macroblock moves as a whole by X, Y, in quarter
//! samples, and its picture is doubled. Prints the vector of the large picture's first
//! macroblock, as the call on 16-bit words makes it and as that on 32-bit words does, or
//! their refusals: `wide X Y`.
//!
//! The exit status is 0, 1 if the call on 32-bit words refuses, or 2 if the arguments are
//! no two numbers.

use spiewomir::{Geometry, Refusal, WORDS};
use std::fmt::Display;
use std::process::ExitCode;

const DOUBLED: Geometry = Geometry {
    base_width: 16,
    base_height: 16,
    scaled_width: 32,
    scaled_height: 32,
    offset_x: 0,
    offset_y: 0,
    full_width: 32,
    full_height: 32,
};

/// Type 1; reference 0 in list 0, list 1 not used; one vector in all blocks; no detail.
fn record(x: i32, y: i32) -> [i32; WORDS] {
    let mut record = [0; WORDS];
    record[0] = 1;
    record[5..13].copy_from_slice(&[0, -1, 0, -1, 0, -1, 0, -1]);
    for vectors in record[13..77].chunks_mut(4) {
        vectors[..2].copy_from_slice(&[x, y]);
    }
    record
}

/// The vector of block 0 in list 0: words 13 and 14.
fn print<T: Display>(bits: u32, made: Result<[T; WORDS], Refusal>) -> ExitCode {
    match made {
        Ok(words) => {
            println!("{bits} bits: {} {}", words[13], words[14]);
            ExitCode::SUCCESS
        }
        Err(refusal) => {
            println!("{bits} bits: refused {} place {} rule {}", refusal.number, refusal.place, refusal.rule);
            ExitCode::FAILURE
        }
    }
}

fn narrow(base: &[i16]) -> Result<[i16; WORDS], Refusal> {
    let mut out = [0; WORDS];
    spiewomir::macroblock(DOUBLED, base, 0, 0, &mut out).map(|_| out)
}

fn wide(base: &[i32]) -> Result<[i32; WORDS], Refusal> {
    let mut out = [0; WORDS];
    spiewomir::macroblock_wide(DOUBLED, base, 0, 0, &mut out).map(|_| out)
}

/// Two arguments, each wholly a number.
fn vector() -> Option<(i32, i32)> {
    let mut arguments = std::env::args_os().skip(1);
    let mut number = || arguments.next()?.to_str()?.parse().ok();
    let vector = (number()?, number()?);
    arguments.next().is_none().then_some(vector)
}

fn main() -> ExitCode {
    let Some((x, y)) = vector() else {
        eprintln!("usage: wide X Y");
        return ExitCode::from(2);
    };
    let base = record(x, y);

    // The same in 16-bit words, if these can say it.
    match base.iter().map(|&word| word.try_into()).collect::<Result<Vec<i16>, _>>() {
        Ok(base) => {
            print(16, narrow(&base));
        }
        Err(_) => println!("16 bits: no such words"),
    }
    print(32, wide(&base))
}
