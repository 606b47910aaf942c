//! Instructions of one call, as valgrind counts them from the entry of the function
//! that makes it to its return.

use crate::calls::By;
use crate::rows::{counted, Input, Row};
use std::os::unix::process::ExitStatusExt;
use std::process::{Command, ExitCode};

/// SIGILL ends a program whose library is older than the wide calls, where it makes one:
/// `bench/build` sees to it.
const NO_CALL: i32 = 4;

/// Makes the call of one row once.
pub fn once(row: usize, by: By) {
    counted()[row].call().make(by);
}

/// Counts in programs, each this one as it is linked with some library. The second
/// implementation is the first program's.
pub fn report(programs: &[&str]) -> ExitCode {
    let mut columns: Vec<(String, By, &str)> = Vec::new();
    for (number, program) in programs.iter().enumerate() {
        columns.push((format!("library {}", number + 1), By::Library, program));
    }
    columns.push(("second".to_string(), By::Second, programs[0]));

    println!("Instructions of one call, as valgrind counts them");
    print!("{:<36} {:<14}", "", "");
    columns
        .iter()
        .for_each(|column| print!(" {:>11}", column.0));
    println!();
    for (number, row) in counted().iter().enumerate() {
        print!("{:<36} {:<14}", row.name, format!("a {}", row.unit));
        for &(_, by, program) in &columns {
            match count(program, number, row, by) {
                Ok(Some(count)) => print!(" {:>11.2}", count as f64 / row.amount as f64),
                Ok(None) => print!(" {:>11}", "-"),
                Err(what) => {
                    println!();
                    println!("{what}");
                    return ExitCode::FAILURE;
                }
            }
        }
        println!();
    }
    ExitCode::SUCCESS
}

/// Nothing if the library does not have the call.
fn count(program: &str, number: usize, row: &Row, by: By) -> Result<Option<u64>, String> {
    let call = match row.input {
        Input::Picture(_) => "picture",
        Input::Wide(_) | Input::Long(_) => "picture_wide",
        Input::Text(_) => "text",
        Input::Log(_) => "log",
    };
    let (by, function) = match by {
        By::Second => ("second", format!("second_{call}")),
        _ => ("library", format!("spiewomir_{call}")),
    };
    let output = Command::new("valgrind")
        .args(["--tool=callgrind", "--callgrind-out-file=/dev/null"])
        .arg(format!("--toggle-collect={function}"))
        .args([program, "once", &number.to_string(), by])
        .output()
        .map_err(|error| format!("valgrind: {error}"))?;
    if output.status.signal() == Some(NO_CALL) {
        return Ok(None);
    }
    let said = String::from_utf8_lossy(&output.stderr);
    let counted = said
        .lines()
        .find_map(|line| line.split_once("Collected : "))
        .and_then(|(_, count)| count.trim().parse().ok());
    match counted {
        Some(count) if count > 0 && output.status.success() => Ok(Some(count)),
        Some(0) => Err(format!("{program} has no call of {function}:\n{said}")),
        _ => Err(format!("{program} {by} failed under valgrind:\n{said}")),
    }
}
