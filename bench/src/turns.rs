//! Two builds of the library, timed in turns.

use crate::calls::By;
use crate::rows::timed;
use crate::times::{median, Timed, ROUNDS};
use std::process::{Command, ExitCode, Stdio};

/// Prints the nanoseconds a unit of one row, by this program's library: the middle
/// of three, after a first one that touches every buffer.
pub fn round(row: usize) {
    let mut row = Timed::new(timed().swap_remove(row));
    row.time(By::Library);
    let times = [0; 3].map(|_| row.time(By::Library));
    println!("{}", median(&times));
}

/// What another build of this program prints in a round.
fn other(program: &str, row: usize) -> Option<f64> {
    let output = Command::new(program)
        .args(["round", &row.to_string()])
        .stderr(Stdio::inherit())
        .output()
        .ok()?;
    String::from_utf8(output.stdout).ok()?.trim().parse().ok()
}

/// Runs two programs in turns, each this one as it is linked with some library.
pub fn report(programs: [&str; 2]) -> ExitCode {
    let rows = timed();
    let mut times = vec![[Vec::new(), Vec::new()]; rows.len()];
    for round in 0..ROUNDS {
        for (row, times) in times.iter_mut().enumerate() {
            for turn in 0..2 {
                let which = (round + turn) % 2;
                match other(programs[which], row) {
                    Some(time) => times[which].push(time),
                    None => {
                        println!("{} round {row} failed", programs[which]);
                        return ExitCode::FAILURE;
                    }
                }
            }
        }
    }
    println!("Nanoseconds, medians of {ROUNDS} rounds in turns");
    println!(
        "{:<36} {:<14} {:>9} {:>9} {:>20}",
        "", "", "old", "new", "new's time of old's"
    );
    for (row, times) in rows.iter().zip(times) {
        let [old, new] = times.map(|times| median(&times));
        println!(
            "{:<36} {:<14} {old:>9.2} {new:>9.2} {:>20.3}",
            row.name,
            format!("a {}", row.unit),
            new / old
        );
    }
    ExitCode::SUCCESS
}
