//! Times of rows by the library, the second implementation and a copy, in turns.

use crate::calls::{By, Call};
use crate::rows::{Input, Row};
use std::time::Instant;

pub const ROUNDS: usize = 21;

/// In a round a call on a small input is repeated up to so many macroblocks, or
/// bytes of the text.
const MACROBLOCKS_IN_ROUND: usize = 65_536;
const BYTES_IN_ROUND: usize = 1 << 19;

/// A row, and the times of its rounds so far: of each one that makes the call.
pub struct Timed {
    pub row: Row,
    call: Box<dyn Call>,
    repeats: usize,
    times: [Vec<f64>; 3],
}

pub fn median(times: &[f64]) -> f64 {
    let mut times = times.to_vec();
    times.sort_by(|a, b| a.total_cmp(b));
    times[times.len() / 2]
}

impl Timed {
    pub fn new(row: Row) -> Timed {
        let repeats = match &row.input {
            Input::Picture(_) | Input::Wide(_) | Input::Long(_) => {
                MACROBLOCKS_IN_ROUND / row.amount
            }
            Input::Text(text) | Input::Log(text) => BYTES_IN_ROUND / text.len(),
        };
        Timed {
            call: row.call(),
            repeats: repeats.max(1),
            times: Default::default(),
            row,
        }
    }

    /// Nanoseconds a unit.
    pub fn time(&mut self, by: By) -> f64 {
        let start = Instant::now();
        for _ in 0..self.repeats {
            self.call.make(by);
        }
        1e9 * start.elapsed().as_secs_f64() / (self.repeats * self.row.amount) as f64
    }

    /// Which of the two is first alternates. Round 0 only warms up: it touches
    /// every buffer.
    fn round(&mut self, round: usize) {
        let turns = match round % 2 {
            0 => [By::Library, By::Second, By::Copy],
            _ => [By::Second, By::Library, By::Copy],
        };
        for by in turns {
            let time = self.time(by);
            if round > 0 {
                self.times[by as usize].push(time);
            }
        }
        self.call.check();
    }

    /// Nanoseconds a unit by the library, the second and a copy.
    pub fn medians(&self) -> [f64; 3] {
        [0, 1, 2].map(|by| median(&self.times[by]))
    }
}

/// All rows in each round.
pub fn time(rows: Vec<Row>) -> Vec<Timed> {
    let mut timed: Vec<Timed> = rows.into_iter().map(Timed::new).collect();
    for round in 0..=ROUNDS {
        timed.iter_mut().for_each(|row| row.round(round));
    }
    timed
}
