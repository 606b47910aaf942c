//! A session over one picture, handed over and back by value.

use crate::geometry::{Geometry, Numbers};
use crate::refusal::Refusal;
use crate::upsample::{macroblock_of, Answer, Counts};

#[derive(Clone, Copy, Debug, PartialEq, Eq)]
enum State {
    Fresh,
    /// The address of the next macroblock.
    Unfinished(Geometry, usize),
    Finished,
}

#[derive(Clone, Debug, PartialEq, Eq)]
pub struct Session {
    state: State,
    totals: Counts,
}

impl Session {
    pub fn fresh() -> Session {
        Session { state: State::Fresh, totals: Counts::default() }
    }

    /// Refusals 22, then 1 to 4.
    pub fn begin(self, numbers: Numbers) -> (Session, Result<(), Refusal>) {
        if let State::Unfinished(..) = self.state {
            return (self, Err(Refusal::of(22)));
        }
        match Geometry::new(numbers) {
            Ok(geometry) => {
                let state = State::Unfinished(geometry, 0);
                (Session { state, totals: Counts::default() }, Ok(()))
            }
            Err(refusal) => (self, Err(refusal)),
        }
    }

    /// Refusals 20 and 21, then 5, 6 and 8.
    pub fn next(mut self, base: &[i16], out: &mut [i16]) -> (Session, Result<Answer, Refusal>) {
        let (geometry, address) = match self.state {
            State::Fresh => return (self, Err(Refusal::of(20))),
            State::Finished => return (self, Err(Refusal::of(21))),
            State::Unfinished(geometry, address) => (geometry, address),
        };
        let width = geometry.x.full_count();
        let (column, row) = (address % width, address / width);
        match macroblock_of(&geometry, base, column as i32, row as i32, out) {
            Ok(answer) => {
                self.totals.add(answer.kind);
                self.state = if address + 1 == geometry.full_macroblocks() {
                    State::Finished
                } else {
                    State::Unfinished(geometry, address + 1)
                };
                (self, Ok(answer))
            }
            Err(refusal) => (self, Err(refusal)),
        }
    }

    /// Makes it fresh. Refusals 20 and 21.
    pub fn abandon(self) -> (Session, Result<(), Refusal>) {
        match self.state {
            State::Fresh => (self, Err(Refusal::of(20))),
            State::Finished => (self, Err(Refusal::of(21))),
            State::Unfinished(..) => (Session::fresh(), Ok(())),
        }
    }

    /// Counts of accepted next calls since the last accepted begin or abandon.
    pub fn totals(self) -> (Session, Counts) {
        let totals = self.totals;
        (self, totals)
    }
}
