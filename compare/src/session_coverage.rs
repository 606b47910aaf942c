//! How often what can happen in a session did happen, in calls that were compared.

use crate::coverage::line;
use spiewomir::numbers::Macroblock;

/// Refusals are counted by their number, accepted calls under 0.
#[derive(Default)]
pub struct SessionCoverage {
    begin: [u64; 23],
    next: [u64; 23],
    abandon: [u64; 23],
    /// Rules of refusal 8.
    rules: [u64; 8],
    /// Accepted next calls: inherited, intra, outside.
    sorts: [u64; 3],
    /// Those of them with detail.
    detailed: [u64; 3],
    forged: [u64; 7],
}

/// What a forged session can be.
const FORGED: [&str; 7] = [
    "not begun, rest not 0",
    "begun not 0 or 1",
    "geometry refused",
    "too many counted",
    "sum above 2^32",
    "as if unfinished",
    "as if finished",
];

/// The sort of an accepted answer by its kind: inherited, intra, outside.
pub fn sort(kind: u32) -> usize {
    match kind {
        0 => 1,
        5 => 2,
        _ => 0,
    }
}

impl SessionCoverage {
    pub fn begin(&mut self, refusal: u32) {
        self.begin[refusal as usize] += 1;
    }

    pub fn abandon(&mut self, refusal: u32) {
        self.abandon[refusal as usize] += 1;
    }

    pub fn next(&mut self, answer: &Macroblock) {
        self.next[answer.refusal as usize] += 1;
        match answer.refusal {
            0 => {
                self.sorts[sort(answer.kind)] += 1;
                self.detailed[sort(answer.kind)] += (answer.detail != 0) as u64;
            }
            8 => self.rules[answer.rule as usize] += 1,
            _ => {}
        }
    }

    /// What of the list above a session value is.
    pub fn forged(&mut self, is: [bool; 7]) {
        for (count, is) in self.forged.iter_mut().zip(is) {
            *count += is as u64;
        }
    }

    /// Prints the tables. For each, its name and whether everything that it
    /// lists did happen.
    pub fn report(&self) -> [(&'static str, bool); 4] {
        println!("session calls by refusal (0: accepted): begin, next, abandon");
        let mut refusals = true;
        for number in (0..9).chain(20..23) {
            let counts = [self.begin[number], self.next[number], self.abandon[number]];
            let possible = [
                matches!(number, 0..=4 | 22),
                matches!(number, 0 | 5 | 6 | 8 | 20 | 21),
                matches!(number, 0 | 20 | 21),
            ];
            line(&number.to_string(), &counts);
            refusals &= (0..3).all(|call| (counts[call] > 0) == possible[call]);
        }
        println!("rule that refusal 8 gives in a session");
        for rule in 1..8 {
            line(&rule.to_string(), &[self.rules[rule]]);
            refusals &= self.rules[rule] > 0;
        }
        println!("accepted next calls by sort, and those with detail");
        for (at, name) in ["inherited", "intra", "outside"].iter().enumerate() {
            line(name, &[self.sorts[at], self.detailed[at]]);
        }
        println!("forged sessions");
        for (name, &count) in FORGED.iter().zip(&self.forged) {
            line(name, &[count]);
        }
        [
            ("each refusal of each session call", refusals),
            (
                "each sort of answer in sessions",
                self.sorts.iter().all(|&count| count > 0),
            ),
            (
                "details in sessions, of inherited and of intra answers and of no other",
                self.detailed.map(|count| count > 0) == [true, true, false],
            ),
            (
                "each sort of forged session",
                self.forged.iter().all(|&count| count > 0),
            ),
        ]
    }
}
