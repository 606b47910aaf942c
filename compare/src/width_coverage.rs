//! How often what can happen to a narrow base in both widths did happen, in calls that
//! were compared.

use crate::coverage::line;

/// Of pictures, and singly.
#[derive(Default)]
pub struct WidthCoverage {
    /// Bases that fit the narrow limit, by refusal (0: answered) and by rule.
    refusals: [[u64; 2]; 9],
    rules: [[u64; 2]; 8],
    /// Bases that do not, by APART.
    apart: [[u64; 2]; 3],
}

/// What the wide call does where the narrow one refuses by rule 5.
const APART: [&str; 3] = ["answers", "refuses by another", "refuses by rule 5 too"];

impl WidthCoverage {
    /// Both calls gave this refusal and rule.
    pub fn same(&mut self, singly: bool, refusal: u32, rule: u32) {
        self.refusals[refusal as usize][singly as usize] += 1;
        if refusal == 8 {
            self.rules[rule as usize][singly as usize] += 1;
        }
    }

    /// The narrow call refused by rule 5, the wide one gave this refusal and rule.
    pub fn apart(&mut self, singly: bool, refusal: u32, rule: u32) {
        let what = match (refusal, rule) {
            (0, _) => 0,
            (_, 5) => 2,
            _ => 1,
        };
        self.apart[what][singly as usize] += 1;
    }

    /// Prints the tables. For each, its name and whether everything that it
    /// lists did happen.
    pub fn report(&self) -> [(&'static str, bool); 2] {
        println!("both widths on narrow bases, by refusal (0: answered): in pictures, singly");
        let mut same = true;
        for (number, counts) in self.refusals.iter().enumerate() {
            line(&number.to_string(), counts);
            // A picture has no column and row to judge.
            same &= counts[1] > 0 && (counts[0] > 0) == (number != 7);
        }
        println!("rule that refusal 8 gives in both widths: in pictures, singly");
        for (rule, counts) in self.rules.iter().enumerate().skip(1) {
            line(&rule.to_string(), counts);
            same &= counts.iter().all(|&count| count > 0);
        }
        println!("where the narrow call refuses by rule 5, the wide one: in pictures, singly");
        for (name, counts) in APART.iter().zip(&self.apart) {
            line(name, counts);
        }
        [
            (
                "both widths on narrow bases: answered, each refusal and each rule, in both calls",
                same,
            ),
            (
                "rule 5 in the narrow call, and all that the wide one can do then, in both calls",
                self.apart.as_flattened().iter().all(|&count| count > 0),
            ),
        ]
    }
}
