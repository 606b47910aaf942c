//! Compares the proved library with the second implementation: every written
//! word and byte, answer, count and refusal, and what a call must leave alone. The last
//! line is 'N passed, M failed'; the exit status is 0 only if M is 0.
//!
//!     compare                 every test
//!     compare NUMBER          one random picture again, printed
//!     compare wide NUMBER     one of wide records
//!
//! A random picture's number is its seed.

mod calls;
mod coverage;
mod lent;
mod pictures;
mod session_coverage;
mod sessions;
mod sweeps;
mod text_coverage;
mod texts;
mod width_coverage;
mod widths;

use calls::{Called, Calls};

/// Random pictures, of narrow and of wide records, and narrow ones made in both widths.
const PICTURES: u64 = 30_000;
const WIDE_PICTURES: u64 = 8_000;
const BOTH_WIDTHS: u64 = 4_000;

/// Random lists of session calls, whole pictures made by a session, and session
/// values that no list of calls makes.
const LISTS: u64 = 48_000;
const SESSION_PICTURES: u64 = 5_000;
const FORGED: u64 = 100_000;

/// Random texts, each with six others made of it.
const TEXTS: u64 = 5_000;

/// Every test, a line each: its name, and what makes its calls.
#[rustfmt::skip]
const TESTS: [(&str, fn(&mut Calls)); 43] = [
    ("bench example: S 2B passes, 2B + 2 is refused", sweeps::bench_scaled),
    ("bench example: offset -8,192 passes, -8,194 is refused", sweeps::bench_offset),
    ("each of the 259 splits", sweeps::splits::<i16>),
    ("every window of bases to 128", sweeps::windows::<i16>),
    ("windows of bases to 4096", sweeps::long_windows::<i16>),
    ("every two rows of the block map with every intra pattern", sweeps::intra_patterns::<i16>),
    ("every two rows of the block map with each bit of detail", sweeps::detail_patterns::<i16>),
    ("each word of a record at every limit", sweeps::words::<i16>),
    ("every vector word, scaled by more than 200 pairs of B and S", sweeps::scaled_words::<i16>),
    ("each number of a geometry at every limit", sweeps::numbers::<i16>),
    ("every set of faults in the order of their refusals", sweeps::faults::<i16>),
    ("large pictures", pictures::large::<i16>),
    ("random pictures", |calls| numbered(calls, "random picture", PICTURES, pictures::random::<i16>)),
    ("random lists of session calls", |calls| numbered(calls, "random list", LISTS, sessions::list)),
    ("whole pictures made by a session", |calls| sessions::pictures(calls, SESSION_PICTURES)),
    ("sessions that no list of calls makes", |calls| numbered(calls, "forged session", FORGED, sessions::forged)),
    ("texts with a byte replaced", texts::replaced),
    ("texts with bytes or lines removed, doubled, moved, or ended early", texts::moved),
    ("texts with each number at the edges of its range", texts::edges),
    ("texts with the detail of each form at every limit", texts::details),
    ("texts with lines that have no detail, or one elsewhere", texts::old_forms),
    ("texts with lists to depth 10", texts::depths),
    ("texts of 98 to 101 record lines", texts::counts),
    ("texts of 65,535 to 65,537 bytes", texts::lengths),
    ("texts with words and bytes of wrong length lent", texts::buffers),
    ("texts of no bytes, and those nearest to it", texts::empty),
    ("texts with a geometry's numbers at their limits", texts::numbers_at_limits),
    ("texts of the largest pictures", texts::largest),
    ("random texts", |calls| texts::random(calls, TEXTS)),
    ("wide records: each of the 259 splits", sweeps::splits::<i32>),
    ("wide records: every window of bases to 128", sweeps::windows::<i32>),
    ("wide records: windows of bases to 4096", sweeps::long_windows::<i32>),
    ("wide records: every two rows of the block map with every intra pattern", sweeps::intra_patterns::<i32>),
    ("wide records: every two rows of the block map with each bit of detail", sweeps::detail_patterns::<i32>),
    ("wide records: each word at every limit", sweeps::words::<i32>),
    ("wide records: vector words to both ends, scaled by more than 200 pairs of B and S", sweeps::scaled_words::<i32>),
    ("wide records: each number of a geometry at every limit", sweeps::numbers::<i32>),
    ("wide records: every set of faults in the order of their refusals", sweeps::faults::<i32>),
    ("wide records: large pictures", pictures::large::<i32>),
    ("wide records: random pictures", |calls| numbered(calls, "random wide picture", WIDE_PICTURES, pictures::random::<i32>)),
    ("wide records: words whose low halves would do", widths::low_halves),
    ("the ends of the vectors' limits in both widths", widths::limits),
    ("random narrow bases in both widths", |calls| numbered(calls, "narrow base", BOTH_WIDTHS, widths::random)),
];

/// A test made for each number below `count`.
fn numbered(calls: &mut Calls, name: &str, count: u64, test: fn(&mut Calls, u64)) {
    for number in 0..count {
        calls.at = format!("{name} {number}");
        test(calls, number);
    }
    println!("{count} {name}s");
}

/// Counts each test as passed or failed.
struct Tests {
    calls: Calls,
    passed: u32,
    failed: u32,
}

impl Tests {
    /// Passed if the calls that the test makes have no difference.
    fn compare(&mut self, name: &str, test: impl FnOnce(&mut Calls)) {
        let made = |calls: &Calls| {
            [
                (calls.narrow.pictures, "picture calls"),
                (calls.narrow.singles, "one-macroblock calls"),
                (calls.wide.pictures, "wide picture calls"),
                (calls.wide.singles, "wide one-macroblock calls"),
                (calls.sessions, "session calls"),
                (calls.texts, "texts"),
            ]
        };
        let (before, differences) = (made(&self.calls), self.calls.differences);
        self.calls.at = name.to_string();
        test(&mut self.calls);
        let differences = self.calls.differences - differences;
        let counts: String = made(&self.calls)
            .iter()
            .zip(before)
            .filter(|(after, before)| after.0 > before.0)
            .map(|(after, before)| format!("{} {}, ", after.0 - before.0, after.1))
            .collect();
        println!("{name}: {counts}{differences} differences");
        self.verdict(name, differences == 0);
    }

    fn verdict(&mut self, name: &str, good: bool) {
        if good {
            self.passed += 1;
        } else {
            self.failed += 1;
            println!("FAILED: {name}");
        }
    }
}

fn main() {
    let mut tests = Tests {
        calls: Calls::new(),
        passed: 0,
        failed: 0,
    };
    let arguments: Vec<String> = std::env::args().skip(1).collect();
    match &arguments.iter().map(String::as_str).collect::<Vec<_>>()[..] {
        [] => everything(&mut tests),
        ["wide", number] => again::<i32>(&mut tests, number),
        [number, ..] => again::<i16>(&mut tests, number),
    }
    println!("{} passed, {} failed", tests.passed, tests.failed);
    std::process::exit((tests.failed > 0) as i32);
}

fn again<W: Called>(tests: &mut Tests, number: &str) {
    let number = number.parse().expect("a picture's number");
    pictures::print::<W>(number);
    tests.compare("random picture", |calls| {
        pictures::random::<W>(calls, number)
    });
}

fn everything(tests: &mut Tests) {
    for (name, test) in TESTS {
        tests.compare(name, test);
    }

    println!();
    println!("Coverage, in calls that were compared:");
    let calls = &tests.calls;
    let tables = [
        &calls.narrow.coverage.report()[..],
        &calls.session_coverage.report(),
        &calls.text_coverage.report(),
    ]
    .concat();
    println!();
    println!("Coverage of wide records, and of both widths:");
    let wide = calls.wide.coverage.report_wide();
    let both = calls.width_coverage.report();
    for (name, good) in tables {
        tests.verdict(name, good);
    }
    for (name, good) in wide {
        tests.verdict(&format!("wide records: {name}"), good);
    }
    for (name, good) in both {
        tests.verdict(name, good);
    }
    println!();
    let calls = &tests.calls;
    println!(
        "{} and {} wide picture calls, {} and {} wide one-macroblock calls, {} session calls and {} texts, {} written words and {} bytes of logs compared, {} differences",
        calls.narrow.pictures,
        calls.wide.pictures,
        calls.narrow.singles,
        calls.wide.singles,
        calls.sessions,
        calls.texts,
        calls.words,
        calls.log_bytes,
        calls.differences
    );
}
