//! How often what can happen to a text did happen, in calls that were compared.

use compare::sync::NEAREST;
use spiewomir::numbers::Text;
use spiewomir::{TEXT_BYTES, TEXT_WORDS};

#[derive(Default)]
pub struct TextCoverage {
    /// By TEXT_ANSWERS.
    text: [u64; 7],
    /// By LOG_ANSWERS.
    log: [u64; 13],
    /// NEAREST, by NEAREST_LENT.
    nearest: [[u64; 4]; 4],
    /// Refusal 8 of the log, by the broken rule that the call hands back.
    rules: [u64; 7],
    /// That by rule 7, by the form of the line, of RECORD_FORMS.
    by_7: [u64; 3],
    /// Lines of texts that were read, by FORMS.
    forms: [u64; 4],
    /// Record lines of them, by RECORD_FORMS and the sort of their detail.
    details: [[u64; 3]; 3],
    /// Refusal 9 where a record line lacks its detail, by RECORD_FORMS.
    lacking: [u64; 3],
    /// Lines of logs by the type of their macroblock.
    types: [u64; 6],
}

const TEXT_ANSWERS: [&str; 7] = [
    "read",
    "6",
    "10 by length",
    "9 within",
    "9 at the end",
    "10 by lines",
    "no picture",
];
const LOG_ANSWERS: [&str; 13] = [
    "made",
    "1",
    "2",
    "3",
    "4",
    "5",
    "6",
    "8",
    "10 by length",
    "9 within",
    "9 at the end",
    "10 by lines",
    "no picture",
];
const NEAREST_NAMES: [&str; 4] = [
    "no bytes",
    "a line feed",
    "notes only",
    "zeros and no record lines",
];
const NEAREST_LENT: [&str; 4] = [
    "text call, right words",
    "text call, wrong words",
    "log, bytes enough",
    "log, bytes too few",
];
const RULES: [&str; 7] = ["1", "2", "3", "4", "5", "6", "7"];
const FORMS: [&str; 4] = ["(intra D)", "(whole .. D)", "(mb .. D)", "(note ..)"];
const RECORD_FORMS: [&str; 3] = ["(intra D)", "(whole .. D)", "(mb .. D)"];
const DETAILS: [&str; 3] = [
    "lines of texts that are read, D 0",
    "lines of texts that are read, D 1 to 15",
    "lines of texts that are read, another D",
];
const TYPES: [&str; 6] = ["0", "1", "2", "3", "4", "5"];

impl TextCoverage {
    /// Prints the tables. For each, its name and whether everything that it
    /// lists did happen.
    pub fn report(&self) -> [(&'static str, bool); 9] {
        [
            (
                "each answer and refusal of the text call",
                print("text call", &TEXT_ANSWERS, &self.text),
            ),
            (
                "each answer and refusal of the log",
                print("log", &LOG_ANSWERS, &self.log),
            ),
            (
                "no bytes, and the texts nearest to that, in both calls with right and wrong lengths",
                [0, 1, 2, 3].map(|lent| {
                    print(NEAREST_LENT[lent], &NEAREST_NAMES, &self.nearest[lent])
                }) == [true; 4],
            ),
            (
                "each broken rule that the log call hands back",
                print("log, refusal 8 by rule", &RULES, &self.rules),
            ),
            (
                "rule 7 broken in each form of a record line",
                print("log, rule 7 by form", &RECORD_FORMS, &self.by_7),
            ),
            (
                "each form of a line in texts that are read",
                print("lines of texts that are read", &FORMS, &self.forms),
            ),
            (
                "each form of a record line with each sort of detail",
                [0, 1, 2].map(|sort| {
                    let counts = self.details.map(|form| form[sort]);
                    print(DETAILS[sort], &RECORD_FORMS, &counts)
                }) == [true; 3],
            ),
            (
                "each form of a record line refused by 9 for want of its detail",
                print("9 for want of D", &RECORD_FORMS, &self.lacking),
            ),
            (
                "each type of macroblock in logs",
                print("lines of logs, by type", &TYPES, &self.types),
            ),
        ]
    }

    /// What the text call gave, with so many words lent.
    pub fn text(&mut self, text: &[u8], words: usize, answer: &Text) {
        self.near(text, (words != TEXT_WORDS) as usize);
        match answer.refusal {
            0 if answer.empty == 1 => self.text[6] += 1,
            0 => {
                self.text[0] += 1;
                self.read(text);
            }
            6 => self.text[1] += 1,
            number => {
                self.text[2 + by_text(number, answer.place, text)] += 1;
                if number == 9 {
                    self.lacking(text, answer.place as usize);
                }
            }
        }
    }

    fn read(&mut self, text: &[u8]) {
        for line in text.split(|&byte| byte == b'\n') {
            if let Some(form) = record_form(line) {
                self.forms[form] += 1;
                let end = line.rsplit(|&byte| byte == b' ').next();
                let detail: Option<i32> = end.and_then(|end| {
                    let digits = std::str::from_utf8(end.strip_suffix(b")")?).ok()?;
                    digits.parse().ok()
                });
                let sort = match detail.expect("a number at the end of a record line") {
                    0 => 0,
                    1..=15 => 1,
                    _ => 2,
                };
                self.details[form][sort] += 1;
            } else if line.starts_with(b"(n") {
                self.forms[3] += 1;
            }
        }
    }

    /// A text refused by 9 at a place: whether the line is closed there as a record's
    /// was before there was a detail.
    fn lacking(&mut self, text: &[u8], place: usize) {
        if text.get(place) != Some(&b')') {
            return;
        }
        let line = text[..place].rsplit(|&byte| byte == b'\n').next();
        let line = line.expect("one at least");
        let opened = line.iter().filter(|&&byte| byte == b'(').count();
        let closed = line.iter().filter(|&&byte| byte == b')').count();
        if let Some(form) = record_form(line) {
            let lists = [0, 2, 3][form];
            let last = if form == 0 { b'a' } else { b')' };
            if (opened, closed) == (lists + 1, lists) && line.last() == Some(&last) {
                self.lacking[form] += 1;
            }
        }
    }

    fn near(&mut self, text: &[u8], lent: usize) {
        if let Some(at) = NEAREST.iter().position(|near| near.as_bytes() == text) {
            self.nearest[lent][at] += 1;
        }
    }

    /// The log call was refused for the bytes lent to it.
    pub fn log_refused(&mut self, text: &[u8]) {
        self.near(text, 3);
        self.log[6] += 1;
    }

    /// The log that was made of a text, and the broken rule that came with it.
    pub fn log(&mut self, text: &[u8], log: &[u8], rule: u32) {
        self.near(text, 2);
        if let Some(refusal) = log.strip_prefix(b"(refused ") {
            let refusal = std::str::from_utf8(refusal).expect("a line of a log");
            let mut numbers = refusal.split([' ', ')']).map(|number| number.parse());
            let mut next = || numbers.next().and_then(Result::ok).expect("a number");
            let (number, place) = (next(), next());
            let at = match number {
                1..=5 => number as usize,
                8 => {
                    // No other rule comes, or the comparison has said so.
                    if (1..=7).contains(&rule) {
                        self.rules[rule as usize - 1] += 1;
                    }
                    if rule == 7 {
                        let lines = text.split(|&byte| byte == b'\n');
                        let mut forms = lines.filter_map(record_form);
                        let form = forms.nth(place as usize).expect("the line at the place");
                        self.by_7[form] += 1;
                    }
                    7
                }
                _ => 8 + by_text(number, place, text),
            };
            self.log[at] += 1;
            return;
        }
        if log == b"(sync 0 0 0 0)\n" {
            self.log[12] += 1;
            return;
        }
        self.log[0] += 1;
        for line in log.split(|&byte| byte == b'\n') {
            if line.starts_with(b"(mb ") {
                let kind = line.split(|&byte| byte == b' ').nth(3);
                let kind = kind.and_then(|kind| kind.first()).expect("a type");
                self.types[(kind - b'0') as usize] += 1;
            }
        }
    }
}

/// Which of RECORD_FORMS a line is of; the forms of lines differ in their first letter.
fn record_form(line: &[u8]) -> Option<usize> {
    match line.get(1) {
        Some(b'i') => Some(0),
        Some(b'w') => Some(1),
        Some(b'm') => Some(2),
        _ => None,
    }
}

/// Where refusal 9 or 10 of a text stands among the last four of a table.
fn by_text(number: u32, place: u32, text: &[u8]) -> usize {
    match number {
        10 if text.len() > TEXT_BYTES => 0,
        9 if (place as usize) < text.len() => 1,
        9 => 2,
        _ => 3,
    }
}

fn print(name: &str, names: &[&str], counts: &[u64]) -> bool {
    let cells: Vec<String> = names
        .iter()
        .zip(counts)
        .map(|(name, count)| format!("{name}: {count}"))
        .collect();
    println!("{name}: {}", cells.join(", "));
    counts.iter().all(|&count| count > 0)
}
