//! The text and the log call made in both implementations, on texts that
//! belong to the grammar and on damaged ones.

use crate::calls::{Calls, FILL, FILL_SECOND};
use crate::lent::Lent;
use compare::generate::{base_macroblocks, break_record, detailed, distinct, random_rule, Mood};
use compare::random::Random;
use compare::sync::{
    head, intra_with, lines, long_notes, long_records, mb, note, noted, text_geometry, whole,
    INTRA, NEAREST,
};
use second::{TEXT_RECORDS, TEXT_WORDS, WORDS};
use spiewomir::{numbers, Geometry, Logged, Refusal, Text, LOG_BYTES};

/// What the bytes for the log hold before a call. No log has such a byte.
const FILL_BYTE: u8 = 0xc3;

/// Bytes of the grammar, their neighbours, and some others.
const BYTES: &[u8] = b"()- \n0123456789abefhilmnostwz',./:@`{AZ\r\t\0\x7f\x80\xff+_*";

/// Numbers at the edges of their range, and what only looks like a number.
const EDGES: &[&str] = &[
    "-32768",
    "32767",
    "32768",
    "-32769",
    "-0",
    "00",
    "01",
    "0",
    "-1",
    "-",
    "",
    "--1",
    "+1",
    "-01",
    "-00",
    "32760",
    "32770",
    "-32770",
    "33000",
    "99999",
    "9999",
    "10000",
    "100000",
    "-9999",
    "-10000",
    "327670",
    "1-",
    "1a",
    "14",
    "15",
    "16",
    "17",
    "65536",
    "4294967296",
    "18446744073709551616",
];

/// Sizes and offsets at their limits, for refusals 1 to 4.
const LIMITS: [i32; 20] = [
    -8194, -8193, -8192, -16, -1, 0, 1, 8, 15, 16, 17, 32, 47, 4080, 4095, 4096, 4112, 8190, 8192,
    32752,
];

const WHOLE_CASE: &str =
    "(base 16 16)\n(scaled 32 32)\n(at 0 0)\n(full 48 32)\n(whole (0 -1) (4 -8 0 0) 0)\n";

/// The beginning of a text, for messages.
fn shown(text: &[u8]) -> String {
    let start = String::from_utf8_lossy(&text[..text.len().min(400)]);
    format!("{} bytes {start:?}", text.len())
}

/// What the second implementation answers, in the wrapper's types.
fn refusal_of(second: second::Refusal) -> Refusal {
    Refusal {
        number: second.number,
        place: second.place,
        rule: second.rule,
    }
}

fn text_answer(second: Result<second::Text, second::Refusal>) -> Result<Text, Refusal> {
    second.map_err(refusal_of).map(|text| match text {
        second::Text::NoPicture => Text::NoPicture,
        second::Text::Picture { numbers, records } => Text::Picture {
            geometry: Geometry {
                base_width: numbers.base_width,
                base_height: numbers.base_height,
                scaled_width: numbers.scaled_width,
                scaled_height: numbers.scaled_height,
                offset_x: numbers.offset_x,
                offset_y: numbers.offset_y,
                full_width: numbers.full_width,
                full_height: numbers.full_height,
            },
            lines: records,
        },
    })
}

fn log_verdict(second: Result<second::Logged, second::Refusal>) -> Result<Logged, Refusal> {
    second.map_err(refusal_of).map(|logged| match logged {
        second::Logged::NoPicture => Logged::NoPicture,
        second::Logged::Picture => Logged::Picture,
    })
}

/// The interface's numbers for an answer.
fn text_numbers(answer: Result<Text, Refusal>) -> numbers::Text {
    match answer {
        Err(refusal) => numbers::Text {
            refusal: refusal.number,
            place: refusal.place,
            rule: refusal.rule,
            ..numbers::Text::default()
        },
        Ok(Text::NoPicture) => numbers::Text {
            empty: 1,
            ..numbers::Text::default()
        },
        Ok(Text::Picture { geometry, lines }) => numbers::Text {
            geometry,
            lines,
            ..numbers::Text::default()
        },
    }
}

/// The interface's numbers for a written log of so many bytes.
fn log_numbers(bytes: usize, verdict: Result<Logged, Refusal>) -> numbers::Log {
    let written = numbers::Log {
        bytes,
        ..numbers::Log::default()
    };
    match verdict {
        Err(refusal) => numbers::Log {
            text_refusal: refusal.number,
            place: refusal.place,
            rule: refusal.rule,
            ..written
        },
        Ok(Logged::NoPicture) => numbers::Log {
            empty: 1,
            ..written
        },
        Ok(Logged::Picture) => written,
    }
}

/// The calls of one test, and what it lends to them.
struct Texts<'a> {
    calls: &'a mut Calls,
    words: Lent,
    by_second: Vec<i16>,
    log: Lent<u8>,
}

impl Texts<'_> {
    fn new(calls: &mut Calls) -> Texts<'_> {
        Texts::lending(calls, TEXT_WORDS, LOG_BYTES)
    }

    fn lending(calls: &mut Calls, words: usize, bytes: usize) -> Texts<'_> {
        Texts {
            calls,
            words: Lent::filled(words, FILL),
            by_second: vec![FILL_SECOND; words],
            log: Lent::filled(bytes, FILL_BYTE),
        }
    }

    fn differs(&mut self, text: &[u8], what: &str) {
        self.calls.differs(|| format!("{what}: {}", shown(text)));
    }

    /// Both calls on a text.
    fn compare(&mut self, text: impl AsRef<[u8]>) {
        let text = text.as_ref();
        let lent = Lent::of(text);
        self.calls.texts += 1;
        self.text(text, &lent);
        self.log(text, &lent);
        if !lent.untouched() {
            self.differs(text, "the text or a byte beside it was written");
        }
    }

    fn text(&mut self, text: &[u8], lent: &Lent<u8>) {
        let library = numbers::text(lent.words(), self.words.words_mut());
        let answer = text_answer(second::text(text, &mut self.by_second));
        let second = text_numbers(answer);
        if library != second || library.result() != answer {
            self.differs(text, &format!("library {library:?}, second {second:?}"));
        }
        let written = second.lines as usize * WORDS;
        if self.words.words()[..written] != self.by_second[..written] {
            self.differs(text, "the records' words differ");
        }
        if !self.words.untouched_but(written) {
            self.differs(text, "a word that is no record's was written");
        }
        if self.by_second[written..]
            .iter()
            .any(|&word| word != FILL_SECOND)
        {
            self.differs(text, "the second implementation wrote such a word");
        }
        self.words.restore(written);
        self.by_second[..written].fill(FILL_SECOND);
        self.calls.words += written as u64;
        let lent = self.by_second.len();
        self.calls.text_coverage.text(text, lent, &second);
    }

    fn log(&mut self, text: &[u8], lent: &Lent<u8>) {
        let library = numbers::log(lent.words(), self.log.words_mut());
        if self.log.words().len() < LOG_BYTES {
            // The second implementation has the program's log only.
            let refused = numbers::Log {
                refusal: 6,
                ..numbers::Log::default()
            };
            if library != refused || !self.log.untouched() {
                self.differs(text, &format!("log: library {library:?}, not refused by 6"));
            }
            self.calls.text_coverage.log_refused(text);
            return;
        }
        let (second, result) = second::log_with_result(text);
        let verdict = log_verdict(result);
        let written = log_numbers(second.len(), verdict);
        if library != written || library.verdict() != verdict {
            let what = format!("log: library {library:?}, second {written:?}");
            self.differs(text, &what);
        }
        if self.log.words()[..second.len()] != second {
            self.differs(text, "the log's bytes differ");
        }
        if !self.log.untouched_but(second.len()) {
            self.differs(text, "a byte that is no log's was written");
        }
        self.log.restore(second.len());
        self.calls.log_bytes += second.len() as u64;
        self.calls.text_coverage.log(text, &second, written.rule);
    }
}

impl Texts<'_> {
    /// The wrapper's own log of a text.
    fn wrapped(&mut self, text: &[u8]) {
        let library = spiewomir::log(text);
        let (bytes, result) = second::log_with_result(text);
        let verdict = log_verdict(result);
        if library != (spiewomir::Log { bytes, verdict }) {
            self.differs(text, "the wrapper's log");
        }
    }
}

/// A text with every form of a line that is read and gives a picture's log, with
/// detail in each record. Its last note is as deep as can be.
fn every_form() -> String {
    [
        "(note)\n(base 16 48)\n(note a -32768 (b (0) 327))\n(scaled 24 72)\n(at -2 6)\n(full 48 80)\n",
        "(whole (0 -1) (4 -8 0 0) 15)\n(note zz)\n",
        "(intra 9)\n",
        &mb(&detailed(distinct(4, [0, 1, 2, 3], 1), 10)),
        "(note (((((((1)))) 0) -7) x))\n",
    ]
    .concat()
}

/// The Whole case with each byte replaced by every other one, and every form
/// with each byte replaced by each of the grammar's and some others.
pub fn replaced(calls: &mut Calls) {
    let texts = &mut Texts::new(calls);
    let every: Vec<u8> = (0..=255).collect();
    for (text, bytes) in [(WHOLE_CASE.to_string(), &every[..]), (every_form(), BYTES)] {
        let mut text = text.into_bytes();
        texts.compare(&text);
        if !second::log(&text).starts_with(b"(mb ") {
            texts.differs(&text, "a text that has a picture is refused");
        }
        for at in 0..text.len() {
            let was = text[at];
            for &byte in bytes {
                text[at] = byte;
                texts.compare(&text);
            }
            text[at] = was;
        }
    }
}

/// Each byte removed, doubled, exchanged with the next, put after by another
/// one; the text ended at every offset; each line removed, doubled, exchanged.
pub fn moved(calls: &mut Calls) {
    let texts = &mut Texts::new(calls);
    for text in [WHOLE_CASE.to_string(), every_form()] {
        let bytes = text.as_bytes();
        for at in 0..=bytes.len() {
            let (before, after) = bytes.split_at(at);
            texts.compare(before);
            for byte in b"() -0a\n" {
                texts.compare([before, &[*byte], after].concat());
            }
            if let [byte, rest @ ..] = after {
                texts.compare([before, rest].concat());
                texts.compare([before, &[*byte], after].concat());
                if let [next, rest @ ..] = rest {
                    texts.compare([before, &[*next, *byte], rest].concat());
                }
            }
        }
        let lines: Vec<&str> = text.split_inclusive('\n').collect();
        for at in 0..lines.len() {
            for other in 0..lines.len() {
                let mut lines = lines.clone();
                lines.swap(at, other);
                texts.compare(lines.concat());
                lines[at] = "";
                texts.compare(lines.concat());
                lines[at] = lines[other];
                texts.compare(lines.concat());
            }
        }
    }
}

/// Each number of every form at the edges of the range, and beyond.
pub fn edges(calls: &mut Calls) {
    let texts = &mut Texts::new(calls);
    let text = every_form();
    let is_number = |byte: u8| byte == b'-' || byte.is_ascii_digit();
    let bytes = text.as_bytes();
    let mut at = 0;
    while at < bytes.len() {
        let end = at
            + bytes[at..]
                .iter()
                .take_while(|&&byte| is_number(byte))
                .count();
        if end > at {
            for edge in EDGES {
                texts.compare([&text[..at], edge, &text[end..]].concat());
            }
        }
        at = end + 1;
    }
}

/// The detail of each form at every limit, in each of three records, beside one that
/// breaks rule 3 or 6 and has a detail at a limit too: it is read whatever it is, and
/// then judged last.
pub fn details(calls: &mut Calls) {
    let texts = &mut Texts::new(calls);
    let limits = [-32768, -32767, -256, -128, 255, 256, 257, 271, 32766, 32767];
    let form = |number: usize, detail: i16| match number {
        0 => intra_with(detail),
        1 => whole(&[0, -1], &[4, -8, 0, 0], detail),
        _ => mb(&detailed(distinct(4, [0, 1, 2, 3], 1), detail)),
    };
    let head = head(&[16, 48, 24, 72, -2, 6, 48, 80]).concat();
    for detail in (-40..=80).chain(limits) {
        let mut two_motions = detailed(distinct(1, [0; 4], 1), detail);
        two_motions[13] += 1;
        for number in 0..3 {
            for at in 0..3 {
                let mut lines = [form(0, 1), form(1, 6), form(2, 12)];
                lines[at] = form(number, detail);
                let text = head.clone() + &lines.concat();
                texts.compare(&text);
                let picture = second::log(text.as_bytes()).starts_with(b"(mb ");
                if picture != (0..=15).contains(&detail) {
                    texts.differs(text.as_bytes(), "rule 7 is not that of 0 to 15");
                }
                lines[(at + 1) % 3] = whole(&[0, 32], &[0; 4], detail);
                texts.compare(head.clone() + &lines.concat());
                lines[(at + 1) % 3] = mb(&two_motions);
                texts.compare(head.clone() + &lines.concat());
            }
        }
    }
}

/// Lines of every form without their detail, as they were before it was, and with it
/// elsewhere, twice, or in brackets.
pub fn old_forms(calls: &mut Calls) {
    let texts = &mut Texts::new(calls);
    let head = head(&[16, 16, 32, 32, 0, 0, 48, 32]).concat();
    let record = mb(&detailed(distinct(4, [0, 1, 2, 3], 1), 7));
    for line in ["(intra 7)\n", "(whole (0 -1) (4 -8 0 0) 7)\n", &record] {
        let end = line.strip_suffix(" 7)\n").expect("a detail");
        let (name, rest) = end.split_once(' ').unwrap_or((end, ""));
        let inner = end.strip_suffix(')').unwrap_or(end);
        for bad in [
            format!("{end})\n"),
            format!("{end} )\n"),
            format!("{end}\n"),
            format!("{end} 7\n"),
            format!("{end}7)\n"),
            format!("{end}  7)\n"),
            format!("{end} 7 )\n"),
            format!("{end} 7))\n"),
            format!("{end} 7 7)\n"),
            format!("{end} (7))\n"),
            format!("{end} (7)\n"),
            format!("{end} a)\n"),
            format!("{end}) 7\n"),
            format!("{inner} 7)\n"),
            format!("{inner} 7))\n"),
            format!("{inner} 7) 7)\n"),
            format!("{name} 7 {rest})\n"),
            format!("{name} 7 {rest} 7)\n"),
        ] {
            // As the first record line, after one, and after a note.
            for before in ["", line, "(note 7)\n"] {
                texts.compare(format!("{head}{before}{bad}"));
                texts.compare(format!("{head}{before}{bad}{line}"));
            }
        }
    }
}

/// Lists to depth 10 in notes wherever a note may stand, closed or not, with
/// an item or nothing in the innermost.
pub fn depths(calls: &mut Calls) {
    let texts = &mut Texts::new(calls);
    let lines: Vec<&str> = WHOLE_CASE.split_inclusive('\n').collect();
    for at in 0..=lines.len() {
        let (before, after) = (lines[..at].concat(), lines[at..].concat());
        for depth in 1..=10 {
            let open = "(".repeat(depth - 1);
            for inner in ["", "a", "-1", "a 0", "a ", " a", "A", "32768", "()"] {
                for closed in 0..=depth {
                    let close = ")".repeat(closed);
                    texts.compare(format!("{before}(note {open}{inner}{close})\n{after}"));
                    texts.compare(format!("{before}(note x {open}{inner}{close} 7)\n{after}"));
                }
            }
        }
    }
}

/// 98 to 101 record lines of each form and mixed, with and without notes, for
/// bases of so many macroblocks and others, and with a bad byte at the end.
pub fn counts(calls: &mut Calls) {
    let texts = &mut Texts::new(calls);
    let random = &mut Random::new(21);
    for (count, base) in [
        (98, [224, 112]),
        (99, [144, 176]),
        (100, [160, 160]),
        (101, [16, 1616]),
    ] {
        for form in 0..4 {
            for other in [false, true] {
                let [width, height] = if other { [144, 192] } else { base };
                let eight = [width, height, width, height, 0, 0, 64, 48];
                let mood = match form {
                    0 => Mood::mixed(random),
                    _ => Mood::without_intra(random),
                };
                let base = mood.base(random, count);
                let mut lines = lines(random, &eight, &base);
                for line in &mut lines[4..] {
                    match form {
                        1 => *line = intra_with(random.below(16) as i16),
                        2 => {
                            let (word, detail) = (random.word() / 4, random.below(16) as i16);
                            *line = whole(&[3, -1], &[word, -1, 0, 0], detail);
                        }
                        3 => *line = mb(&mood.record(random)),
                        _ => {}
                    }
                }
                let text = lines.concat();
                texts.compare(&text);
                texts.compare(&text[..text.len() - 1]);
                texts.compare(text.clone() + "x");
                texts.compare(text.clone() + "(");
                texts.compare(text + &note(random));
                texts.compare(noted(random, &lines));
            }
        }
    }
}

/// 65,535 to 65,537 bytes, and some others, of notes and of long records, with
/// a bad byte near the end or none.
pub fn lengths(calls: &mut Calls) {
    let texts = &mut Texts::new(calls);
    let random = &mut Random::new(22);
    for bytes in [
        65_000, 65_534, 65_535, 65_536, 65_537, 65_538, 70_000, 131_072,
    ] {
        let notes = long_notes(bytes, || note(random));
        let records = long_records(64);
        let padding = format!("(note {})\n", "z".repeat(bytes - records.len() - 8));
        for text in [notes, padding.clone() + &records, records + &padding] {
            assert_eq!(text.len(), bytes);
            texts.compare(&text);
            for at in [0, 1, bytes - 40, bytes - 2, bytes - 1] {
                let mut text = text.clone().into_bytes();
                text[at] = b'#';
                texts.compare(&text);
            }
        }
        texts.compare(vec![b'('; bytes]);
    }
    texts.compare(b"");
}

/// Words and bytes of wrong length are refused before the text is judged; more
/// bytes than every log fits are not wrong.
pub fn buffers(calls: &mut Calls) {
    let tried = [
        WHOLE_CASE.to_string(),
        every_form(),
        String::new(),
        "x".repeat(65_537),
        WHOLE_CASE.to_string() + &INTRA.repeat(100),
        WHOLE_CASE.replace("(base 16", "(base 17"),
        WHOLE_CASE.replace("(base", "(bass"),
    ];
    let words = [
        0,
        1,
        WORDS,
        2 * WORDS,
        // Words of 99 records that have no detail.
        TEXT_RECORDS * (WORDS - 1),
        TEXT_WORDS - WORDS,
        TEXT_WORDS - 1,
        TEXT_WORDS,
        TEXT_WORDS + 1,
        TEXT_WORDS + WORDS,
    ];
    let bytes = [
        0,
        1,
        31,
        4096,
        LOG_BYTES / 2,
        LOG_BYTES - 31,
        LOG_BYTES - 1,
        LOG_BYTES,
        LOG_BYTES + 1,
        2 * LOG_BYTES,
    ];
    for (words, bytes) in words.into_iter().zip(bytes) {
        let texts = &mut Texts::lending(calls, words, bytes);
        for text in &tried {
            texts.compare(text);
        }
    }
}

/// The text of no bytes and those nearest to it, with words and bytes of every sort of
/// length lent; every text of one byte, and two of the grammar's; notes only, ended
/// anywhere; zeros with and without notes and record lines.
pub fn empty(calls: &mut Calls) {
    let words = [
        0,
        1,
        WORDS,
        TEXT_WORDS - 1,
        TEXT_WORDS,
        TEXT_WORDS + 1,
        2 * TEXT_WORDS,
    ];
    let bytes = [
        0,
        1,
        14,
        15,
        16,
        31,
        LOG_BYTES - 1,
        LOG_BYTES,
        LOG_BYTES + 1,
    ];
    for words in words {
        for bytes in bytes {
            let texts = &mut Texts::lending(calls, words, bytes);
            for text in NEAREST {
                texts.compare(text);
            }
        }
    }

    let texts = &mut Texts::new(calls);
    for text in NEAREST {
        texts.wrapped(text.as_bytes());
    }
    for first in 0..=255 {
        texts.compare([first]);
    }
    for &first in BYTES {
        for &second in BYTES {
            texts.compare([first, second]);
        }
    }
    let random = &mut Random::new(23);
    for count in 1..=8 {
        let notes: String = (0..count).map(|_| note(random)).collect();
        for end in 1..=notes.len() {
            texts.compare(&notes[..end]);
        }
        texts.compare(notes.clone() + "\n");
        let zeros = head(&[0; 8]);
        let text = zeros.concat();
        texts.compare(text.clone() + &notes);
        texts.compare(notes + &text);
        texts.compare(noted(random, &zeros));
        texts.compare(text + &INTRA.repeat(count));
    }
}

/// Every two of a geometry's numbers at every two limits, with a record that
/// fits the Whole case.
pub fn numbers_at_limits(calls: &mut Calls) {
    let texts = &mut Texts::new(calls);
    for first in 0..8 {
        for second in first + 1..8 {
            for a in LIMITS {
                for b in LIMITS {
                    let mut eight = [16, 16, 32, 32, 0, 0, 48, 32];
                    eight[first] = a;
                    eight[second] = b;
                    // Of the largest pictures, only those that are refused.
                    if eight[6].min(eight[7]) < 4080 {
                        texts.compare(head(&eight).concat() + &whole(&[0, -1], &[4, -8, 0, 0], 0));
                    }
                }
            }
        }
    }
}

/// Random texts: each right, with a record broken, with a geometry that may be
/// refused, and four times damaged.
pub fn random(calls: &mut Calls, count: u64) {
    let texts = &mut Texts::new(calls);
    for number in 0..count {
        texts.calls.at = format!("random text {number}");
        let random = &mut Random::new(number);
        let eight = text_geometry(random);
        let mut base = Mood::new(random).base(random, base_macroblocks(&eight));
        let right = lines(random, &eight, &base);
        let text = noted(random, &right);
        texts.compare(&text);
        for _ in 0..4 {
            texts.compare(damaged(random, text.as_bytes()));
        }

        let mut wrong = eight;
        wrong[random.below(8)] += random.pick(&[-4096, -16, -1, 1, 2, 16, 4096]);
        texts.compare(head(&wrong).concat() + &right[4..].concat());

        let at = random.below(base.len() / WORDS) * WORDS;
        let rule = random_rule(random);
        break_record(random, &mut base[at..at + WORDS], rule);
        let mut broken = head(&eight).to_vec();
        broken.extend(base.chunks(WORDS).map(mb));
        texts.compare(noted(random, &broken));
    }
}

/// A text with one to three faults.
fn damaged(random: &mut Random, text: &[u8]) -> Vec<u8> {
    let mut text = text.to_vec();
    for _ in 0..random.within(1, 3) {
        if text.is_empty() {
            break;
        }
        let at = random.below(text.len());
        match random.below(7) {
            0 => text[at] = random.pick(BYTES),
            1 => text.insert(at, random.pick(BYTES)),
            2 => drop(text.remove(at)),
            3 => text.insert(at, text[at]),
            4 => text.truncate(at),
            5 => {
                // A line again, or away.
                let mut lines: Vec<&[u8]> = text.split_inclusive(|&byte| byte == b'\n').collect();
                let at = random.below(lines.len());
                if random.one_in(2) {
                    lines.remove(at);
                } else {
                    lines.insert(at, lines[random.below(lines.len())]);
                }
                text = lines.concat();
            }
            _ => {
                let edge = random.pick(EDGES);
                let end = at
                    + text[at..]
                        .iter()
                        .take_while(|byte| byte.is_ascii_digit())
                        .count();
                text.splice(at..end, edge.bytes());
            }
        }
    }
    text
}

/// The longest logs: 65,536 macroblocks, of 99 records and of one. Also by the
/// wrapper's own log, as are texts that are refused.
pub fn largest(calls: &mut Calls) {
    let texts = &mut Texts::new(calls);
    let corner = WHOLE_CASE.replace("48 32", "4096 4096");
    for text in [
        long_records(4096),
        corner.replace("at 0 0", "at 4064 4064"),
        corner,
    ] {
        texts.compare(&text);
        texts.wrapped(text.as_bytes());
    }
    let malformed = WHOLE_CASE.replace("(0 -1)", "(0 32)");
    for text in ["", &malformed, &(malformed.clone() + INTRA), WHOLE_CASE] {
        texts.wrapped(text.as_bytes());
    }
}
