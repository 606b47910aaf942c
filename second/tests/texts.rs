//! The text call and the log program.

mod common;

use common::*;
use second::grammar::Machine;
use second::{log, log_with_result, text, Logged, Numbers, Refusal, Text, TEXT_RECORDS, TEXT_WORDS, WORDS};
use std::process::{Command, Stdio};

const HEAD: &str = "(base 16 16)\n(scaled 32 32)\n(at 0 0)\n(full 48 32)\n";
const WHOLE: &str = "(whole (0 -1) (4 -8 0 0) 0)\n";
const UNTOUCHED: i16 = -12_345;

fn read(bytes: &[u8]) -> (Result<Text, Refusal>, Vec<i16>) {
    let mut words = vec![UNTOUCHED; TEXT_WORDS];
    let result = text(bytes, &mut words);
    let written = match result {
        Ok(Text::Picture { records, .. }) => records as usize * WORDS,
        _ => 0,
    };
    assert!(words[written..].iter().all(|&word| word == UNTOUCHED));
    (result, words)
}

/// What a text with these numbers and record lines says.
fn picture(eight: [i32; 8], records: u32) -> Text {
    Text::Picture { numbers: Numbers::from_array(eight), records }
}

/// The same, begun by `HEAD`.
fn after_head(records: u32) -> Text {
    picture([16, 16, 32, 32, 0, 0, 48, 32], records)
}

fn refusal(number: u32, place: u32) -> Refusal {
    Refusal { number, place, rule: 0 }
}

fn logged(text: &str) -> String {
    String::from_utf8(log(text.as_bytes())).unwrap()
}

/// A record's line in the mb form, whatever its words are.
fn mb_line(record: &[i16; WORDS]) -> String {
    let part = |words: &[i16]| words.iter().map(|word| word.to_string()).collect::<Vec<_>>().join(" ");
    let [sub_types, references, vectors] = [&record[1..5], &record[5..13], &record[13..77]].map(part);
    format!("(mb {} ({sub_types}) ({references}) ({vectors}) {})\n", record[0], record[77])
}

#[test]
fn whole_case() {
    let expected =
        "(mb 0 0 1 1)\n(mb 1 0 1 1)\n(mb 2 0 5 0)\n(mb 0 1 1 1)\n(mb 1 1 1 1)\n(mb 2 1 5 0)\n(sync 6 4 0 2)\n";
    assert_eq!(logged(&format!("{HEAD}{WHOLE}")), expected);
    let noted = format!("{HEAD}{WHOLE}").replace('\n', "\n(note)\n(note base (16 -16 (intra)) mb)\n");
    assert_eq!(logged(&format!("(note at the start)\n{noted}")), expected);
}

#[test]
fn record_lines() {
    let mut random = Random(8);
    let mixed: [i16; WORDS] = std::array::from_fn(|_| random.within(-32768, 32767) as i16);
    let mb = mb_line(&mixed);
    let lines = format!(
        "(base 1 -2)\n(note 9 (9))\n(scaled 0 32767)\n(at -32768 5)\n(full 6 7)\n(intra 9)\n{WHOLE}(note x 5)\n{mb}(whole (7 -9) (32767 -32768 1 0) 6)\n"
    );
    let (result, words) = read(lines.as_bytes());
    assert_eq!(result, Ok(picture([1, -2, 0, 32767, -32768, 5, 6, 7], 4)));
    let last = with_detail(whole([7, -9], [32767, -32768, 1, 0]), 6);
    let expected = [with_detail(intra(), 9), whole([0, -1], [4, -8, 0, 0]), mixed, last];
    assert_eq!(words[..4 * WORDS], expected.concat());
}

/// In each form the last number is word 77. Any number of the grammar is
/// read; rule 7 of refusal 8 judges it later, and only the log program.
#[test]
fn details_in_lines() {
    let motion = whole([0, -1], [4, -8, 0, 0]);
    for detail in [0, 1, 9, 15, 16, -1, 255, 32767, -32768] {
        let forms = [
            (format!("(intra {detail})\n"), intra()),
            (format!("(whole (0 -1) (4 -8 0 0) {detail})\n"), motion),
            (mb_line(&with_detail(motion, detail)), motion),
        ];
        for (line, record) in forms {
            let (result, words) = read(format!("{HEAD}{line}").as_bytes());
            assert_eq!(result, Ok(after_head(1)), "{line}");
            assert_eq!(words[..WORDS], with_detail(record, detail), "{line}");

            let (lines, result) = log_with_result(format!("{HEAD}{line}").as_bytes());
            if (0..=15).contains(&detail) {
                // The log has no number for the detail.
                let without = log(format!("{HEAD}{}", mb_line(&record)).as_bytes());
                assert_eq!((lines, result), (without, Ok(Logged::Picture)), "{line}");
            } else {
                assert_eq!(lines, b"(refused 8 0)\n", "{line}");
                assert_eq!(result, Err(Refusal { number: 8, place: 0, rule: 7 }), "{line}");
            }
        }
    }
}

/// The forms of document 01 have no last number; others that break the
/// grammar at it.
#[test]
fn lines_without_detail() {
    let mb = mb_line(&whole([0, -1], [4, -8, 0, 0]));
    let old_mb = mb.replace(") 0)\n", "))\n");
    for (line, place) in [
        ("(intra)\n", "(intra".len()),
        ("(whole (0 -1) (4 -8 0 0))\n", "(whole (0 -1) (4 -8 0 0)".len()),
        (&old_mb, old_mb.len() - 2),
        ("(intra )\n", "(intra ".len()),
        ("(intra 32768)\n", "(intra 3276".len()),
        ("(intra -0)\n", "(intra -".len()),
        ("(intra 0 0)\n", "(intra 0".len()),
        ("(whole (0 -1) (4 -8 0 0) (0))\n", "(whole (0 -1) (4 -8 0 0) ".len()),
    ] {
        // A line that is sound before it, and one after.
        let text = format!("{HEAD}(intra 0)\n{line}{WHOLE}");
        let place = (HEAD.len() + "(intra 0)\n".len() + place) as u32;
        assert_eq!(read(text.as_bytes()).0, Err(refusal(9, place)), "{line}");
        assert_eq!(logged(&text), format!("(refused 9 {place})\n"), "{line}");
    }
}

#[test]
fn text_refusals_in_order() {
    let long = vec![b'x'; 65_537];
    for length in [0, TEXT_WORDS - 1, TEXT_WORDS + 1, WORDS] {
        let mut words = vec![UNTOUCHED; length];
        assert_eq!(text(&long, &mut words), Err(refusal(6, 0)));
        assert_eq!(text(HEAD.as_bytes(), &mut words), Err(refusal(6, 0)));
        assert!(words.iter().all(|&word| word == UNTOUCHED));
    }
    assert_eq!(read(&long).0, Err(refusal(10, 0)));
    assert_eq!(read(&long[1..]).0, Err(refusal(9, 0)));

    let lines = |count: usize| format!("{HEAD}{}", "(intra 0)\n".repeat(count));
    assert_eq!(read(HEAD.as_bytes()).0, Ok(after_head(0)));
    assert_eq!(read(lines(TEXT_RECORDS).as_bytes()).0, Ok(after_head(99)));
    assert_eq!(read(lines(100).as_bytes()).0, Err(refusal(10, 0)));
    // 9 precedes 10 by lines.
    let bad = lines(100) + ".";
    assert_eq!(read(bad.as_bytes()).0, Err(refusal(9, bad.len() as u32 - 1)));

    // Exactly 65,536 bytes are read, one more is not.
    let room = 65_536 - HEAD.len() - "(note )\n".len();
    let full = format!("{HEAD}(note {})\n", "a".repeat(room));
    assert_eq!(full.len(), 65_536);
    assert!(read(full.as_bytes()).0.is_ok());
    let early = &full[..65_535];
    assert_eq!(read(early.as_bytes()).0, Err(refusal(9, 65_535)));
    let over = full.replace("(note ", "(note b");
    assert_eq!(read(over.as_bytes()).0, Err(refusal(10, 0)));
}

#[test]
fn log_refusals_in_order() {
    assert_eq!(logged(&"x".repeat(65_537)), "(refused 10 0)\n");
    assert_eq!(logged(&format!("{HEAD}{}", WHOLE.repeat(100))), "(refused 10 0)\n");
    assert_eq!(logged(HEAD), "(refused 5 0)\n");
    assert_eq!(logged(&format!("{HEAD}{WHOLE}{WHOLE}")), "(refused 5 0)\n");
    let two = HEAD.replace("base 16", "base 32");
    let bad = "(whole (0 -1) (4 -8 0 1) 0)\n";
    assert_eq!(logged(&format!("{two}{WHOLE}{bad}")), "(refused 8 1)\n");
    // All records are checked, and before the first line.
    let away = two.replace("(at 0 0)", "(at 800 0)");
    assert_eq!(logged(&format!("{away}{WHOLE}{bad}")), "(refused 8 1)\n");
    assert_eq!(logged(&format!("{away}{WHOLE}{WHOLE}")).lines().last(), Some("(sync 6 0 0 6)"));
    assert_eq!(logged(&format!("{two}{bad}")), "(refused 5 0)\n");
    let odd = HEAD.replace("(at 0 0)", "(at 0 1)");
    assert_eq!(logged(&odd), "(refused 4 0)\n");
    assert_eq!(logged(&odd.replace("32 32", "32 34")), "(refused 3 0)\n");
    assert_eq!(logged(&odd.replace("48 32", "48 33")), "(refused 2 0)\n");
    assert_eq!(logged(&odd.replace("16 16", "16 -16")), "(refused 1 0)\n");
}

/// The refusal that a log says comes with its rule.
#[test]
fn log_and_result() {
    let with = |text: &str| log_with_result(text.as_bytes()).1;
    assert_eq!(with(&format!("{HEAD}{WHOLE}")), Ok(Logged::Picture));
    assert_eq!(with(""), Ok(Logged::NoPicture));
    assert_eq!(with("(base"), Err(refusal(9, 5)));
    assert_eq!(with(HEAD), Err(refusal(5, 0)));
    let two = HEAD.replace("base 16", "base 32");
    let bad = "(whole (0 -1) (4 -8 0 1) 0)\n";
    assert_eq!(with(&format!("{two}{WHOLE}{bad}")), Err(Refusal { number: 8, place: 1, rule: 5 }));
}

/// A text of no bytes means no picture; only 6 comes before. `read` sees that
/// no word is written.
#[test]
fn no_bytes() {
    assert_eq!(read(b"").0, Ok(Text::NoPicture));
    for length in [0, 1, WORDS, TEXT_WORDS - 1, TEXT_WORDS + 1] {
        let mut words = vec![UNTOUCHED; length];
        assert_eq!(text(b"", &mut words), Err(refusal(6, 0)));
        assert!(words.iter().all(|&word| word == UNTOUCHED));
    }
    // A text of zeros is another answer.
    let zeros = "(base 0 0)\n(scaled 0 0)\n(at 0 0)\n(full 0 0)\n";
    assert_eq!(read(zeros.as_bytes()).0, Ok(picture([0; 8], 0)));
    assert_eq!(logged(zeros), "(refused 1 0)\n");
}

#[test]
fn log_of_no_bytes() {
    assert_eq!(log_with_result(b""), (b"(sync 0 0 0 0)\n".to_vec(), Ok(Logged::NoPicture)));
    let program = Command::new(env!("CARGO_BIN_EXE_second_log")).stdin(Stdio::null()).output().unwrap();
    assert!(program.status.success());
    assert_eq!(program.stdout, b"(sync 0 0 0 0)\n");
}

/// Notes alone are incomplete, as each beginning of a text is.
#[test]
fn notes_only() {
    for notes in ["(note)\n", "(note)\n(note)\n", "(note rest day)\n", "(note 0 (0 (0)))\n(note (a))\n"] {
        let place = notes.len() as u32;
        assert_eq!(read(notes.as_bytes()).0, Err(refusal(9, place)), "{notes}");
        assert_eq!(logged(notes), format!("(refused 9 {place})\n"));
    }
}

/// One byte is never a text. Only a bracket can begin one; a line feed alone
/// cannot, as no line is empty.
#[test]
fn one_byte() {
    assert_eq!(read(b"\n").0, Err(refusal(9, 0)));
    for byte in 0..=255 {
        let place = (byte == b'(') as u32;
        assert_eq!(read(&[byte]).0, Err(refusal(9, place)), "{byte}");
        let result = log_with_result(&[byte]);
        assert_eq!(result, (format!("(refused 9 {place})\n").into_bytes(), Err(refusal(9, place))), "{byte}");
    }
}

/// A text is accepted exactly when it is empty or belongs, and the answer says
/// which; else the place is the grammar's.
#[test]
fn accepted_or_not() {
    let whole = format!("(note)\n{HEAD}{WHOLE}(intra 0)\n(note a)\n");
    for end in 0..=whole.len() {
        for next in ["", "\n", " ", "(", ")", "0", "(note)\n"] {
            let text = format!("{}{next}", &whole[..end]);
            let expected = match Machine::sync_text().belongs(text.as_bytes()) {
                _ if text.is_empty() => Ok(Text::NoPicture),
                Ok(()) => Ok(after_head((text.matches("(whole").count() + text.matches("(intra").count()) as u32)),
                Err(place) => Err(refusal(9, place as u32)),
            };
            assert_eq!(read(text.as_bytes()).0, expected, "{text:?}");
        }
    }
}

/// The largest log.
#[test]
fn largest_log() {
    let sync = "(base 16 16)\n(scaled 32 32)\n(at 0 0)\n(full 4096 4096)\n(intra 0)\n";
    let found = logged(sync);
    assert_eq!(found.lines().count(), 65_537);
    assert_eq!(found.lines().nth(65_535), Some("(mb 255 255 5 0)"));
    assert_eq!(found.lines().last(), Some("(sync 65536 0 4 65532)"));
}
