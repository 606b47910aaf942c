//! A text of no bytes means no picture, and no other text does.

use spiewomir::{
    log, numbers, refused, text, Geometry, Logged, Refusal, Text, LOG_BYTES, TEXT_WORDS, WORDS,
};

const UNTOUCHED: i16 = -12_345;

/// Eight zeros and no record lines: the numbers are those of no picture.
const ZEROS: &[u8] = b"(base 0 0)\n(scaled 0 0)\n(at 0 0)\n(full 0 0)\n";

/// The text call with so many words, none of which it writes.
fn untouched(bytes: &[u8], words: usize) -> numbers::Text {
    let mut words = vec![UNTOUCHED; words];
    let given = numbers::text(bytes, &mut words);
    assert!(words.iter().all(|&word| word == UNTOUCHED));
    assert_eq!(text(bytes, &mut words), given.result());
    assert!(words.iter().all(|&word| word == UNTOUCHED));
    given
}

fn refusal(number: u32, place: u32) -> Refusal {
    Refusal {
        number,
        place,
        rule: 0,
    }
}

/// Refused by 9 there, in both calls.
fn breaks(bytes: &[u8], place: u32) {
    let given = untouched(bytes, TEXT_WORDS);
    assert_eq!(given.result(), Err(refusal(refused::GRAMMAR, place)));
    assert_eq!(given.empty, 0);
    let made = log(bytes);
    assert_eq!(made.bytes, format!("(refused 9 {place})\n").into_bytes());
    assert_eq!(made.verdict, Err(refusal(refused::GRAMMAR, place)));
}

#[test]
fn no_picture() {
    let given = untouched(b"", TEXT_WORDS);
    let expected = numbers::Text {
        empty: 1,
        ..numbers::Text::default()
    };
    assert_eq!(given, expected);
    assert_eq!(given.result(), Ok(Text::NoPicture));
}

/// 6 is tested before.
#[test]
fn wrong_words() {
    for words in [0, 1, WORDS, TEXT_WORDS - 1, TEXT_WORDS + 1] {
        let given = untouched(b"", words);
        assert_eq!(given.result(), Err(refusal(refused::OUTPUT_LENGTH, 0)));
        assert_eq!(given.empty, 0);
    }
}

#[test]
fn its_log() {
    let made = log(b"");
    assert_eq!(made.bytes, b"(sync 0 0 0 0)\n");
    assert_eq!(made.verdict, Ok(Logged::NoPicture));

    let mut bytes = vec![b'#'; LOG_BYTES];
    let written = numbers::log(b"", &mut bytes);
    let expected = numbers::Log {
        bytes: 15,
        empty: 1,
        ..numbers::Log::default()
    };
    assert_eq!(written, expected);
    assert_eq!(written.verdict(), made.verdict);
    assert_eq!(bytes[..15], *b"(sync 0 0 0 0)\n");
    assert!(bytes[15..].iter().all(|&byte| byte == b'#'));
}

/// 6 is tested before, though the log would fit.
#[test]
fn too_few_bytes() {
    for length in [0, 14, 15, 16, LOG_BYTES - 1] {
        let mut bytes = vec![b'#'; length];
        let expected = numbers::Log {
            refusal: refused::OUTPUT_LENGTH,
            ..numbers::Log::default()
        };
        let given = numbers::log(b"", &mut bytes);
        assert_eq!(given, expected);
        assert_eq!(given.verdict(), Err(refusal(refused::OUTPUT_LENGTH, 0)));
        assert!(bytes.iter().all(|&byte| byte == b'#'));
    }
}

/// A line feed alone is a byte, with which no text begins.
#[test]
fn a_line_feed_alone() {
    breaks(b"\n", 0);
    breaks(b" ", 0);
    breaks(b"\0", 0);
}

/// Notes only are incomplete.
#[test]
fn notes_only() {
    for notes in ["(note)\n", "(note rest day)\n(note)\n", "(note (0))\n"] {
        breaks(notes.as_bytes(), notes.len() as u32);
    }
}

/// It has zeros too, and is not empty.
#[test]
fn of_zeros() {
    let given = untouched(ZEROS, TEXT_WORDS);
    assert_eq!(given, numbers::Text::default());
    let expected = Text::Picture {
        geometry: Geometry::default(),
        lines: 0,
    };
    assert_eq!(given.result(), Ok(expected));
    let made = log(ZEROS);
    assert_eq!(made.bytes, b"(refused 1 0)\n");
    assert_eq!(made.verdict, Err(refusal(refused::BASE_SIZE, 0)));
}
