//! Each refusal comes with its constant, and says what it means.

use spiewomir::{
    log, macroblock, numbers, refused, text, Geometry, Logged, Refusal, Session, Text, TEXT_BYTES,
    TEXT_RECORDS, TEXT_WORDS, WORDS,
};
use std::error::Error;

const GEOMETRY: Geometry = Geometry {
    base_width: 16,
    base_height: 16,
    scaled_width: 32,
    scaled_height: 32,
    offset_x: 0,
    offset_y: 0,
    full_width: 48,
    full_height: 32,
};

/// An intra record.
fn intra() -> [i16; WORDS] {
    std::array::from_fn(|word| if (5..13).contains(&word) { -1 } else { 0 })
}

fn is(given: Result<(), Refusal>, number: u32, said: &str) {
    let refusal = given.expect_err(said);
    assert_eq!(refusal.number, number, "{refusal}");
    let error: Box<dyn Error> = refusal.into();
    assert_eq!(error.to_string(), format!("refused {number}: {said}"));
}

#[test]
fn of_records() {
    let base = intra();
    let (mut malformed, mut detailed) = (base, base);
    malformed[5] = 0;
    detailed[77] = 16;
    let at = |geometry, base: &[i16], column, out| {
        macroblock(geometry, base, column, 0, &mut vec![0; out]).map(|_| ())
    };
    assert_eq!(at(GEOMETRY, &base, 0, WORDS), Ok(()));
    #[rustfmt::skip]
    let wrong = [
        (Geometry { base_width: 24, ..GEOMETRY }, &base[..], 0, WORDS, refused::BASE_SIZE, "base size no multiple of 16 in 16..4096"),
        (Geometry { full_height: 0, ..GEOMETRY }, &base, 0, WORDS, refused::FULL_SIZE, "full size no multiple of 16 in 16..4096"),
        (Geometry { scaled_width: 34, ..GEOMETRY }, &base, 0, WORDS, refused::SCALED_SIZE, "scaled size odd, below the base's or above twice that"),
        (Geometry { offset_y: 1, ..GEOMETRY }, &base, 0, WORDS, refused::OFFSET, "offset odd or outside -8192..8190"),
        (GEOMETRY, &base[1..], 0, WORDS, refused::BASE_LENGTH, "base length does not fit the base picture"),
        (GEOMETRY, &base, 0, WORDS + 1, refused::OUTPUT_LENGTH, "output length is not what the call writes"),
        (GEOMETRY, &base, 3, WORDS, refused::POSITION, "column or row outside the picture"),
        (GEOMETRY, &malformed, 0, WORDS, refused::RECORD, "malformed record, place 0, rule 4"),
        (GEOMETRY, &detailed, 0, WORDS, refused::RECORD, "malformed record, place 0, rule 7"),
    ];
    for (geometry, base, column, out, number, said) in wrong {
        is(at(geometry, base, column, out), number, said);
    }
}

#[test]
fn of_texts() {
    let read = |bytes: &[u8]| text(bytes, &mut vec![0; TEXT_WORDS]).map(|_| ());
    is(
        read(b"(base 16 16)\n(scaled"),
        refused::GRAMMAR,
        "text breaks the grammar, place 20",
    );
    is(
        read(&[b'a'; TEXT_BYTES]),
        refused::GRAMMAR,
        "text breaks the grammar, place 0",
    );
    is(
        read(&[b'a'; TEXT_BYTES + 1]),
        refused::LIMIT,
        "text has too many bytes or record lines",
    );
    let mut lines = b"(base 16 16)\n(scaled 32 32)\n(at 0 0)\n(full 48 32)\n".to_vec();
    lines.extend_from_slice(&b"(intra 0)\n".repeat(TEXT_RECORDS));
    assert_eq!(
        text(&lines, &mut vec![0; TEXT_WORDS]),
        Ok(Text::Picture {
            geometry: GEOMETRY,
            lines: TEXT_RECORDS as u32
        })
    );
    lines.extend_from_slice(b"(intra 0)\n");
    is(
        read(&lines),
        refused::LIMIT,
        "text has too many bytes or record lines",
    );
}

/// A log's refusal is the text's, with the rule that its line does not say.
#[test]
fn of_logs() {
    let head = "(base 16 32)\n(scaled 16 32)\n(at 0 0)\n(full 16 16)\n";
    let made = log(format!("{head}(intra 15)\n(intra 0)\n").as_bytes());
    assert_eq!(made.bytes, b"(mb 0 0 0 0)\n(sync 1 0 1 0)\n");
    assert_eq!(made.verdict, Ok(Logged::Picture));
    for (text, line, number, place, rule) in [
        ("\n".to_string(), "(refused 9 0)\n", refused::GRAMMAR, 0, 0),
        (
            head.replace("16 32", "16 33"),
            "(refused 1 0)\n",
            refused::BASE_SIZE,
            0,
            0,
        ),
        (
            head.to_string(),
            "(refused 5 0)\n",
            refused::BASE_LENGTH,
            0,
            0,
        ),
        (
            format!("{head}(intra 0)\n(whole (0 32) (0 0 0 0) 16)\n"),
            "(refused 8 1)\n",
            refused::RECORD,
            1,
            3,
        ),
        (
            format!("{head}(intra -1)\n(whole (0 32) (0 0 0 0) 0)\n"),
            "(refused 8 0)\n",
            refused::RECORD,
            0,
            7,
        ),
        (
            format!("{head}(intra)\n"),
            "(refused 9 56)\n",
            refused::GRAMMAR,
            56,
            0,
        ),
    ] {
        let refused = log(text.as_bytes());
        assert_eq!(refused.bytes, line.as_bytes());
        assert_eq!(
            refused.verdict,
            Err(Refusal {
                number,
                place,
                rule
            })
        );
    }
    let short = numbers::log(head.as_bytes(), &mut [0; 31]);
    assert_eq!(
        short,
        numbers::Log {
            refusal: refused::OUTPUT_LENGTH,
            ..numbers::Log::default()
        }
    );
}

#[test]
fn of_sessions() {
    let (fresh, given) = Session::fresh().abandon();
    is(given, refused::NOTHING_BEGUN, "nothing begun");
    let (begun, given) = fresh.begin(Geometry {
        full_width: 16,
        full_height: 16,
        ..GEOMETRY
    });
    assert_eq!(given, Ok(()));
    is(
        begun.begin(GEOMETRY).1,
        refused::UNFINISHED,
        "a picture is unfinished",
    );
    let (finished, given) = begun.next(&intra(), &mut intra());
    assert!(given.is_ok());
    is(
        finished.abandon().1,
        refused::FINISHED,
        "after the last macroblock",
    );
}
