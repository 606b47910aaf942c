//! Where detail was sent: an answer says what its record's last word says.

use spiewomir::{macroblock, picture, text, Geometry, Kind, Session, Text, TEXT_WORDS, WORDS};

/// An intra macroblock and a whole one, at ratio 2: each of its quadrants becomes a
/// macroblock.
const TEXT: &[u8] = b"(base 32 16)\n(scaled 64 32)\n(at 0 0)\n(full 80 32)\n(intra 9)\n(whole (0 -1) (4 -8 0 0) 6)\n";

/// Of the macroblocks of both rows, the fifth of a row outside.
const DETAILS: [u8; 10] = [15, 0, 0, 15, 0, 0, 15, 15, 0, 0];

fn read() -> (Geometry, Vec<i16>) {
    let mut words = vec![-1; TEXT_WORDS];
    let Ok(Text::Picture { geometry, lines }) = text(TEXT, &mut words) else {
        panic!("not read");
    };
    words.truncate(lines as usize * WORDS);
    (geometry, words)
}

#[test]
fn of_a_text() {
    let (_, base) = read();
    assert_eq!(base.len(), 2 * WORDS);
    assert_eq!((base[77], base[WORDS + 77]), (9, 6));
}

#[test]
fn of_a_picture() {
    let (geometry, base) = read();
    let mut out = vec![-1; 10 * WORDS];
    picture(geometry, &base, &mut out).expect("answered");
    let written: Vec<i16> = out.chunks(WORDS).map(|record| record[77]).collect();
    assert_eq!(written, DETAILS.map(i16::from));
}

#[test]
fn of_macroblocks_and_a_session() {
    let (geometry, base) = read();
    let (mut session, begun) = Session::fresh().begin(geometry);
    assert_eq!(begun, Ok(()));
    for (address, detail) in (0..).zip(DETAILS) {
        let mut record = [-1; WORDS];
        let answer = macroblock(geometry, &base, address % 5, address / 5, &mut record);
        let answer = answer.expect("answered");
        assert_eq!((answer.detail, record[77]), (detail, detail.into()));
        match address % 5 {
            0 | 1 => assert_eq!(answer.kind, Kind::Intra),
            4 => assert_eq!(answer.kind, Kind::Outside),
            _ => assert!(matches!(answer.kind, Kind::Inherited(_))),
        }
        let next;
        (session, next) = session.next(&base, &mut record);
        assert_eq!(next, Ok(answer));
        assert_eq!(record[77], detail.into());
    }
}
