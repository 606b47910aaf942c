//! Which small macroblock fed it: of a macroblock's sixteen blocks, how many read each of
//! the four base macroblocks.

use spiewomir::{macroblock, text, Answer, Fed, Geometry, Kind, Session, Text, TEXT_WORDS, WORDS};

fn read(bytes: &[u8]) -> (Geometry, Vec<i16>) {
    let mut words = vec![-1; TEXT_WORDS];
    let Ok(Text::Picture { geometry, lines }) = text(bytes, &mut words) else {
        panic!("not read");
    };
    words.truncate(lines as usize * WORDS);
    (geometry, words)
}

fn answer(bytes: &[u8], column: i32, row: i32) -> Answer {
    let (geometry, base) = read(bytes);
    macroblock(geometry, &base, column, row, &mut [-1; WORDS]).expect("answered")
}

const fn fed([first, right, below, diagonal]: [u8; 4]) -> Fed {
    Fed {
        first,
        right,
        below,
        diagonal,
    }
}

/// In a base one macroblock wide those to the right and below have one address, but not
/// one column and row. The four blocks that read the intra one take the other's motion, and
/// are counted by what they read.
#[test]
fn in_a_narrow_base() {
    const NARROW: &[u8] = b"(base 16 48)\n(scaled 16 86)\n(at 16 30)\n(full 48 64)\n(whole (0 -1) (4 -8 0 0) 0)\n(intra 0)\n(intra 0)\n";
    let below = answer(NARROW, 1, 3);
    assert!(matches!(below.kind, Kind::Inherited(_)));
    assert_eq!(below.fed, fed([12, 0, 4, 0]));
    assert_eq!(answer(NARROW, 1, 2).fed, fed([16, 0, 0, 0]));
    assert_eq!(answer(NARROW, 0, 3).fed, Fed::default());
}

/// The same turned round.
#[test]
fn in_a_low_base() {
    const LOW: &[u8] = b"(base 48 16)\n(scaled 86 16)\n(at 30 16)\n(full 64 48)\n(whole (0 -1) (4 -8 0 0) 0)\n(intra 0)\n(intra 0)\n";
    assert_eq!(answer(LOW, 3, 1).fed, fed([12, 4, 0, 0]));
    assert_eq!(answer(LOW, 2, 1).fed, fed([16, 0, 0, 0]));
}

/// Intra answers have them too, and a session hands over what the call does.
#[test]
fn of_intra_answers_and_a_session() {
    const FOUR: &[u8] = b"(base 32 32)\n(scaled 32 32)\n(at 12 12)\n(full 48 48)\n(intra 0)\n(intra 0)\n(intra 0)\n(whole (0 -1) (4 -8 0 0) 0)\n";
    let (geometry, base) = read(FOUR);
    let (mut session, begun) = Session::fresh().begin(geometry);
    assert_eq!(begun, Ok(()));
    for address in 0..9 {
        let mut record = [-1; WORDS];
        let answer =
            macroblock(geometry, &base, address % 3, address / 3, &mut record).expect("answered");
        let counts = match address {
            4 => fed([9, 3, 3, 1]),
            _ => Fed::default(),
        };
        assert_eq!(
            (answer.kind == Kind::Intra, answer.fed),
            (address == 4, counts)
        );
        let next;
        (session, next) = session.next(&base, &mut record);
        assert_eq!(next, Ok(answer));
    }
}
