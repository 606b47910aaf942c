//! Long vectors: the two calls on wide records, by themselves and beside the narrow ones.

use spiewomir::{
    macroblock, macroblock_wide, numbers, picture, picture_wide, refused, Answer, Class, Counts,
    Fed, Geometry, Kind, Refusal, Split, WORDS,
};

/// Ratio 2, with a column outside.
const GEOMETRY: Geometry = Geometry {
    base_width: 16,
    base_height: 16,
    scaled_width: 32,
    scaled_height: 32,
    offset_x: 0,
    offset_y: 0,
    full_width: 48,
    full_height: 32,
};

const UNTOUCHED: i32 = -1_234_567_890;

/// A record of type 1 with this vector in list 0 of every block.
fn whole(x: i32, y: i32) -> [i32; WORDS] {
    std::array::from_fn(|word| match word {
        0 => 1,
        5..13 => -((word as i32 - 5) % 2),
        13..77 => [x, y, 0, 0][(word - 13) % 4],
        _ => 0,
    })
}

fn narrow(words: &[i32]) -> Vec<i16> {
    words
        .iter()
        .map(|&word| word.try_into().expect("a narrow word"))
        .collect()
}

fn malformed(rule: u32) -> Refusal {
    Refusal {
        number: refused::RECORD,
        place: 0,
        rule,
    }
}

/// The wide calls' answers on one base record. Answered, they wrote the same words; refused,
/// none.
fn wide(base: &[i32]) -> Result<(Answer, Vec<i32>), Refusal> {
    let (mut one, mut all) = (vec![UNTOUCHED; WORDS], vec![UNTOUCHED; 6 * WORDS]);
    let answer = macroblock_wide(GEOMETRY, base, 0, 0, &mut one);
    let counts = picture_wide(GEOMETRY, base, &mut all);
    match answer {
        Ok(answer) => {
            let expected = Counts {
                inherited: 4,
                intra: 0,
                outside: 2,
            };
            assert_eq!(counts, Ok(expected));
            assert_eq!(one, all[..WORDS]);
            Ok((answer, one))
        }
        Err(refusal) => {
            assert_eq!(counts, Err(refusal));
            assert!(one.iter().chain(&all).all(|&word| word == UNTOUCHED));
            Err(refusal)
        }
    }
}

/// 8,192 is answered by the wide call with 16,384, and refused by the narrow one.
#[test]
fn beyond_the_narrow() {
    let base = whole(8192, -8193);
    let (answer, words) = wide(&base).expect("answered");
    let expected = Answer {
        kind: Kind::Inherited(Split::S16x16),
        class: Class::Corner,
        column: 0,
        row: 0,
        detail: 0,
        fed: Fed {
            first: 16,
            ..Fed::default()
        },
    };
    assert_eq!(answer, expected);
    assert_eq!(words, whole(16_384, -16_386));

    let base = narrow(&base);
    let (mut one, mut all) = (vec![-12_345; WORDS], vec![-12_345; 6 * WORDS]);
    let answer = macroblock(GEOMETRY, &base, 0, 0, &mut one);
    assert_eq!(answer, Err(malformed(5)));
    assert_eq!(picture(GEOMETRY, &base, &mut all), Err(malformed(5)));
    assert!(one.iter().chain(&all).all(|&word| word == -12_345));
}

/// Both ends are answered, the next words are refused.
#[test]
fn at_the_limits() {
    assert_eq!(
        wide(&whole(-131_072, 131_071)).expect("answered").1,
        whole(-262_144, 262_142)
    );
    for (x, y) in [(131_072, 0), (0, 131_072), (-131_073, 0), (0, -131_073)] {
        assert_eq!(wide(&whole(x, y)), Err(malformed(5)));
    }
    for word in [i32::MIN, i32::MAX, 1 << 17, 1 << 18] {
        assert_eq!(wide(&whole(0, word)), Err(malformed(5)));
    }
}

/// Words whose low halves are right are not.
#[test]
fn not_by_low_halves() {
    for (at, rule) in [(0, 1), (1, 2), (5, 3), (6, 3), (15, 5), (77, 7)] {
        for more in [65_536, -65_536, i32::MIN] {
            let mut base = whole(4, -8);
            base[at] = base[at].wrapping_add(more);
            assert_eq!(wide(&base), Err(malformed(rule)), "word {at}");
        }
    }
    // 4 and 65,540 are two vectors in one piece.
    let mut base = whole(4, -8);
    base[13] += 65_536;
    assert_eq!(wide(&base), Err(malformed(6)));
}

/// A base that fits the narrow limit: the same words, answers, counts and refusals.
#[test]
fn as_the_narrow() {
    let mut records = vec![whole(8191, -8192), whole(0, 0), whole(-3, 5)];
    records[1][..13].copy_from_slice(&[0, 0, 0, 0, 0, -1, -1, -1, -1, -1, -1, -1, -1]);
    for (at, word) in [
        (0, 5),
        (2, 1),
        (12, 32),
        (9, -1),
        (15, 1),
        (37, 7),
        (77, 16),
        (77, 9),
    ] {
        let mut record = whole(4, -8);
        record[at] = word;
        records.push(record);
    }
    for (base, refused) in records.iter().zip([0, 0, 0, 1, 2, 3, 4, 5, 6, 7, 0]) {
        let small = narrow(base);
        for (column, length) in [(0, WORDS), (2, WORDS), (3, WORDS), (0, WORDS - 1)] {
            let (mut wide_words, mut words) = (vec![UNTOUCHED; length], vec![-12_345; length]);
            let wide = numbers::macroblock_wide(GEOMETRY, base, column, 1, &mut wide_words);
            let given = numbers::macroblock(GEOMETRY, &small, column, 1, &mut words);
            assert_eq!(wide, given);
            match given.refusal {
                0 => assert_eq!(narrow(&wide_words), words),
                _ => assert!(wide_words.iter().all(|&word| word == UNTOUCHED)),
            }
            if (column, length) == (0, WORDS) {
                assert_eq!(given.rule, refused);
            }
        }
        let (mut wide_words, mut words) = (vec![UNTOUCHED; 6 * WORDS], vec![-12_345; 6 * WORDS]);
        let wide = numbers::picture_wide(GEOMETRY, base, &mut wide_words);
        let given = numbers::picture(GEOMETRY, &small, &mut words);
        assert_eq!((wide, given.rule), (given, refused));
        match given.refusal {
            0 => assert_eq!(narrow(&wide_words), words),
            _ => assert!(wide_words.iter().all(|&word| word == UNTOUCHED)),
        }
    }
}

/// Refusals 5 to 7 count in words, whatever their width.
#[test]
fn of_lengths_and_positions() {
    let base = whole(100_000, 0);
    let number = |base: &[i32], column, out: usize| {
        let given = macroblock_wide(GEOMETRY, base, column, 0, &mut vec![UNTOUCHED; out]);
        given.map_or_else(|refusal| refusal.number, |_| 0)
    };
    assert_eq!(number(&base, 0, WORDS), 0);
    assert_eq!(number(&base[1..], 0, WORDS), refused::BASE_LENGTH);
    assert_eq!(number(&[], 0, WORDS), refused::BASE_LENGTH);
    assert_eq!(number(&base, 0, WORDS / 2), refused::OUTPUT_LENGTH);
    assert_eq!(number(&base, 0, 2 * WORDS), refused::OUTPUT_LENGTH);
    assert_eq!(number(&base, 3, WORDS), refused::POSITION);
    assert_eq!(number(&base, -1, WORDS), refused::POSITION);
}
