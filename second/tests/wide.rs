//! The one-macroblock and the picture call on wide records (document 02's
//! request E12), by themselves and beside the narrow calls.

mod common;

use common::*;
use second::{
    macroblock, macroblock_wide, picture, picture_wide, Answer, Class, Counts, Fed, Kind, Numbers, Refusal, Split,
    SubSplit, WORDS,
};

const UNTOUCHED: i16 = -12_345;
/// No written word goes so far.
const WIDE_UNTOUCHED: i32 = -1_234_567_890;

/// The ends of the wide vectors.
const LEAST: i32 = -131_072;
const MOST: i32 = 131_071;

fn refusal(number: u32) -> Refusal {
    Refusal { number, place: 0, rule: 0 }
}

fn malformed(place: u32, rule: u32) -> Refusal {
    Refusal { number: 8, place, rule }
}

/// The wide call's result; refused, it has left the words as they were, and
/// accepted, it has written all.
fn one(numbers: Numbers, base: &[i32], column: i32, row: i32, words: usize) -> (Result<Answer, Refusal>, Vec<i32>) {
    let mut out = vec![WIDE_UNTOUCHED; words];
    let result = macroblock_wide(numbers, base, column, row, &mut out);
    let untouched = out.iter().filter(|&&word| word == WIDE_UNTOUCHED).count();
    assert_eq!(untouched, if result.is_err() { words } else { 0 });
    (result, out)
}

/// The same of the wide picture call.
fn all(numbers: Numbers, base: &[i32], words: usize) -> (Result<Counts, Refusal>, Vec<i32>) {
    let mut out = vec![WIDE_UNTOUCHED; words];
    let result = picture_wide(numbers, base, &mut out);
    let untouched = out.iter().filter(|&&word| word == WIDE_UNTOUCHED).count();
    assert_eq!(untouched, if result.is_err() { words } else { 0 });
    (result, out)
}

/// The narrow calls' results and words, which refused ones have left as they
/// were.
fn narrow_one(numbers: Numbers, base: &[i16], column: i32, row: i32) -> (Result<Answer, Refusal>, Vec<i16>) {
    let mut out = vec![UNTOUCHED; WORDS];
    let result = macroblock(numbers, base, column, row, &mut out);
    assert!(result.is_ok() || out.iter().all(|&word| word == UNTOUCHED));
    (result, out)
}

fn narrow_all(numbers: Numbers, base: &[i16]) -> (Result<Counts, Refusal>, Vec<i16>) {
    let mut out = vec![UNTOUCHED; full_records(numbers) * WORDS];
    let result = picture(numbers, base, &mut out);
    assert!(result.is_ok() || out.iter().all(|&word| word == UNTOUCHED));
    (result, out)
}

fn widened(words: &[i16]) -> Vec<i32> {
    words.iter().map(|&word| word.into()).collect()
}

/// The columns and rows of a picture in raster order.
fn places(numbers: Numbers) -> impl Iterator<Item = (i32, i32)> {
    let width = numbers.full_width / 16;
    (0..full_records(numbers) as i32).map(move |address| (address % width, address / width))
}

/// E3's rule as it is written; the remainder is not negative, so both
/// divisions round down.
fn scaled(v: i32, base: i32, scaled: i32) -> i32 {
    let (v, b, s) = (v as i128, base as i128, scaled as i128);
    let scale = (s * 65_536 + b / 2).div_euclid(b);
    let word = (v * scale + 32_768).div_euclid(65_536);
    assert!((-262_144..=262_142).contains(&word));
    word as i32
}

/// B and S of both axes.
fn axes(numbers: Numbers) -> [(i32, i32); 2] {
    [(numbers.base_width, numbers.scaled_width), (numbers.base_height, numbers.scaled_height)]
}

/// Vector words scaled, which lie along x and y in turn.
fn scaled_by_axis(words: &[i32], numbers: Numbers) -> Vec<i32> {
    words.iter().zip(axes(numbers).iter().cycle()).map(|(&v, &(b, s))| scaled(v, b, s)).collect()
}

/// B and S, from the least to the most of both.
const SIZES: [(i32, i32); 12] = [
    (16, 16),
    (16, 18),
    (16, 32),
    (32, 48),
    (48, 62),
    (80, 156),
    (112, 130),
    (112, 224),
    (720, 1270),
    (4080, 4082),
    (4096, 4096),
    (4096, 8192),
];

/// Words at and near the ends of the limits, on both axes and in both lists.
#[test]
fn ends_scaled() {
    let words = [LEAST, LEAST + 1, -65_537, -65_536, -32_769, 0, 32_768, 65_535, 65_536, MOST - 1, MOST];
    let (mut least, mut most) = ([0; 4], [0; 4]);
    for (n, &x) in SIZES.iter().enumerate() {
        // Along y, too, each of the sizes comes once.
        for y in [SIZES[(n + 5) % SIZES.len()], (16, 32), (48, 50)] {
            let numbers = Numbers::from_array([x.0, y.0, x.1, y.1, 0, 0, 16, 16]);
            for turn in 0..words.len() {
                let vector = [0, 3, 5, 9].map(|step| words[(turn + step) % words.len()]);
                let expected: [i32; 4] = scaled_by_axis(&vector, numbers).try_into().unwrap();
                let base = wide_whole([0, 31], vector).repeat(base_records(numbers));
                let (result, out) = one(numbers, &base, 0, 0, WORDS);
                assert_eq!(result.unwrap().kind, Kind::Inherited(Split::S16x16));
                assert_eq!(out, wide_whole([0, 31], expected), "{numbers:?}, {vector:?}");
                let (result, words) = all(numbers, &base, WORDS);
                assert_eq!((result, words), (Ok(Counts { inherited: 1, intra: 0, outside: 0 }), out));
                for w in 0..4 {
                    least[w] = least[w].min(expected[w]);
                    most[w] = most[w].max(expected[w]);
                }
            }
        }
    }
    assert_eq!((least, most), ([-262_144; 4], [262_142; 4]));
}

/// Sixteen blocks with the ends in turn, at their own size and doubled.
#[test]
fn ends_in_every_block() {
    let mut record = wide(whole([3, 0], [0; 4]));
    record[..5].copy_from_slice(&[4, 3, 3, 3, 3]);
    for n in 0..64 {
        // No two blocks have a word in common at one place.
        let b = n as i32 / 4;
        record[13 + n] = if b >> (n % 4) & 1 == 1 { MOST - b } else { LEAST + b };
    }
    let same = Numbers::from_array([16, 16, 16, 16, 0, 0, 16, 16]);
    let (result, out) = one(same, &record, 0, 0, WORDS);
    assert_eq!(result.unwrap().kind, Kind::Inherited(Split::S8x8([SubSplit::S4x4; 4])));
    assert_eq!(out, record);

    let twice = Numbers::from_array([16, 16, 32, 32, 0, 0, 32, 32]);
    let (result, out) = all(twice, &record, 4 * WORDS);
    assert_eq!(result, Ok(Counts { inherited: 4, intra: 0, outside: 0 }));
    for (quadrant, words) in out.chunks(WORDS).enumerate() {
        // Each of its blocks becomes a quadrant.
        assert_eq!(words[..13], [4, 0, 0, 0, 0, 3, 0, 3, 0, 3, 0, 3, 0]);
        for b in 0..16 {
            let from = (quadrant / 2 * 2 + b / 8) * 4 + quadrant % 2 * 2 + b % 4 / 2;
            let doubled: Vec<_> = record[13 + 4 * from..17 + 4 * from].iter().map(|v| 2 * v).collect();
            assert_eq!(words[13 + 4 * b..17 + 4 * b], doubled);
        }
    }
}

/// Typed in: words that no narrow record holds, and last some that one holds
/// but that break rule 5 there.
#[test]
fn beyond_the_narrow() {
    let numbers = Numbers::from_array([32, 32, 48, 64, 0, 0, 16, 16]);
    let facts = [
        ([3, 100_000, -3, -131_072], [5, 200_000, -4, -262_144]),
        ([131_071, 131_071, -131_071, -131_071], [196_607, 262_142, -196_606, -262_142]),
        ([-131_072, 65_536, 65_535, -65_536], [-196_608, 131_072, 98_303, -131_072]),
        ([32_768, -32_769, 21_845, 16_384], [49_152, -65_538, 32_768, 32_768]),
        ([8192, 0, -8193, 0], [12_288, 0, -12_289, 0]),
    ];
    for (n, (vector, expected)) in facts.into_iter().enumerate() {
        let base = wide_whole([0, 1], vector).repeat(4);
        let (result, out) = one(numbers, &base, 0, 0, WORDS);
        assert_eq!(result.unwrap().kind, Kind::Inherited(Split::S16x16));
        assert_eq!(out, wide_whole([0, 1], expected));
        assert_eq!(all(numbers, &base, WORDS).1, out);
        let narrow: Result<Vec<i16>, _> = base.iter().map(|&word| i16::try_from(word)).collect();
        assert_eq!(narrow.is_ok(), n == 4);
        if let Ok(narrow) = narrow {
            assert_eq!(narrow_one(numbers, &narrow, 0, 0).0, Err(malformed(0, 5)));
            assert_eq!(narrow_all(numbers, &narrow).0, Err(malformed(0, 5)));
        }
    }
}

/// The macroblock at 1, 1 reads all four base records.
const OVER_FOUR: [i32; 8] = [32, 32, 32, 32, 4, 4, 48, 48];

/// The refusal, by both wide calls, of four like records after some words are
/// set: each by address, place in the record and number.
fn refused_with(record: [i32; WORDS], words: &[(usize, usize, i32)]) -> Option<Refusal> {
    let numbers = Numbers::from_array(OVER_FOUR);
    let mut base = record.repeat(4);
    words.iter().for_each(|&(address, at, word)| base[address * WORDS + at] = word);
    let (single, _) = one(numbers, &base, 1, 1, WORDS);
    let (whole_picture, _) = all(numbers, &base, 9 * WORDS);
    assert_eq!(single.map(|_| ()), whole_picture.map(|_| ()));
    single.err()
}

/// One past either end is refused by rule 5, wherever it stands.
#[test]
fn past_the_ends() {
    let record = wide_whole([0, 1], [4, MOST, LEAST, -8]);
    assert_eq!(refused_with(record, &[]), None);
    for address in 0..4 {
        for at in 13..77 {
            for word in [MOST + 1, LEAST - 1, 262_144, i32::MAX, i32::MIN] {
                let expected = Some(malformed(address as u32, 5));
                assert_eq!(refused_with(record, &[(address, at, word)]), expected);
                assert_eq!(refused_with(record, &[(address, at, word), (address, 77, 16)]), expected);
            }
            // Within the ends it is another motion in the piece.
            assert_eq!(refused_with(record, &[(address, at, 70_000)]), Some(malformed(address as u32, 6)));
        }
    }
    // The lowest address goes before the rules, and rules 1 to 4 before 5.
    assert_eq!(refused_with(record, &[(1, 13, MOST + 1), (2, 0, 9), (3, 0, 9)]), Some(malformed(1, 5)));
    assert_eq!(refused_with(record, &[(3, 76, LEAST - 1), (2, 77, 16)]), Some(malformed(2, 7)));
    assert_eq!(refused_with(record, &[(2, 76, LEAST - 1), (2, 12, 32)]), Some(malformed(2, 3)));
    // All blocks of a record past an end by one, on one axis and in one list.
    for w in 0..4 {
        for word in [MOST + 1, LEAST - 1] {
            let in_all = |word: i32| (0..16).map(|b| (3, 13 + 4 * b + w, word)).collect::<Vec<_>>();
            assert_eq!(refused_with(record, &in_all(word)), Some(malformed(3, 5)));
            assert_eq!(refused_with(record, &in_all(word - word.signum())), None);
        }
    }
}

/// Numbers that would pass if they were cut to sixteen bits, each refused by
/// its own rule.
#[test]
fn never_cut() {
    let uni = wide_whole([0, -1], [4, -8, 0, 0]);
    let none = wide(intra());
    let mut small = uni;
    small[..5].copy_from_slice(&[4, 3, 2, 1, 0]);
    for record in [uni, none, small] {
        assert_eq!(refused_with(record, &[]), None);
        for address in 0..4 {
            let by = |at: usize, word: i32, rule: u32| {
                let expected = Some(malformed(address as u32, rule));
                assert!(i16::try_from(word).is_err());
                assert_eq!(refused_with(record, &[(address, at, word)]), expected, "{at}: {word}");
            };
            for kind in 0..=4 {
                by(0, 65_536 + kind, 1);
                by(0, -65_536 + kind, 1);
                by(0, i32::MIN + kind, 1);
            }
            for at in 1..5 {
                for sub in [65_536, 65_537, 65_539, -65_536, -65_533, i32::MIN] {
                    by(at, sub, 2);
                }
            }
            for at in 5..13 {
                for reference in [65_535, 65_536, 65_567, -65_536, -65_537, i32::MAX, i32::MIN] {
                    by(at, reference, 3);
                }
            }
            for at in 13..77 {
                let used = record[0] != 0 && (at - 13) / 2 % 2 == 0;
                for word in [65_536, -65_536, 131_072, 1 << 16 | 4, i32::MIN, 196_600] {
                    if !used || !(LEAST..=MOST).contains(&word) {
                        by(at, word, 5);
                    }
                }
            }
            for detail in [65_536, 65_537, 65_551, -65_536, -65_521, i32::MIN] {
                by(77, detail, 7);
            }
        }
    }
    // In a used list 65,540 is a vector, but not 4.
    for at in (13..77).step_by(4) {
        assert_eq!(refused_with(uni, &[(1, at, 65_540)]), Some(malformed(1, 6)));
        assert_eq!(refused_with(uni, &[(1, at + 1, -65_544)]), Some(malformed(1, 6)));
    }
    // The order of the rules is by numbers too: type 65,537 with all else wrong.
    assert_eq!(refused_with(uni, &[(0, 0, 65_537), (0, 1, 9), (0, 5, 99), (0, 77, 16)]), Some(malformed(0, 1)));
    // Quadrant 0 would be unused, or an intra one's used: rule 4, if cut.
    assert_eq!(refused_with(uni, &[(0, 5, 65_535)]), Some(malformed(0, 3)));
    assert_eq!(refused_with(none, &[(0, 5, 65_536)]), Some(malformed(0, 3)));
    // Nine blocks would be intra, if cut.
    assert_eq!(refused_with(uni, &[(3, 0, 65_536)]), Some(malformed(3, 1)));
}

/// Vectors whose low halves are alike, as they are or once they are scaled, make
/// different motions for the split.
#[test]
fn alike_in_low_halves() {
    let numbers = Numbers::from_array(OVER_FOUR);
    let answer = |vectors: [i32; 4]| {
        let base = vectors.map(|v| wide_whole([0, -1], [v, -8, 0, 0])).concat();
        let numbers = Numbers { offset_x: 8, offset_y: 8, ..numbers };
        let (result, out) = one(numbers, &base, 1, 1, WORDS);
        (result.unwrap().kind, [13, 21, 45, 53].map(|at| out[at]))
    };
    for (a, b) in [(4, 65_540), (4, -65_532), (0, 65_536), (0, -131_072), (-1, 65_535)] {
        let whole_quadrants = Split::S8x8([SubSplit::S8x8; 4]);
        assert_eq!(answer([a, a, a, a]), (Kind::Inherited(Split::S16x16), [a, a, a, a]));
        assert_eq!(answer([a, a, b, b]), (Kind::Inherited(Split::S16x8), [a, a, b, b]));
        assert_eq!(answer([b, a, b, a]), (Kind::Inherited(Split::S8x16), [b, a, b, a]));
        assert_eq!(answer([b, a, a, a]), (Kind::Inherited(whole_quadrants), [b, a, a, a]));
    }
    // 32,768 is alike to 0 once it is doubled.
    let twice = Numbers::from_array([16, 16, 32, 32, 0, 0, 16, 16]);
    let mut record = wide_whole([0, 0], [0; 4]);
    record[..5].copy_from_slice(&[4, 1, 0, 0, 0]);
    for b in [0, 1] {
        record[13 + 4 * b] = 32_768;
    }
    let (result, out) = one(twice, &record, 0, 0, WORDS);
    assert_eq!(result.unwrap().kind, Kind::Inherited(Split::S16x8));
    assert_eq!((out[13], out[45]), (65_536, 0));
}

/// Wide refusals come in the order of the narrow ones, by the same lengths.
#[test]
fn lengths_and_order() {
    let good = Numbers::from_array([32, 32, 32, 32, 0, 0, 32, 32]);
    let mut base = wide_base_of(&mut Random(2), 4, &[1], MOST);
    assert!(one(good, &base, 1, 1, WORDS).0.is_ok());
    assert!(all(good, &base, 4 * WORDS).0.is_ok());
    base[3 * WORDS] = 65_537;
    assert!(one(good, &base, 0, 0, WORDS).0.is_ok());
    assert_eq!(one(good, &base, 1, 1, WORDS).0, Err(malformed(3, 1)));
    assert_eq!(all(good, &base, 4 * WORDS).0, Err(malformed(3, 1)));
    for (column, row) in [(-1, 0), (0, -1), (2, 0), (0, 2), (i32::MIN, i32::MAX), (65_536, 0), (0, 65_537)] {
        assert_eq!(one(good, &base, column, row, WORDS).0, Err(refusal(7)));
    }
    // Half as many words have as many bytes as a narrow record.
    for words in [0, 39, 77, 79, 156] {
        assert_eq!(one(good, &base, -1, 0, words).0, Err(refusal(6)));
    }
    for words in [0, 2 * WORDS, 4 * WORDS - 1, 4 * WORDS + 1, 8 * WORDS] {
        assert_eq!(all(good, &base, words).0, Err(refusal(6)));
    }
    let longer = base.repeat(2);
    for length in [0, 1, 2 * WORDS, 3 * WORDS, 4 * WORDS - 1, 4 * WORDS + 1, 8 * WORDS] {
        assert_eq!(one(good, &longer[..length], -1, 0, 0).0, Err(refusal(5)));
        assert_eq!(all(good, &longer[..length], 0).0, Err(refusal(5)));
    }
    for (at, value, number) in [(4, 1, 4), (5, 8192, 4), (2, 34 + 32, 3), (7, 0, 2), (1, 8, 1), (0, 65_552, 1)] {
        let mut eight = [32, 32, 32, 32, 0, 0, 32, 32];
        eight[at] = value;
        assert_eq!(one(Numbers::from_array(eight), &[], -1, -1, 0).0, Err(refusal(number)));
        assert_eq!(all(Numbers::from_array(eight), &[], 0).0, Err(refusal(number)));
    }
}

/// Outside no record is read by the one-macroblock call, whatever it holds, and
/// all are checked by the picture call; the written record is a wide one.
#[test]
fn outside() {
    let numbers = Numbers::from_array([16, 16, 32, 32, 0, 0, 48, 32]);
    let mut expected = wide(intra());
    expected[0] = 5;
    let outside = Answer {
        kind: Kind::Outside,
        class: Class::Corner,
        first_column: 0,
        first_row: 0,
        detail: 0,
        fed: Fed::default(),
    };
    for word in [i32::MIN, -1, 5, 65_536, 131_072, i32::MAX] {
        for row in 0..2 {
            assert_eq!(one(numbers, &[word; WORDS], 2, row, WORDS), (Ok(outside), expected.to_vec()));
        }
        assert_eq!(all(numbers, &[word; WORDS], 6 * WORDS).0, Err(malformed(0, 1)));
    }
    let mut record = wide_whole([0, -1], [MOST, LEAST, 0, 0]);
    record[77] = 15;
    let (result, out) = all(numbers, &record, 6 * WORDS);
    assert_eq!(result, Ok(Counts { inherited: 4, intra: 0, outside: 2 }));
    for (words, (column, _)) in out.chunks(WORDS).zip(places(numbers)) {
        let mut inside = wide_whole([0, -1], [262_142, -262_144, 0, 0]);
        inside[77] = 15;
        assert_eq!(words, if column == 2 { expected } else { inside });
    }
}

/// Intra records among wide ones, by the bench example: seven blocks are
/// filled, nine make the answer intra.
#[test]
fn intra_records() {
    let numbers = Numbers::from_array(OVER_FOUR);
    let center = |kind: Kind, detail: u8| {
        let fed = Fed { first: 1, right: 3, below: 3, diagonal: 9 };
        Ok(Answer { kind, class: Class::Center, first_column: 0, first_row: 0, detail, fed })
    };
    let motion = wide_whole([2, -1], [MOST, LEAST, 0, 0]);
    let none = wide(intra());
    let mut none_with_detail = none;
    none_with_detail[77] = 0b1000;

    let base = [none, none, none, motion].concat();
    let expected = (center(Kind::Inherited(Split::S16x16), 0), motion.to_vec());
    assert_eq!(one(numbers, &base, 1, 1, WORDS), expected);
    let base = [motion, motion, motion, none].concat();
    assert_eq!(one(numbers, &base, 1, 1, WORDS), (center(Kind::Intra, 0), none.to_vec()));
    let base = [motion, motion, motion, none_with_detail].concat();
    assert_eq!(one(numbers, &base, 1, 1, WORDS), (center(Kind::Intra, 8), none_with_detail.to_vec()));
    let (result, out) = all(numbers, &base, 9 * WORDS);
    assert_eq!(result.unwrap().intra, 1);
    assert_eq!(out[4 * WORDS..5 * WORDS], none_with_detail);
}

/// Over random pictures of wide vectors: the picture and the single calls
/// agree, and records that are not named may hold anything.
#[test]
fn picture_and_single() {
    let mut random = Random(12);
    let mut seen = Counts::default();
    for round in 0..200 {
        let numbers = geometry(&mut random);
        let kinds: &[i16] = [&[0, 1, 2, 3, 4][..], &[1, 4], &[0, 0, 4], &[0, 1]][round % 4];
        let base = wide_base_of(&mut random, base_records(numbers), kinds, MOST);
        let (counts, out) = all(numbers, &base, full_records(numbers) * WORDS);
        let mut singly = Counts::default();
        for ((column, row), record) in places(numbers).zip(out.chunks(WORDS)) {
            let (result, words) = one(numbers, &base, column, row, WORDS);
            let answer = result.unwrap();
            assert_eq!(words, record);
            assert_eq!(i32::from(answer.type_number()), record[0]);
            singly.add(answer.kind);

            let (columns, rows) = match answer.class {
                _ if answer.kind == Kind::Outside => (0, 0),
                Class::Corner => (1, 1),
                Class::Vert => (2, 1),
                Class::Hori => (1, 2),
                Class::Center => (2, 2),
            };
            let mut other = base.clone();
            for (at, words) in other.chunks_mut(WORDS).enumerate() {
                let base_width = numbers.base_width / 16;
                let (x, y) = (at as i32 % base_width - answer.first_column, at as i32 / base_width - answer.first_row);
                if !((0..columns).contains(&x) && (0..rows).contains(&y)) {
                    words.iter_mut().for_each(|word| *word = random.below(u32::MAX) as i32);
                }
            }
            assert_eq!(one(numbers, &other, column, row, WORDS), (Ok(answer), record.to_vec()));
        }
        assert_eq!(counts, Ok(singly));
        seen.inherited += singly.inherited;
        seen.intra += singly.intra;
        seen.outside += singly.outside;
    }
    assert!(seen.inherited > 500 && seen.intra > 200 && seen.outside > 500, "{seen:?}");
}

/// Sets one to three words of a base, seldom as they should be; vectors are
/// taken from `vectors`.
fn spoil(random: &mut Random, base: &mut [i16], vectors: impl Fn(&mut Random) -> i16) {
    for _ in 0..random.within(1, 3) {
        let record = random.below((base.len() / WORDS) as u32) as usize * WORDS;
        let at = match random.below(5) {
            0 => 0,
            1 => random.within(1, 4),
            2 => random.within(5, 12),
            3 => random.within(13, 76),
            _ => 77,
        } as usize;
        base[record + at] = match (at, random.below(3)) {
            (13..77, _) => vectors(random),
            (_, 0) => random.within(-32_768, 32_767) as i16,
            _ => random.within(-2, 33) as i16,
        };
    }
}

/// How many bases broke each rule first, and at 0 how many none.
type Rules = [u32; 8];

fn note(rules: &mut Rules, result: &Result<Counts, Refusal>) {
    rules[result.err().map_or(0, |refusal| refusal.rule) as usize] += 1;
}

/// A narrow base gives the same through both widths, sound or not: words,
/// answers, counts and refusals, of the picture and of each macroblock.
#[test]
fn narrow_through_both() {
    let mut random = Random(1212);
    let mut rules = Rules::default();
    let mut seen = Counts::default();
    for round in 0..1000 {
        let numbers = geometry(&mut random);
        let kinds: &[i16] = [&[0, 1, 2, 3, 4][..], &[1, 4], &[0, 0, 4], &[0, 1]][round % 4];
        let span = if random.below(2) == 0 { 1 } else { 8191 };
        let mut base = base_of(&mut random, base_records(numbers), kinds, span);
        if round % 2 == 1 {
            spoil(&mut random, &mut base, |random| random.within(-8192, 8191) as i16);
        }
        let base_wide = widened(&base);
        let (narrow, words) = narrow_all(numbers, &base);
        let (wide, wide_words) = all(numbers, &base_wide, full_records(numbers) * WORDS);
        assert_eq!(wide, narrow);
        assert!(wide.is_err() || wide_words == widened(&words));
        note(&mut rules, &wide);
        for (column, row) in places(numbers) {
            let (narrow, words) = narrow_one(numbers, &base, column, row);
            let (wide, wide_words) = one(numbers, &base_wide, column, row, WORDS);
            assert_eq!(wide, narrow);
            if let Ok(answer) = wide {
                assert_eq!(wide_words, widened(&words));
                seen.add(answer.kind);
            }
        }
    }
    assert!(rules.iter().all(|&met| met > 5), "{rules:?}");
    assert!(seen.inherited > 1000 && seen.intra > 1000 && seen.outside > 1000, "{seen:?}");
}

/// A vector word drawn out as the limits are: the ends go to the ends, one past
/// to one past, 0 to 0, and different words to different ones.
fn drawn_out(v: i16) -> i32 {
    let v = i32::from(v);
    16 * v + (v & 15)
}

/// A base and the same with its vectors drawn out break the same rules, or have
/// the same answers and counts, and where a narrow word comes from some vector,
/// the wide one comes from that vector drawn out. So filling, merging,
/// copying and splitting do not see how wide a word is.
#[test]
fn drawn_out_bases() {
    assert_eq!([-8193, -8192, 0, 8191, 8192].map(drawn_out), [LEAST - 1, LEAST, 0, MOST, MOST + 1]);
    let mut random = Random(16);
    let mut rules = Rules::default();
    let mut seen = Counts::default();
    let mut different = 0;
    for round in 0..600 {
        let numbers = geometry(&mut random);
        let kinds: &[i16] = [&[0, 1, 2, 3, 4][..], &[1, 4], &[0, 0, 4], &[0, 1]][round % 4];
        let span = [1, 300, 8191][random.below(3) as usize];
        let mut base = base_of(&mut random, base_records(numbers), kinds, span);
        if round % 2 == 1 {
            let vectors = [-32_768, -8194, -8193, -8192, -1, 0, 0, 1, 8191, 8192, 8193, 32_767];
            spoil(&mut random, &mut base, |random| vectors[random.below(vectors.len() as u32) as usize]);
        }
        let mut base_wide = widened(&base);
        for (record, from) in base_wide.chunks_mut(WORDS).zip(base.chunks(WORDS)) {
            record[13..77].iter_mut().zip(&from[13..77]).for_each(|(word, &v)| *word = drawn_out(v));
        }

        // Where a scaled narrow word came from, by axis.
        let from = |axis: usize| {
            let (b, s) = axes(numbers)[axis];
            move |word: i16| -> i16 {
                // Words rise with what they came from.
                let (mut low, mut high) = (-8192i32, 8191);
                while low < high {
                    let middle = (low + high).div_euclid(2);
                    if scaled(middle, b, s) < word.into() {
                        low = middle + 1;
                    } else {
                        high = middle;
                    }
                }
                assert_eq!(scaled(low, b, s), word.into());
                low as i16
            }
        };
        let from = [from(0), from(1)];

        let (counts, picture_words) = all(numbers, &base_wide, full_records(numbers) * WORDS);
        assert_eq!(counts, narrow_all(numbers, &base).0);
        note(&mut rules, &counts);
        for ((column, row), record) in places(numbers).zip(picture_words.chunks(WORDS)) {
            let (narrow, words) = narrow_one(numbers, &base, column, row);
            let (wide, wide_words) = one(numbers, &base_wide, column, row, WORDS);
            assert_eq!(wide, narrow);
            let Ok(answer) = wide else { continue };
            seen.add(answer.kind);
            assert_eq!((&wide_words[..13], wide_words[77]), (&widened(&words[..13])[..], words[77].into()));
            let sources: Vec<_> = (0..64).map(|n| drawn_out(from[n % 2](words[13 + n]))).collect();
            assert_eq!(wide_words[13..77], scaled_by_axis(&sources, numbers));
            different += (wide_words[13..77] != widened(&words[13..77])) as u32;
            assert!(counts.is_err() || wide_words == record);
        }
    }
    assert!(rules.iter().all(|&met| met > 3), "{rules:?}");
    assert!(seen.inherited > 1000 && seen.intra > 500 && seen.outside > 1000, "{seen:?}");
    assert!(different > 1000, "{different}");
}
