//! The one-macroblock call, the picture call and the session.

mod common;

use common::*;
use second::geometry::Geometry;
use second::map::reading;
use second::{macroblock, picture, Answer, Class, Counts, Fed, Kind, Numbers, Refusal, Session, Split, WORDS};

const UNTOUCHED: i16 = -12_345;

const fn fed([first, right, below, diagonal]: [u8; 4]) -> Fed {
    Fed { first, right, below, diagonal }
}

const OUTSIDE: Answer = Answer {
    kind: Kind::Outside,
    class: Class::Corner,
    first_column: 0,
    first_row: 0,
    detail: 0,
    fed: fed([0, 0, 0, 0]),
};

/// The call's result; refused, it has left the words as they were.
fn one(numbers: Numbers, base: &[i16], column: i32, row: i32, words: usize) -> (Result<Answer, Refusal>, Vec<i16>) {
    let mut out = vec![UNTOUCHED; words];
    let result = macroblock(numbers, base, column, row, &mut out);
    if result.is_err() {
        assert!(out.iter().all(|&word| word == UNTOUCHED));
    }
    (result, out)
}

fn refusal(number: u32) -> Refusal {
    Refusal { number, place: 0, rule: 0 }
}

fn malformed(place: u32, rule: u32) -> Refusal {
    Refusal { number: 8, place, rule }
}

/// Bench example: B S 32, o 4, both axes, macroblock at 16,16.
#[test]
fn bench_center() {
    let numbers = Numbers::from_array([32, 32, 32, 32, 4, 4, 48, 48]);
    let motion = whole([2, -1], [5, -7, 0, 0]);

    let center = |kind: Kind| {
        let fed = fed([1, 3, 3, 9]);
        Answer { kind, class: Class::Center, first_column: 0, first_row: 0, detail: 0, fed }
    };

    // Seven intra blocks, which count for what they read though they are filled.
    let base = [intra(), intra(), intra(), motion].concat();
    let (result, out) = one(numbers, &base, 1, 1, WORDS);
    assert_eq!(result, Ok(center(Kind::Inherited(Split::S16x16))));
    assert_eq!(out, motion);

    let base = [motion, motion, motion, intra()].concat();
    let (result, out) = one(numbers, &base, 1, 1, WORDS);
    assert_eq!(result, Ok(center(Kind::Intra)));
    assert_eq!(out, intra());
}

/// Bench examples for one axis, seen in the answers.
#[test]
fn bench_axes_in_answers() {
    let ask = |b: i32, s: i32, o: i32, column: i32| {
        let numbers = Numbers::from_array([b, 16, s, 16, o, 0, 96, 16]);
        let base = base_of(&mut Random(1), (b / 16) as usize, &[1, 2, 3, 4], 8191);
        let answer = one(numbers, &base, column, 0, WORDS).0.unwrap();
        (answer.class, answer.first_column, answer.kind != Kind::Outside)
    };
    assert_eq!(ask(32, 48, 0, 0), (Class::Corner, 0, true));
    assert_eq!(ask(32, 48, 0, 1), (Class::Vert, 0, true));
    assert_eq!(ask(32, 48, 0, 2), (Class::Corner, 1, true));
    assert_eq!(ask(16, 16, 0, 0), (Class::Corner, 0, true));
    assert_eq!(ask(32, 64, 6, 0), (Class::Corner, 0, false));
    assert_eq!(ask(32, 64, 6, 1), (Class::Corner, 0, true));
    assert_eq!(ask(32, 64, 6, 2), (Class::Vert, 0, true));
}

/// Bench example, after E3: scaled words, seen in a written record.
#[test]
fn bench_scaling_in_records() {
    let numbers = Numbers::from_array([32, 32, 48, 64, 0, 0, 16, 16]);
    let base = whole([0, 1], [3, 8191, -3, -8192]).repeat(4);
    let (_, out) = one(numbers, &base, 0, 0, WORDS);
    assert_eq!(out, whole([0, 1], [5, 16382, -4, -16384]));
}

/// E3's rule in all calls: a base of one motion gives that motion, scaled by
/// each word's axis, wherever the window is.
#[test]
fn one_motion_scaled() {
    // The remainder is not negative, so this rounds down.
    let scaled = |v: i16, b: i32, s: i32| {
        let scale = (i64::from(s) * 65_536 + i64::from(b / 2)).div_euclid(b.into());
        (i64::from(v) * scale + 32_768).div_euclid(65_536) as i16
    };
    let try_one = |numbers: Numbers, vector: [i16; 4]| {
        let x = |v: i16| scaled(v, numbers.base_width, numbers.scaled_width);
        let y = |v: i16| scaled(v, numbers.base_height, numbers.scaled_height);
        let expected = [x(vector[0]), y(vector[1]), x(vector[2]), y(vector[3])];
        let base = whole([0, 1], vector).repeat(base_records(numbers));
        let mut out = vec![UNTOUCHED; full_records(numbers) * WORDS];
        let counts = picture(numbers, &base, &mut out).unwrap();
        let mut session = Session::fresh().begin(numbers).0;
        for (address, record) in out.chunks(WORDS).enumerate() {
            if record[0] != 5 {
                assert_eq!(record, whole([0, 1], expected));
            }
            let width = numbers.full_width as usize / 16;
            let (_, single) = one(numbers, &base, (address % width) as i32, (address / width) as i32, WORDS);
            let mut next = [UNTOUCHED; WORDS];
            session = session.next(&base, &mut next).0;
            assert_eq!((&single[..], &next[..]), (record, record));
        }
        (counts.inherited, expected)
    };

    let numbers = Numbers::from_array([80, 112, 156, 130, 0, 0, 160, 144]);
    assert_eq!(try_one(numbers, [10, -8179, -10, 8179]), (9 * 8, [19, -9494, -19, 9494]));
    let numbers = Numbers::from_array([112, 80, 130, 156, 0, 0, 144, 160]);
    assert_eq!(try_one(numbers, [-8179, 10, 8179, -10]), (8 * 9, [-9494, 19, 9494, -19]));

    let mut random = Random(3);
    let mut inherited = 0;
    for round in 0..300 {
        let span = if round % 2 == 0 { 9 } else { 8191 };
        let vector = [0; 4].map(|_| random.within(-span - 1, span) as i16);
        inherited += try_one(geometry(&mut random), vector).0;
    }
    assert!(inherited > 1000, "{inherited}");
}

#[test]
fn refusals_in_order() {
    let good = Numbers::from_array([32, 32, 32, 32, 0, 0, 32, 32]);
    let mut base = base_of(&mut Random(2), 4, &[1], 8191);
    assert!(one(good, &base, 1, 1, WORDS).0.is_ok());
    base[3 * WORDS] = 9;
    let bad_record = base.clone();
    assert_eq!(one(good, &bad_record, 1, 1, WORDS).0, Err(malformed(3, 1)));
    for (column, row) in [(-1, 0), (0, -1), (2, 0), (0, 2), (i32::MIN, i32::MAX), (i32::MAX, 0)] {
        assert_eq!(one(good, &bad_record, column, row, WORDS).0, Err(refusal(7)));
    }
    for words in [0, 77, 79, 156] {
        assert_eq!(one(good, &bad_record, -1, 0, words).0, Err(refusal(6)));
    }
    for length in [0, 1, 4 * WORDS - 1, 3 * WORDS] {
        assert_eq!(one(good, &bad_record[..length], -1, 0, 0).0, Err(refusal(5)));
    }
    for (at, value, number) in [(4, 1, 4), (2, 34 + 32, 3), (7, 0, 2), (1, 8, 1)] {
        let mut eight = [32, 32, 32, 32, 0, 0, 32, 32];
        eight[at] = value;
        assert_eq!(one(Numbers::from_array(eight), &[], -1, -1, 0).0, Err(refusal(number)));
        let mut out = [];
        assert_eq!(picture(Numbers::from_array(eight), &[], &mut out), Err(refusal(number)));
    }
    // The picture call: 5, 6, 8.
    let mut out = vec![UNTOUCHED; 4 * WORDS];
    assert_eq!(picture(good, &bad_record[1..], &mut out), Err(refusal(5)));
    assert_eq!(picture(good, &bad_record, &mut out[1..]), Err(refusal(6)));
    assert_eq!(picture(good, &bad_record, &mut out), Err(malformed(3, 1)));
    assert!(out.iter().all(|&word| word == UNTOUCHED));
}

/// The lowest malformed address among those read, whatever rules are broken.
#[test]
fn places_of_malformed_records() {
    let numbers = Numbers::from_array([32, 32, 32, 32, 4, 4, 48, 48]);
    let mut base = base_of(&mut Random(3), 4, &[1], 8191);
    base[2 * WORDS + 1] = 1;
    base[3 * WORDS] = 7;
    assert_eq!(one(numbers, &base, 1, 1, WORDS).0, Err(malformed(2, 2)));
    // Outside the window no record is read.
    let (result, out) = one(numbers, &base, 0, 0, WORDS);
    assert_eq!(result, Ok(OUTSIDE));
    let mut outside = intra();
    outside[0] = 5;
    assert_eq!(out, outside);
    // The picture checks all, even with the window off the picture.
    let away = Numbers::from_array([32, 32, 32, 32, 400, 4, 48, 48]);
    let mut words = vec![UNTOUCHED; 9 * WORDS];
    assert_eq!(picture(away, &base, &mut words), Err(malformed(2, 2)));
    assert!(words.iter().all(|&word| word == UNTOUCHED));
}

/// The pieces of a written record's split have one motion each.
fn pieces_are_even(out: &[i16]) -> bool {
    (0..16).all(|b| {
        let q = b / 8 * 2 + b % 4 / 2;
        let (width, height) = match (out[0], out[1 + q]) {
            (1, 0) => (16, 16),
            (2, 0) => (16, 8),
            (3, 0) => (8, 16),
            (4, 0) => (8, 8),
            (4, 1) => (8, 4),
            (4, 2) => (4, 8),
            (4, 3) => (4, 4),
            _ => return false,
        };
        let lead = b / 4 * 4 / height * height / 4 * 4 + b % 4 * 4 / width * width / 4;
        let lead_q = lead / 8 * 2 + lead % 4 / 2;
        out[13 + 4 * b..17 + 4 * b] == out[13 + 4 * lead..17 + 4 * lead]
            && out[5 + 2 * q..7 + 2 * q] == out[5 + 2 * lead_q..7 + 2 * lead_q]
    })
}

/// The detail of an answer inside the window, block by block.
fn detail_by_blocks(numbers: Numbers, base: &[i16], column: usize, row: usize) -> u8 {
    let geometry = Geometry::new(numbers).unwrap();
    let (x, y) = (reading(&geometry.x, column).unwrap(), reading(&geometry.y, row).unwrap());
    let mut bits = 0;
    for b in 0..16 {
        let (i, j) = (b % 4, b / 4);
        let address = (y.first + y.step[j] as usize) * geometry.x.base_count() + x.first + x.step[i] as usize;
        let base_quadrant = y.block[j] / 2 * 2 + x.block[i] / 2;
        if base[address * WORDS + 77] >> base_quadrant & 1 == 1 {
            bits |= 1 << (j / 2 * 2 + i / 2);
        }
    }
    bits
}

/// Over random pictures: the picture, the single calls and a session agree;
/// records that are not named may hold anything; windows, pieces and details
/// are right.
#[test]
fn picture_single_and_session() {
    let mut random = Random(77);
    let mut seen = Counts::default();
    for round in 0..600 {
        let numbers = geometry(&mut random);
        let kinds: &[i16] = [&[0, 1, 2, 3, 4][..], &[1, 4], &[0, 0, 4], &[0, 1]][round % 4];
        let span = if random.below(2) == 0 { 1 } else { 8191 };
        let base = base_of(&mut random, base_records(numbers), kinds, span);
        let mut out = vec![UNTOUCHED; full_records(numbers) * WORDS];
        let counts = picture(numbers, &base, &mut out).unwrap();
        let mut singly = Counts::default();
        let (mut session, begun) = Session::fresh().begin(numbers);
        assert_eq!(begun, Ok(()));
        for (address, record) in out.chunks(WORDS).enumerate() {
            let width = numbers.full_width as usize / 16;
            let (column, row) = ((address % width) as i32, (address / width) as i32);
            let (result, words) = one(numbers, &base, column, row, WORDS);
            let answer = result.unwrap();
            assert_eq!(words, record);
            assert_eq!(answer.type_number(), record[0]);
            singly.add(answer.kind);

            let mut words = [UNTOUCHED; WORDS];
            let (handed_back, next) = session.next(&base, &mut words);
            session = handed_back;
            assert_eq!((next, &words[..]), (Ok(answer), record));

            let inside = |p: i32, o: i32, s: i32| o <= p && p + 16 <= o + s;
            let is_inside = inside(16 * column, numbers.offset_x, numbers.scaled_width)
                && inside(16 * row, numbers.offset_y, numbers.scaled_height);
            assert_eq!(answer.kind != Kind::Outside, is_inside);
            let detail = if is_inside { detail_by_blocks(numbers, &base, column as usize, row as usize) } else { 0 };
            assert_eq!((answer.detail, record[77]), (detail, detail.into()));
            if let Kind::Inherited(split) = answer.kind {
                assert!(pieces_are_even(record));
                assert_eq!((split.number(), &split.sub_numbers()[..]), (record[0], &record[1..5]));
            }

            // Anything in the records that are not named.
            let (columns, rows) = match answer.class {
                _ if answer.kind == Kind::Outside => (0, 0),
                Class::Corner => (1, 1),
                Class::Vert => (2, 1),
                Class::Hori => (1, 2),
                Class::Center => (2, 2),
            };
            let mut other = base.clone();
            for (at, words) in other.chunks_mut(WORDS).enumerate() {
                let base_width = numbers.base_width / 16;
                let (x, y) = (at as i32 % base_width - answer.first_column, at as i32 / base_width - answer.first_row);
                if !((0..columns).contains(&x) && (0..rows).contains(&y)) {
                    words.iter_mut().for_each(|word| *word = random.within(-32768, 32767) as i16);
                }
            }
            let (result, words) = one(numbers, &other, column, row, WORDS);
            assert_eq!((result, &words[..]), (Ok(answer), record));
        }
        assert_eq!(counts, singly);
        assert_eq!(counts.sum() as usize, full_records(numbers));
        let (session, totals) = session.totals();
        assert_eq!(totals, counts);
        assert_eq!(session.next(&base, &mut [0; WORDS]).1, Err(refusal(21)));
        seen.inherited += counts.inherited;
        seen.intra += counts.intra;
        seen.outside += counts.outside;
    }
    assert!(seen.inherited > 500 && seen.intra > 500 && seen.outside > 500, "{seen:?}");
}

/// The largest counts: 65,536 macroblocks.
#[test]
fn largest_picture() {
    let numbers = Numbers::from_array([4096, 4096, 8192, 8192, 0, 0, 4096, 4096]);
    let base = whole([0, -1], [1, 1, 0, 0]).repeat(65_536);
    let mut out = vec![0; 65_536 * WORDS];
    assert_eq!(picture(numbers, &base, &mut out), Ok(Counts { inherited: 65_536, intra: 0, outside: 0 }));
    let mut bad = base.clone();
    bad[65_535 * WORDS + 76] = 1;
    assert_eq!(picture(numbers, &bad, &mut out), Err(malformed(65_535, 5)));
    bad[65_535 * WORDS + 76] = 0;
    bad[65_535 * WORDS + 77] = 16;
    assert_eq!(picture(numbers, &bad, &mut out), Err(malformed(65_535, 7)));
}

/// The answer of one macroblock over four base macroblocks, with its words.
fn over_four(offset: i32, base: [[i16; WORDS]; 4]) -> (Answer, Vec<i16>) {
    let numbers = Numbers::from_array([32, 32, 32, 32, offset, offset, 48, 48]);
    let (result, out) = one(numbers, &base.concat(), 1, 1, WORDS);
    let answer = result.unwrap();
    assert_eq!((answer.class, answer.first_column, answer.first_row), (Class::Center, 0, 0));
    assert_eq!(out[77], answer.detail.into());
    (answer, out)
}

/// A base macroblock's bits go on by quadrant, not by macroblock.
#[test]
fn detail_by_quadrant() {
    let motion = whole([0, -1], [4, -8, 0, 0]);
    let twice = Numbers::from_array([16, 16, 32, 32, 0, 0, 32, 32]);
    let same = Numbers::from_array([16, 16, 16, 16, 0, 0, 16, 16]);
    for detail in 0..=15 {
        let base = with_detail(motion, detail);
        // Doubled, each macroblock reads one quadrant.
        for quadrant in 0..4 {
            let (result, out) = one(twice, &base, quadrant % 2, quadrant / 2, WORDS);
            let expected = if detail >> quadrant & 1 == 1 { 15 } else { 0 };
            assert_eq!((result.unwrap().detail, out[77]), (expected, expected.into()));
        }
        // At its own size, each quadrant reads the same one.
        let (result, out) = one(same, &base, 0, 0, WORDS);
        assert_eq!((result.unwrap().detail, &out[..]), (detail as u8, &base[..]));
    }
    // With a window at 8, each quadrant reads the near one of its macroblock.
    let with = |details: [i16; 4]| over_four(8, details.map(|detail| with_detail(motion, detail))).0.detail;
    assert_eq!(with([0b1000, 0b0100, 0b0010, 0b0001]), 0b1111);
    assert_eq!(with([0b0111, 0b1011, 0b1101, 0b1110]), 0b0000);
    assert_eq!(with([0b1000, 0, 0, 0b0001]), 0b1001);
    assert_eq!(with([0, 0b1111, 0, 0]), 0b0010);
    // At 4 a quadrant reads several: the first column and row of blocks lie in
    // macroblocks 0, 1 and 2.
    let with = |details: [i16; 4]| over_four(4, details.map(|detail| with_detail(motion, detail))).0.detail;
    assert_eq!(with([0b1111, 0, 0, 0]), 0b0001);
    assert_eq!(with([0, 0b0100, 0, 0]), 0b0011);
    assert_eq!(with([0, 0b1000, 0, 0]), 0b0010);
    assert_eq!(with([0, 0, 0b0010, 0]), 0b0101);
    assert_eq!(with([0, 0, 0, 0b0001]), 0b1111);
    assert_eq!(with([0, 0, 0, 0b1000]), 0b1000);
    assert_eq!(with([0b0111, 0b0011, 0b0101, 0]), 0b0000);
}

/// The quadrants of intra macroblocks count, and those that give their motion
/// to them do not count in their place. Intra answers have a detail too.
#[test]
fn detail_of_intra() {
    let motion = whole([0, -1], [4, -8, 0, 0]);
    let inherited = Kind::Inherited(Split::S16x16);
    // Quadrant 0 reads macroblock 0 alone and is filled from quadrant 1.
    for (detail, expected) in [(0b0000, 0b1110), (0b0111, 0b1110), (0b1000, 0b1111)] {
        let others = with_detail(motion, 15);
        let (answer, out) = over_four(8, [with_detail(intra(), detail), others, others, others]);
        assert_eq!((answer.kind, answer.detail), (inherited, expected));
        assert_eq!(out, with_detail(motion, expected.into()));
    }
    // Block 0 alone reads macroblock 0 and is filled diagonally.
    let (answer, out) = over_four(4, [with_detail(intra(), 0b1000), intra(), intra(), motion]);
    assert_eq!((answer.kind, answer.detail), (inherited, 0b0001));
    assert_eq!(out, with_detail(motion, 0b0001));
    // Intra, by intra macroblocks' bits and by others'.
    let (answer, out) = over_four(8, [with_detail(intra(), 8), intra(), intra(), with_detail(motion, 1)]);
    assert_eq!((answer.kind, answer.detail), (Kind::Intra, 0b1001));
    assert_eq!(out, with_detail(intra(), 0b1001));
    let (answer, out) = over_four(8, [8, 4, 2, 1].map(|detail| with_detail(intra(), detail)));
    assert_eq!((answer.kind, answer.detail), (Kind::Intra, 0b1111));
    assert_eq!(out, with_detail(intra(), 15));
    let (answer, out) = over_four(8, [7, 11, 13, 14].map(|detail| with_detail(intra(), detail)));
    assert_eq!((answer.kind, answer.detail), (Kind::Intra, 0b0000));
    assert_eq!(out, intra());
}

/// Outside it is 0, whatever the base has; words that were there are gone.
#[test]
fn detail_outside() {
    let numbers = Numbers::from_array([16, 16, 32, 32, 0, 0, 48, 32]);
    let mut outside = intra();
    outside[0] = 5;
    for record in [with_detail(whole([0, -1], [4, -8, 0, 0]), 15), with_detail(intra(), 15)] {
        let mut words = vec![UNTOUCHED; 6 * WORDS];
        picture(numbers, &record, &mut words).unwrap();
        let details: Vec<_> = words.chunks(WORDS).map(|words| words[77]).collect();
        assert_eq!(details, [15, 15, 0, 15, 15, 0]);
        for row in 0..2 {
            let (result, out) = one(numbers, &record, 2, row, WORDS);
            assert_eq!(result, Ok(OUTSIDE));
            assert_eq!(out, outside);
        }
    }
}

/// The details of a base take no part in anything else: with others, only the
/// answer's detail and word 77 may differ.
#[test]
fn detail_apart() {
    let mut random = Random(78);
    let mut split_with_bits = 0;
    for _ in 0..200 {
        let numbers = geometry(&mut random);
        let base = base_of(&mut random, base_records(numbers), &[0, 1, 2, 3, 4], 2);
        let picture_with = |detail: i16| {
            let mut base = base.clone();
            base.chunks_mut(WORDS).for_each(|record| record[77] = detail);
            let mut out = vec![UNTOUCHED; full_records(numbers) * WORDS];
            (picture(numbers, &base, &mut out), out)
        };
        let mut out = vec![UNTOUCHED; full_records(numbers) * WORDS];
        let counts = picture(numbers, &base, &mut out);
        let (none_counts, none) = picture_with(0);
        let (all_counts, all) = picture_with(15);
        assert_eq!((none_counts, all_counts), (counts, counts));
        for ((record, none), all) in out.chunks(WORDS).zip(none.chunks(WORDS)).zip(all.chunks(WORDS)) {
            assert_eq!((&none[..77], &all[..77]), (&record[..77], &record[..77]));
            assert_eq!((none[77], all[77]), (0, if record[0] == 5 { 0 } else { 15 }));
            split_with_bits += (record[0] == 1 && ![0, 15].contains(&record[77])) as u32;
        }
    }
    assert!(split_with_bits > 50, "{split_with_bits}");
}

/// Rule 7 in the calls: after the other rules of a record, but the lowest
/// address goes before all rules.
#[test]
fn malformed_details() {
    let numbers = Numbers::from_array([32, 32, 32, 32, 4, 4, 48, 48]);
    let sound = whole([0, -1], [4, -8, 0, 0]).repeat(4);
    let refused = |words: &[(usize, usize, i16)]| {
        let mut base = sound.clone();
        words.iter().for_each(|&(address, at, word)| base[address * WORDS + at] = word);
        let (single, _) = one(numbers, &base, 1, 1, WORDS);
        let mut out = vec![UNTOUCHED; 9 * WORDS];
        let all = picture(numbers, &base, &mut out);
        assert_eq!(single.map(|_| ()), all.map(|_| ()));
        assert!(all.is_ok() || out.iter().all(|&word| word == UNTOUCHED));
        all.err()
    };
    assert_eq!(refused(&[(0, 77, 15), (3, 77, 15)]), None);
    for bad in [16, -1, i16::MAX, i16::MIN] {
        assert_eq!(refused(&[(2, 77, bad)]), Some(malformed(2, 7)));
        assert_eq!(refused(&[(2, 77, bad), (2, 73, 5)]), Some(malformed(2, 6)));
        assert_eq!(refused(&[(2, 77, bad), (2, 76, 5)]), Some(malformed(2, 5)));
        assert_eq!(refused(&[(1, 77, bad), (2, 0, 9)]), Some(malformed(1, 7)));
        assert_eq!(refused(&[(3, 77, bad), (2, 0, 9)]), Some(malformed(2, 1)));
    }
    // Records that are not read are not checked: here only the first is.
    let numbers = Numbers::from_array([32, 32, 64, 64, 0, 0, 64, 64]);
    let mut base = sound.clone();
    base[3 * WORDS + 77] = 16;
    assert!(one(numbers, &base, 0, 0, WORDS).0.is_ok());
    assert_eq!(one(numbers, &base, 3, 3, WORDS).0, Err(malformed(3, 7)));
}

/// A picture's eight numbers, column and row, and what fed the macroblock there.
type FedFact = ([i32; 8], [i32; 2], [u8; 4]);

const FED_FACTS: [FedFact; 20] = [
    // A base one macroblock wide: its macroblocks at right and below would have
    // one address.
    ([16, 48, 16, 86, 16, 30, 48, 64], [1, 3], [12, 0, 4, 0]),
    ([16, 48, 16, 86, 16, 30, 48, 64], [1, 2], [16, 0, 0, 0]),
    ([16, 48, 16, 86, 16, 30, 48, 64], [2, 0], [0, 0, 0, 0]),
    ([32, 48, 32, 86, 16, 0, 48, 48], [2, 1], [12, 0, 4, 0]),
    // All four, in unlike and in like parts.
    ([32, 32, 32, 64, 20, -22, 112, 32], [2, 0], [3, 9, 1, 3]),
    ([32, 32, 32, 64, 20, -22, 112, 32], [2, 1], [4, 12, 0, 0]),
    ([32, 32, 32, 64, 20, -22, 112, 32], [6, 0], [0, 0, 0, 0]),
    ([48, 48, 72, 72, 0, 0, 32, 48], [1, 1], [4, 4, 4, 4]),
    ([48, 48, 72, 72, 0, 0, 32, 48], [0, 1], [8, 0, 8, 0]),
    ([48, 48, 72, 72, 0, 0, 32, 48], [1, 2], [8, 8, 0, 0]),
    ([48, 48, 72, 72, 0, 0, 32, 48], [0, 0], [16, 0, 0, 0]),
    // Windows that begin before the picture, or further in.
    ([48, 48, 72, 72, -18, 16, 96, 112], [0, 4], [4, 12, 0, 0]),
    ([48, 48, 72, 72, -18, 16, 96, 112], [2, 2], [8, 0, 8, 0]),
    ([48, 48, 72, 72, -18, 16, 96, 112], [4, 5], [0, 0, 0, 0]),
    ([32, 32, 64, 48, -36, 30, 48, 80], [0, 3], [4, 0, 12, 0]),
    ([32, 32, 64, 48, -36, 30, 48, 80], [1, 2], [0, 0, 0, 0]),
    ([48, 16, 96, 32, 16, 0, 128, 64], [6, 1], [16, 0, 0, 0]),
    // Outside by its row, or by its column, alone.
    ([16, 16, 24, 16, 16, 0, 32, 32], [1, 0], [16, 0, 0, 0]),
    ([16, 16, 24, 16, 16, 0, 32, 32], [1, 1], [0, 0, 0, 0]),
    ([16, 16, 24, 32, 0, 0, 48, 32], [1, 0], [0, 0, 0, 0]),
];

/// What fed a macroblock, typed in; the one-macroblock call and a session say
/// it, whatever the base has.
#[test]
fn fed_facts() {
    for (eight, [column, row], counts) in FED_FACTS {
        let numbers = Numbers::from_array(eight);
        for record in [whole([0, -1], [4, -8, 0, 0]), intra()] {
            let base = record.repeat(base_records(numbers));
            let answer = one(numbers, &base, column, row, WORDS).0.unwrap();
            assert_eq!(answer.fed, fed(counts), "{eight:?}, {column} {row}");
            assert_eq!(answer.kind == Kind::Outside, counts == [0; 4]);

            let (mut session, _) = Session::fresh().begin(numbers);
            let mut words = [UNTOUCHED; WORDS];
            for _ in 0..row * (numbers.full_width / 16) + column {
                session = session.next(&base, &mut words).0;
            }
            assert_eq!(session.next(&base, &mut words).1, Ok(answer));
        }
    }
}

/// Over random pictures: sixteen inside, 0 outside, and 0 for a macroblock that
/// the class leaves out. Where each base macroblock has a vector of its own and
/// all have one reference, the written vectors tell what each block read; the
/// counts are those, also on a base that has blocks filled or makes intra.
#[test]
fn fed_by_written_vectors() {
    let mut random = Random(5);
    let (mut classes, mut kinds) = ([0; 4], Counts::default());
    for _ in 0..400 {
        let numbers = geometry(&mut random);
        let scales = Geometry::new(numbers).unwrap().scales;
        let own = |column: i32, row: i32| [64 * column as i16, 64 * row as i16, 0, 0];
        let base_width = numbers.base_width as usize / 16;
        let base: Vec<i16> = (0..base_records(numbers))
            .flat_map(|at| whole([0, -1], own((at % base_width) as i32, (at / base_width) as i32)))
            .collect();
        let other_base = base_of(&mut random, base_records(numbers), &[0, 0, 1, 4], 8191);
        for address in 0..full_records(numbers) {
            let width = numbers.full_width as usize / 16;
            let (column, row) = ((address % width) as i32, (address / width) as i32);
            let (result, out) = one(numbers, &base, column, row, WORDS);
            let answer = result.unwrap();
            let other = one(numbers, &other_base, column, row, WORDS).0.unwrap();
            assert_eq!(other.fed, answer.fed);
            kinds.add(other.kind);
            if answer.kind == Kind::Outside {
                assert_eq!(answer, OUTSIDE);
                continue;
            }

            let count = |right: i32, below: i32| {
                let vector = scales.vector(own(answer.first_column + right, answer.first_row + below));
                out[13..77].chunks(4).filter(|four| *four == vector).count() as u8
            };
            assert_eq!(answer.fed, fed([count(0, 0), count(1, 0), count(0, 1), count(1, 1)]));

            let Fed { first, right, below, diagonal } = answer.fed;
            assert_eq!(first + right + below + diagonal, 16);
            let read = match answer.class {
                Class::Corner => [true, false, false, false],
                Class::Vert => [true, true, false, false],
                Class::Hori => [true, false, true, false],
                Class::Center => [true, true, true, true],
            };
            assert_eq!([first, right, below, diagonal].map(|count| count > 0), read);
            classes[answer.class as usize] += 1;
        }
    }
    assert!(classes.iter().all(|&met| met > 100), "{classes:?}");
    assert!(kinds.inherited > 500 && kinds.intra > 500 && kinds.outside > 500, "{kinds:?}");
}

#[test]
fn session_states() {
    let numbers = Numbers::from_array([16, 16, 32, 32, 0, 0, 48, 32]);
    let bad_numbers = Numbers::from_array([16, 16, 34, 32, 0, 0, 48, 32]);
    let base = whole([0, -1], [4, -8, 0, 0]);
    let mut words = [UNTOUCHED; WORDS];
    let fresh = Session::fresh();

    // Nothing begun.
    let (session, result) = fresh.clone().next(&base, &mut words);
    assert_eq!((&session, result), (&fresh, Err(refusal(20))));
    let (session, result) = session.abandon();
    assert_eq!((&session, result), (&fresh, Err(refusal(20))));
    let (session, result) = session.begin(bad_numbers);
    assert_eq!((&session, result), (&fresh, Err(refusal(3))));
    let (session, totals) = session.totals();
    assert_eq!(totals, Counts::default());

    // Begun: unfinished from the start, and 22 precedes 1 to 4.
    let (session, result) = session.begin(numbers);
    assert_eq!(result, Ok(()));
    let before = session.clone();
    for again in [numbers, bad_numbers] {
        let (after, result) = before.clone().begin(again);
        assert_eq!((&after, result), (&before, Err(refusal(22))));
    }

    // Refused next calls change nothing.
    let (session, result) = session.next(&base[1..], &mut words[1..]);
    assert_eq!((&session, result), (&before, Err(refusal(5))));
    let (session, result) = session.next(&base, &mut words[1..]);
    assert_eq!((&session, result), (&before, Err(refusal(6))));
    let (session, result) = session.next(&with_detail(base, 16), &mut words);
    assert_eq!((&session, result), (&before, Err(malformed(0, 7))));
    let mut broken = base;
    broken[0] = 6;
    let (mut session, result) = session.next(&broken, &mut words);
    assert_eq!((&session, result), (&before, Err(malformed(0, 1))));
    assert_eq!(words, [UNTOUCHED; WORDS]);

    // Two accepted, then abandoned.
    for _ in 0..2 {
        session = session.next(&base, &mut words).0;
    }
    let (session, totals) = session.totals();
    assert_eq!(totals, Counts { inherited: 2, intra: 0, outside: 0 });
    let (session, result) = session.abandon();
    assert_eq!((&session, result), (&fresh, Ok(())));

    // To the end: the third and sixth are outside and read no record.
    let (mut session, _) = session.begin(numbers);
    for address in 0..6 {
        let lent = if address % 3 == 2 { &broken } else { &base };
        let (after, result) = session.next(lent, &mut words);
        assert!(result.is_ok());
        session = after;
    }
    let finished = session.clone();
    words = [UNTOUCHED; WORDS];
    let (session, result) = session.next(&[], &mut words);
    assert_eq!((&session, result), (&finished, Err(refusal(21))));
    let (session, result) = session.abandon();
    assert_eq!((&session, result), (&finished, Err(refusal(21))));
    let (session, result) = session.begin(bad_numbers);
    assert_eq!((&session, result), (&finished, Err(refusal(3))));
    assert_eq!(words, [UNTOUCHED; WORDS]);
    let (session, totals) = session.totals();
    assert_eq!(totals, Counts { inherited: 4, intra: 0, outside: 2 });
    let (session, result) = session.begin(numbers);
    assert_eq!(result, Ok(()));
    assert_eq!(session.totals().1, Counts::default());
}
