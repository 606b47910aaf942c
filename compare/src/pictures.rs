//! Random pictures, and large ones, of either width.

use crate::calls::{Called, Calls};
use crate::lent::Lent;
use compare::generate::{
    base_macroblocks, break_record, detailed, full_macroblocks, geometry, intra, random_rule,
    Eight, Mood,
};
use compare::random::Random;
use second::geometry::Geometry;
use second::map::reading;
use second::record::DETAIL;
use second::{Numbers, WORDS};

/// Column and row of a macroblock.
pub type Position = (i32, i32);

/// All positions of a picture in raster order.
pub fn positions(eight: &Eight) -> Vec<Position> {
    let (columns, rows) = (eight[6] / 16, eight[7] / 16);
    (0..rows)
        .flat_map(|row| (0..columns).map(move |column| (column, row)))
        .collect()
}

/// A position of the picture; if it is outside the window, a second try is made.
pub fn random_position(random: &mut Random, eight: &Eight) -> Position {
    let mut any = || {
        (
            random.within(0, eight[6] / 16 - 1),
            random.within(0, eight[7] / 16 - 1),
        )
    };
    let first = any();
    if named(eight, first).is_empty() {
        any()
    } else {
        first
    }
}

/// The picture call on what must be accepted, and the one-macroblock call for
/// some positions, whose words must be the picture's.
pub fn whole_and_single<W: Called>(
    calls: &mut Calls,
    eight: &Eight,
    base: &Lent<W>,
    singly: &[Position],
) {
    match calls.picture(eight, base, full_macroblocks(eight) * WORDS) {
        Err(number) => calls.differs(|| format!("picture {eight:?}: refused by {number}")),
        Ok(words) => {
            for &(column, row) in singly {
                let address = (row * (eight[6] / 16) + column) as usize;
                let single = calls.single(eight, base, (column, row), WORDS, &[]);
                if single.as_deref() != Ok(&words[address * WORDS..][..WORDS]) {
                    calls.differs(|| {
                        format!("macroblock {column},{row} of {eight:?}: not the picture's words")
                    });
                }
            }
        }
    }
}

/// The addresses of the base records that a macroblock reads.
fn named(eight: &Eight, (column, row): Position) -> Vec<usize> {
    let geometry = Geometry::new(Numbers::from_array(*eight)).expect("accepted");
    let (x, y) = match (
        reading(&geometry.x, column as usize),
        reading(&geometry.y, row as usize),
    ) {
        (Some(x), Some(y)) => (x, y),
        _ => return Vec::new(),
    };
    let rows = y.first..=y.first + y.two as usize;
    let columns = |row: usize| {
        let first = row * geometry.x.base_count() + x.first;
        first..=first + x.two as usize
    };
    rows.flat_map(columns).collect()
}

/// Geometry and base of a random picture, and the generator for what is done
/// with it.
pub fn made<W: Called>(number: u64) -> (Eight, Vec<W>, Random) {
    let mut random = Random::new(number);
    let eight = geometry(&mut random);
    let mood = Mood::<W>::new(&mut random);
    let base = mood.base(&mut random, base_macroblocks(&eight));
    (eight, base, random)
}

/// A random picture as the outside vectors are written: the eight numbers, and
/// a line of words for each base record.
pub fn print<W: Called>(number: u64) {
    let (eight, base, _) = made::<W>(number);
    let line = |words: &[String]| println!("{}", words.join(" "));
    line(&eight.map(|number| number.to_string()));
    for record in base.chunks(WORDS) {
        line(
            &record
                .iter()
                .map(|word| word.number().to_string())
                .collect::<Vec<_>>(),
        );
    }
}

pub fn random<W: Called>(calls: &mut Calls, number: u64) {
    let (eight, base, mut random) = made::<W>(number);
    let random = &mut random;
    let lent = Lent::of(&base);
    let macroblocks = full_macroblocks(&eight);
    let sample = if macroblocks <= 10 || (macroblocks <= 256 && random.one_in(16)) {
        positions(&eight)
    } else {
        (0..8).map(|_| random_position(random, &eight)).collect()
    };
    whole_and_single(calls, &eight, &lent, &sample);
    malformed(calls, random, &eight, &base, &sample);
    not_named(calls, random, &eight, &base);
    for _ in 0..2 {
        let faulty = faulty(random, &eight, &base);
        let lent = Lent::of(&faulty.base);
        let _ = calls.picture(&faulty.eight, &lent, faulty.picture_length);
        let _ = calls.single(
            &faulty.eight,
            &lent,
            faulty.position,
            faulty.single_length,
            &faulty.broken,
        );
    }
}

/// Some records broken: the picture call refuses, the one-macroblock call if it
/// reads one of them.
fn malformed<W: Called>(
    calls: &mut Calls,
    random: &mut Random,
    eight: &Eight,
    base: &[W],
    sample: &[Position],
) {
    let (base, broken) = with_broken_records(random, base);
    let lent = Lent::of(&base);
    let _ = calls.picture(eight, &lent, full_macroblocks(eight) * WORDS);
    for &position in sample {
        let _ = calls.single(eight, &lent, position, WORDS, &broken);
    }
}

pub fn with_broken_records<W: Called>(random: &mut Random, base: &[W]) -> (Vec<W>, Vec<usize>) {
    let mut base = base.to_vec();
    let records = base.len() / WORDS;
    let mut broken = Vec::new();
    for _ in 0..random.within(1, 3) {
        let address = random.below(records);
        let rule = random_rule(random);
        break_record(random, &mut base[address * WORDS..][..WORDS], rule);
        broken.push(address);
    }
    (base, broken)
}

/// Every record but those that one macroblock names is overwritten with any
/// words: its answer and words stay.
fn not_named<W: Called>(calls: &mut Calls, random: &mut Random, eight: &Eight, base: &[W]) {
    let position = random_position(random, eight);
    let before = calls.single(eight, &Lent::of(base), position, WORDS, &[]);
    let named = named(eight, position);
    let mut other = base.to_vec();
    for (address, record) in other.chunks_mut(WORDS).enumerate() {
        if !named.contains(&address) {
            record.iter_mut().for_each(|word| *word = W::any(random));
        }
    }
    let after = calls.single(eight, &Lent::of(&other), position, WORDS, &[]);
    if before != after {
        calls.differs(|| {
            format!("macroblock {position:?} of {eight:?}: records not named change the words")
        });
    }
}

/// What is handed to both calls with some faults.
pub struct Faulty<W> {
    pub eight: Eight,
    pub base: Vec<W>,
    /// The addresses of records that may be malformed.
    pub broken: Vec<usize>,
    pub position: Position,
    pub single_length: usize,
    pub picture_length: usize,
}

/// Some of: numbers of the geometry, lengths and position wrong, a record broken.
pub fn faulty<W: Called>(random: &mut Random, eight: &Eight, base: &[W]) -> Faulty<W> {
    let mut eight = *eight;
    let (mut base, mut broken) = (base.to_vec(), Vec::new());
    let (mut single_length, mut picture_length) = (WORDS, full_macroblocks(&eight) * WORDS);
    let mut position = random_position(random, &eight);
    let faults = 1 + random.below(31);
    if faults & 1 != 0 {
        let made = with_broken_records(random, &base);
        base = made.0;
        broken = made.1;
    }
    if faults & 2 != 0 {
        let far = random.pick(&[
            i32::MIN,
            i32::MIN + 1,
            -65_536,
            -256,
            -1,
            i32::MAX,
            65_536,
            256,
        ]);
        let beside = [eight[6] / 16, eight[7] / 16, -1, far];
        match random.below(3) {
            0 => position.0 = random.pick(&beside),
            1 => position.1 = random.pick(&beside),
            _ => position = (random.pick(&beside), random.pick(&beside)),
        }
    }
    if faults & 4 != 0 {
        single_length = random.pick(&[0, 1, WORDS - 1, WORDS + 1, 2 * WORDS, picture_length]);
        picture_length = wrong_length(random, picture_length);
    }
    if faults & 8 != 0 {
        let length = wrong_length(random, base.len());
        let filler = intra();
        while base.len() < length {
            let missing = (length - base.len()).min(WORDS);
            base.extend_from_slice(&filler[..missing]);
        }
        base.truncate(length);
        broken.retain(|address| (address + 1) * WORDS <= length);
    }
    if faults & 16 != 0 {
        for _ in 0..random.within(1, 2) {
            let near = random.pick(&[-16, -2, -1, 1, 2, 8, 16]);
            let at = random.below(8);
            eight[at] = match random.below(4) {
                0 => random.pick(&[i32::MIN, -1, 0, i32::MAX]),
                1 => -eight[at],
                _ => eight[at] + near,
            };
        }
    }
    Faulty {
        eight,
        base,
        broken,
        position,
        single_length,
        picture_length,
    }
}

fn wrong_length(random: &mut Random, length: usize) -> usize {
    random.pick(&[
        0,
        1,
        WORDS - 1,
        WORDS,
        length - WORDS,
        length - 1,
        length + 1,
        length + WORDS,
        2 * length,
        // As if records had no detail.
        length / WORDS * (WORDS - 1),
    ])
}

/// Pictures of 4096 by 4096: every ratio's end, a window that is cut on all
/// sides, one off the picture, and a record at the last address that breaks rule 7
/// and then rule 5.
pub fn large<W: Called>(calls: &mut Calls) {
    let geometries: [Eight; 5] = [
        [4096, 4096, 4096, 4096, 0, 0, 4096, 4096],
        [2720, 2720, 4080, 4080, 6, -10, 4096, 4096],
        [2048, 2048, 4096, 4096, 0, 0, 4096, 4096],
        [4096, 4096, 8192, 8190, -4086, -2044, 4096, 4096],
        [16, 16, 32, 32, 8190, -8192, 4096, 4096],
    ];
    for (number, eight) in geometries.iter().enumerate() {
        let random = &mut Random::new(number as u64);
        let mood = Mood::<W>::mixed(random);
        let base = Lent::of(&mood.base(random, base_macroblocks(eight)));
        let mut sample: Vec<Position> = (0..100).map(|_| random_position(random, eight)).collect();
        sample.extend([(0, 0), (255, 0), (0, 255), (255, 255)]);
        whole_and_single(calls, eight, &base, &sample);
    }

    let eight = geometries[0];
    let mut base = detailed(intra::<W>(), 10).repeat(65_536);
    whole_and_single(calls, &eight, &Lent::of(&base), &[(255, 255)]);
    let last = 65_535 * WORDS;
    for (word, value) in [(DETAIL, 16), (DETAIL - 1, 1)] {
        base[last + word] = W::from(value);
        let base = Lent::of(&base);
        let _ = calls.picture(&eight, &base, 65_536 * WORDS);
        let _ = calls.single(&eight, &base, (255, 255), WORDS, &[65_535]);
        let _ = calls.single(&eight, &base, (254, 255), WORDS, &[65_535]);
    }
}
