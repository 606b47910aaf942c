//! Both widths: what a narrow base gives in both, and where their limits lie.

use crate::calls::{Called, Calls};
use crate::lent::Lent;
use crate::pictures::{faulty, made, random_position, with_broken_records, Position};
use compare::generate::{full_macroblocks, intra, whole, widened, Eight, Record};
use compare::random::Random;
use second::record::{DETAIL, VECTORS};
use second::word::Word;
use second::WORDS;
use spiewomir::refused;

/// Random narrow bases are not those of random pictures.
const SEEDS: u64 = 1 << 40;

/// What a call gave: its refusal and rule, the answer in full, and its words if it is
/// answered.
struct Given {
    refusal: u32,
    rule: u32,
    answer: String,
    words: Vec<i32>,
}

/// All vector words fit the narrow limit.
fn fits(base: &[i16]) -> bool {
    let fits = |record: &[i16]| {
        record[VECTORS..DETAIL]
            .iter()
            .all(|word| i16::VECTORS.contains(word))
    };
    base.chunks_exact(WORDS).all(fits)
}

/// What a narrow base gave, and the same words wide: equal if its vectors fit.
fn compared(calls: &mut Calls, singly: bool, base: &[i16], [narrow, wide]: [Given; 2]) {
    if fits(base) {
        if narrow.answer != wide.answer {
            calls.differs(|| format!("narrow {}, wide {}", narrow.answer, wide.answer));
        }
        if narrow.words != wide.words {
            calls.differs(|| format!("{}, but other words in the other width", narrow.answer));
        }
        calls
            .width_coverage
            .same(singly, narrow.refusal, narrow.rule);
    } else if (narrow.refusal, narrow.rule) == (refused::RECORD, 5) {
        calls.width_coverage.apart(singly, wide.refusal, wide.rule);
    }
}

fn words<W: Called>(refusal: u32, words: &Lent<W>) -> Vec<i32> {
    match refusal {
        0 => words.words().iter().map(|word| word.number()).collect(),
        _ => Vec::new(),
    }
}

fn pictures(calls: &mut Calls, eight: &Eight, base: &[i16], length: usize) {
    fn given<W: Called>(calls: &mut Calls, eight: &Eight, base: &[W], length: usize) -> Given {
        let (given, out) = calls.picture_given(eight, &Lent::of(base), length);
        Given {
            refusal: given.refusal,
            rule: given.rule,
            answer: format!("{eight:?}: {given:?}"),
            words: words(given.refusal, &out),
        }
    }
    let both = [
        given(calls, eight, base, length),
        given(calls, eight, &widened(base), length),
    ];
    compared(calls, false, base, both);
}

fn singles(calls: &mut Calls, eight: &Eight, base: &[i16], position: Position, length: usize) {
    fn given<W: Called>(
        calls: &mut Calls,
        eight: &Eight,
        base: &[W],
        position: Position,
        length: usize,
    ) -> Given {
        let (given, out) = calls.single_given(eight, &Lent::of(base), position, length, &[]);
        Given {
            refusal: given.refusal,
            rule: given.rule,
            answer: format!("{position:?} of {eight:?}: {given:?}"),
            words: words(given.refusal, &out),
        }
    }
    let both = [
        given(calls, eight, base, position, length),
        given(calls, eight, &widened(base), position, length),
    ];
    compared(calls, true, base, both);
}

/// Some records with vectors twice as long, which may not fit the narrow limit.
fn longer(random: &mut Random, base: &[i16]) -> Vec<i16> {
    let mut base = base.to_vec();
    for record in base.chunks_mut(WORDS) {
        if random.one_in(2) {
            record[VECTORS..DETAIL]
                .iter_mut()
                .for_each(|word| *word *= 2);
        }
    }
    base
}

/// A random narrow base through all four calls: as it is, with longer vectors, with some
/// records broken, and with other faults.
pub fn random(calls: &mut Calls, number: u64) {
    let (eight, base, mut random) = made::<i16>(SEEDS + number);
    let random = &mut random;
    let length = full_macroblocks(&eight) * WORDS;
    let longer = longer(random, &base);
    let (broken, _) = with_broken_records(random, &base);
    for base in [&base, &longer, &broken] {
        pictures(calls, &eight, base, length);
        for _ in 0..3 {
            let position = random_position(random, &eight);
            singles(calls, &eight, base, position, WORDS);
        }
    }
    let faulty = faulty(random, &eight, &base);
    pictures(calls, &faulty.eight, &faulty.base, faulty.picture_length);
    singles(
        calls,
        &faulty.eight,
        &faulty.base,
        faulty.position,
        faulty.single_length,
    );
}

/// Ratio 2: macroblock 0,0 reads the upper left quadrant of the one base macroblock.
const DOUBLED: Eight = [16, 16, 32, 32, 0, 0, 32, 32];

/// Both calls give this refusal by 8, or answer if it is 0. Returns the words of the
/// macroblock at 0,0.
fn expect<W: Called>(calls: &mut Calls, record: &Record<W>, rule: u32) -> Vec<W> {
    let base = Lent::of(&record[..]);
    let (picture, _) = calls.picture_given(&DOUBLED, &base, 4 * WORDS);
    let (single, words) = calls.single_given(&DOUBLED, &base, (0, 0), WORDS, &[]);
    let number = if rule == 0 { 0 } else { refused::RECORD };
    for given in [
        (picture.refusal, picture.rule),
        (single.refusal, single.rule),
    ] {
        if given != (number, rule) {
            calls.differs(|| format!("{}record {record:?}: {given:?}, not {rule}", W::NAME));
        }
    }
    words.words().to_vec()
}

/// A record with another motion in each block, if its vector words differ.
fn parted<W: Called>(mut record: Record<W>) -> Record<W> {
    record[..5].copy_from_slice(&[4, 3, 3, 3, 3].map(W::from));
    record
}

/// Vector words to `limit` are answered, with twice as much at ratio 2; one more, on
/// either side, is refused by rule 5.
fn limits_of<W: Called>(calls: &mut Calls, limit: i32) {
    for word in [
        -limit,
        -limit + 1,
        -limit / 2,
        limit / 2,
        limit - 2,
        limit - 1,
    ] {
        let words = expect(calls, &whole::<W>(word, -1 - word), 0);
        if words != whole(2 * word, 2 * (-1 - word)) {
            calls.differs(|| format!("{}vector {word} is not doubled", W::NAME));
        }
    }
    for word in [-limit - 1, limit] {
        expect(calls, &whole::<W>(word, 0), 5);
        expect(calls, &whole::<W>(0, word), 5);
    }
    for at in VECTORS..DETAIL {
        for (word, rule) in [(-limit - 1, 5), (-limit, 0), (limit - 1, 0), (limit, 5)] {
            let mut record = parted(whole::<W>(1, -1));
            record[at] = W::fitting(word);
            expect(calls, &record, rule);
        }
    }
}

/// The ends of the limits in both widths, and 8,192, which only the wide calls take.
pub fn limits(calls: &mut Calls) {
    limits_of::<i16>(calls, 8192);
    limits_of::<i32>(calls, 131_072);
    for word in [8192, -8193] {
        expect(calls, &whole::<i16>(word, 0), 5);
        let words = expect(calls, &whole::<i32>(word, 0), 0);
        if words != whole(2 * word, 0) {
            calls.differs(|| format!("wide vector {word} is not doubled"));
        }
    }
}

/// Wide words of which the low half would do, and the rule that each breaks.
pub fn low_halves(calls: &mut Calls) {
    let mut still = intra::<i32>();
    still[DETAIL] = 9;
    // Of type 1, with list 1 not used, as a whole and in sixteen blocks.
    let mut moving = whole::<i32>(4, 0);
    moving[5..VECTORS].copy_from_slice(&[0, -1, 0, -1, 0, -1, 0, -1]);
    for record in [still, moving, parted(moving)] {
        expect(calls, &record, 0);
        for more in [65_536, -65_536, 131_072, i32::MIN] {
            for at in 0..WORDS {
                let mut wrong = record;
                wrong[at] = record[at].wrapping_add(more);
                let used = record[0] != 0 && (at.wrapping_sub(VECTORS)) / 2 % 2 == 0;
                let in_limits = i32::VECTORS.contains(&wrong[at]);
                let rule = match at {
                    0 => 1,
                    1..5 => 2,
                    5..VECTORS => 3,
                    DETAIL => 7,
                    _ if !used || !in_limits => 5,
                    // Another motion: in a piece of many blocks it breaks rule 6.
                    _ if record[0] == 1 => 6,
                    _ => 0,
                };
                expect(calls, &wrong, rule);
            }
        }
    }
}
