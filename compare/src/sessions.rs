//! Sessions: random lists of calls in both implementations, whole pictures
//! against the picture call, and session values that no list of calls makes.

use crate::calls::{answered, macroblock_numbers, same_answer, Calls, FILL, FILL_SECOND};
use crate::lent::Lent;
use crate::session_coverage::sort;
use compare::generate::{
    base_macroblocks, break_record, full_macroblocks, library, random_rule, Eight, Mood,
};
use compare::random::Random;
use second::geometry::Geometry;
use second::{Numbers, WORDS};
use spiewomir::numbers;

/// A geometry of few macroblocks.
fn small(random: &mut Random) -> Eight {
    let mut axis = |most: i32| {
        let base = 16 * random.pick(&[1, 1, 2, 3]);
        let scaled = base + 2 * random.within(0, base / 2);
        let offset = match random.below(4) {
            0 => 16 * random.within(-1, 1),
            1 => 2 * random.within(-12, 12),
            _ => 0,
        };
        [base, scaled, offset, 16 * random.within(1, most)]
    };
    let (x, y) = (axis(4), axis(2));
    [x[0], y[0], x[1], y[1], x[2], y[2], x[3], y[3]]
}

/// One number of the geometry changed, mostly to one that is refused.
fn faulty(random: &mut Random, eight: &Eight) -> Eight {
    let mut eight = *eight;
    let at = random.below(8);
    eight[at] = match random.below(4) {
        0 => random.pick(&[i32::MIN, -1, 0, 4112, i32::MAX]),
        1 => -eight[at],
        _ => eight[at] + random.pick(&[-16, -2, -1, 1, 2, 16]),
    };
    eight
}

/// A picture that is made in a session: its geometry and base.
struct Picture {
    eight: Eight,
    base: Vec<i16>,
}

impl Picture {
    fn new(random: &mut Random) -> Picture {
        let eight = small(random);
        let mood = Mood::new(random);
        let base = mood.base(random, base_macroblocks(&eight));
        Picture { eight, base }
    }

    /// The base as it is lent to one call: mostly as it is.
    fn lent(&self, random: &mut Random) -> Lent {
        let mut base = self.base.clone();
        match random.below(12) {
            0 => {
                let address = random.below(base.len() / WORDS);
                let rule = random_rule(random);
                break_record(random, &mut base[address * WORDS..][..WORDS], rule);
            }
            1 => {
                let length = random.pick(&[0, 1, WORDS - 1, base.len() - 1, base.len() + 1]);
                base.resize(length, 0);
            }
            2 => base.resize(base.len() + WORDS, 0),
            _ => {}
        }
        Lent::of(&base)
    }
}

/// One session in both implementations, and through the wrapper's own type.
struct Both {
    library: numbers::Session,
    wrapped: spiewomir::Session,
    second: second::Session,
    /// Accepted next calls of each sort since the last accepted begin or abandon.
    since: [u32; 3],
}

impl Both {
    fn fresh() -> Both {
        Both {
            library: numbers::Session::fresh(),
            wrapped: spiewomir::Session::fresh(),
            second: second::Session::fresh(),
            since: [0; 3],
        }
    }

    /// Compares what a begin or an abandon gave.
    fn judged(
        &mut self,
        calls: &mut Calls,
        call: impl Fn() -> String,
        judged: numbers::Judged,
        wrapped: (spiewomir::Session, Result<(), spiewomir::Refusal>),
        second: (second::Session, Result<(), second::Refusal>),
    ) -> u32 {
        calls.sessions += 1;
        let refusal = second
            .1
            .err()
            .map_or([0; 3], |r| [r.number, r.place, r.rule]);
        let numbers = [judged.refusal, judged.place, judged.rule];
        let safe = wrapped
            .1
            .err()
            .map_or([0; 3], |r| [r.number, r.place, r.rule]);
        if numbers != refusal || safe != refusal {
            calls.differs(|| format!("{}: library {numbers:?}, second {refusal:?}", call()));
        }
        if judged.refusal != 0 && judged.session != self.library {
            calls.differs(|| format!("{}: refused, but the session changed", call()));
        }
        if judged.refusal == 0 {
            self.since = [0; 3];
        }
        self.library = judged.session;
        self.wrapped = wrapped.0;
        self.second = second.0;
        refusal[0]
    }

    /// Whether it was accepted.
    fn begin(&mut self, calls: &mut Calls, eight: &Eight) -> bool {
        let judged = self.library.begin(library(eight));
        let wrapped = self.wrapped.begin(library(eight));
        let second = self.second.clone().begin(Numbers::from_array(*eight));
        let number = self.judged(
            calls,
            || format!("begin {eight:?}"),
            judged,
            wrapped,
            second,
        );
        calls.session_coverage.begin(number);
        number == 0
    }

    fn abandon(&mut self, calls: &mut Calls) {
        let judged = self.library.abandon();
        let wrapped = self.wrapped.abandon();
        let second = self.second.clone().abandon();
        let number = self.judged(calls, || "abandon".to_string(), judged, wrapped, second);
        calls.session_coverage.abandon(number);
    }

    /// The words that were written, or the number of the refusal.
    fn next(&mut self, calls: &mut Calls, base: &Lent, length: usize) -> Result<Vec<i16>, u32> {
        let call = || format!("next, {} base words, {length} to write", base.words().len());
        let mut ours = Lent::filled(length, FILL);
        let mut safe = Lent::filled(length, FILL);
        let mut theirs = vec![FILL_SECOND; length];
        let advanced = self.library.next(base.words(), ours.words_mut());
        let wrapped = self.wrapped.next(base.words(), safe.words_mut());
        let (session, result) = self.second.clone().next(base.words(), &mut theirs);
        calls.sessions += 1;
        let numbers = macroblock_numbers(result);
        if advanced.macroblock != numbers {
            let library = advanced.macroblock;
            calls.differs(|| format!("{}: library {library:?}, second {numbers:?}", call()));
        }
        let same = match (&wrapped.1, &result) {
            (Ok(library), Ok(second)) => same_answer(library, second),
            (Err(library), Err(second)) => {
                (library.number, library.place, library.rule)
                    == (second.number, second.place, second.rule)
            }
            _ => false,
        };
        if !same || safe.words() != ours.words() {
            calls.differs(|| format!("{}: the wrapper answers otherwise", call()));
        }
        calls.words_agree(call, result.is_err(), base, &ours, &theirs);
        if let Ok(answer) = result {
            calls.detail_is(call, ours.words(), answer.detail.into());
        }
        if result.is_err() && advanced.session != self.library {
            calls.differs(|| format!("{}: refused, but the session changed", call()));
        }
        calls.session_coverage.next(&numbers);
        if numbers.refusal == 0 {
            self.since[sort(numbers.kind)] += 1;
        }
        self.library = advanced.session;
        self.wrapped = wrapped.0;
        self.second = session;
        answered(numbers.refusal, &ours)
    }

    /// The totals, which are also counted here.
    fn totals(&mut self, calls: &mut Calls) -> [u32; 3] {
        let totals = self.library.totals();
        let (wrapped, safe) = self.wrapped.totals();
        let (session, counts) = self.second.clone().totals();
        calls.sessions += 1;
        let library = [totals.inherited, totals.intra, totals.outside];
        let second = [counts.inherited, counts.intra, counts.outside];
        let safe = [safe.inherited, safe.intra, safe.outside];
        let since = self.since;
        if library != since || second != since || safe != since {
            calls.differs(|| {
                format!("totals: library {library:?}, second {second:?}, counted {since:?}")
            });
        }
        if totals.session != self.library {
            calls.differs(|| "totals changed the session".to_string());
        }
        self.wrapped = wrapped;
        self.second = session;
        library
    }
}

/// A random list of calls from a fresh session, refused ones among them. The
/// totals are compared after each call.
pub fn list(calls: &mut Calls, number: u64) {
    let random = &mut Random::new(number);
    let choices: Vec<Picture> = (0..random.within(1, 3))
        .map(|_| Picture::new(random))
        .collect();
    // The picture begun last, and whether the last call found none unfinished.
    let (mut at, mut idle) = (0, true);
    let mut both = Both::fresh();
    both.totals(calls);
    for _ in 0..random.within(1, 40) {
        let call = if idle && random.one_in(2) {
            0
        } else {
            random.below(20)
        };
        match call {
            0 | 1 => {
                let picture = random.below(choices.len());
                let mut eight = choices[picture].eight;
                if random.one_in(4) {
                    eight = faulty(random, &eight);
                }
                if both.begin(calls, &eight) {
                    (at, idle) = (picture, false);
                }
            }
            2 => both.abandon(calls),
            _ => {
                // Now and then another picture's base.
                let picture = if random.one_in(12) {
                    random.below(choices.len())
                } else {
                    at
                };
                let base = choices[picture].lent(random);
                let length = match random.below(16) {
                    0 => random.pick(&[0, 1, WORDS - 1, WORDS + 1, 2 * WORDS]),
                    _ => WORDS,
                };
                let next = both.next(calls, &base, length);
                idle = matches!(next, Err(20 | 21));
            }
        }
        both.totals(calls);
    }
}

/// Whole pictures, one after another in one session: the words, one record
/// after another, and the totals are the picture call's.
pub fn pictures(calls: &mut Calls, pictures: u64) {
    let mut both = Both::fresh();
    for number in 0..pictures {
        calls.at = format!("picture {number} of a session");
        let random = &mut Random::new(number);
        let picture = Picture::new(random);
        let base = Lent::of(&picture.base);
        let total = full_macroblocks(&picture.eight);
        let whole = calls.picture(&picture.eight, &base, total * WORDS);
        let mut words = Vec::new();
        both.begin(calls, &picture.eight);
        for _ in 0..total {
            // Unfinished until the last: a begin is refused and changes nothing.
            both.begin(calls, &picture.eight);
            match both.next(calls, &base, WORDS) {
                Ok(record) => words.extend_from_slice(&record),
                Err(number) => calls.differs(|| format!("next refused by {number}")),
            }
        }
        if whole.as_ref() != Ok(&words) {
            calls.differs(|| format!("{:?}: not the picture call's words", picture.eight));
        }
        let counts = numbers::picture(library(&picture.eight), base.words(), &mut words);
        let counts = [counts.inherited, counts.intra, counts.outside];
        if both.totals(calls) != counts || counts.iter().sum::<u32>() as usize != total {
            calls.differs(|| format!("{:?}: not the picture call's counts", picture.eight));
        }
        if both.next(calls, &base, WORDS) != Err(21) {
            calls.differs(|| format!("{:?}: not finished", picture.eight));
        }
        both.abandon(calls);
    }
}

/// A session value with any numbers, against the documented answer: as a fresh
/// session, unless it is begun with an accepted geometry and no more macroblocks
/// are counted than there are.
pub fn forged(calls: &mut Calls, number: u64) {
    let random = &mut Random::new(number);
    let picture = Picture::new(random);
    let total = full_macroblocks(&picture.eight) as u32;
    let eight = if random.one_in(4) {
        faulty(random, &picture.eight)
    } else {
        picture.eight
    };
    let accepted = Geometry::new(Numbers::from_array(eight)).is_ok();
    let mut some = || match random.below(8) {
        0 => u32::MAX - random.below(2) as u32,
        1 => random.pick(&[total, total + 1, 65_536, 65_537, 1 << 31]),
        _ => random.below(2 + total as usize / 2) as u32,
    };
    let held = [some(), some(), some()];
    let session = numbers::Session {
        begun: random.pick(&[0, 1, 1, 1, 1, 1, 2, 256, u32::MAX]),
        geometry: library(&eight),
        inherited: held[0],
        intra: held[1],
        outside: held[2],
    };
    let sum: u64 = held.iter().map(|&count| count as u64).sum();
    let real = if accepted {
        full_macroblocks(&eight) as u64
    } else {
        0
    };
    let stands = session.begun == 1 && accepted && sum <= real;
    let (unfinished, finished) = (stands && sum < real, stands && sum == real);
    calls.session_coverage.forged([
        session.begun == 0 && sum > 0,
        session.begun > 1,
        session.begun == 1 && !accepted,
        session.begun == 1 && accepted && sum > real,
        session.begun == 1 && accepted && sum > u32::MAX as u64,
        unfinished,
        finished,
    ]);
    let onward = match (unfinished, finished) {
        (true, _) => 0,
        (_, true) => 21,
        _ => 20,
    };
    calls.sessions += 4;

    let totals = session.totals();
    let expected = if stands { held } else { [0; 3] };
    if [totals.inherited, totals.intra, totals.outside] != expected || totals.session != session {
        calls.differs(|| format!("totals of {session:?}: {totals:?}"));
    }

    let fresh = numbers::Session::fresh();
    let abandoned = session.abandon();
    let after = if unfinished { fresh } else { session };
    if (
        abandoned.refusal,
        abandoned.place,
        abandoned.rule,
        abandoned.session,
    ) != (onward, 0, 0, after)
    {
        calls.differs(|| format!("abandon of {session:?}: {abandoned:?}"));
    }

    let wanted = if random.one_in(3) {
        faulty(random, &picture.eight)
    } else {
        picture.eight
    };
    let begun = session.begin(library(&wanted));
    let by_fresh = fresh.begin(library(&wanted));
    let expected = match (unfinished, by_fresh.refusal) {
        (true, _) => (22, session),
        (_, 0) => (0, by_fresh.session),
        (_, number) => (number, session),
    };
    if (begun.refusal, begun.session) != expected || (begun.place, begun.rule) != (0, 0) {
        calls.differs(|| format!("begin {wanted:?} of {session:?}: {begun:?}"));
    }

    let base = picture.lent(random);
    let mut out = Lent::filled(WORDS, FILL);
    let advanced = session.next(base.words(), out.words_mut());
    let mut alone = Lent::filled(WORDS, FILL);
    let mut after = session;
    let expected = if unfinished {
        let (column, row) = (sum as i32 % (eight[6] / 16), sum as i32 / (eight[6] / 16));
        numbers::macroblock(
            library(&eight),
            base.words(),
            column,
            row,
            alone.words_mut(),
        )
    } else {
        numbers::Macroblock {
            refusal: onward,
            ..numbers::Macroblock::default()
        }
    };
    if expected.refusal == 0 {
        match sort(expected.kind) {
            0 => after.inherited += 1,
            1 => after.intra += 1,
            _ => after.outside += 1,
        }
    }
    let same = advanced.macroblock == expected && advanced.session == after;
    if !same || out.words() != alone.words() || !out.guards_stand() || !base.untouched() {
        calls.differs(|| format!("next of {session:?}: {advanced:?}, not {expected:?}"));
    }
}
