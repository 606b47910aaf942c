//! Geometries, well-formed records, and records that break a rule, in either width.

use crate::random::Random;
use second::record::DETAIL;
use second::word::Word;
use second::WORDS;

/// The geometry's numbers in the order of the sync text: base width and height,
/// scaled, at, full.
pub type Eight = [i32; 8];

/// The eight numbers as the library takes them.
pub fn library(eight: &Eight) -> spiewomir::Geometry {
    let [base_width, base_height, scaled_width, scaled_height, offset_x, offset_y, full_width, full_height] =
        *eight;
    spiewomir::Geometry {
        base_width,
        base_height,
        scaled_width,
        scaled_height,
        offset_x,
        offset_y,
        full_width,
        full_height,
    }
}

pub type Record<W = i16> = [W; WORDS];

/// What is tried of records whose words have this width.
pub trait Width: Word + 'static {
    /// Vector words of a picture's records lie between two of these; of mixed records
    /// between the others.
    const VECTOR_RANGES: &'static [(i32, i32)];
    const MIXED: (i32, i32);

    /// The vector words of records that differ by steps go from here on.
    const FIRST: i32;

    /// Words at and beside every limit of the seven rules.
    const LIMITS: &'static [Self];

    /// Vector words to the limit are tried in steps of so many.
    const STEP: usize;

    /// Words that break a rule.
    const WRONG: Wrong<Self>;

    /// Any word.
    fn any(random: &mut Random) -> Self;

    /// Another vector word, not far from this one.
    fn beside(self, random: &mut Random) -> Self;
}

/// By the words that they are for.
pub struct Wrong<W: 'static> {
    types: &'static [W],
    /// Of type 4, and of the others.
    subs_of_8x8: &'static [W],
    subs: &'static [W],
    references: &'static [W],
    /// Vectors beyond the limits, and such as break a rule only where the list is not
    /// used.
    far: &'static [W],
    near: &'static [W],
    details: &'static [W],
}

impl Width for i16 {
    const VECTOR_RANGES: &'static [(i32, i32)] = &[
        (-2, 2),
        (-60, 60),
        (-8192, 8191),
        (8180, 8191),
        (-8192, -8180),
    ];

    const MIXED: (i32, i32) = (-512, 511);

    const FIRST: i32 = 1;

    const LIMITS: &'static [i16] = &[
        -32768, -8194, -8193, -8192, -8191, -256, -2, -1, 0, 1, 2, 3, 4, 5, 6, 8, 14, 15, 16, 17,
        30, 31, 32, 33, 256, 8190, 8191, 8192, 32767,
    ];

    const STEP: usize = 1;

    const WRONG: Wrong<i16> = Wrong {
        types: &[-32768, -256, -2, -1, 5, 6, 7, 255, 256, 257, 260, 32767],
        subs_of_8x8: &[-1, 4, 5, 256, -32768, 32767],
        subs: &[1, 2, 3, -1, 4, 256],
        references: &[-32768, -3, -2, 32, 33, 255, 256, 32767],
        far: &[-32768, -8194, -8193, 8192, 8193, 32767],
        near: &[-8192, -1, 1, 8191],
        details: &[
            -32768, -256, -16, -2, -1, 16, 17, 31, 32, 255, 256, 271, 32767,
        ],
    };

    fn any(random: &mut Random) -> i16 {
        random.word()
    }

    fn beside(self, _: &mut Random) -> i16 {
        match self < 0 {
            true => self.saturating_add(1),
            false => self.saturating_sub(1),
        }
    }
}

/// Two to the sixteenth: a word and one with so much more have the same low half.
const HALF: i32 = 65_536;

/// Most of the wrong words would be right, or wrong by a later rule, if they were cut to
/// sixteen bits.
impl Width for i32 {
    const VECTOR_RANGES: &'static [(i32, i32)] = &[
        (-2, 2),
        (-8192, 8191),
        (-40_000, 40_000),
        (-131_072, 131_071),
        (-131_072, 131_071),
        (131_060, 131_071),
        (-131_072, -131_060),
    ];

    const MIXED: (i32, i32) = (-131_072, 131_071);

    const FIRST: i32 = 120_001;

    #[rustfmt::skip]
    const LIMITS: &'static [i32] = &[
        i32::MIN, -131_074, -131_073, -131_072, -131_071, -HALF - 1, -HALF, 1 - HALF, -32_769, -8193, -2, -1, 0, 1, 2, 3, 4, 5, 8, 14, 15, 16, 30, 31, 32, 256,
        8192, 32_768, HALF - 1, HALF, HALF + 1, HALF + 4, HALF + 15, HALF + 31, 131_070, 131_071, 131_072, 131_073, 3 * HALF, i32::MAX,
    ];

    const STEP: usize = 128;

    const WRONG: Wrong<i32> = Wrong {
        types: &[
            i32::MIN,
            i32::MIN + 1,
            -HALF,
            1 - HALF,
            -1,
            5,
            256,
            HALF,
            HALF + 1,
            HALF + 4,
            i32::MAX,
        ],
        subs_of_8x8: &[-1, 4, HALF, HALF + 3, 2 - HALF, i32::MIN, i32::MAX],
        subs: &[1, 2, 3, -1, HALF, -HALF, HALF + 1, i32::MIN],
        references: &[
            -2,
            32,
            HALF - 1,
            HALF,
            HALF + 1,
            HALF + 31,
            -HALF - 1,
            -HALF,
            i32::MIN,
            i32::MAX,
        ],
        far: &[
            i32::MIN,
            -4 * HALF,
            -131_074,
            -131_073,
            131_072,
            131_073,
            4 * HALF,
            1 << 20,
            i32::MAX,
        ],
        near: &[-131_072, -HALF, -8193, -1, 1, 8192, HALF, 131_071],
        details: &[
            i32::MIN,
            -HALF,
            9 - HALF,
            -1,
            16,
            256,
            HALF,
            HALF + 1,
            HALF + 15,
            i32::MAX,
        ],
    };

    fn any(random: &mut Random) -> i32 {
        i32::from(random.word()) << 16 | i32::from(random.word() as u16)
    }

    /// Every second time with the same low half.
    fn beside(self, random: &mut Random) -> i32 {
        let step = if random.one_in(2) { HALF } else { 1 };
        match self < 0 {
            true => self.saturating_add(step),
            false => self.saturating_sub(step),
        }
    }
}

/// Narrow words as wide ones.
pub fn widened(words: &[i16]) -> Vec<i32> {
    words.iter().map(|&word| word.into()).collect()
}

pub fn base_macroblocks(eight: &Eight) -> usize {
    (eight[0] / 16 * (eight[1] / 16)) as usize
}

pub fn full_macroblocks(eight: &Eight) -> usize {
    (eight[6] / 16 * (eight[7] / 16)) as usize
}

/// B, S, o and E of one axis.
fn axis(random: &mut Random) -> [i32; 4] {
    let base = 16
        * match random.below(40) {
            0 => random.within(1, 256),
            1..=4 => random.within(5, 16),
            _ => random.pick(&[1, 2, 2, 3, 3, 4, 5]),
        };
    let scaled = match random.below(12) {
        0 | 1 => base,
        2 => 2 * base,
        3 => base + base / 2,
        4 => base + 2,
        5 => 2 * base - 2,
        _ => base + 2 * random.within(0, base / 2),
    };
    let full = 16
        * match random.below(40) {
            0 => random.within(1, 256),
            1..=4 => random.within(8, 16),
            _ => random.within(1, 2 + scaled / 16).min(8),
        };
    let offset = match random.below(32) {
        0..=5 => 0,
        6..=9 => 16 * random.within(-2, 2),
        10..=25 => 2 * random.within(-12, 12),
        // The window ends near the picture's end.
        26..=28 => full - scaled + 2 * random.within(-10, 10),
        // Anywhere with a common part.
        29 | 30 => 2 * random.within(-scaled / 2, full / 2),
        _ => 2 * random.within(-4096, 4095),
    };
    [base, scaled, offset.clamp(-8192, 8190), full]
}

/// An accepted geometry; mostly of small pictures.
pub fn geometry(random: &mut Random) -> Eight {
    let (x, y) = (axis(random), axis(random));
    [x[0], y[0], x[1], y[1], x[2], y[2], x[3], y[3]]
}

/// Motion of a block: references of both lists, vector words of both lists.
#[derive(Clone, Copy)]
struct Motion<W> {
    references: [W; 2],
    vectors: [W; 4],
}

/// What the records of one picture are like.
pub struct Mood<W = i16> {
    /// How many of sixteen records are intra.
    intra: usize,
    /// The types of the others.
    kinds: Vec<i16>,
    /// Motions that come again and again, so that pieces grow together.
    motions: Vec<Motion<W>>,
    /// A motion is a new one once in so many times.
    new_once_in: usize,
    /// References are 0 to this.
    highest_reference: i32,
    /// Vector words are between these.
    vectors: (i32, i32),
    /// Details are one of these.
    details: &'static [i16],
}

/// Every detail.
const ALL_DETAILS: &[i16] = &[0, 1, 2, 3, 4, 5, 6, 7, 8, 9, 10, 11, 12, 13, 14, 15];

/// Mostly no bit, or mostly all of them, so that a single one decides.
const FEW_DETAILS: &[i16] = &[0, 0, 0, 0, 0, 0, 0, 0, 1, 2, 4, 8];
const MANY_DETAILS: &[i16] = &[15, 15, 15, 15, 15, 15, 15, 15, 14, 13, 11, 7];

impl<W: Width> Mood<W> {
    pub fn new(random: &mut Random) -> Mood<W> {
        let mut mood = Mood {
            intra: random.pick(&[0, 0, 1, 2, 4, 8, 12, 15, 16]),
            kinds: match random.below(6) {
                0 => vec![random.within(1, 4) as i16],
                1 => vec![1, 2, 3],
                2 => vec![4],
                _ => vec![1, 2, 3, 4, 4],
            },
            motions: Vec::new(),
            new_once_in: random.pick(&[1, 1, 2, 8, 64]),
            highest_reference: random.pick(&[0, 1, 1, 3, 31]),
            vectors: random.pick(W::VECTOR_RANGES),
            details: random.pick(&[
                ALL_DETAILS,
                ALL_DETAILS,
                FEW_DETAILS,
                FEW_DETAILS,
                MANY_DETAILS,
                &[1, 2, 4, 8],
                &[0, 15],
                &[0],
            ]),
        };
        for _ in 0..random.within(1, 6) {
            let motion = mood.new_motion(random);
            mood.motions.push(motion);
        }
        mood
    }

    /// Records of every type and every detail, one of eight intra.
    pub fn mixed(random: &mut Random) -> Mood<W> {
        let mut mood = Mood {
            intra: 2,
            kinds: vec![1, 1, 2, 3, 4],
            motions: Vec::new(),
            new_once_in: 2,
            highest_reference: 3,
            vectors: W::MIXED,
            details: ALL_DETAILS,
        };
        for _ in 0..4 {
            let motion = mood.new_motion(random);
            mood.motions.push(motion);
        }
        mood
    }

    pub fn without_intra(random: &mut Random) -> Mood<W> {
        Mood {
            intra: 0,
            ..Mood::new(random)
        }
    }

    fn new_motion(&self, random: &mut Random) -> Motion<W> {
        let mut motion = Motion {
            references: [W::from(-1); 2],
            vectors: [W::from(0); 4],
        };
        let used = random.within(1, 3);
        for list in 0..2 {
            if used >> list & 1 == 1 {
                motion.references[list] = W::fitting(random.within(0, self.highest_reference));
            }
        }
        for word in &mut motion.vectors {
            *word = W::fitting(random.within(self.vectors.0, self.vectors.1));
        }
        motion
    }

    fn motion(&self, random: &mut Random) -> Motion<W> {
        if random.one_in(self.new_once_in) {
            self.new_motion(random)
        } else {
            random.pick(&self.motions)
        }
    }

    /// A well-formed record without detail.
    fn plain(&self, random: &mut Random) -> Record<W> {
        if random.below(16) < self.intra {
            return intra();
        }
        let kind = random.pick(&self.kinds);
        let mut subs = [0; 4];
        if kind == 4 {
            subs = [0; 4].map(|_: i16| random.below(4) as i16);
        }
        record(kind, subs, || self.motion(random))
    }

    /// A well-formed record.
    pub fn record(&self, random: &mut Random) -> Record<W> {
        let record = self.plain(random);
        detailed(record, random.pick(self.details))
    }

    /// Well-formed records for a base picture.
    pub fn base(&self, random: &mut Random, records: usize) -> Vec<W> {
        let mut base = Vec::with_capacity(records * WORDS);
        for _ in 0..records {
            base.extend_from_slice(&self.record(random));
        }
        base
    }

    /// The same with details from a generator of their own, so that the other words
    /// do not depend on them.
    pub fn base_apart(&self, random: &mut Random, details: &mut Random, records: usize) -> Vec<W> {
        let mut base = Vec::with_capacity(records * WORDS);
        for _ in 0..records {
            let record = detailed(self.plain(random), details.pick(self.details));
            base.extend_from_slice(&record);
        }
        base
    }
}

/// An intra record without detail.
pub fn intra<W: Width>() -> Record<W> {
    let mut record = [W::from(0); WORDS];
    record[5..13].fill(W::from(-1));
    record
}

/// The record with this detail.
pub fn detailed<W: Width>(mut record: Record<W>, detail: i16) -> Record<W> {
    record[DETAIL] = detail.into();
    record
}

fn quadrant(block: usize) -> usize {
    block / 8 * 2 + block % 4 / 2
}

/// The first block of the piece that a block lies in.
fn lead(kind: i16, subs: &[i16; 4], block: usize) -> usize {
    let (width, height) = match kind {
        1 => (4, 4),
        2 => (4, 2),
        3 => (2, 4),
        _ => match subs[quadrant(block)] {
            0 => (2, 2),
            1 => (2, 1),
            2 => (1, 2),
            _ => (1, 1),
        },
    };
    let (column, row) = (block % 4, block / 4);
    row / height * height * 4 + column / width * width
}

/// A record of type 1 to 4 that has one motion in each piece, and no detail. In a
/// quadrant the first piece's references serve for all.
fn record<W: Width>(kind: i16, subs: [i16; 4], mut motion: impl FnMut() -> Motion<W>) -> Record<W> {
    let mut record = intra();
    record[0] = kind.into();
    record[1..5].copy_from_slice(&subs.map(W::from));
    for block in 0..16 {
        let first = lead(kind, &subs, block);
        let (q, from) = (quadrant(block), quadrant(first));
        if first != block {
            record.copy_within(13 + 4 * first..17 + 4 * first, 13 + 4 * block);
            record.copy_within(5 + 2 * from..7 + 2 * from, 5 + 2 * q);
            continue;
        }
        let motion = motion();
        if block % 2 == 0 && block / 4 % 2 == 0 {
            record[5 + 2 * q..7 + 2 * q].copy_from_slice(&motion.references);
        }
        for word in 0..4 {
            if record[5 + 2 * q + word / 2] != W::from(-1) {
                record[13 + 4 * block + word] = motion.vectors[word];
            }
        }
    }
    record
}

/// A record with one reference everywhere, whose pieces all differ in the
/// words of list 0: piece number n has the words `first` + n and -`first` - n.
pub fn distinct<W: Width>(kind: i16, subs: [i16; 4], first: i32) -> Record<W> {
    let mut next = first;
    record(kind, subs, || {
        let words = [next, -next, 0, 0];
        next += 1;
        Motion {
            references: [W::from(0), W::from(-1)],
            vectors: words.map(W::fitting),
        }
    })
}

/// A 16x16 record with one word in list 0 and another in list 1, both across and
/// down.
pub fn whole<W: Width>(first: i32, second: i32) -> Record<W> {
    record(1, [0; 4], || Motion {
        references: [W::from(0); 2],
        vectors: [first, first, second, second].map(W::fitting),
    })
}

/// Breaks a record, by the rule named where its type allows, and now and then
/// by another one too.
pub fn break_record<W: Width>(random: &mut Random, record: &mut [W], rule: usize) {
    let kind = record[0].number();
    match rule {
        1 => record[0] = random.pick(W::WRONG.types),
        2 => {
            let subs = match kind {
                4 => W::WRONG.subs_of_8x8,
                _ => W::WRONG.subs,
            };
            record[1 + random.below(4)] = random.pick(subs);
        }
        3 => record[5 + random.below(8)] = random.pick(W::WRONG.references),
        4 if kind == 0 => record[5 + random.below(8)] = W::fitting(random.within(0, 31)),
        4 => {
            let q = random.below(4);
            record[5 + 2 * q..7 + 2 * q].fill(W::from(-1));
        }
        5 => {
            let at = random.below(64);
            let used = record[5 + 2 * quadrant(at / 4) + at % 4 / 2] != W::from(-1);
            let far = random.pick(W::WRONG.far);
            let near = random.pick(W::WRONG.near);
            record[13 + at] = if used || random.one_in(3) { far } else { near };
        }
        7 => record[DETAIL] = random.pick(W::WRONG.details),
        _ if kind == 0 => {
            record[13 + random.below(64)] = W::from(1);
        }
        _ => break_piece(random, record),
    }
    if random.one_in(4) {
        let again = random_rule(random);
        break_record(random, record, again);
    }
}

/// A rule to break.
pub fn random_rule(random: &mut Random) -> usize {
    1 + random.below(7)
}

/// Two motions in one piece.
fn break_piece<W: Width>(random: &mut Random, record: &mut [W]) {
    let q = random.below(4);
    let unused = W::from(-1);
    let list = |record: &[W]| (record[5 + 2 * q] == unused) as usize;
    if record[0] != W::from(4) && random.one_in(3) {
        // Another reference in one quadrant; its vectors stay.
        let at = 5 + 2 * q + list(record);
        record[at] = match record[at].number() {
            reference @ 0..31 => W::fitting(reference + 1),
            _ => W::from(0),
        };
        return;
    }
    if record[0] == W::from(4) && record[1 + q] == W::from(3) {
        record[1 + q] = W::fitting(random.within(0, 2));
    }
    let block = q / 2 * 8 + q % 2 * 2 + random.pick(&[0, 1, 4, 5]);
    let at = 13 + 4 * block + 2 * list(record) + random.below(2);
    record[at] = record[at].beside(random);
}
