//! How often what can happen did happen, in calls whose answers were compared: of one
//! width of records, and of its long vectors.

use second::geometry::Axis;
use second::record::{broken_rule, record_at, DETAIL, MAX_DETAIL, VECTORS};
use second::word::Word;
use second::Refusal;
use second::WORDS;

/// The pairs M,N of document 01's block map: first those for even k.
const PAIRS: [(i32, i32); 32] = [
    (-16, 0),
    (-16, 4),
    (-12, 0),
    (-12, 4),
    (-12, 8),
    (-8, 0),
    (-8, 4),
    (-8, 8),
    (-8, 12),
    (-4, 4),
    (-4, 8),
    (-4, 12),
    (-4, 16),
    (0, 8),
    (0, 12),
    (0, 16),
    (0, -16),
    (0, -12),
    (0, -8),
    (4, -16),
    (4, -12),
    (4, -8),
    (4, -4),
    (8, -12),
    (8, -8),
    (8, -4),
    (8, 0),
    (12, -8),
    (12, -4),
    (12, 0),
    (16, -4),
    (16, 0),
];

const CLASSES: [&str; 4] = ["Corner", "Vert", "Hori", "Center"];

/// What can be said of a quadrant's bit in an answer's detail.
const BITS: [&str; 7] = [
    "set, inherited",
    "set, intra",
    "set by intra ones alone",
    "set, but not by all",
    "not, its macroblock has",
    "not, motion copied",
    "not set",
];

/// What a written vector word can be, by the word of the base that it comes from, and by
/// the product v * scale + 32,768, of which it is the part above sixteen bits.
const LONG: [&str; 8] = [
    "of a narrow word",
    "below, in 16 bits",
    "above, in 16 bits",
    "product below -2^31",
    "product from 2^31 on",
    "product from 2^32 on",
    "-262,144",
    "262,142",
];

/// What of the list above a word is; all but the first are of words beyond the narrow
/// limit.
fn long(word: i32) -> [bool; 8] {
    [
        (-16_384..=16_382).contains(&word),
        (-32_768..-16_384).contains(&word),
        (16_383..32_768).contains(&word),
        word < -32_768,
        word >= 32_768,
        word >= 65_536,
        word == -262_144,
        word == 262_142,
    ]
}

/// The first broken rule if each word were cut to its low half, and read as a number of
/// sixteen bits.
fn cut_rule<W: Word>(base: &[W], address: usize) -> u32 {
    broken_rule(&record_at(base, address).map(|word| i32::from(word.number() as i16)))
}

/// The row of the block map for a macroblock inside at sample `p`.
pub fn map_row(axis: &Axis, p: i32) -> usize {
    let borders = axis.borders(p);
    let table = if borders.k_odd { 16..32 } else { 0..16 };
    table
        .clone()
        .find(|&row| PAIRS[row] == (borders.m, borders.n))
        .expect("a pair of the block map")
}

/// The number of a split, 0 to 258, by words 0 to 4 of a written record.
fn split_number<W: Word>(words: &[W]) -> usize {
    match words[0].number() {
        4 => {
            words[1..5]
                .iter()
                .fold(0, |number, &sub| 4 * number + sub.number() as usize)
                + 3
        }
        kind => kind as usize - 1,
    }
}

/// What a block reads of the base.
#[derive(Clone, Copy, Default)]
pub struct Block {
    /// Its macroblock is intra.
    pub intra: bool,
    /// Its quadrant has detail.
    pub bit: bool,
    /// Its macroblock has detail, in this quadrant or another.
    pub macroblock: bool,
}

/// The blocks of a macroblock by quadrant.
pub type Blocks = [[Block; 4]; 4];

/// An answer's detail as it is defined, block by block.
pub fn detail(blocks: &Blocks) -> i16 {
    (0..4)
        .map(|q| (blocks[q].iter().any(|block| block.bit) as i16) << q)
        .sum()
}

/// Counts for one of the two calls.
#[derive(Clone)]
pub struct Counts {
    map_rows: [[u64; 32]; 2],
    classes: [u64; 4],
    outside: u64,
    splits: [u64; 259],
    intra_blocks: [u64; 17],
    /// Of inherited and of intra answers, by how many of the four blocks along each
    /// axis fall in the first column and row, less one.
    falls: [[[u64; 4]; 4]; 2],
    /// Details of inherited and of intra answers.
    details: [[u64; 16]; 2],
    /// By BITS and quadrant.
    bits: [[u64; 4]; 7],
    refusals: [u64; 9],
    rules: [u64; 8],
    /// Rules that are given for a record that breaks rule 7 too.
    before_7: [u64; 7],
    /// Written vector words by LONG and their place in a block's four; of wide records.
    long: [[u64; 4]; 8],
    /// Rules that are given for a record that would be well formed, or break a later rule
    /// first, if its words were cut to their low halves.
    cut: [u64; 8],
}

/// What a macroblock inside the window had.
pub struct Inside<'a, W> {
    pub map_rows: [usize; 2],
    pub class: usize,
    /// How many of the four blocks along each axis fall in the first column and row.
    pub falls: [u8; 2],
    pub blocks: Blocks,
    /// The written record.
    pub words: &'a [W],
}

impl Counts {
    fn new() -> Counts {
        Counts {
            map_rows: [[0; 32]; 2],
            classes: [0; 4],
            outside: 0,
            splits: [0; 259],
            intra_blocks: [0; 17],
            falls: [[[0; 4]; 4]; 2],
            details: [[0; 16]; 2],
            bits: [[0; 4]; 7],
            refusals: [0; 9],
            rules: [0; 8],
            before_7: [0; 7],
            long: [[0; 4]; 8],
            cut: [0; 8],
        }
    }

    pub fn outside(&mut self) {
        self.outside += 1;
    }

    pub fn inside<W: Word>(&mut self, inside: Inside<W>) {
        for axis in 0..2 {
            self.map_rows[axis][inside.map_rows[axis]] += 1;
        }
        self.classes[inside.class] += 1;
        let blocks = inside.blocks.as_flattened().iter();
        self.intra_blocks[blocks.filter(|block| block.intra).count()] += 1;
        let intra = inside.words[0] == W::from(0);
        if !intra {
            self.splits[split_number(inside.words)] += 1;
            if is_wide::<W>() {
                self.vectors(&inside.words[VECTORS..DETAIL]);
            }
        }
        let [columns, rows] = inside.falls.map(|falls| falls as usize - 1);
        self.falls[intra as usize][columns][rows] += 1;
        let detail = detail(&inside.blocks);
        self.details[intra as usize][detail as usize] += 1;
        for (q, blocks) in inside.blocks.iter().enumerate() {
            let set = detail >> q & 1 == 1;
            let all_intra = blocks.iter().all(|block| block.intra);
            let is = [
                set && !intra,
                set && intra,
                // No base macroblock with motion has it, but the answer has motion.
                set && !intra && blocks.iter().all(|block| block.intra || !block.bit),
                set && blocks.iter().any(|block| !block.bit),
                // A base macroblock that is read has detail, in another quadrant.
                !set && blocks.iter().any(|block| block.macroblock),
                // The motion is another quadrant's, and some quadrant's bit is set.
                !set && !intra && all_intra && detail != 0,
                !set,
            ];
            for (count, is) in self.bits.iter_mut().zip(is) {
                count[q] += is as u64;
            }
        }
    }

    /// The vector words of a wide record, which tell one piece from another: each word is
    /// looked at once in a row of blocks.
    fn vectors<W: Word>(&mut self, words: &[W]) {
        for (at, &word) in words.iter().enumerate() {
            if at % 16 >= 4 && words[at - 4] == word {
                continue;
            }
            for (count, is) in self.long.iter_mut().zip(long(word.number())) {
                count[at % 4] += is as u64;
            }
        }
    }

    /// A call on this base was refused.
    pub fn refused<W: Word>(&mut self, refusal: Refusal, base: &[W]) {
        self.refusals[refusal.number as usize] += 1;
        if refusal.number == 8 {
            let (rule, place) = (refusal.rule as usize, refusal.place as usize);
            self.rules[rule] += 1;
            let detail = base[place * WORDS + DETAIL].number();
            if rule < 7 && !(0..=MAX_DETAIL.into()).contains(&detail) {
                self.before_7[rule] += 1;
            }
            if is_wide::<W>() {
                let cut = cut_rule(base, place);
                self.cut[rule] += (cut == 0 || cut > refusal.rule) as u64;
            }
        }
    }
}

fn is_wide<W: Word>() -> bool {
    size_of::<W>() == size_of::<i32>()
}

pub struct Coverage {
    pub picture: Counts,
    pub single: Counts,
    /// Malformed records that an answered one-macroblock call did not name, by
    /// the rule that they break.
    pub unnamed: [u64; 8],
}

impl Coverage {
    pub fn new() -> Coverage {
        Coverage {
            picture: Counts::new(),
            single: Counts::new(),
            unnamed: [0; 8],
        }
    }

    /// Prints the tables. For each, its name and whether everything that it
    /// lists did happen.
    pub fn report(&self) -> Vec<(&'static str, bool)> {
        vec![
            (
                "each row of the block map, on both axes, in both calls",
                self.print_map_rows(),
            ),
            (
                "each class, and outside, in both calls",
                self.print_classes(),
            ),
            (
                "each count of intra blocks that the map allows, in both calls",
                self.print_intra_blocks(),
            ),
            ("each of the 259 splits, in both calls", self.print_splits()),
            (
                "each number of blocks in the first column and row, of inherited and of intra answers, in both calls",
                self.print_falls(),
            ),
            (
                "each detail, of inherited and of intra answers, in both calls",
                self.print_details(),
            ),
            (
                "each way in which a quadrant's bit is set or not, in both calls",
                self.print_bits(),
            ),
            ("each refusal of each call", self.print_refusals()),
            (
                "each rule of refusal 8 in each call, and in records not named",
                self.print_rules(),
            ),
            (
                "each rule before 7 of a record that breaks 7 too, in both calls",
                self.print_before_7(),
            ),
        ]
    }

    /// The same of wide records: all that is above, and what only these can have.
    pub fn report_wide(&self) -> Vec<(&'static str, bool)> {
        let mut verdicts = self.report();
        verdicts.push((
            "vectors beyond the narrow limit, products beyond 32 bits and words at both ends, at each place, in both calls",
            self.print_long(),
        ));
        verdicts.push((
            "each rule but 4, of a record that keeps it in its words' low halves, in both calls",
            self.print_cut(),
        ));
        verdicts
    }

    fn print_long(&self) -> bool {
        println!(
            "written vector words: horizontal and vertical of both lists in pictures, and singly"
        );
        let mut all = true;
        for (number, name) in LONG.iter().enumerate() {
            let counts = [self.picture.long[number], self.single.long[number]];
            let counts = counts.as_flattened();
            line(name, counts);
            all &= counts.iter().all(|&count| count > 0);
        }
        all
    }

    fn print_cut(&self) -> bool {
        println!("rule that refusal 8 gives of a record that keeps it in its words' low halves: in pictures, singly");
        let mut all = true;
        for rule in 1..8 {
            let counts = [self.picture.cut[rule], self.single.cut[rule]];
            line(&rule.to_string(), &counts);
            // Rule 4 is asked of words in -1..31, by rules 1 to 3.
            all &= counts.iter().all(|&count| (count > 0) == (rule != 4));
        }
        all
    }

    fn print_map_rows(&self) -> bool {
        let (picture, single) = (&self.picture.map_rows, &self.single.map_rows);
        println!("block map, macroblocks by row: columns and rows in pictures, and singly");
        let mut all = true;
        for (row, (m, n)) in PAIRS.iter().enumerate() {
            let counts = [
                picture[0][row],
                picture[1][row],
                single[0][row],
                single[1][row],
            ];
            let k = if row < 16 { "even" } else { "odd" };
            line(&format!("k {k:4} {m:>3},{n:>3}"), &counts);
            all &= counts.iter().all(|&count| count > 0);
        }
        all
    }

    fn print_classes(&self) -> bool {
        let (picture, single) = (&self.picture, &self.single);
        println!("class: in pictures, singly");
        let mut all = picture.outside > 0 && single.outside > 0;
        for (class, name) in CLASSES.iter().enumerate() {
            line(name, &[picture.classes[class], single.classes[class]]);
            all &= picture.classes[class] > 0 && single.classes[class] > 0;
        }
        line("(outside)", &[picture.outside, single.outside]);
        all
    }

    fn print_intra_blocks(&self) -> bool {
        println!("blocks that read intra macroblocks: in pictures, singly");
        let mut all = true;
        for blocks in 0..17 {
            let counts = [
                self.picture.intra_blocks[blocks],
                self.single.intra_blocks[blocks],
            ];
            line(&blocks.to_string(), &counts);
            // No rows of the map give 5 or 11.
            let possible = blocks != 5 && blocks != 11;
            all &= counts.iter().all(|&count| (count > 0) == possible);
        }
        all
    }

    fn print_splits(&self) -> bool {
        let (picture, single) = (&self.picture.splits, &self.single.splits);
        let both = |n: usize| picture[n] + single[n];
        println!(
            "splits, in both calls: 16x16 {}, 16x8 {}, 8x16 {}",
            both(0),
            both(1),
            both(2)
        );
        println!("8x8 by the sub-types of quadrants 0 and 1 (down), 2 and 3 (across):");
        let subs = |n: usize| format!("{}{}", n / 4, n % 4);
        let cells = |cell: &dyn Fn(usize) -> String| {
            (0..16)
                .map(|n| format!("{:>6}", cell(n)))
                .collect::<String>()
        };
        println!("   {}", cells(&subs));
        for row in 0..16 {
            println!(
                "{} {}",
                subs(row),
                cells(&|n| both(3 + 16 * row + n).to_string())
            );
        }
        (0..259).all(|n| picture[n] > 0 && single[n] > 0)
    }

    fn print_falls(&self) -> bool {
        println!("blocks in the first column and row: inherited and intra in pictures, and singly");
        let mut all = true;
        for columns in 0..4 {
            for rows in 0..4 {
                let (picture, single) = (&self.picture.falls, &self.single.falls);
                let counts = [
                    picture[0][columns][rows],
                    picture[1][columns][rows],
                    single[0][columns][rows],
                    single[1][columns][rows],
                ];
                line(&format!("{} and {}", columns + 1, rows + 1), &counts);
                all &= counts.iter().all(|&count| count > 0);
            }
        }
        all
    }

    fn print_details(&self) -> bool {
        println!("detail: inherited and intra in pictures, and singly");
        let mut all = true;
        for detail in 0..16 {
            let (picture, single) = (&self.picture.details, &self.single.details);
            let counts = [
                picture[0][detail],
                picture[1][detail],
                single[0][detail],
                single[1][detail],
            ];
            line(&detail.to_string(), &counts);
            all &= counts.iter().all(|&count| count > 0);
        }
        all
    }

    fn print_bits(&self) -> bool {
        println!("bits of details: quadrants 0 to 3 in pictures, and singly");
        let mut all = true;
        for (number, name) in BITS.iter().enumerate() {
            let counts = [self.picture.bits[number], self.single.bits[number]];
            let counts = counts.as_flattened();
            line(name, counts);
            all &= counts.iter().all(|&count| count > 0);
        }
        all
    }

    fn print_refusals(&self) -> bool {
        println!("refusal: in pictures, singly");
        let mut all = true;
        for number in 1..9 {
            let (picture, single) = (self.picture.refusals[number], self.single.refusals[number]);
            line(&number.to_string(), &[picture, single]);
            // A picture has no column and row to judge.
            all &= single > 0 && (picture > 0) == (number != 7);
        }
        all
    }

    fn print_rules(&self) -> bool {
        println!("rule that refusal 8 gives: in pictures, singly; broken in records that an answer does not name");
        let mut all = true;
        for rule in 1..8 {
            let counts = [
                self.picture.rules[rule],
                self.single.rules[rule],
                self.unnamed[rule],
            ];
            line(&rule.to_string(), &counts);
            all &= counts.iter().all(|&count| count > 0);
        }
        all
    }

    fn print_before_7(&self) -> bool {
        println!("rule that refusal 8 gives of a record that breaks 7 too: in pictures, singly");
        let mut all = true;
        for rule in 1..7 {
            let counts = [self.picture.before_7[rule], self.single.before_7[rule]];
            line(&rule.to_string(), &counts);
            all &= counts.iter().all(|&count| count > 0);
        }
        all
    }
}

/// A line of a table.
pub fn line(name: &str, counts: &[u64]) {
    let counts: String = counts.iter().map(|count| format!("{count:>10}")).collect();
    println!("{name:>24}{counts}");
}
