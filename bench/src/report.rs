//! The report of times.

use crate::rows::{pictures, texts, wide_pictures, Row};
use crate::times::{time, ROUNDS};
use compare::sync::long_notes;

const NOTE: &str = "(note take -1204 (cut 7 (31 (b))))\n";

const LENGTHS: [usize; 5] = [256, 1_024, 4_096, 16_384, 65_536];

const SIDES: [i32; 5] = [16, 64, 256, 1024, 4096];

pub fn report() {
    println!("Medians of {ROUNDS} rounds, in turns.");
    println!();
    of_texts();
    by_length();
    println!();
    println!("Pictures of mixed well-formed records, in millions of macroblocks a second, beside a plain copy of the words");
    println!("Every buffer was touched before: no page is new, small pictures are in the cache.");
    of_pictures(pictures());
    by_side();
    println!();
    println!("The same of wide records, their vectors as short (wide) or to the limit (long)");
    of_pictures(wide_pictures());
}

fn of_texts() {
    println!("Texts and logs, in millions of bytes of the text, or of lines of the log, a second");
    println!(
        "{:<36} {:<6} {:>9} {:>9} {:>22}",
        "", "", "library", "second", "of the second's speed"
    );
    for timed in time(texts()) {
        let [library, second, _] = timed.medians();
        println!(
            "{:<36} {:<6} {:>9.2} {:>9.2} {:>22.2}",
            timed.row.name,
            timed.row.unit.to_string() + "s",
            1e3 / library,
            1e3 / second,
            second / library
        );
    }
}

/// The same note again and again: a random text that is short can be learnt by
/// the processor, a long one cannot.
fn by_length() {
    println!("Nanoseconds per byte by the text's length, {NOTE:?} again and again");
    println!(
        "{:>12} {:>9} {:>9} {:>9} {:>9}",
        "bytes", "text", "second", "log", "second"
    );
    let rows = LENGTHS.iter().flat_map(|&bytes| {
        let text = long_notes(bytes, || NOTE.to_string());
        [
            Row::text("one note", text.clone()),
            Row::log("one note", text),
        ]
    });
    for both in time(rows.collect()).chunks(2) {
        let [text, text_second, _] = both[0].medians();
        let [log, log_second, _] = both[1].medians();
        let bytes = both[0].row.amount;
        println!("{bytes:>12} {text:>9.2} {text_second:>9.2} {log:>9.2} {log_second:>9.2}");
    }
}

fn of_pictures(rows: Vec<Row>) {
    println!(
        "{:<36} {:>9} {:>9} {:>9} {:>22} {:>22}",
        "", "library", "second", "copy", "of the second's speed", "time of the copy's"
    );
    for timed in time(rows) {
        let [library, second, copy] = timed.medians();
        println!(
            "{:<36} {:>9.2} {:>9.2} {:>9.2} {:>22.2} {:>22.1}",
            timed.row.name,
            1e3 / library,
            1e3 / second,
            1e3 / copy,
            second / library,
            library / copy
        );
    }
}

fn by_side() {
    println!("Nanoseconds per macroblock by the picture's side, ratio 1");
    println!(
        "{:>12} {:>9} {:>9} {:>9}",
        "side", "library", "second", "copy"
    );
    let rows = SIDES.map(|side| Row::picture("ratio 1", [side, side, 0, side]));
    for (side, timed) in SIDES.iter().zip(time(rows.into())) {
        let [library, second, copy] = timed.medians();
        println!("{side:>12} {library:>9.1} {second:>9.1} {copy:>9.1}");
    }
}
