//! The calls that are measured, each with all that is lent to it.

use compare::generate::{base_macroblocks, full_macroblocks, library, widened, Eight, Mood, Width};
use compare::random::Random;
use second::{Numbers, Refusal, TEXT_WORDS, WORDS};
use spiewomir::LOG_BYTES;

/// Who makes a call. A copy is a plain one of the words of a picture.
#[derive(Clone, Copy)]
pub enum By {
    Library,
    Second,
    Copy,
}

pub trait Call {
    fn make(&mut self, by: By);

    /// Once all have made it: they wrote the same.
    fn check(&self);
}

/// The second implementation's calls, each a function of a name that valgrind can
/// be given, as the library's are.
mod named {
    use super::*;

    #[no_mangle]
    #[inline(never)]
    pub fn second_picture(numbers: Numbers, base: &[i16], out: &mut [i16]) -> Result<(), Refusal> {
        second::picture(numbers, base, out).map(|_| ())
    }

    #[no_mangle]
    #[inline(never)]
    pub fn second_picture_wide(
        numbers: Numbers,
        base: &[i32],
        out: &mut [i32],
    ) -> Result<(), Refusal> {
        second::picture_wide(numbers, base, out).map(|_| ())
    }

    #[no_mangle]
    #[inline(never)]
    pub fn second_text(text: &[u8], words: &mut [i16]) -> Result<(), Refusal> {
        second::text(text, words).map(|_| ())
    }

    #[no_mangle]
    #[inline(never)]
    pub fn second_log(text: &[u8]) -> Vec<u8> {
        second::log(text)
    }
}

/// The picture call of one width.
pub trait Pictured: Width {
    fn library(eight: &Eight, base: &[Self], out: &mut [Self]);

    fn second(eight: &Eight, base: &[Self], out: &mut [Self]);
}

impl Pictured for i16 {
    fn library(eight: &Eight, base: &[i16], out: &mut [i16]) {
        spiewomir::picture(library(eight), base, out).expect("accepted");
    }

    fn second(eight: &Eight, base: &[i16], out: &mut [i16]) {
        named::second_picture(Numbers::from_array(*eight), base, out).expect("accepted");
    }
}

impl Pictured for i32 {
    fn library(eight: &Eight, base: &[i32], out: &mut [i32]) {
        spiewomir::picture_wide(library(eight), base, out).expect("accepted");
    }

    fn second(eight: &Eight, base: &[i32], out: &mut [i32]) {
        named::second_picture_wide(Numbers::from_array(*eight), base, out).expect("accepted");
    }
}

/// The picture call on mixed well-formed records.
pub struct Picture<W> {
    eight: Eight,
    base: Vec<W>,
    by_library: Vec<W>,
    by_second: Vec<W>,
    copied: Vec<W>,
}

/// Mixed records of a width.
fn mixed<W: Width>(eight: &Eight) -> Vec<W> {
    let random = &mut Random::new(7);
    let details = &mut Random::new(77);
    Mood::mixed(random).base_apart(random, details, base_macroblocks(eight))
}

impl Picture<i16> {
    pub fn narrow(eight: Eight) -> Picture<i16> {
        Picture::new(eight, mixed(&eight))
    }
}

impl Picture<i32> {
    /// The narrow one's records in wide words.
    pub fn wide(eight: Eight) -> Picture<i32> {
        Picture::new(eight, widened(&mixed(&eight)))
    }

    /// Vectors to the wide limit.
    pub fn long(eight: Eight) -> Picture<i32> {
        Picture::new(eight, mixed(&eight))
    }
}

impl<W: Pictured> Picture<W> {
    fn new(eight: Eight, base: Vec<W>) -> Picture<W> {
        let words = full_macroblocks(&eight) * WORDS;
        Picture {
            eight,
            base,
            by_library: vec![W::from(-1); words],
            by_second: vec![W::from(-2); words],
            copied: vec![W::from(-3); words],
        }
    }
}

/// Not inlined, so that each copy is made.
#[inline(never)]
fn copy<W: Copy>(from: &[W], to: &mut [W]) {
    to.copy_from_slice(from);
}

impl<W: Pictured> Call for Picture<W> {
    fn make(&mut self, by: By) {
        match by {
            By::Library => W::library(&self.eight, &self.base, &mut self.by_library),
            By::Second => W::second(&self.eight, &self.base, &mut self.by_second),
            By::Copy => copy(&self.by_second, &mut self.copied),
        }
    }

    fn check(&self) {
        assert!(
            self.by_library == self.by_second && self.copied == self.by_second,
            "the words differ"
        );
    }
}

/// The text call.
pub struct Text {
    text: Vec<u8>,
    by_library: Vec<i16>,
    by_second: Vec<i16>,
}

impl Text {
    pub fn new(text: &str) -> Text {
        make_ready();
        Text {
            text: text.into(),
            by_library: vec![-1; TEXT_WORDS],
            by_second: vec![-1; TEXT_WORDS],
        }
    }
}

/// The second implementation makes its machine of the grammar in the first call on a text
/// that has bytes.
fn make_ready() {
    second::log(b"(");
}

impl Call for Text {
    fn make(&mut self, by: By) {
        match by {
            By::Library => {
                spiewomir::text(&self.text, &mut self.by_library).expect("it is read");
            }
            By::Second => {
                named::second_text(&self.text, &mut self.by_second).expect("it is read");
            }
            By::Copy => {}
        }
    }

    fn check(&self) {
        assert!(self.by_library == self.by_second, "the words differ");
    }
}

/// The log of a text.
pub struct Log {
    text: Vec<u8>,
    by_library: Vec<u8>,
    /// Its length.
    written: usize,
    by_second: Vec<u8>,
}

impl Log {
    pub fn new(text: &str) -> Log {
        make_ready();
        Log {
            text: text.into(),
            by_library: vec![b'#'; LOG_BYTES],
            written: 0,
            by_second: Vec::new(),
        }
    }
}

impl Call for Log {
    fn make(&mut self, by: By) {
        match by {
            By::Library => {
                self.written = spiewomir::numbers::log(&self.text, &mut self.by_library).bytes;
            }
            By::Second => self.by_second = named::second_log(&self.text),
            By::Copy => {}
        }
    }

    fn check(&self) {
        assert!(
            self.by_library[..self.written] == self.by_second,
            "the logs differ"
        );
    }
}
