//! Words or bytes lent to a call, between guards that no call may touch.

/// More than a record at each end.
const GUARDS: usize = 96;

pub trait Guard: Copy + PartialEq {
    const GUARD: Self;
}

impl Guard for i16 {
    /// No record, written or well formed, has such a word.
    const GUARD: i16 = 0x7a5c;
}

impl Guard for i32 {
    /// The same of a wide record.
    const GUARD: i32 = 0x7a5c_3b91;
}

impl Guard for u8 {
    /// No text of the grammar and no log has such a byte.
    const GUARD: u8 = 0xa5;
}

pub struct Lent<T = i16> {
    words: Vec<T>,
    before: Vec<T>,
}

impl<T: Guard> Lent<T> {
    pub fn of(words: &[T]) -> Lent<T> {
        let mut lent = Lent {
            words: Vec::new(),
            before: Vec::new(),
        };
        lent.words.extend_from_slice(&[T::GUARD; GUARDS]);
        lent.words.extend_from_slice(words);
        lent.words.extend_from_slice(&[T::GUARD; GUARDS]);
        lent.before = lent.words.clone();
        lent
    }

    pub fn filled(length: usize, fill: T) -> Lent<T> {
        Lent::of(&vec![fill; length])
    }

    pub fn words(&self) -> &[T] {
        &self.words[GUARDS..self.words.len() - GUARDS]
    }

    pub fn words_mut(&mut self) -> &mut [T] {
        let end = self.words.len() - GUARDS;
        &mut self.words[GUARDS..end]
    }

    /// Lends other words, from the first on.
    pub fn lend_first(&mut self, words: &[T]) {
        let lent = GUARDS..GUARDS + words.len();
        self.words[lent.clone()].copy_from_slice(words);
        self.before[lent].copy_from_slice(words);
    }

    /// Every word, lent or guard, is as it was.
    pub fn untouched(&self) -> bool {
        self.untouched_but(0)
    }

    /// Every word, lent or guard, but the first lent ones is as it was.
    pub fn untouched_but(&self, first: usize) -> bool {
        let rest = GUARDS + first;
        self.words[..GUARDS] == self.before[..GUARDS] && self.words[rest..] == self.before[rest..]
    }

    pub fn guards_stand(&self) -> bool {
        self.untouched_but(self.words().len())
    }

    /// Makes the first lent words what they were.
    pub fn restore(&mut self, first: usize) {
        let lent = GUARDS..GUARDS + first;
        self.words[lent.clone()].copy_from_slice(&self.before[lent]);
    }
}
