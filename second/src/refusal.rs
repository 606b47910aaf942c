//! Refusals: a number, a place, and for number 8 the first broken rule.

#[derive(Clone, Copy, Debug, PartialEq, Eq)]
pub struct Refusal {
    pub number: u32,
    /// A record address for 8, a byte offset for 9, otherwise 0.
    pub place: u32,
    /// 1 to 7 for refusal 8, otherwise 0.
    pub rule: u32,
}

impl Refusal {
    pub const fn of(number: u32) -> Refusal {
        Refusal { number, place: 0, rule: 0 }
    }

    /// Refusal 8: the record at `address` breaks `rule` first.
    pub const fn malformed(address: u32, rule: u32) -> Refusal {
        Refusal { number: 8, place: address, rule }
    }

    /// Refusal 9: no text of the grammar goes on at this offset.
    pub const fn grammar(offset: u32) -> Refusal {
        Refusal { number: 9, place: offset, rule: 0 }
    }
}
