//! The grammar of the sync text as a finite machine. A text of no bytes does not
//! belong to it: the text call answers that one itself.
//!
//! Notes are at most eight deep, so the grammar is regular: it is written out
//! here as states and edges. Several edges of a state may take the same byte
//! (each line form begins with a bracket), so a text is followed with the set
//! of all states that it can have led to.
//!
//! The states are made from the end of the text backwards: each function below
//! is given the state that stands after what it reads. So from every state
//! some bytes lead on to the end of a text, and a beginning is the beginning
//! of some text of the grammar exactly when its set is not empty. That is what
//! refusal 9's place asks.

use std::sync::OnceLock;

type State = u16;

/// Notes and lists nest to this depth, the note being at 1.
const DEPTH: u32 = 8;

#[derive(Clone, Copy)]
struct Edge {
    low: u8,
    high: u8,
    to: State,
}

pub struct Machine {
    edges: Vec<Vec<Edge>>,
    start: State,
    end: State,
}

/// A number's digits so far, compared with as many of its limit's.
#[derive(Clone, Copy)]
struct After {
    below: State,
    equal: State,
    /// The number then has to stay shorter than the limit.
    above: Option<State>,
}

impl Machine {
    fn state(&mut self) -> State {
        self.edges.push(Vec::new());
        (self.edges.len() - 1) as State
    }

    fn edge(&mut self, from: State, low: u8, high: u8, to: State) {
        if low <= high {
            self.edges[from as usize].push(Edge { low, high, to });
        }
    }

    /// `from` may also go on as `other` does.
    fn also(&mut self, from: State, other: State) {
        let more = self.edges[other as usize].clone();
        self.edges[from as usize].extend(more);
    }

    /// Exactly these bytes.
    fn bytes(&mut self, bytes: &str, then: State) -> State {
        bytes.bytes().rev().fold(then, |then, byte| {
            let state = self.state();
            self.edge(state, byte, byte, then);
            state
        })
    }

    /// 1 to `limit`, without leading zero.
    fn digits(&mut self, limit: &[u8; 5], then: State) -> State {
        let mut after = After { below: then, equal: then, above: None };
        for (i, &digit) in limit.iter().enumerate().rev() {
            let next = after;
            let (below, equal, above) = (self.state(), self.state(), self.state());
            // With no digit read there is neither an end nor a zero.
            let lowest = if i == 0 { b'1' } else { b'0' };
            if i > 0 {
                self.also(below, then);
                self.also(equal, then);
                self.also(above, then);
            }
            self.edge(below, lowest, b'9', next.below);
            self.edge(equal, lowest, digit - 1, next.below);
            self.edge(equal, digit, digit, next.equal);
            if let Some(next_above) = next.above {
                self.edge(equal, digit + 1, b'9', next_above);
                self.edge(above, lowest, b'9', next_above);
            }
            after = After { below, equal, above: Some(above) };
        }
        after.equal
    }

    /// -32,768 to 32,767.
    fn number(&mut self, then: State) -> State {
        let positive = self.digits(b"32767", then);
        let negative = self.digits(b"32768", then);
        let number = self.state();
        self.edge(number, b'0', b'0', then);
        self.also(number, positive);
        self.edge(number, b'-', b'-', negative);
        number
    }

    /// As many numbers, separated by spaces.
    fn numbers(&mut self, count: u32, then: State) -> State {
        let last = self.number(then);
        (1..count).fold(last, |next, _| {
            let space = self.bytes(" ", next);
            self.number(space)
        })
    }

    /// The items of a list or note at this depth, one at least, and its
    /// closing bracket.
    fn items(&mut self, depth: u32, then: State) -> State {
        let item = self.state();
        let after = self.state();
        self.edge(after, b' ', b' ', item);
        self.edge(after, b')', b')', then);

        let word = self.state();
        self.edge(word, b'a', b'z', word);
        self.also(word, after);
        self.edge(item, b'a', b'z', word);

        let number = self.number(after);
        self.also(item, number);

        if depth < DEPTH {
            let list = self.items(depth + 1, after);
            self.edge(item, b'(', b'(', list);
        }
        item
    }

    fn note(&mut self, then: State) -> State {
        let line_feed = self.bytes("\n", then);
        let after = self.state();
        let items = self.items(1, line_feed);
        self.edge(after, b' ', b' ', items);
        self.edge(after, b')', b')', line_feed);
        self.bytes("(note", after)
    }

    /// One of the four lines that give the geometry, and notes before it.
    fn head(&mut self, name: &str, then: State) -> State {
        let here = self.state();
        let close = self.bytes(")\n", then);
        let numbers = self.numbers(2, close);
        let name = self.bytes(name, numbers);
        self.also(here, name);
        let note = self.note(here);
        self.also(here, note);
        here
    }

    /// The last number of a record line, and the line's end.
    fn detail(&mut self, then: State) -> State {
        let close = self.bytes(")\n", then);
        self.number(close)
    }

    /// Record lines and notes to the end, which may be here.
    fn records(&mut self) -> State {
        let here = self.state();

        let detail = self.detail(here);
        let intra = self.bytes("(intra ", detail);
        self.also(here, intra);

        let detail = self.detail(here);
        let part = self.bytes(") ", detail);
        let vectors = self.numbers(4, part);
        let part = self.bytes(") (", vectors);
        let references = self.numbers(2, part);
        let whole = self.bytes("(whole (", references);
        self.also(here, whole);

        let detail = self.detail(here);
        let part = self.bytes(") ", detail);
        let vectors = self.numbers(64, part);
        let part = self.bytes(") (", vectors);
        let references = self.numbers(8, part);
        let part = self.bytes(") (", references);
        let sub_types = self.numbers(4, part);
        let part = self.bytes(" (", sub_types);
        let kind = self.number(part);
        let mb = self.bytes("(mb ", kind);
        self.also(here, mb);

        let note = self.note(here);
        self.also(here, note);
        here
    }

    fn build() -> Machine {
        let mut machine = Machine { edges: Vec::new(), start: 0, end: 0 };
        machine.end = machine.records();
        let full = machine.head("(full ", machine.end);
        let at = machine.head("(at ", full);
        let scaled = machine.head("(scaled ", at);
        machine.start = machine.head("(base ", scaled);
        machine
    }

    /// The machine of the sync text.
    pub fn sync_text() -> &'static Machine {
        static MACHINE: OnceLock<Machine> = OnceLock::new();
        MACHINE.get_or_init(Machine::build)
    }

    /// All states that a byte leads to from some state of a set.
    fn step(&self, from: &[State], byte: u8, to: &mut Vec<State>) {
        to.clear();
        for &state in from {
            for edge in &self.edges[state as usize] {
                if edge.low <= byte && byte <= edge.high && !to.contains(&edge.to) {
                    to.push(edge.to);
                }
            }
        }
    }

    /// Whether a text belongs; else the offset at which no text can go on,
    /// the length if it ends early.
    pub fn belongs(&self, text: &[u8]) -> Result<(), usize> {
        let mut states = vec![self.start];
        let mut next = Vec::new();
        for (offset, &byte) in text.iter().enumerate() {
            self.step(&states, byte, &mut next);
            if next.is_empty() {
                return Err(offset);
            }
            std::mem::swap(&mut states, &mut next);
        }
        if states.contains(&self.end) {
            Ok(())
        } else {
            Err(text.len())
        }
    }
}

#[cfg(test)]
mod tests;
