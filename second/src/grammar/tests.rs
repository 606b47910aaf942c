use super::*;
use crate::inherit::tests::Random;

const HEAD: &str = "(base 16 16)\n(scaled 32 32)\n(at 0 0)\n(full 48 32)\n";

fn machine() -> &'static Machine {
    Machine::sync_text()
}

/// The grammar once more, on whole lines with the library's string functions.
mod plainly {
    fn number(s: &str) -> bool {
        s.parse::<i32>().is_ok_and(|n| (-32768..=32767).contains(&n) && n.to_string() == s)
    }

    fn numbers(s: &str, count: usize) -> bool {
        s.split(' ').count() == count && s.split(' ').all(number)
    }

    fn head(line: &str, name: &str) -> bool {
        let inner = line.strip_prefix('(').and_then(|l| l.strip_prefix(name)).and_then(|l| l.strip_prefix(' '));
        inner.and_then(|l| l.strip_suffix(')')).is_some_and(|l| numbers(l, 2))
    }

    fn record(line: &str) -> bool {
        let Some((line, detail)) = line.strip_suffix(')').and_then(|l| l.rsplit_once(' ')) else {
            return false;
        };
        if !number(detail) {
            return false;
        }
        if line == "(intra" {
            return true;
        }
        if let Some(inner) = line.strip_prefix("(whole (").and_then(|l| l.strip_suffix(')')) {
            return inner.split_once(") (").is_some_and(|(a, b)| numbers(a, 2) && numbers(b, 4));
        }
        let inner = line.strip_prefix("(mb ").and_then(|l| l.strip_suffix(')'));
        inner.and_then(|l| l.split_once(" (")).is_some_and(|(kind, lists)| {
            let lists: Vec<_> = lists.split(") (").collect();
            number(kind) && lists.len() == 3 && numbers(lists[0], 4) && numbers(lists[1], 8) && numbers(lists[2], 64)
        })
    }

    /// Atoms become x; then lists of x become x, seven times at most.
    fn note(line: &str) -> bool {
        let Some(inner) = line.strip_prefix("(note").and_then(|l| l.strip_suffix(')')) else {
            return false;
        };
        let mut form = String::new();
        let mut rest = inner;
        while let Some(c) = rest.chars().next() {
            if "() ".contains(c) {
                form.push(c);
                rest = &rest[1..];
            } else {
                let atom = &rest[..rest.find(['(', ')', ' ']).unwrap_or(rest.len())];
                if !number(atom) && !atom.bytes().all(|b| b.is_ascii_lowercase()) {
                    return false;
                }
                form.push('x');
                rest = &rest[atom.len()..];
            }
        }
        let all_x = |s: &str| s.split(' ').all(|x| x == "x");
        for _ in 0..7 {
            let mut shorter = String::new();
            let mut rest = form.as_str();
            while let Some(open) = rest.find('(') {
                shorter += &rest[..open];
                rest = &rest[open..];
                let end = rest[1..].find(['(', ')']).map_or(rest.len(), |end| end + 1);
                if rest[end..].starts_with(')') && all_x(&rest[1..end]) {
                    shorter.push('x');
                    rest = &rest[end + 1..];
                } else {
                    shorter += &rest[..end];
                    rest = &rest[end..];
                }
            }
            form = shorter + rest;
        }
        form.is_empty() || form.strip_prefix(' ').is_some_and(all_x)
    }

    pub fn belongs(text: &[u8]) -> bool {
        let Ok(text) = std::str::from_utf8(text) else { return false };
        let Some(text) = text.strip_suffix('\n') else { return false };
        let mut lines = text.split('\n').filter(|line| !note(line));
        ["base", "scaled", "at", "full"].iter().all(|name| lines.next().is_some_and(|line| head(line, name)))
            && lines.all(record)
    }
}

/// From every state some bytes lead to the end: for each state, one that is
/// nearer to it and a byte to get there.
fn ways_to_end() -> Vec<Option<(u8, State)>> {
    let edges = &machine().edges;
    let mut ways: Vec<Option<(u8, State)>> = vec![None; edges.len()];
    let mut reached = vec![machine().end];
    let mut known = vec![false; edges.len()];
    known[machine().end as usize] = true;
    let mut before: Vec<Vec<(u8, usize)>> = vec![Vec::new(); edges.len()];
    for (from, edges) in edges.iter().enumerate() {
        edges.iter().for_each(|edge| before[edge.to as usize].push((edge.low, from)));
    }
    let mut at = 0;
    while at < reached.len() {
        let state = reached[at];
        for &(byte, from) in &before[state as usize] {
            if !known[from] {
                known[from] = true;
                ways[from] = Some((byte, state));
                reached.push(from as State);
            }
        }
        at += 1;
    }
    assert_eq!(reached.len(), edges.len(), "a state from which no text ends");
    ways
}

/// A text that begins with these bytes, which lead to some state.
fn complete(beginning: &[u8], ways: &[Option<(u8, State)>], pick: usize) -> Vec<u8> {
    let mut states = vec![machine().start];
    let mut next = Vec::new();
    for &byte in beginning {
        machine().step(&states, byte, &mut next);
        std::mem::swap(&mut states, &mut next);
    }
    let mut text = beginning.to_vec();
    let mut state = states[pick % states.len()];
    while let Some((byte, nearer)) = ways[state as usize] {
        text.push(byte);
        state = nearer;
    }
    text
}

fn random_number(random: &mut Random) -> String {
    match random.below(6) {
        0 => ["32767", "-32768", "-1", "0", "10", "-32760"][random.below(6) as usize].into(),
        1 => random.within(-9, 9).to_string(),
        2 => random.within(-9999, 9999).to_string(),
        _ => random.within(-32768, 32767).to_string(),
    }
}

fn random_items(random: &mut Random, depth: u32) -> String {
    let items: Vec<_> = (0..random.within(1, 3))
        .map(|_| match random.below(if depth < 8 { 5 } else { 2 }) {
            0 => "abnotezmi".chars().take(random.within(1, 9) as usize).collect(),
            1 => random_number(random),
            _ if random.below(8) > depth => format!("({})", random_items(random, depth + 1)),
            _ => "x".into(),
        })
        .collect();
    items.join(" ")
}

/// A chain of lists, as deep as may be.
fn deep_note(random: &mut Random, lists: usize) -> String {
    format!("(note {}{}{})\n", "(".repeat(lists), random_number(random), ")".repeat(lists))
}

fn random_note(random: &mut Random) -> String {
    match random.below(5) {
        0 => "(note)\n".into(),
        1 => deep_note(random, 7),
        _ => format!("(note {})\n", random_items(random, 1)),
    }
}

fn random_text(random: &mut Random) -> String {
    let mut text = String::new();
    let list =
        |count: usize, random: &mut Random| (0..count).map(|_| random_number(random)).collect::<Vec<_>>().join(" ");
    let mut lines: Vec<String> =
        ["base", "scaled", "at", "full"].iter().map(|name| format!("({name} {})\n", list(2, random))).collect();
    for _ in 0..random.below(4) {
        lines.push(match random.below(3) {
            0 => format!("(intra {})\n", random_number(random)),
            1 => format!("(whole ({}) ({}) {})\n", list(2, random), list(4, random), random_number(random)),
            _ => format!(
                "(mb {} ({}) ({}) ({}) {})\n",
                random_number(random),
                list(4, random),
                list(8, random),
                list(64, random),
                random_number(random)
            ),
        });
    }
    for line in lines {
        while random.below(3) == 0 {
            text += &random_note(random);
        }
        text += &line;
    }
    while random.below(3) == 0 {
        text += &random_note(random);
    }
    text
}

/// Changes, cuts, doubles or moves some bytes.
fn damage(text: &mut Vec<u8>, random: &mut Random) {
    let bytes = b"()() \n-0123456789azbeno\t\0\xff";
    for _ in 0..random.within(1, 2) {
        let at = random.below(text.len() as u32) as usize;
        let byte = bytes[random.below(bytes.len() as u32) as usize];
        match random.below(5) {
            0 => text[at] = byte,
            1 => text.insert(at, byte),
            2 => drop(text.remove(at)),
            3 => text.truncate(at.max(1)),
            _ => {
                let end = (at + random.below(8) as usize).min(text.len());
                let piece = text[at..end].to_vec();
                let to = random.below(text.len() as u32) as usize;
                text.splice(to..to, piece);
            }
        }
    }
}

#[test]
fn sound_texts_belong() {
    let mut random = Random(3);
    for _ in 0..2_000 {
        let text = random_text(&mut random);
        assert_eq!(machine().belongs(text.as_bytes()), Ok(()), "{text}");
        assert!(plainly::belongs(text.as_bytes()), "{text}");
    }
}

/// On damaged texts: belonging is what the string functions say; up to the
/// place there is a text that begins so, and with the byte there none of many
/// endings helps.
#[test]
fn damaged_texts() {
    let mut random = Random(4);
    let ways = ways_to_end();
    let sound: Vec<_> = (0..40).map(|_| random_text(&mut random)).collect();
    for round in 0..6_000 {
        let mut text = random_text(&mut random).into_bytes();
        damage(&mut text, &mut random);
        let found = machine().belongs(&text);
        assert_eq!(found.is_ok(), plainly::belongs(&text), "{}", String::from_utf8_lossy(&text));
        let Err(place) = found else { continue };
        let whole = complete(&text[..place], &ways, round);
        assert!(plainly::belongs(&whole), "{}", String::from_utf8_lossy(&whole));
        if place < text.len() && round % 10 == 0 {
            for ending in &sound {
                for from in 0..ending.len().min(60) {
                    let mut longer = text[..=place].to_vec();
                    longer.extend_from_slice(&ending.as_bytes()[ending.len() - from..]);
                    assert!(!plainly::belongs(&longer));
                }
            }
        }
    }
}

/// All byte strings of five that may stand for a number, and all near the ends of the range.
#[test]
fn number_range() {
    let wrap = |number: &str| format!("(note {number})\n{HEAD}");
    let belongs = |number: &str| machine().belongs(wrap(number).as_bytes()).is_ok();
    for n in -100_000..=100_000 {
        assert_eq!(belongs(&n.to_string()), (-32768..=32767).contains(&n), "{n}");
    }
    for bad in ["-0", "00", "01", "-01", "", "-", "--1", "+1", "1-", "032767", "1.0", "1a", "a1"] {
        assert!(!belongs(bad), "{bad}");
    }
    // The same in a head and in a record.
    for (number, good) in [("32767", true), ("32768", false), ("-32768", true), ("-32769", false), ("-0", false)] {
        let head = HEAD.replace("48", number);
        assert_eq!(machine().belongs(head.as_bytes()).is_ok(), good);
        let mb = format!("(mb 1 (0 0 0 0) (0 0 0 0 0 0 0 0) ({}0)", "0 ".repeat(63));
        for record in [
            format!("(whole (0 {number}) (1 2 3 4) 5)\n"),
            format!("(whole (0 1) (1 2 3 4) {number})\n"),
            format!("(intra {number})\n"),
            format!("{mb} {number})\n"),
        ] {
            assert_eq!(machine().belongs(format!("{HEAD}{record}").as_bytes()).is_ok(), good, "{record}");
        }
    }
}

/// The place is where the bar stands.
#[test]
fn places() {
    let place = |marked: &str| {
        let text = marked.replacen('|', "", 1);
        assert_eq!(machine().belongs(text.as_bytes()), Err(marked.find('|').unwrap()), "{marked}");
    };
    // The text call does not ask for a text of no bytes.
    place("|");
    place("|\n");
    place("(|");
    place("(base 16|");
    place("(base 3276|8");
    place("(base 9999|9");
    place("(base 32767|0 1)\n");
    place("(base 4000|0 1)\n");
    place("(base -|0 1)\n");
    place("(base 0|1 1)\n");
    place("(base -3276|9 1)\n");
    place("(base | 16 16)\n");
    place("(base 16 16|\n");
    place("(base 16 16)| \n");
    place("(base 16 16)\n(|base 16 16)\n");
    place("(base 16 16)\n(|at 0 0)\n");
    place("(|full 16 16)\n");
    place("(|intra 0)\n");
    place("(note |)\n");
    place("(note|s)\n");
    place("(not|)\n");
    place("(note a |)\n");
    place("(note a | b)\n");
    place("(note a|(b))\n");
    place("(note (|))\n");
    // Seven lists may be open in a note; an eighth may not.
    place("(note (((((((|");
    place("(note (((((((a|");
    place("(note (((((((|(a))))))))\n");
    place("(note (((((((a))))))) (((((((|(a");
    let after_head = [
        "|intra",
        "|\n",
        "(intra|",
        "(intra |",
        "(intra 0|",
        "(intra 0)|",
        "(intra 0)|)\n",
        "(intra |)\n",
        "(intra | 0)\n",
        "(intra 0| )\n",
        "(intra 0| 0)\n",
        "(intra |(0))\n",
        "(intra -|0)\n",
        "(intra 0|1)\n",
        "(intra 3276|8)\n",
        "(intra -3276|9)\n",
        "(intra 0)\n(|base 16 16)\n",
        "(whole (0|) (0 0 0 0) 0)\n",
        "(whole (0 0| 0) (0 0 0 0) 0)\n",
        "(whole (0 0) (0 0 0 0| 0) 0)\n",
        "(whole (0 0) (0 0 0 0)|\n",
        "(whole (0 0) (0 0 0 0)|0)\n",
        "(whole (0 0) (0 0 0 0) |)\n",
        "(whole (0 0) (0 0 0 0) |(0))\n",
        "(whole (0 0) (0 0 0 0) 0|\n",
        "(whole (0 0) (0 0 0 0) 0| 0)\n",
        "(whole (0 0) |0 (0 0 0 0))\n",
        "(mb |(",
        "(mb 1|)",
        "(mb 1 (0 0 0|) ",
        "(mb 1 (0 0 0 0| 0) ",
        "(note (note)|",
    ];
    after_head.iter().for_each(|marked| place(&format!("{HEAD}{marked}")));
    let mb = format!("{HEAD}(mb 1 (0 0 0 0) (0 0 0 0 0 0 0 0) ({}0", "0 ".repeat(63));
    for marked in ["| 0) 0)\n", ")|\n", ")|0)\n", ") |)\n", ") |(0))\n", ") 15|\n", ") 15| 0)\n", ") 3276|8)\n"] {
        place(&format!("{mb}{marked}"));
    }
    // The forms of document 01, without the last number.
    place(&format!("{HEAD}(intra|)\n"));
    place(&format!("{HEAD}(whole (0 -1) (4 -8 0 0)|)\n"));
    place(&format!("{mb})|)\n"));
    assert_eq!(machine().belongs(HEAD.as_bytes()), Ok(()));
    assert_eq!(machine().belongs(format!("{HEAD}(note)\n").as_bytes()), Ok(()));
}

/// A set of states stays small, whatever is read: the time is linear.
#[test]
fn small_sets() {
    let mut random = Random(9);
    for _ in 0..200 {
        let text = random_text(&mut random);
        let mut states = vec![machine().start];
        let mut next = Vec::new();
        for byte in text.bytes() {
            machine().step(&states, byte, &mut next);
            std::mem::swap(&mut states, &mut next);
            assert!(states.len() <= 4);
        }
    }
    assert!(machine().edges.len() < u16::MAX as usize);
}
