//! What the tests share: numbers that look random and are the same at each run, and values and tables made from them.
#![allow(dead_code)]
#[path = "../../src/record.rs"]
pub mod record;
use record::{pair, record};
use stewpebble::Value;

/// A generator of numbers (xorshift).
pub struct Random(pub u64);

impl Random {
    pub fn next(&mut self) -> u64 {
        self.0 ^= self.0 << 13;
        self.0 ^= self.0 >> 7;
        self.0 ^= self.0 << 17;
        self.0
    }

    /// A number below a bound that is not 0.
    pub fn below(&mut self, bound: usize) -> usize {
        (self.next() >> 16) as usize % bound
    }

    pub fn pick<'a, T>(&mut self, of: &'a [T]) -> &'a T {
        &of[self.below(of.len())]
    }
}

pub const TEXTS: [&str; 10] = ["", "a", "b", "é", "😀", "a\"b\\", "\u{1}\n\t", "\u{7F}\u{2028}", "aa", "ab"];

pub const INTEGERS: [i64; 8] = [0, 1, -1, 20, 9_007_199_254_740_993, i64::MAX, i64::MIN, 255];

pub const FLOATS: [f64; 10] = [0.0, -0.0, 0.5, 20.0, 1e300, -1e-300, 9_007_199_254_740_992.0, 5e-324, f64::MAX, 0.1];

/// A value that nests at most so deep.
pub fn value(random: &mut Random, deep: usize) -> Value {
    match random.below(if deep == 0 { 6 } else { 10 }) {
        0 => Value::Null,
        1 => Value::Bool(random.below(2) == 0),
        2 => Value::Int(*random.pick(&INTEGERS)),
        3 => Value::Float(*random.pick(&FLOATS)),
        4 | 5 => Value::from(*random.pick(&TEXTS)),
        6 | 7 => Value::List((0..random.below(5)).map(|_| value(random, deep - 1)).collect()),
        _ => {
            let mut names: Vec<&str> = TEXTS.to_vec();
            let members = random.below(5);
            Value::Map((0..members).map(|_| (names.remove(random.below(names.len())).to_owned(), value(random, deep - 1))).collect())
        }
    }
}

/// The records and texts of a table whose texts and keys are parts of one text, which overlap and come in any order; some
/// tables break a rule.
pub fn bytes(random: &mut Random) -> (Vec<u8>, Vec<u8>) {
    let texts = "aébc😀déef".as_bytes().to_vec();
    let (mut records, mut pending, mut next) = (Vec::new(), vec![(0u8, false, 0usize, 0u32)], 1u32);
    let mut done = 0;
    while done < pending.len() {
        let (depth, member, place, parent) = pending[done];
        let kind = if done == 0 || random.below(3) == 0 { 6 + random.below(2) as u8 } else { random.below(8) as u8 };
        let mut payload = match kind {
            3 => random.next(),
            4 => FLOATS[random.below(FLOATS.len())].to_bits(),
            5 => pair(part(random, &texts)),
            _ => 0,
        };
        if kind >= 6 && depth < 5 && pending.len() < 60 {
            let count = random.below(5);
            if count > 0 {
                payload = pair((next, count as u32));
            }
            next += count as u32;
            pending.extend((0..count).map(|place| (depth + 1, kind == 7, place, done as u32)));
        }
        // The keys of a map's members: the empty part at 0 first, then parts of different lengths.
        let key = match (member, place) {
            (false, _) | (true, 0) => (0, 0),
            (true, place) => [(0, 0), (0, 1), (3, 1), (4, 5), (3, 6)][place % 5],
        };
        records.extend_from_slice(&record(kind, depth, key, parent, payload));
        done += 1;
    }
    if random.below(4) == 0 {
        let at = random.below(records.len());
        records[at] = records[at].wrapping_add(1);
    }
    (records, texts)
}

/// A part of the text, mostly at the bounds of characters.
fn part(random: &mut Random, texts: &[u8]) -> (u32, u32) {
    let bounds: Vec<usize> = (0..=texts.len()).filter(|&i| std::str::from_utf8(&texts[..i]).is_ok()).collect();
    let (a, b) = (*random.pick(&bounds), *random.pick(&bounds));
    let (start, end) = if random.below(40) == 0 { (1, 2) } else { (a.min(b), a.max(b)) };
    (start as u32, (end - start) as u32)
}
