//! The items of a plan, readable for people.
use crate::value::{write_float, write_text};
use alloc::vec::Vec;
use core::fmt;
use core::iter::FusedIterator;

const ROOT_QUERY: u8 = 0x01;
const NODE_QUERY: u8 = 0x02;
const CHILD: u8 = 0x03;
const DESCENDANT: u8 = 0x04;
const NAME: u8 = 0x05;
const INDEX: u8 = 0x06;
const SLICE: u8 = 0x07;
const WILDCARD: u8 = 0x08;
const FILTER: u8 = 0x09;
const END: u8 = 0x0A;
const INTEGER: u8 = 0x10;
const FLOAT: u8 = 0x11;
const TEXT: u8 = 0x12;
const CONSTANT: u8 = 0x13;
const COMPARE: u8 = 0x14;
const NOT: u8 = 0x15;
const AND: u8 = 0x16;
const OR: u8 = 0x17;
const TEST: u8 = 0x18;
const COUNT: u8 = 0x19;
const LENGTH: u8 = 0x1A;
const VALUE: u8 = 0x1B;
const MATCH: u8 = 0x1C;
const SEARCH: u8 = 0x1D;

/// The length of the body that a kind fixes.
fn body_length(kind: u8) -> usize {
    match kind {
        CHILD | DESCENDANT | FILTER | AND | OR => 2,
        NAME | TEXT => 4,
        INDEX | INTEGER | FLOAT => 8,
        SLICE => 25,
        CONSTANT | COMPARE => 1,
        _ => 0,
    }
}

/// An item of a plan: its kind and its body. `Display` says it in words.
///
/// ```
/// let plan = stewpebble::compile("$[?@.a > 1]").unwrap();
/// let words: Vec<String> = plan.items().map(|item| item.to_string()).collect();
/// assert_eq!(words[2..], [
///     "filter, 21 bytes",
///     "query from @",
///     "child, 1 selector",
///     "name \"a\"",
///     "end of the query",
///     "integer 1",
///     "compare >",
///     "end of the query",
/// ]);
/// ```
#[derive(Clone, Copy, Debug, PartialEq, Eq)]
pub struct Item<'p> {
    at: usize,
    level: usize,
    kind: u8,
    body: &'p [u8],
    pool: &'p [u8],
}

impl<'p> Item<'p> {
    /// The place of its kind in the bytes of the plan.
    ///
    /// ```
    /// let plan = stewpebble::compile("$.a").unwrap();
    /// assert_eq!(plan.items().map(|item| item.at()).collect::<Vec<_>>(), [0, 1, 4, 9]);
    /// ```
    #[must_use]
    pub fn at(&self) -> usize {
        self.at
    }

    /// Its kind, by its byte.
    ///
    /// ```
    /// let plan = stewpebble::compile("$[*]").unwrap();
    /// assert_eq!(plan.items().nth(2).unwrap().kind(), 0x08);
    /// ```
    #[must_use]
    pub fn kind(&self) -> u8 {
        self.kind
    }

    /// Its body, which is what follows the kind.
    ///
    /// ```
    /// let plan = stewpebble::compile("$[*]").unwrap();
    /// assert_eq!(plan.items().nth(1).unwrap().body(), [1, 0]);
    /// ```
    #[must_use]
    pub fn body(&self) -> &'p [u8] {
        self.body
    }

    /// How many queries, segments, filters and right operands it is in.
    ///
    /// ```
    /// let plan = stewpebble::compile("$[*]").unwrap();
    /// assert_eq!(plan.items().map(|item| item.level()).collect::<Vec<_>>(), [0, 1, 2, 0]);
    /// ```
    #[must_use]
    pub fn level(&self) -> usize {
        self.level
    }

    /// Up to eight bytes of the body as a number.
    fn number(&self, at: usize, length: usize) -> u64 {
        let bytes = self.body.get(at..at + length).unwrap_or_default();
        bytes.iter().rev().fold(0, |n, byte| n << 8 | u64::from(*byte))
    }

    /// The part of the pool that a name or a text names.
    fn text(&self) -> &'p str {
        let (start, length) = (self.number(0, 2) as usize, self.number(2, 2) as usize);
        let part = self.pool.get(start..start + length).unwrap_or_default();
        core::str::from_utf8(part).unwrap_or_default()
    }

    /// The parts that are given, with the colons that a query needs for them.
    fn slice(&self, f: &mut fmt::Formatter<'_>) -> fmt::Result {
        let given = self.number(0, 1);
        f.write_str("slice ")?;
        for part in 0..3 {
            let is_given = given >> part & 1 == 1;
            if part == 1 || part == 2 && is_given {
                f.write_str(":")?;
            }
            if is_given {
                write!(f, "{}", self.number(1 + 8 * part, 8) as i64)?;
            }
        }
        Ok(())
    }
}

/// A number of things, of which one has no s.
fn counted(f: &mut fmt::Formatter<'_>, before: &str, n: u64, things: &str) -> fmt::Result {
    write!(f, "{before}, {n} {things}{}", if n == 1 { "" } else { "s" })
}

impl fmt::Display for Item<'_> {
    fn fmt(&self, f: &mut fmt::Formatter<'_>) -> fmt::Result {
        match self.kind {
            ROOT_QUERY => f.write_str("query from $"),
            NODE_QUERY => f.write_str("query from @"),
            END => f.write_str("end of the query"),
            CHILD => counted(f, "child", self.number(0, 2), "selector"),
            DESCENDANT => counted(f, "descendant", self.number(0, 2), "selector"),
            NAME => {
                f.write_str("name ")?;
                write_text(f, self.text())
            }
            TEXT => {
                f.write_str("text ")?;
                write_text(f, self.text())
            }
            INDEX => write!(f, "index {}", self.number(0, 8) as i64),
            INTEGER => write!(f, "integer {}", self.number(0, 8) as i64),
            FLOAT => {
                f.write_str("float ")?;
                write_float(f, f64::from_bits(self.number(0, 8)))
            }
            SLICE => self.slice(f),
            WILDCARD => f.write_str("wildcard"),
            FILTER => counted(f, "filter", self.number(0, 2), "byte"),
            CONSTANT => f.write_str(["false", "true", "null"].get(self.number(0, 1) as usize).copied().unwrap_or("constant")),
            COMPARE => write!(f, "compare {}", ["==", "!=", "<", "<=", ">", ">="].get(self.number(0, 1) as usize).copied().unwrap_or("?")),
            NOT => f.write_str("not"),
            AND => counted(f, "and, unless false", self.number(0, 2), "byte"),
            OR => counted(f, "or, unless true", self.number(0, 2), "byte"),
            TEST => f.write_str("test"),
            COUNT => f.write_str("count"),
            LENGTH => f.write_str("length"),
            VALUE => f.write_str("value"),
            MATCH => f.write_str("match"),
            SEARCH => f.write_str("search"),
            other => write!(f, "item of kind {other:#04x}"),
        }
    }
}

/// The items of a plan, in their order.
///
/// ```
/// let plan = stewpebble::compile("$.a[0,1]").unwrap();
/// assert_eq!(plan.items().count(), 7);
/// ```
#[derive(Clone, Debug)]
pub struct Items<'p> {
    plan: &'p [u8],
    pool: &'p [u8],
    at: usize,
    open: Vec<Open>,
}

/// A query, a filter or a right operand that is open, and the level of what is in it. A query ends by an item, and the
/// others at a byte.
#[derive(Clone, Debug)]
struct Open {
    end: Option<usize>,
    level: usize,
}

impl<'p> Items<'p> {
    pub(crate) fn new(plan: &'p [u8], pool: &'p [u8]) -> Items<'p> {
        Items { plan, pool, at: 0, open: Vec::new() }
    }

    /// The level of the item that stands here; what it opens is then open.
    fn level(&mut self, kind: u8, body: &[u8], next: usize) -> usize {
        while self.open.last().map_or(false, |open| open.end.map_or(false, |end| end <= self.at)) {
            self.open.pop();
        }
        if kind == END {
            self.open.pop();
        }
        let around = self.open.last().map_or(0, |open| open.level);
        let level = around + usize::from((NAME..=FILTER).contains(&kind));
        match (kind, body) {
            (ROOT_QUERY | NODE_QUERY, _) => self.open.push(Open { end: None, level: level + 1 }),
            (FILTER | AND | OR, [low, high]) => {
                let end = next + usize::from(u16::from_le_bytes([*low, *high]));
                self.open.push(Open { end: Some(end), level: level + 1 });
            }
            _ => (),
        }
        level
    }
}

impl<'p> Iterator for Items<'p> {
    type Item = Item<'p>;

    fn next(&mut self) -> Option<Item<'p>> {
        let at = self.at;
        let kind = *self.plan.get(at)?;
        let next = at + 1 + body_length(kind);
        let body = self.plan.get(at + 1..next)?;
        let level = self.level(kind, body, next);
        self.at = next;
        Some(Item { at, level, kind, body, pool: self.pool })
    }
}

impl FusedIterator for Items<'_> {}
