//! Compiles random and damaged queries by this engine, through its C boundary, and by the given Rust text, and compares the answers.
//!
//!     compile COUNT SEED           compares; writes the counts and every answer that no row of docs/DIFFERENCES.md explains
//!     compile COUNT SEED sample N  writes some N of the queries as lines QUERYHEX KIND, each kind in turn
//!
//! The Rust text says ok, syntax (4), type (5) or name (6), or it panics. From that and from document 01 alone, with no code of this engine, `expected`
//! finds the refusal that document 01 asks for, and names the row of docs/DIFFERENCES.md where the two differ. For an accepted query the plan and the pool
//! are made from the Rust text's tree by document 01's table of plan items, and compared byte for byte.

use rustoracle::jsonpath::ast::{ComparisonOperator, FilterExpression, LogicalOperator, Query, Segment, Selector};
use rustoracle::jsonpath::errors::JSONPathErrorType;
use rustoracle::jsonpath::JSONPathParser;
use std::collections::{BTreeMap, HashSet};
use std::panic::{catch_unwind, AssertUnwindSafe};

extern "C" {
    fn stewpebble_compile(query: *const u8, query_length: usize, plan: *mut u8, plan_room: usize, pool: *mut u8, pool_room: usize, plan_length: *mut u64, pool_length: *mut u64) -> u32;
}

// ---- this engine

struct Ours {
    refusal: u32,
    plan: Vec<u8>,
    pool: Vec<u8>,
}

fn ours(query: &[u8]) -> Ours {
    let (mut plan, mut pool) = (vec![0xAAu8; 61440], vec![0xAAu8; 4096]);
    let (mut n, mut m) = (u64::MAX, u64::MAX);
    let refusal = unsafe { stewpebble_compile(query.as_ptr(), query.len(), plan.as_mut_ptr(), plan.len(), pool.as_mut_ptr(), pool.len(), &mut n, &mut m) };
    assert!(plan[n as usize..].iter().all(|&b| b == 0xAA) && pool[m as usize..].iter().all(|&b| b == 0xAA), "a byte was changed that was not reported");
    plan.truncate(n as usize);
    pool.truncate(m as usize);
    Ours { refusal, plan, pool }
}

// ---- the Rust text

const ALIKE: &str = "as the Rust text";
const GRAMMAR: &str = "as the Rust text, by grammar";
const RANGE: &str = "as the Rust text, by range";

pub enum Rust {
    Ok(Query),
    Kind(u32, &'static str),
    Panic,
}

pub fn rust(parser: &JSONPathParser, query: &str) -> Rust {
    match catch_unwind(AssertUnwindSafe(|| parser.parse(query))) {
        Err(_) => Rust::Panic,
        Ok(Ok(q)) => Rust::Ok(q),
        Ok(Err(e)) => match e.kind {
            JSONPathErrorType::LexerError | JSONPathErrorType::SyntaxError if e.msg.starts_with("index out of range") => Rust::Kind(4, RANGE),
            JSONPathErrorType::LexerError | JSONPathErrorType::SyntaxError => Rust::Kind(4, GRAMMAR),
            JSONPathErrorType::TypeError => Rust::Kind(5, ALIKE),
            JSONPathErrorType::NameError => Rust::Kind(6, ALIKE),
        },
    }
}

// ---- document 01, from the query's text and the Rust text's tree

// Bracket count: outside quoted text `[` and `(` add one, `]` and `)` take one, never below 0.
pub fn too_deep(query: &[u8]) -> bool {
    let (mut depth, mut i) = (0, 0);
    while i < query.len() {
        match query[i] {
            b'[' | b'(' => depth += 1,
            b']' | b')' => depth = std::cmp::max(depth, 1) - 1,
            quote @ (b'\'' | b'"') => {
                i += 1;
                while i < query.len() && query[i] != quote {
                    i += if query[i] == b'\\' { 2 } else { 1 };
                }
            }
            _ => {}
        }
        if depth > 32 {
            return true;
        }
        i += 1;
    }
    false
}

// Whether a float literal of an accepted query is beyond the range of literals, as it is written, or its nearest float is infinite. Numbers, names and quoted texts are told apart by their first bytes.
pub fn beyond(query: &[u8]) -> bool {
    let digits = |mut i: usize| {
        while i < query.len() && query[i].is_ascii_digit() {
            i += 1;
        }
        i
    };
    let name = |b: u8| b.is_ascii_alphanumeric() || b == b'_' || b >= 0x80;
    let mut i = 0;
    while i < query.len() {
        let b = query[i];
        if b == b'\'' || b == b'"' {
            i += 1;
            while query[i] != b {
                i += if query[i] == b'\\' { 2 } else { 1 };
            }
            i += 1;
        } else if b == b'-' || b.is_ascii_digit() {
            let start = i;
            i = digits(i + 1);
            let whole = i;
            let mut fraction = 0;
            if i + 1 < query.len() && query[i] == b'.' && query[i + 1].is_ascii_digit() {
                i = digits(i + 1);
                fraction = i - whole - 1;
            }
            let written = i;
            let mut exponent = 0i64;
            if i < query.len() && (query[i] == b'e' || query[i] == b'E') {
                i = digits(i + 2);
                let text = std::str::from_utf8(&query[written + 1..i]).unwrap();
                exponent = text.parse().unwrap_or(1 << 40);
            }
            let text = std::str::from_utf8(&query[start..i]).unwrap();
            if i == whole && text.parse::<i64>().is_ok() {
                continue;
            }
            let number: String = query[start..written].iter().filter(|b| b.is_ascii_digit()).map(|&b| b as char).collect();
            let e = exponent - fraction as i64;
            if !number.parse::<u128>().is_ok_and(|n| n < 10u128.pow(19)) && number.trim_start_matches('0').len() > 0
                || !(-342..=308).contains(&e)
                || !text.parse::<f64>().is_ok_and(f64::is_finite)
            {
                return true;
            }
        } else if name(b) {
            while i < query.len() && name(query[i]) {
                i += 1;
            }
        } else {
            i += 1;
        }
    }
    false
}

pub fn calls_in_segment(s: &Segment) -> bool {
    match s {
        Segment::Root {} => false,
        Segment::Child { left, selectors } | Segment::Recursive { left, selectors } => {
            calls_in_segment(left) || selectors.iter().any(|s| matches!(s, Selector::Filter { expression } if calls(expression)))
        }
    }
}

// Whether match or search is called.
fn calls(e: &FilterExpression) -> bool {
    match e {
        FilterExpression::Not { expression } => calls(expression),
        FilterExpression::Logical { left, right, .. } | FilterExpression::Comparison { left, right, .. } => calls(left) || calls(right),
        FilterExpression::RelativeQuery { query } | FilterExpression::RootQuery { query } => calls_in_segment(&query.segments),
        FilterExpression::Function { name, args } => name == "match" || name == "search" || args.iter().any(calls),
        _ => false,
    }
}

// The query with a letter for each \uXXXX and for each surrogate pair: what the Rust text would read if it did not join neighbours.
fn without_escapes(query: &str) -> String {
    let mut out = String::new();
    let mut rest = query;
    while let Some(at) = rest.find('\\') {
        out.push_str(&rest[..at]);
        rest = &rest[at..];
        let code = rest.strip_prefix("\\u").and_then(|r| r.get(..4)).and_then(|h| u32::from_str_radix(h, 16).ok());
        let low = rest.get(6..).and_then(|r| r.strip_prefix("\\u")).and_then(|r| r.get(..4)).and_then(|h| u32::from_str_radix(h, 16).ok());
        match (code, low) {
            (Some(0xD800..=0xDBFF), Some(0xDC00..=0xDFFF)) => {
                out.push('x');
                rest = &rest[12..];
            }
            (Some(0xD800..=0xDFFF), _) | (None, _) => {
                let n = 1 + rest[1..].chars().next().map_or(0, |c| c.len_utf8());
                out.push_str(&rest[..n]);
                rest = &rest[n..];
            }
            _ => {
                out.push('x');
                rest = &rest[6..];
            }
        }
    }
    out + rest
}

// Two \uXXXX side by side, which the Rust text joins.
pub fn neighbours(query: &str) -> bool {
    query.as_bytes().windows(8).any(|w| &w[..2] == b"\\u" && &w[6..] == b"\\u")
}

// Whether `!` stands before a value function outside of quoted text: the Rust text takes it, and here it is 5 where the walk leaves it (row W12). What else
// the Rust text refuses in such a query may stand before or behind it, so that only the queries that it accepts are compared.
pub fn retired(query: &str) -> bool {
    let (mut rest, mut quote) = (query, None);
    while let Some(c) = rest.chars().next() {
        rest = &rest[c.len_utf8()..];
        match (quote, c) {
            (Some(_), '\\') => rest = rest.get(rest.chars().next().map_or(0, char::len_utf8)..).unwrap_or(""),
            (Some(q), _) if q == c => quote = None,
            (None, '\'' | '"') => quote = Some(c),
            (None, '!') => {
                let name = rest.trim_start_matches([' ', '\t', '\n', '\r']);
                if ["count(", "length(", "value("].iter().any(|f| name.starts_with(f)) {
                    return true;
                }
            }
            _ => {}
        }
    }
    false
}

struct Expected {
    refusal: u32,
    row: &'static str,
    tree: Option<Query>,
}

// What is expected of a query; none where it is left out.
fn expected(parser: &JSONPathParser, query: &[u8]) -> Option<Expected> {
    let say = |refusal, row| Some(Expected { refusal, row, tree: None });
    if query.len() > 4096 {
        return say(1, "R1");
    }
    let Ok(text) = std::str::from_utf8(query) else {
        return say(2, "not UTF-8");
    };
    if too_deep(query) {
        return say(3, "R3");
    }
    let mut joined = neighbours(text);
    let retired = retired(text);
    let tree = match rust(parser, text) {
        Rust::Kind(..) if retired => return None,
        Rust::Kind(k, row) => return say(k, row),
        Rust::Ok(q) => q,
        Rust::Panic => {
            joined = true;
            match rust(parser, &without_escapes(text)) {
                Rust::Kind(..) if retired => return None,
                Rust::Kind(k, _) => return say(k, "S2"),
                Rust::Ok(q) => q,
                Rust::Panic => return say(99, "the Rust text panics"),
            }
        }
    };
    if retired {
        return say(5, "W12");
    }
    if beyond(query) {
        return say(8, "R8");
    }
    if joined {
        return say(0, "S1, S2");
    }
    let row = if calls_in_segment(&tree.segments) { "as the Rust text, with match or search" } else { ALIKE };
    Some(Expected { refusal: 0, row, tree: Some(tree) })
}

// ---- the plan of the Rust text's tree

pub struct Writer {
    pub pool: Vec<u8>,
}

impl Writer {
    fn text(&mut self, kind: u8, s: &str, out: &mut Vec<u8>) {
        out.push(kind);
        out.extend((self.pool.len() as u16).to_le_bytes());
        out.extend((s.len() as u16).to_le_bytes());
        self.pool.extend(s.as_bytes());
    }

    pub fn query(&mut self, kind: u8, q: &Query, out: &mut Vec<u8>) {
        out.push(kind);
        self.segments(&q.segments, out);
        out.push(0x0A);
    }

    fn segments(&mut self, s: &Segment, out: &mut Vec<u8>) {
        let (kind, left, selectors) = match s {
            Segment::Root {} => return,
            Segment::Child { left, selectors } => (3, left, selectors),
            Segment::Recursive { left, selectors } => (4, left, selectors),
        };
        self.segments(left, out);
        out.push(kind);
        out.extend((selectors.len() as u16).to_le_bytes());
        for s in selectors {
            self.selector(s, out);
        }
    }

    fn selector(&mut self, s: &Selector, out: &mut Vec<u8>) {
        match s {
            Selector::Name { name } => self.text(5, name, out),
            Selector::Index { index } => {
                out.push(6);
                out.extend(index.to_le_bytes());
            }
            Selector::Slice { start, stop, step } => {
                out.push(7);
                out.push(start.is_some() as u8 + 2 * stop.is_some() as u8 + 4 * step.is_some() as u8);
                for x in [start, stop, step] {
                    out.extend(x.unwrap_or(0).to_le_bytes());
                }
            }
            Selector::Wild {} => out.push(8),
            Selector::Filter { expression } => {
                let mut code = Vec::new();
                self.test(expression, &mut code);
                out.push(9);
                out.extend((code.len() as u16).to_le_bytes());
                out.extend(code);
            }
        }
    }

    fn test(&mut self, e: &FilterExpression, out: &mut Vec<u8>) {
        match e {
            FilterExpression::Not { expression } => {
                self.test(expression, out);
                out.push(0x15);
            }
            FilterExpression::Logical { left, operator, right } => {
                self.test(left, out);
                let mut code = Vec::new();
                self.test(right, &mut code);
                out.push(if matches!(operator, LogicalOperator::And) { 0x16 } else { 0x17 });
                out.extend((code.len() as u16).to_le_bytes());
                out.extend(code);
            }
            FilterExpression::Comparison { left, operator, right } => {
                self.operand(left, out);
                self.operand(right, out);
                out.push(0x14);
                out.push(match operator {
                    ComparisonOperator::Eq => 0,
                    ComparisonOperator::Ne => 1,
                    ComparisonOperator::Lt => 2,
                    ComparisonOperator::Le => 3,
                    ComparisonOperator::Gt => 4,
                    ComparisonOperator::Ge => 5,
                    _ => 99,
                });
            }
            FilterExpression::Function { name, .. } if name == "match" || name == "search" => self.operand(e, out),
            _ => {
                self.operand(e, out);
                out.push(0x18);
            }
        }
    }

    fn operand(&mut self, e: &FilterExpression, out: &mut Vec<u8>) {
        match e {
            FilterExpression::RootQuery { query } => self.query(1, query, out),
            FilterExpression::RelativeQuery { query } => self.query(2, query, out),
            FilterExpression::Int { value } => {
                out.push(0x10);
                out.extend(value.to_le_bytes());
            }
            FilterExpression::Float { value } => {
                out.push(0x11);
                out.extend(value.to_bits().to_le_bytes());
            }
            FilterExpression::StringLiteral { value } => self.text(0x12, value, out),
            FilterExpression::False_ {} => out.extend([0x13, 0]),
            FilterExpression::True_ {} => out.extend([0x13, 1]),
            FilterExpression::Null {} => out.extend([0x13, 2]),
            FilterExpression::Function { name, args } => {
                for a in args {
                    self.operand(a, out);
                }
                out.push(match name.as_str() {
                    "count" => 0x19,
                    "length" => 0x1A,
                    "value" => 0x1B,
                    "match" => 0x1C,
                    "search" => 0x1D,
                    _ => 99,
                });
            }
            _ => out.push(99),
        }
    }
}

// ---- queries

pub struct Random(pub u64);

impl Random {
    fn next(&mut self) -> u64 {
        self.0 = self.0.wrapping_add(0x9E3779B97F4A7C15);
        let z = (self.0 ^ (self.0 >> 30)).wrapping_mul(0xBF58476D1CE4E5B9);
        let z = (z ^ (z >> 27)).wrapping_mul(0x94D049BB133111EB);
        z ^ (z >> 31)
    }

    pub fn below(&mut self, n: usize) -> usize {
        (self.next() % n as u64) as usize
    }

    pub fn one_in(&mut self, n: usize) -> bool {
        self.below(n) == 0
    }

    pub fn of<T: Copy>(&mut self, xs: &[T]) -> T {
        xs[self.below(xs.len())]
    }
}

const NAMES: &[&str] = &["a", "b", "rows", "_x", "a1", "é", "😀", "\u{80}", "\u{FFFF}", "true", "null", "count", "e5", "Z_9", "in", "contains"];
const INTS: &[&str] = &[
    "0", "1", "2", "9", "10", "-1", "-2", "-10", "123", "9007199254740990", "9007199254740991", "9007199254740992", "-9007199254740991", "-9007199254740992", "9223372036854775807",
    "9223372036854775808", "-9223372036854775808", "-9223372036854775809", "18446744073709551616", "100000000000000000000000000", "-0", "00", "01", "-01", "+1", "1.0", "1e2", "- 1", "",
];
const WHOLES: &[&str] = &["0", "1", "-0", "5", "-7", "10", "9007199254740991", "9007199254740992", "-9007199254740991", "900719925474099", "9223372036854775807", "9223372036854775808", "-9223372036854775808", "-9223372036854775809", "123456789012345678901234567890", "9999999999999999999", "10000000000000000000", "1797693134862315807", "1797693134862315808"];
const FRACTIONS: &[&str] = &["0", "1", "5", "25", "00", "10", "9", "0000000000000000000000", "00000000000000000000001", "1234567890123456789012"];
const EXPONENTS: &[&str] = &["0", "1", "2", "5", "21", "22", "23", "44", "45", "0022", "00", "400", "99999999999999999999", "-1", "-21", "-22", "-23", "-0", "+5", "+22", "+23", "290", "308", "309", "-308", "-324", "-342", "-343"];
const BAD_NUMBERS: &[&str] = &["00", "01", "-", "1.", ".5", "1e", "1e+", "+1", "1.e5", "0x10", "1_000", "--1", "-00", "1.5.5", "1e5e5", "Infinity", "NaN"];
const FUNCTIONS: &[&str] = &["count", "count", "length", "length", "value", "value", "match", "search", "foo", "counts", "a_1", "true", "null", "Count", "1a", "_f", "key"];
const OPERATORS: &[&str] = &["==", "!=", "<", "<=", ">", ">=", "==", "==", "=", "===", "<>", "in", "contains", "=~"];
const ESCAPES: &[&str] = &[
    "\\b", "\\f", "\\n", "\\r", "\\t", "\\/", "\\\\", "\\'", "\\\"", "\\u0041", "\\u00e9", "\\uFFFF", "\\ud7ff", "\\uE000", "\\u0000", "\\uD83D\\uDE00", "\\udbff\\udfff", "\\uD800\\uDC00",
    "\\uD83D", "\\uDE00", "\\uDE00\\uD83D", "\\uD83D\\u0041", "\\uD83D\\n", "\\u12", "\\u12G4", "\\x41", "\\a", "\\0", "\\U0041", "\\", "\\ ",
];
const PLAIN: &[&str] = &["a", "b", " ", "é", "😀", "]", "[", "(", ")", "'", "\"", "$", "@", "\u{7f}", "\u{1f}", "\n", "\t", "\u{0}", ",", "?"];
const DAMAGE: &[&str] = &[
    "$", "@", ".", "..", "[", "]", "(", ")", "?", "!", "&&", "||", "&", "|", "=", "==", "!=", "<", ">", "*", ":", ",", "'", "\"", "\\", " ", "\t", "\n", "\r", "-", "+", "0", "1", "9", "e", "E", "a", "_", "é", "\u{a0}", "\u{feff}",
    "count(", "length(", "true", "null", "\\u0041", "\u{0}", "\u{b}",
];

pub struct Maker {
    pub random: Random,
    // One in so many choices goes wrong; 0 for none.
    pub wrong: usize,
}

impl Maker {
    fn slip(&mut self) -> bool {
        self.wrong != 0 && self.random.one_in(self.wrong)
    }

    // Blanks, where the grammar has S.
    fn s(&mut self, out: &mut String) {
        if self.random.one_in(6) {
            for _ in 0..1 + self.random.below(2) {
                out.push_str(self.random.of(&[" ", "\t", "\n", "\r"]));
            }
        }
    }

    fn name(&mut self, out: &mut String) {
        if self.slip() {
            out.push_str(self.random.of(&["1a", "-a", "", "a-b", "a b", " a", "@", "'a'", "\u{7f}"]));
            return;
        }
        let n = self.random.below(if self.wrong == 0 { 14 } else { NAMES.len() });
        out.push_str(NAMES[n]);
    }

    fn quoted(&mut self, out: &mut String) {
        let quote = self.random.of(&["'", "\""]);
        out.push_str(quote);
        for _ in 0..self.random.below(4) {
            if self.random.one_in(3) {
                let n = if self.slip() { ESCAPES.len() } else { 18 };
                let e = ESCAPES[self.random.below(n)];
                if self.wrong == 0 && (e == "\\'" || e == "\\\"") && &e[1..] != quote {
                    continue;
                }
                out.push_str(e);
            } else {
                let n = if self.slip() { PLAIN.len() } else { 11 };
                let p = PLAIN[self.random.below(n)];
                if p == quote && !self.slip() {
                    continue;
                }
                out.push_str(p);
            }
        }
        if !self.slip() {
            out.push_str(quote);
        }
    }

    fn int(&mut self, out: &mut String) {
        let n = if self.slip() { INTS.len() } else if self.random.one_in(8) { 20 } else { 11 };
        out.push_str(INTS[self.random.below(n)]);
    }

    fn number(&mut self, out: &mut String) {
        if self.slip() {
            out.push_str(self.random.of(BAD_NUMBERS));
            return;
        }
        let wide = self.random.one_in(4);
        let n = if wide { WHOLES.len() } else { 7 };
        out.push_str(WHOLES[self.random.below(n)]);
        if self.random.one_in(3) {
            out.push('.');
            let n = if wide { FRACTIONS.len() } else { 4 };
            out.push_str(FRACTIONS[self.random.below(n)]);
        }
        if self.random.one_in(4) {
            out.push_str(self.random.of(&["e", "E"]));
            let n = if wide { EXPONENTS.len() } else { 5 };
            out.push_str(EXPONENTS[self.random.below(n)]);
        }
    }

    fn literal(&mut self, out: &mut String) {
        match self.random.below(5) {
            0 | 1 => self.number(out),
            2 => self.quoted(out),
            _ => out.push_str(self.random.of(&["true", "false", "null"])),
        }
        if self.slip() {
            out.push_str(self.random.of(&["x", "TRUE", " 1", "[]", "[1]", "{}"]));
        }
    }

    fn segments(&mut self, out: &mut String, depth: usize) {
        for _ in 0..self.random.below(4) {
            self.s(out);
            self.segment(out, depth);
        }
    }

    fn segment(&mut self, out: &mut String, depth: usize) {
        match self.random.below(7) {
            0 | 1 => {
                out.push('.');
                if self.slip() {
                    self.s(out);
                }
                self.name(out);
            }
            2 => out.push_str(".*"),
            3 => {
                out.push_str("..");
                match self.random.below(3) {
                    0 => self.name(out),
                    1 => out.push('*'),
                    _ => self.bracketed(out, depth),
                }
            }
            _ => self.bracketed(out, depth),
        }
    }

    fn bracketed(&mut self, out: &mut String, depth: usize) {
        out.push('[');
        self.s(out);
        let n = if self.slip() { self.random.below(3) } else if self.random.one_in(4) { 2 + self.random.below(2) } else { 1 };
        for i in 0..n {
            if i > 0 {
                self.s(out);
                out.push(',');
                self.s(out);
            }
            self.selector(out, depth);
        }
        self.s(out);
        if !self.slip() {
            out.push(']');
        }
    }

    fn selector(&mut self, out: &mut String, depth: usize) {
        match self.random.below(if depth == 0 { 7 } else { 12 }) {
            0 | 1 => self.quoted(out),
            2 => out.push('*'),
            3 | 4 => self.int(out),
            5 | 6 => self.slice(out),
            _ => {
                out.push('?');
                self.s(out);
                self.or(out, depth - 1);
            }
        }
    }

    fn slice(&mut self, out: &mut String) {
        if self.random.one_in(2) {
            self.int(out);
            self.s(out);
        }
        out.push(':');
        self.s(out);
        if self.random.one_in(2) {
            self.int(out);
            self.s(out);
        }
        if self.random.one_in(2) {
            out.push(':');
            if self.random.one_in(2) {
                self.s(out);
                self.int(out);
            } else if self.slip() {
                self.s(out);
            }
        }
    }

    fn or(&mut self, out: &mut String, depth: usize) {
        self.and(out, depth);
        while self.random.one_in(4) {
            self.s(out);
            out.push_str(if self.slip() { "|" } else { "||" });
            self.s(out);
            self.and(out, depth);
        }
    }

    fn and(&mut self, out: &mut String, depth: usize) {
        self.basic(out, depth);
        while self.random.one_in(4) {
            self.s(out);
            out.push_str(if self.slip() { "&" } else { "&&" });
            self.s(out);
            self.basic(out, depth);
        }
    }

    fn not(&mut self, out: &mut String) {
        if self.random.one_in(3) {
            out.push('!');
            if self.slip() {
                out.push('!');
            }
            self.s(out);
        }
    }

    fn basic(&mut self, out: &mut String, depth: usize) {
        match self.random.below(if depth == 0 { 5 } else { 7 }) {
            0 | 1 => {
                self.not(out);
                self.query(out, depth);
            }
            2 | 3 => {
                if self.slip() {
                    out.push('!');
                }
                self.comparable(out, depth);
                self.s(out);
                let n = if self.slip() { OPERATORS.len() } else { 8 };
                out.push_str(OPERATORS[self.random.below(n)]);
                self.s(out);
                self.comparable(out, depth);
            }
            4 => {
                self.not(out);
                self.function(out, depth);
            }
            _ => {
                self.not(out);
                out.push('(');
                self.s(out);
                self.or(out, depth - 1);
                self.s(out);
                if !self.slip() {
                    out.push(')');
                }
            }
        }
    }

    // A query of a filter, with any segments.
    fn query(&mut self, out: &mut String, depth: usize) {
        out.push_str(self.random.of(&["@", "@", "$"]));
        self.segments(out, depth);
    }

    // A singular query, or, seldom, one whose brackets hold blanks or that is not singular.
    fn singular(&mut self, out: &mut String, depth: usize) {
        if self.slip() {
            self.query(out, depth);
            return;
        }
        out.push_str(self.random.of(&["@", "@", "$"]));
        for _ in 0..self.random.below(3) {
            self.s(out);
            match self.random.below(3) {
                0 => {
                    out.push('.');
                    self.name(out);
                }
                k => {
                    out.push('[');
                    if self.slip() {
                        self.s(out);
                    }
                    if k == 1 {
                        self.quoted(out);
                    } else {
                        self.int(out);
                    }
                    out.push(']');
                }
            }
        }
    }

    fn comparable(&mut self, out: &mut String, depth: usize) {
        match self.random.below(4) {
            0 | 1 => self.singular(out, depth),
            2 => self.literal(out),
            _ => self.function(out, depth),
        }
    }

    fn function(&mut self, out: &mut String, depth: usize) {
        let careful = self.random.one_in(2);
        let n = if careful { 8 } else if self.random.one_in(3) { FUNCTIONS.len() } else { 8 };
        let name = FUNCTIONS[self.random.below(n)];
        out.push_str(name);
        if self.slip() {
            self.s(out);
        }
        out.push('(');
        self.s(out);
        if careful {
            match name {
                "length" => match self.random.below(4) {
                    0 => self.literal(out),
                    1 if depth > 0 => self.function(out, depth - 1),
                    _ => self.singular(out, depth),
                },
                "match" | "search" => {
                    self.singular(out, 0);
                    self.s(out);
                    out.push(',');
                    self.s(out);
                    self.literal(out);
                }
                _ => self.query(out, depth.saturating_sub(1)),
            }
        } else {
            let n = match name {
                "match" | "search" if !self.random.one_in(4) => 2,
                _ if self.random.one_in(4) => self.random.below(4),
                _ => 1,
            };
            for i in 0..n {
                if i > 0 {
                    self.s(out);
                    out.push(',');
                    self.s(out);
                }
                self.argument(out, depth);
            }
        }
        self.s(out);
        if !self.slip() {
            out.push(')');
        }
    }

    fn argument(&mut self, out: &mut String, depth: usize) {
        match self.random.below(if depth == 0 { 3 } else { 6 }) {
            0 => self.literal(out),
            1 => self.singular(out, depth.saturating_sub(1)),
            2 => self.query(out, depth.saturating_sub(1)),
            3 => self.function(out, depth - 1),
            4 => {
                out.push('(');
                self.s(out);
                self.or(out, depth - 1);
                self.s(out);
                out.push(')');
            }
            _ => self.or(out, depth - 1),
        }
    }

    pub fn whole(&mut self) -> String {
        let mut out = String::new();
        out.push_str(if self.slip() { self.random.of(&["", "@", " $", "$$", "\u{feff}$"]) } else { "$" });
        self.segments(&mut out, 3);
        if self.slip() {
            out.push_str(self.random.of(&[" ", "\n", "\r", ".", ";", "$"]));
        }
        out
    }

    // A query that is damaged in one to three places.
    fn damage(&mut self, query: &str) -> Vec<u8> {
        let mut chars: Vec<String> = query.chars().map(String::from).collect();
        for _ in 0..1 + self.random.below(3) {
            let at = self.random.below(chars.len() + 1);
            match self.random.below(6) {
                0 if at < chars.len() => {
                    chars.remove(at);
                }
                1 if at < chars.len() => chars[at] = self.random.of(DAMAGE).into(),
                2 if at + 1 < chars.len() => chars.swap(at, at + 1),
                3 if self.random.one_in(3) => chars.truncate(at),
                4 if at < chars.len() => {
                    let n = 1 + self.random.below(6);
                    let part = chars[at..std::cmp::min(at + n, chars.len())].to_vec();
                    let to = self.random.below(chars.len() + 1);
                    chars.splice(to..to, part);
                }
                _ => chars.insert(at, self.random.of(DAMAGE).into()),
            }
        }
        let mut bytes = chars.concat().into_bytes();
        if self.random.one_in(20) && !bytes.is_empty() {
            let at = self.random.below(bytes.len());
            match self.random.below(3) {
                0 => bytes[at] = self.random.below(256) as u8,
                1 => bytes.insert(at, 0x80 + self.random.below(128) as u8),
                _ => {
                    bytes.remove(at);
                }
            }
        }
        bytes
    }

    // A query at a limit: of length, of open brackets, of both kinds of quoted text that hides brackets.
    fn limit(&mut self) -> Vec<u8> {
        let inner = self.whole();
        let out = match self.random.below(5) {
            0 => {
                let n = 4090 + self.random.below(12);
                let inner = if self.random.one_in(2) { inner } else { "$".into() };
                let pad = n.saturating_sub(inner.len() + 1);
                format!("{inner}.{}", "a".repeat(pad))
            }
            1 => {
                let n = 29 + self.random.below(5);
                format!("$[?{}@{}]", "(".repeat(n), ")".repeat(if self.slip() { n - 1 } else { n }))
            }
            2 => {
                let n = 15 + self.random.below(3);
                format!("$[?({}@{}", "@[?(".repeat(n - 1), ")]".repeat(n))
            }
            3 => {
                let n = 30 + self.random.below(5);
                format!("$['{}']", self.random.of(&["[", "(", "\\\"[", "\\\\["]).repeat(n))
            }
            _ => {
                let n = 31 + self.random.below(3);
                format!("{}{}{}", self.random.of(&["", "]]]", "$.it's", "\\'", "\"\\\"", "'\\''"]), self.random.of(&["[", "(", "(["]).repeat(n), self.random.of(&["", "'", "]", "\""]))
            }
        };
        out.into_bytes()
    }

    fn any(&mut self) -> Vec<u8> {
        self.wrong = self.random.of(&[0, 0, 0, 80, 25]);
        match self.random.below(24) {
            0 => self.limit(),
            1..=5 => {
                let q = self.whole();
                self.damage(&q)
            }
            6 => {
                let n = self.random.below(12);
                (0..n).map(|_| self.random.of(DAMAGE)).collect::<String>().into_bytes()
            }
            _ => self.whole().into_bytes(),
        }
    }
}

// ---- the comparison

pub fn hex(bytes: &[u8]) -> String {
    bytes.iter().map(|b| format!("{b:02x}")).collect()
}

fn run() -> bool {
    std::panic::set_hook(Box::new(|info| {
        if info.location().is_some_and(|l| l.file().ends_with("compile.rs")) {
            eprintln!("{info}");
        }
    }));
    let words: Vec<String> = std::env::args().collect();
    let count: usize = words[1].parse().expect("a count");
    let seed: u64 = words[2].parse().expect("a seed");
    let sample: usize = words.get(4).map_or(0, |w| w.parse().expect("a number"));
    let parser = JSONPathParser::new();
    let mut maker = Maker { random: Random(seed), wrong: 0 };
    let mut seen = HashSet::new();
    let mut counts: BTreeMap<(u32, &str), usize> = BTreeMap::new();
    let mut kept: BTreeMap<(u32, &str), Vec<Vec<u8>>> = BTreeMap::new();
    let (mut plans, mut left_out, mut differences, mut smallest) = (0, 0, 0, None::<(Vec<u8>, String)>);
    while seen.len() < count {
        let query = maker.any();
        if !seen.insert(query.clone()) {
            continue;
        }
        let Some(want) = expected(&parser, &query) else {
            left_out += 1;
            continue;
        };
        *counts.entry((want.refusal, want.row)).or_default() += 1;
        if sample > 0 && (query.len() <= 64 || want.refusal == 1 && query.len() == 4097) {
            kept.entry((want.refusal, want.row)).or_default().push(query.clone());
        }
        let got = ours(&query);
        let mut wrong = None;
        if got.refusal != want.refusal {
            wrong = Some(format!("{} and not {} {}", got.refusal, want.refusal, want.row));
        } else if let Some(tree) = want.tree {
            let mut writer = Writer { pool: Vec::new() };
            let mut plan = Vec::new();
            writer.query(1, &tree, &mut plan);
            plans += 1;
            if plan != got.plan || writer.pool != got.pool {
                wrong = Some(format!("plan {} pool {} and not {} {}", hex(&got.plan), hex(&got.pool), hex(&plan), hex(&writer.pool)));
            }
        }
        if let Some(what) = wrong {
            differences += 1;
            if smallest.as_ref().is_none_or(|(q, _)| query.len() < q.len()) {
                smallest = Some((query, what));
            }
        }
    }
    if sample > 0 {
        let share = sample / kept.len();
        for ((refusal, _), queries) in &kept {
            let n = if *refusal == 1 { 1 } else { share };
            for query in queries.iter().take(n) {
                println!("{} {}", if query.is_empty() { "-".into() } else { hex(query) }, refusal);
            }
        }
        return differences == 0;
    }
    for ((refusal, row), n) in &counts {
        println!("{:>8}  {} {}", n, if *refusal == 0 { "ok       ".into() } else { format!("refused {refusal}") }, row);
    }
    println!("{} queries, {} of them left out (W12), {} plans and pools compared, {} answers that no row explains", seen.len(), left_out, plans, differences);
    if let Some((query, what)) = smallest {
        println!("the smallest: {:?} answered {}", String::from_utf8_lossy(&query), what);
    }
    differences == 0
}

fn main() {
    let ok = std::thread::Builder::new().stack_size(1 << 28).spawn(run).unwrap().join().unwrap();
    std::process::exit(!ok as i32);
}
