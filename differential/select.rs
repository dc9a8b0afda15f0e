//! Evaluates random queries on random documents by this engine, through its C boundary, and by the given Rust text, and compares the nodes.
//!
//!     select COUNT SEED               compares COUNT pairs of a document and a query; writes the counts and the smallest case that no row of
//!                                     docs/DIFFERENCES.md explains
//!     select COUNT SEED sample SHARE  compares the cases of sample.rs and COUNT pairs of small documents and queries, and writes those of them that
//!                                     crates/select_vectors replays: of each feature about SHARE cases
//!
//! The Rust text evaluates each query twice: on plain values, which are compared by kind and content, and on handlers that carry node numbers.
//! Where its comparisons are not document 01's (rows C1 to C7), or its lengths not document 02's (S5 and S6), its answer cannot be taken as it is. So `Walk`
//! evaluates the Rust text's tree once more, with either rule: with the Rust text's it must give the Rust text's nodes, with ours it must give this engine's,
//! and it notes the row of every comparison and every length on which the two differ. Where it notes none, this engine and the Rust text must agree.

#[allow(dead_code)]
mod compile;
mod sample;

extern crate loro_common;
extern crate stewpebble;

use compile::{beyond, calls_in_segment, hex, neighbours, retired, rust, too_deep, Maker, Random, Rust, Writer};
use loro_common::LoroValue;
use rustoracle::handler::ValueOrHandler;
use rustoracle::json;
use rustoracle::jsonpath::ast::{ComparisonOperator, FilterExpression, LogicalOperator, Query, Segment, Selector};
use rustoracle::jsonpath::jsonpath_impl::evaluate_parsed;
use rustoracle::jsonpath::JSONPathParser;
use std::cmp::Ordering;
use std::collections::{BTreeMap, BTreeSet, HashSet};
use stewpebble::{Table, Value};

extern "C" {
    fn stewpebble_compile(query: *const u8, query_length: usize, plan: *mut u8, plan_room: usize, pool: *mut u8, pool_room: usize, plan_length: *mut u64, pool_length: *mut u64) -> u32;
    fn stewpebble_check_plan(plan: *const u8, plan_length: usize, pool: *const u8, pool_length: usize) -> u32;
    fn stewpebble_run(plan: *const u8, plan_length: usize, pool: *const u8, pool_length: usize, table: *const u8, table_length: usize, text: *const u8, text_length: usize, list: *mut u32, list_length: usize, start: usize, count: *mut u64, node: *mut u64) -> u32;
    fn stewpebble_select(query: *const u8, query_length: usize, table: *const u8, table_length: usize, text: *const u8, text_length: usize, list: *mut u32, list_length: usize, start: usize, count: *mut u64, node: *mut u64) -> u32;
}

// ---- documents

const INTS: &[i64] = &[0, 1, 2, 3, -1, -2, 10, 9007199254740990, 9007199254740991, 9007199254740992, 9007199254740993, -9007199254740993, 10000000000000001, 10000000000000000, i64::MAX, i64::MAX - 1, i64::MIN, i64::MIN + 1];
const FLOATS: &[f64] = &[
    0.0, -0.0, 1.0, 2.0, -1.0, 0.5, 0.1, 0.3, 0.30000000000000004, 1e-17, 0.9999999999999999, 1.0000000000000002, 9007199254740992.0, 9007199254740994.0, -9007199254740992.0, 9223372036854775807.0, -9223372036854775808.0,
    9223372036854774784.0, 1e16, -1e16, 1e22, 1e308, 5e-324, -1e-300,
];
const TEXTS: &[&str] = &["", "a", "b", "A", "aa", "ab", "é", "e\u{301}", "😀", "\u{FFFF}", "日本", "a\u{0}", "1", "true", "null", "\\", "\"", "'", "Å", "\u{212B}"];
const KEYS: &[&str] = &["a", "b", "c", "rows", "_x", "é", "e\u{301}", "😀", "", "a.b", "A", "0", "'", "\"", "\\", "a b", "\n", "Å", "\u{212B}", "\u{0}", "length"];

struct Node {
    value: Option<Value>,
    map: bool,
    key: String,
    parent: usize,
    first: usize,
    count: usize,
}

struct Doc {
    json: String,
    table: Table,
    plain: LoroValue,
    numbered: ValueOrHandler,
    nodes: Vec<Node>,
}

struct Documents<'a> {
    random: &'a mut Random,
    // How many more nodes may be made.
    room: usize,
    // Whether the root is made, which is seldom a scalar.
    top: bool,
    // The kinds of scalars, each as often as it stands here: 0 null, 1 boolean, 2 integer, 3 float, 4 text.
    kinds: &'static [usize],
    // The scalars and empty containers made so far, where no two may be the same.
    seen: Option<HashSet<String>>,
}

impl Documents<'_> {
    fn scalar(&mut self) -> Value {
        let unique = self.seen.is_some();
        match self.random.of(self.kinds) {
            0 => Value::Null,
            1 => Value::Bool(self.random.one_in(2)),
            2 => {
                let base = self.random.of(INTS);
                Value::Int(if unique { base.saturating_add(self.random.below(400) as i64 - 200) } else { base })
            }
            3 => {
                let base = self.random.of(FLOATS);
                Value::Float(if unique { f64::from_bits(base.to_bits() ^ self.random.below(400) as u64) } else { base })
            }
            _ => {
                let mut text = self.random.of(TEXTS).to_string();
                if unique && self.random.one_in(2) {
                    text.push_str(self.random.of(TEXTS));
                    text.push_str(&self.random.below(30).to_string());
                }
                Value::Text(text)
            }
        }
    }

    fn shuffle<T>(&mut self, xs: &mut [T]) {
        for i in (1..xs.len()).rev() {
            xs.swap(i, self.random.below(i + 1));
        }
    }

    // One more child of a container: where values may repeat, sometimes a variant of the child before it.
    fn sibling<T>(&mut self, children: &mut Vec<T>, child: impl Fn(Value) -> T, value: impl Fn(&T) -> &Value, depth: usize, most: usize) {
        let made = match children.last() {
            Some(last) if self.seen.is_none() && self.random.one_in(4) => self.variant(value(last)),
            _ => self.value(depth, most),
        };
        children.push(child(made));
    }

    // The same value with its members in another order, with some integers as floats, and seldom with another scalar.
    fn variant(&mut self, value: &Value) -> Value {
        match value {
            Value::List(items) => Value::List(items.iter().map(|v| self.variant(v)).collect()),
            Value::Map(members) => {
                let mut members: Vec<(String, Value)> = members.iter().map(|(k, v)| (k.clone(), self.variant(v))).collect();
                self.shuffle(&mut members);
                Value::Map(members)
            }
            _ if self.random.one_in(16) => self.scalar(),
            Value::Int(n) if self.random.one_in(3) => Value::Float(*n as f64),
            other => other.clone(),
        }
    }

    fn value(&mut self, depth: usize, most: usize) -> Value {
        loop {
            let container = depth > 0 && self.room > 0 && self.random.below(30) < if self.top { 29 } else { 17 };
            let value = if container {
                let least = if self.top { most / 2 } else { self.random.of(&[0, 1, 1, 2]) };
                self.top = false;
                let n = std::cmp::min(least + self.random.below(most + 1 - least), self.room);
                self.room -= n;
                if self.random.one_in(2) {
                    let mut items = Vec::new();
                    for _ in 0..n {
                        self.sibling(&mut items, |v| v, |v: &Value| v, depth - 1, most);
                    }
                    Value::List(items)
                } else {
                    let mut names = HashSet::new();
                    for _ in 0..n {
                        let k = if self.random.one_in(3) { KEYS.len() } else { 6 };
                        names.insert(self.random.of(&KEYS[..k]));
                    }
                    let mut names: Vec<&str> = names.into_iter().collect();
                    names.sort();
                    self.shuffle(&mut names);
                    let mut members = Vec::new();
                    for k in names {
                        self.sibling(&mut members, |v| (k.to_string(), v), |m: &(String, Value)| &m.1, depth - 1, most);
                    }
                    Value::Map(members)
                }
            } else {
                self.scalar()
            };
            let small = !matches!(&value, Value::List(l) if !l.is_empty()) && !matches!(&value, Value::Map(m) if !m.is_empty());
            if !small || self.seen.as_mut().is_none_or(|seen| seen.insert(text(&value))) {
                return value;
            }
        }
    }
}

fn write_text(s: &str, out: &mut String) {
    out.push('"');
    for c in s.chars() {
        match c {
            '"' | '\\' => out.extend(['\\', c]),
            '\0'..='\u{1f}' => out.push_str(&format!("\\u{:04x}", c as u32)),
            _ => out.push(c),
        }
    }
    out.push('"');
}

fn write(value: &Value, out: &mut String) {
    match value {
        Value::Null => out.push_str("null"),
        Value::Bool(b) => out.push_str(if *b { "true" } else { "false" }),
        Value::Int(n) => out.push_str(&n.to_string()),
        Value::Float(x) => out.push_str(&format!("{x:?}")),
        Value::Text(s) => write_text(s, out),
        Value::List(items) => {
            out.push('[');
            for (i, v) in items.iter().enumerate() {
                out.push_str(if i > 0 { "," } else { "" });
                write(v, out);
            }
            out.push(']');
        }
        Value::Map(members) => {
            out.push('{');
            for (i, (k, v)) in members.iter().enumerate() {
                out.push_str(if i > 0 { "," } else { "" });
                write_text(k, out);
                out.push(':');
                write(v, out);
            }
            out.push('}');
        }
    }
}

fn text(value: &Value) -> String {
    let mut out = String::new();
    write(value, &mut out);
    out
}

fn document(root: &Value) -> Doc {
    let mut queue: Vec<(&Value, &str, usize)> = vec![(root, "", 0)];
    let mut nodes = Vec::new();
    while nodes.len() < queue.len() {
        let (here, first) = (nodes.len(), queue.len());
        let (value, key, parent) = queue[here];
        match value {
            Value::List(items) => queue.extend(items.iter().map(|v| (v, "", here))),
            Value::Map(members) => queue.extend(members.iter().map(|(k, v)| (v, k.as_str(), here))),
            _ => {}
        }
        let scalar = !matches!(value, Value::List(_) | Value::Map(_));
        nodes.push(Node { value: scalar.then(|| value.clone()), map: matches!(value, Value::Map(_)), key: key.into(), parent, first, count: queue.len() - first });
    }
    let json = text(root);
    let plain = json::parse(&json).expect("JSON");
    let numbered = json::numbered(&plain);
    Doc { table: Table::from_value(root).expect("a table"), json, plain, numbered, nodes }
}

fn make_document(random: &mut Random) -> Doc {
    let unique = random.one_in(2);
    let (room, depth, most) = match random.below(400) {
        0 => (3000, 5, 100),
        1..=20 => (400, 6, 14),
        21..=40 => (100, 3, 40),
        41..=140 => (60, 5, 7),
        141..=300 => (25, 4, 5),
        _ => (8, 3, 3),
    };
    let kinds: &'static [usize] = match random.below(8) {
        0 | 1 if unique => &[2, 3],
        0 | 1 => &[0, 1, 2, 3, 3],
        2 => &[4, 4, 4, 4, 4, 4, 3],
        _ => &[0, 1, 2, 2, 3, 3, 4, 4],
    };
    let mut maker = Documents { random, room, top: true, kinds, seen: unique.then(HashSet::new) };
    let mut root = maker.value(depth, most);
    if maker.random.one_in(50) {
        for _ in 0..50 + maker.random.below(64 - 50 - depth) {
            root = if maker.random.one_in(2) { Value::List(vec![root]) } else { Value::Map(vec![("a".into(), root)]) };
        }
    }
    document(&root)
}

// Whether a value of the Rust text is that of a node: the same kinds, bits, texts and order all the way down.
fn same(v: &LoroValue, doc: &Doc, node: usize) -> bool {
    let n = &doc.nodes[node];
    match (v, &n.value) {
        (LoroValue::Null, Some(Value::Null)) => true,
        (LoroValue::Bool(a), Some(Value::Bool(b))) => a == b,
        (LoroValue::I64(a), Some(Value::Int(b))) => a == b,
        (LoroValue::Double(a), Some(Value::Float(b))) => a.to_bits() == b.to_bits(),
        (LoroValue::String(a), Some(Value::Text(b))) => a.as_ref() == b,
        (LoroValue::List(l), None) => !n.map && l.len() == n.count && l.iter().enumerate().all(|(i, v)| same(v, doc, n.first + i)),
        (LoroValue::Map(m), None) => n.map && m.len() == n.count && m.iter().enumerate().all(|(i, (k, v))| *k == doc.nodes[n.first + i].key && same(v, doc, n.first + i)),
        _ => false,
    }
}

// ---- the walk over the Rust text's tree

const MOST_STEPS: usize = 30000;

#[derive(Clone)]
enum Operand {
    Truth(bool),
    Value(Value),
    Node(usize),
    Nodes(Vec<usize>),
}

struct Walk<'a> {
    doc: &'a Doc,
    // Whether values are compared as the Rust text does.
    as_rust: bool,
    rows: BTreeSet<&'static str>,
    steps: usize,
    // Whether match or search was asked with an expression that is no row of plain characters. differential/regexps.py has those.
    unknown: bool,
}

impl<'a> Walk<'a> {
    fn of(doc: &'a Doc, query: &Query, as_rust: bool) -> (Vec<usize>, Walk<'a>) {
        let mut walk = Walk { doc, as_rust, rows: BTreeSet::new(), steps: 0, unknown: false };
        let nodes = walk.segments(0, &query.segments);
        (nodes, walk)
    }

    fn children(&self, node: usize) -> std::ops::Range<usize> {
        let n = &self.doc.nodes[node];
        n.first..n.first + n.count
    }

    fn segments(&mut self, root: usize, s: &Segment) -> Vec<usize> {
        let (left, selectors, deep) = match s {
            Segment::Root {} => return vec![root],
            Segment::Child { left, selectors } => (left, selectors, false),
            Segment::Recursive { left, selectors } => (left, selectors, true),
        };
        let mut out = Vec::new();
        for node in self.segments(root, left) {
            self.visit(root, node, selectors, deep, &mut out);
        }
        out
    }

    fn visit(&mut self, root: usize, node: usize, selectors: &[Selector], deep: bool, out: &mut Vec<usize>) {
        self.steps += 1;
        if self.steps > MOST_STEPS {
            return;
        }
        for s in selectors {
            self.selector(root, node, s, out);
        }
        if deep {
            for child in self.children(node) {
                self.visit(root, child, selectors, deep, out);
            }
        }
    }

    fn selector(&mut self, root: usize, node: usize, s: &Selector, out: &mut Vec<usize>) {
        let n = &self.doc.nodes[node];
        let (list, length) = (n.value.is_none() && !n.map, n.count as i64);
        match s {
            Selector::Name { name } if n.map => out.extend(self.children(node).find(|&c| self.doc.nodes[c].key == *name)),
            Selector::Index { index } if list => {
                let i = if *index < 0 { index + length } else { *index };
                if (0..length).contains(&i) {
                    out.push(n.first + i as usize);
                }
            }
            Selector::Slice { start, stop, step } if list && *step != Some(0) => {
                let step = step.unwrap_or(1);
                let (a, b) = if step > 0 { (0, length) } else { (length - 1, -length - 1) };
                let turn = |x: i64| if x < 0 { x + length } else { x };
                let mut i = turn(start.unwrap_or(a)).clamp(0, length);
                let stop = turn(stop.unwrap_or(b)).clamp(-1, length);
                while if step > 0 { i < stop } else { i > stop } {
                    if i < length {
                        out.push(n.first + i as usize);
                    }
                    i += step;
                }
            }
            Selector::Wild {} => out.extend(self.children(node)),
            Selector::Filter { expression } => {
                for child in self.children(node) {
                    let operand = self.operand(root, child, expression);
                    if self.truth(operand) {
                        out.push(child);
                    }
                }
            }
            _ => {}
        }
    }

    fn truth(&self, operand: Operand) -> bool {
        match operand {
            Operand::Truth(b) => b,
            Operand::Nodes(nodes) => !nodes.is_empty(),
            Operand::Node(node) => match &self.doc.nodes[node].value {
                Some(value) => self.truth(Operand::Value(value.clone())),
                None => self.doc.nodes[node].count > 0,
            },
            Operand::Value(value) => match value {
                Value::Bool(b) => b,
                Value::Int(n) => n != 0,
                Value::Float(x) => x != 0.0,
                Value::Text(s) => !s.is_empty(),
                _ => false,
            },
        }
    }

    fn operand(&mut self, root: usize, here: usize, e: &FilterExpression) -> Operand {
        self.steps += 1;
        match e {
            FilterExpression::True_ {} => Operand::Truth(true),
            FilterExpression::False_ {} => Operand::Truth(false),
            FilterExpression::Null {} => Operand::Value(Value::Null),
            FilterExpression::StringLiteral { value } => Operand::Value(Value::Text(value.clone())),
            FilterExpression::Int { value } => Operand::Value(Value::Int(*value)),
            FilterExpression::Float { value } => Operand::Value(Value::Float(*value)),
            FilterExpression::Not { expression } => {
                let operand = self.operand(root, here, expression);
                Operand::Truth(!self.truth(operand))
            }
            FilterExpression::Logical { left, operator, right } => {
                let operand = self.operand(root, here, left);
                let left = self.truth(operand);
                if left == matches!(operator, LogicalOperator::Or) {
                    return Operand::Truth(left);
                }
                let operand = self.operand(root, here, right);
                Operand::Truth(self.truth(operand))
            }
            FilterExpression::Comparison { left, operator, right } => {
                let (left, right) = (self.operand(root, here, left), self.operand(root, here, right));
                Operand::Truth(self.comparison(left, operator, right))
            }
            FilterExpression::RelativeQuery { query } => Operand::Nodes(self.segments(here, &query.segments)),
            FilterExpression::RootQuery { query } => Operand::Nodes(self.segments(root, &query.segments)),
            FilterExpression::Function { name, args } if args.len() == 2 => {
                let (text, expression) = (self.operand(root, here, &args[0]), self.operand(root, here, &args[1]));
                Operand::Truth(self.described(name == "match", text, expression))
            }
            FilterExpression::Function { name, args } => {
                let argument = self.operand(root, here, &args[0]);
                match (name.as_str(), argument) {
                    ("count", Operand::Nodes(nodes)) => Operand::Value(Value::Int(nodes.len() as i64)),
                    ("value", Operand::Nodes(nodes)) if nodes.len() == 1 => Operand::Node(nodes[0]),
                    ("value", _) => Operand::Value(Value::Null),
                    ("length", argument) => Operand::Value(Value::Int(self.length(argument))),
                    _ => Operand::Value(Value::Int(0)),
                }
            }
            FilterExpression::Array { .. } => unreachable!("no array literal is in the grammar"),
        }
    }

    // match and search by document 02, W4, of an expression of plain characters: the text itself, and a text that has it as a part.
    fn described(&mut self, whole: bool, text: Operand, expression: Operand) -> bool {
        let text_of = |operand: Operand| match operand {
            Operand::Nodes(nodes) => nodes.first().and_then(|&n| self.doc.nodes[n].value.clone()),
            Operand::Node(n) => self.doc.nodes[n].value.clone(),
            Operand::Value(value) => Some(value),
            Operand::Truth(_) => None,
        };
        let (Some(Value::Text(text)), Some(Value::Text(expression))) = (text_of(text), text_of(expression)) else {
            return false;
        };
        if expression.len() > 1024 || expression.contains(|c| "().*+?[\\]{|}".contains(c)) {
            self.unknown = true;
        }
        if whole { text == expression } else { text.contains(&expression) }
    }

    // The length by document 02, W3, and by the Rust text: 0 of a query, and a text's number of bytes.
    fn length(&mut self, argument: Operand) -> i64 {
        let query = matches!(argument, Operand::Nodes(_));
        let measured = match argument {
            Operand::Nodes(nodes) => nodes.first().map(|&n| Operand::Node(n)),
            other => Some(other),
        };
        let text = |s: &str| (s.chars().count() as i64, s.len() as i64);
        let (ours, bytes) = match measured {
            Some(Operand::Value(Value::Text(s))) => text(&s),
            Some(Operand::Node(node)) => match &self.doc.nodes[node].value {
                None => (self.doc.nodes[node].count as i64, self.doc.nodes[node].count as i64),
                Some(Value::Text(s)) => text(s),
                Some(_) => (0, 0),
            },
            _ => (0, 0),
        };
        let theirs = if query { 0 } else { bytes };
        if ours != theirs {
            self.rows.insert(if query { "S5" } else { "S6" });
        }
        if self.as_rust {
            theirs
        } else {
            ours
        }
    }

    fn comparison(&mut self, left: Operand, operator: &ComparisonOperator, right: Operand) -> bool {
        let one = |operand: Operand| match operand {
            Operand::Nodes(nodes) => nodes.first().map(|&n| Operand::Node(n)),
            other => Some(other),
        };
        let (Some(left), Some(right)) = (one(left), one(right)) else {
            return false;
        };
        let plain = |operand: Operand| match operand {
            Operand::Truth(b) => Ok(Value::Bool(b)),
            Operand::Value(value) => Ok(value),
            Operand::Node(node) => self.doc.nodes[node].value.clone().ok_or(node),
            Operand::Nodes(_) => unreachable!(),
        };
        let (left, right) = (plain(left), plain(right));
        let ours = compare(self.doc, &left, operator, &right);
        let theirs = compare_as_rust(&left, operator, &right);
        if ours != theirs {
            self.rows.insert(row(self.doc, &left, operator, &right));
        }
        if self.as_rust {
            theirs
        } else {
            ours
        }
    }
}

// A scalar, or the node of a container.
type Side = Result<Value, usize>;

fn holds(operator: &ComparisonOperator, order: Option<Ordering>, equal: bool, or_equal: bool) -> bool {
    match operator {
        ComparisonOperator::Eq => equal,
        ComparisonOperator::Ne => !equal,
        ComparisonOperator::Lt => order == Some(Ordering::Less),
        ComparisonOperator::Le => order == Some(Ordering::Less) || equal && or_equal,
        ComparisonOperator::Gt => order == Some(Ordering::Greater),
        ComparisonOperator::Ge => order == Some(Ordering::Greater) || equal && or_equal,
        _ => unreachable!("no such operator is in the grammar"),
    }
}

// An integer against a float by exact value: a float of 2^63 or more is above every integer, and the whole part of any other is exact.
fn int_against_float(a: i64, b: f64) -> Ordering {
    if b >= 9223372036854775808.0 {
        Ordering::Less
    } else if b < -9223372036854775808.0 {
        Ordering::Greater
    } else {
        let whole = b.floor();
        a.cmp(&(whole as i64)).then(if b > whole { Ordering::Less } else { Ordering::Equal })
    }
}

fn order(a: &Value, b: &Value) -> Option<Ordering> {
    match (a, b) {
        (Value::Int(a), Value::Int(b)) => Some(a.cmp(b)),
        (Value::Float(a), Value::Float(b)) => a.partial_cmp(b),
        (Value::Int(a), Value::Float(b)) => Some(int_against_float(*a, *b)),
        (Value::Float(a), Value::Int(b)) => Some(int_against_float(*b, *a).reverse()),
        (Value::Text(a), Value::Text(b)) => Some(a.as_bytes().cmp(b.as_bytes())),
        _ => None,
    }
}

fn equal(doc: &Doc, a: &Side, b: &Side) -> bool {
    let side = |n: usize| doc.nodes[n].value.clone().ok_or(n);
    match (a, b) {
        (Ok(a), Ok(b)) => match (a, b) {
            (Value::Null, Value::Null) => true,
            (Value::Bool(a), Value::Bool(b)) => a == b,
            _ => order(a, b) == Some(Ordering::Equal),
        },
        (Err(a), Err(b)) => {
            let (a, b) = (&doc.nodes[*a], &doc.nodes[*b]);
            let (mut mine, others) = (a.first..a.first + a.count, b.first..b.first + b.count);
            a.map == b.map && a.count == b.count
                && if a.map {
                    mine.all(|i| others.clone().any(|j| doc.nodes[i].key == doc.nodes[j].key && equal(doc, &side(i), &side(j))))
                } else {
                    mine.zip(others).all(|(i, j)| equal(doc, &side(i), &side(j)))
                }
        }
        _ => false,
    }
}

// Document 01, "Evaluation" and "Kept from the Rust".
fn compare(doc: &Doc, a: &Side, operator: &ComparisonOperator, b: &Side) -> bool {
    let order = if let (Ok(a), Ok(b)) = (a, b) { order(a, b) } else { None };
    holds(operator, order, equal(doc, a, b), !matches!(a, Ok(Value::Bool(_))))
}

// compare_values of jsonpath_impl.rs.
fn compare_as_rust(a: &Side, operator: &ComparisonOperator, b: &Side) -> bool {
    let near = |a: f64, b: f64| match operator {
        ComparisonOperator::Eq => (a - b).abs() < f64::EPSILON,
        ComparisonOperator::Ne => (a - b).abs() >= f64::EPSILON,
        _ => holds(operator, a.partial_cmp(&b), a == b, true),
    };
    match (a, b) {
        (Ok(Value::Float(a)), Ok(Value::Float(b))) => near(*a, *b),
        (Ok(Value::Float(a)), Ok(Value::Int(b))) => near(*a, *b as f64),
        (Ok(Value::Int(a)), Ok(Value::Float(b))) => near(*a as f64, *b),
        (Ok(Value::Int(a)), Ok(Value::Int(b))) => holds(operator, Some(a.cmp(b)), a == b, true),
        (Ok(Value::Text(a)), Ok(Value::Text(b))) => holds(operator, Some(a.cmp(b)), a == b, true),
        (Ok(Value::Bool(a)), Ok(Value::Bool(b))) => holds(operator, None, a == b, false),
        (Ok(Value::Null), Ok(Value::Null)) => matches!(operator, ComparisonOperator::Eq),
        _ => false,
    }
}

const NO_ROW: &str = "no row";

// The row of docs/DIFFERENCES.md for a comparison in which the Rust text and document 01 differ.
fn row(doc: &Doc, a: &Side, operator: &ComparisonOperator, b: &Side) -> &'static str {
    let exact = |n: i64| n as f64 as i128 == n as i128;
    match (a, b) {
        (Ok(Value::Float(_)), Ok(Value::Float(_))) => "C6",
        (Ok(Value::Float(_)), Ok(Value::Int(n))) | (Ok(Value::Int(n)), Ok(Value::Float(_))) => if exact(*n) { "C6" } else { "C7" },
        (Ok(Value::Null), Ok(Value::Null)) => if matches!(operator, ComparisonOperator::Le | ComparisonOperator::Ge) { "C5" } else { NO_ROW },
        (Err(a), Err(b)) if doc.nodes[*a].map == doc.nodes[*b].map => match operator {
            ComparisonOperator::Eq => "C2",
            ComparisonOperator::Ne => "C3",
            ComparisonOperator::Le | ComparisonOperator::Ge => "C4",
            _ => NO_ROW,
        },
        (Ok(a), Ok(b)) if std::mem::discriminant(a) == std::mem::discriminant(b) => NO_ROW,
        _ => if matches!(operator, ComparisonOperator::Ne) { "C1" } else { NO_ROW },
    }
}

// ---- queries that suit a document

struct Queries<'a> {
    random: &'a mut Random,
    doc: &'a Doc,
}

impl Queries<'_> {
    fn quoted(&mut self, s: &str, out: &mut String) {
        let quote = self.random.of(&['\'', '"']);
        out.push(quote);
        let chars: Vec<char> = s.chars().collect();
        let mut escaped = false;
        for (i, &c) in chars.iter().enumerate() {
            let alone = !escaped && !chars.get(i + 1).is_some_and(|c| c.is_control());
            escaped = false;
            match c {
                '\\' => out.push_str("\\\\"),
                '\n' => out.push_str("\\n"),
                _ if c == quote => out.extend(['\\', c]),
                _ if c.is_control() || alone && self.random.one_in(8) => {
                    for unit in c.encode_utf16(&mut [0; 2]) {
                        out.push_str(&format!("\\u{unit:04X}"));
                    }
                    escaped = true;
                }
                _ => out.push(c),
            }
        }
        out.push(quote);
    }

    fn key(&mut self) -> String {
        let n = self.random.below(self.doc.nodes.len());
        if !self.doc.nodes[n].key.is_empty() && !self.random.one_in(4) {
            return self.doc.nodes[n].key.clone();
        }
        let k = if self.random.one_in(3) { KEYS.len() } else { 6 };
        self.random.of(&KEYS[..k]).into()
    }

    fn name(&mut self, key: &str, out: &mut String) {
        let first = |c: char| c.is_ascii_alphabetic() || c == '_' || c >= '\u{80}';
        let short = key.chars().next().is_some_and(first) && key.chars().all(|c| first(c) || c.is_ascii_digit());
        if short && !self.random.one_in(3) {
            out.push('.');
            out.push_str(key);
        } else {
            out.push('[');
            self.quoted(key, out);
            out.push(']');
        }
    }

    fn int(&mut self) -> i64 {
        match self.random.below(12) {
            0 => self.random.of(&[9007199254740991, -9007199254740991, 9007199254740990, 4294967296, -4294967297, 65536]),
            1 | 2 => self.random.below(60) as i64 - 30,
            _ => self.random.below(9) as i64 - 4,
        }
    }

    fn slice(&mut self, out: &mut String) {
        for i in 0..3 {
            if i == 1 || i == 2 && self.random.one_in(2) {
                out.push(':');
            } else if i == 2 {
                return;
            }
            if self.random.one_in(2) {
                out.push_str(&self.int().to_string());
            }
        }
    }

    fn selector(&mut self, out: &mut String, depth: usize) {
        match self.random.below(if depth == 0 { 8 } else { 13 }) {
            0 | 1 => {
                let key = self.key();
                self.quoted(&key, out);
            }
            2 | 3 => out.push('*'),
            4 | 5 => out.push_str(&self.int().to_string()),
            6 | 7 => self.slice(out),
            _ => {
                out.push('?');
                self.or(out, depth - 1);
            }
        }
    }

    fn segments(&mut self, out: &mut String, depth: usize, most: usize) {
        for _ in 0..self.random.below(most + 1) {
            let deep = self.random.one_in(5);
            match self.random.below(6) {
                0 if !deep => {
                    let key = self.key();
                    self.name(&key, out);
                }
                1 => out.push_str(if deep { "..*" } else { ".*" }),
                _ => {
                    out.push_str(if deep { "..[" } else { "[" });
                    self.selector(out, depth);
                    while self.random.one_in(5) {
                        out.push(',');
                        self.selector(out, depth);
                    }
                    out.push(']');
                }
            }
        }
    }

    fn query(&mut self, out: &mut String, depth: usize) {
        out.push(self.random.of(&['@', '@', '$']));
        self.segments(out, depth, 2);
    }

    // The step from a node to its child i.
    fn step(&mut self, at: usize, i: usize, out: &mut String) {
        let n = &self.doc.nodes[at];
        if n.map {
            let key = self.doc.nodes[n.first + i].key.clone();
            self.name(&key, out);
        } else {
            let i = if self.random.one_in(3) { i as i64 - n.count as i64 } else { i as i64 };
            out.push_str(&format!("[{i}]"));
        }
    }

    // The singular query of a node.
    fn path(&mut self, node: usize, out: &mut String) {
        if node == 0 {
            out.push('$');
        } else {
            let parent = self.doc.nodes[node].parent;
            self.path(parent, out);
            self.step(parent, node - self.doc.nodes[parent].first, out);
        }
    }

    fn operator(&mut self, out: &mut String) {
        out.push_str(self.random.of(&["==", "!=", "<", "<=", ">", ">=", " == ", " >= "]));
    }

    // A singular query: from the root mostly along nodes that are there.
    fn singular(&mut self, out: &mut String) {
        let root = self.random.one_in(3);
        out.push(if root { '$' } else { '@' });
        let mut at = if root { 0 } else { self.random.below(self.doc.nodes.len()) };
        for _ in 0..self.random.of(if root { &[0, 1, 2, 2, 3, 4] } else { &[0, 0, 0, 1, 1, 2] }) {
            let n = &self.doc.nodes[at];
            if n.count > 0 && !self.random.one_in(6) {
                let i = self.random.below(n.count);
                self.step(at, i, out);
                at = self.doc.nodes[at].first + i;
            } else if self.random.one_in(2) {
                let key = self.key();
                self.name(&key, out);
            } else {
                out.push_str(&format!("[{}]", self.int()));
            }
        }
    }

    fn literal(&mut self, out: &mut String) {
        let at = self.random.below(self.doc.nodes.len());
        let value = match &self.doc.nodes[at].value {
            Some(value) if !self.random.one_in(3) => value.clone(),
            _ => match self.random.below(6) {
                0 => Value::Null,
                1 => Value::Bool(self.random.one_in(2)),
                2 => Value::Float(self.random.of(FLOATS)),
                3 => Value::Text(self.random.of(TEXTS).into()),
                _ => Value::Int(self.random.of(INTS)),
            },
        };
        match value {
            Value::Text(s) => self.quoted(&s, out),
            Value::Float(x) if beyond(format!("{x:?}").as_bytes()) && !self.random.one_in(30) => out.push_str(self.random.of(&["0.5", "1.0", "-1e0", "1E22", "0.1", "1e-17"])),
            Value::Float(x) => out.push_str(&format!("{x:?}")),
            Value::Int(n) => {
                out.push_str(&n.to_string());
                if n.unsigned_abs() < 1 << 50 && self.random.one_in(4) {
                    out.push_str(self.random.of(&[".0", "e0", ".5"]));
                }
            }
            other => write(&other, out),
        }
    }

    fn function(&mut self, out: &mut String, depth: usize) {
        let name = self.random.of(&["count", "length", "value", "value"]);
        let name = if self.random.one_in(200) { self.random.of(&["match", "search"]) } else { name };
        out.push_str(name);
        out.push('(');
        match name {
            "length" => match self.random.below(6) {
                0 => self.literal(out),
                2 => {
                    let text = self.random.of(TEXTS);
                    self.quoted(text, out);
                }
                1 => self.singular(out),
                _ => self.function(out, depth),
            },
            "match" | "search" => {
                self.singular(out);
                out.push_str(",'a'"); // compared or in an argument it is 5
            }
            _ if self.random.one_in(2) => self.singular(out),
            _ => self.query(out, depth.saturating_sub(1)),
        }
        out.push(')');
    }

    fn comparable(&mut self, out: &mut String, depth: usize) {
        match self.random.below(8) {
            0..=2 => self.singular(out),
            3..=5 => self.literal(out),
            _ => self.function(out, depth),
        }
    }

    fn or(&mut self, out: &mut String, depth: usize) {
        self.basic(out, depth);
        while self.random.one_in(4) {
            out.push_str(self.random.of(&["&&", " || ", "||", " && "]));
            self.basic(out, depth);
        }
    }

    // match or search of a text of the document or another, with an expression of plain characters.
    fn expression_test(&mut self, out: &mut String) {
        out.push_str(self.random.of(&["", "", "!"]));
        out.push_str(self.random.of(&["match(", "search("]));
        if self.random.one_in(2) { out.push('@') } else { self.singular(out) }
        out.push_str(self.random.of(&[",", ", "]));
        if self.random.one_in(8) {
            self.singular(out);
        } else {
            let text = self.random.of(&["a", "b", "A", "aa", "", "e", "\u{301}", "é", "日", "1", "ue", "'", "^", "a$"]);
            self.quoted(text, out);
        }
        out.push(')');
    }

    fn basic(&mut self, out: &mut String, depth: usize) {
        if self.random.one_in(30) {
            return self.expression_test(out);
        }
        let not = self.random.one_in(4);
        match self.random.below(if depth == 0 { 10 } else { 11 }) {
            0 | 1 => {
                out.push_str(if not { "!" } else { "" });
                self.query(out, depth);
            }
            2 => {
                out.push('!');
                self.function(out, depth);
            }
            3 => {
                let n = self.random.below(7);
                self.function(out, depth);
                self.operator(out);
                out.push_str(&n.to_string());
            }
            4 | 5 => {
                let at = self.random.below(self.doc.nodes.len());
                let up = self.doc.nodes[at].value.is_some() && self.random.one_in(2);
                let at = if up { self.doc.nodes[at].parent } else { at };
                out.push_str(self.random.of(&["@", "@", "value(@)"]));
                self.operator(out);
                self.path(at, out);
            }
            10 => {
                out.push_str(if not { "!(" } else { "(" });
                self.or(out, depth - 1);
                out.push(')');
            }
            _ => {
                if self.random.one_in(4) {
                    self.comparable(out, depth);
                } else {
                    self.singular(out);
                }
                self.operator(out);
                self.comparable(out, depth);
            }
        }
    }

    fn whole(&mut self) -> String {
        let mut out = String::from("$");
        let depth = if self.doc.nodes.len() > 60 { 2 } else { 3 };
        if self.random.one_in(6) {
            self.segments(&mut out, depth, 3);
            return out;
        }
        // Mostly along nodes that are there, and then some segment or other.
        let mut at = 0;
        while self.doc.nodes[at].count > 0 && !self.random.one_in(3) {
            let i = self.random.below(self.doc.nodes[at].count);
            if self.doc.nodes[self.doc.nodes[at].first + i].count == 0 && !self.random.one_in(8) {
                break;
            }
            match self.random.below(6) {
                0 => out.push_str(self.random.of(&[".*", "[*]", "[?@]", "[0:]", "[::-1]", "..*"])),
                _ => self.step(at, i, &mut out),
            }
            at = self.doc.nodes[at].first + i;
        }
        match self.random.below(8) {
            0 if at > 0 => {}
            1..=4 => {
                out.push_str(if self.random.one_in(3) { "..[?" } else { "[?" });
                self.or(&mut out, depth - 1);
                out.push(']');
                self.segments(&mut out, depth, 1);
            }
            _ => self.segments(&mut out, depth, 2),
        }
        out
    }
}

// ---- the form of a plan

struct Plan<'a> {
    bytes: &'a [u8],
    pool: &'a [u8],
}

impl<'a> Plan<'a> {
    fn take(&mut self, n: usize) -> Option<&'a [u8]> {
        let (part, rest) = self.bytes.split_at_checked(n)?;
        self.bytes = rest;
        Some(part)
    }

    fn byte(&mut self) -> Option<u8> {
        Some(self.take(1)?[0])
    }

    fn short(&mut self) -> Option<usize> {
        Some(u16::from_le_bytes(self.take(2)?.try_into().ok()?) as usize)
    }

    fn long(&mut self) -> Option<i64> {
        Some(i64::from_le_bytes(self.take(8)?.try_into().ok()?))
    }

    fn text(&mut self) -> Option<String> {
        let (start, length) = (self.short()?, self.short()?);
        String::from_utf8(self.pool.get(start..start + length)?.to_vec()).ok()
    }

    // What follows the byte that begins a query.
    fn query(&mut self) -> Option<Query> {
        let mut segments = Segment::Root {};
        loop {
            let kind = self.byte()?;
            if kind == 0x0A {
                return Some(Query { segments });
            }
            let n = self.short()?;
            let selectors = (0..n).map(|_| self.selector()).collect::<Option<Vec<_>>>()?;
            let left = Box::new(segments);
            segments = match kind {
                3 => Segment::Child { left, selectors },
                4 => Segment::Recursive { left, selectors },
                _ => return None,
            };
        }
    }

    fn selector(&mut self) -> Option<Selector> {
        Some(match self.byte()? {
            5 => Selector::Name { name: self.text()? },
            6 => Selector::Index { index: self.long()? },
            7 => {
                let given = self.byte()?;
                let (a, b, c) = (self.long()?, self.long()?, self.long()?);
                let bound = |bit: u8, x: i64| (given & bit != 0).then_some(x);
                Selector::Slice { start: bound(1, a), stop: bound(2, b), step: bound(4, c) }
            }
            8 => Selector::Wild {},
            9 => Selector::Filter { expression: Box::new(self.code()?) },
            _ => return None,
        })
    }

    fn code(&mut self) -> Option<FilterExpression> {
        let n = self.short()?;
        let mut part = Plan { bytes: self.take(n)?, pool: self.pool };
        let mut stack: Vec<FilterExpression> = Vec::new();
        while !part.bytes.is_empty() {
            let kind = part.byte()?;
            let item = match kind {
                1 => FilterExpression::RootQuery { query: Box::new(part.query()?) },
                2 => FilterExpression::RelativeQuery { query: Box::new(part.query()?) },
                0x10 => FilterExpression::Int { value: part.long()? },
                0x11 => FilterExpression::Float { value: f64::from_bits(part.long()? as u64) },
                0x12 => FilterExpression::StringLiteral { value: part.text()? },
                0x13 => match part.byte()? {
                    0 => FilterExpression::False_ {},
                    1 => FilterExpression::True_ {},
                    2 => FilterExpression::Null {},
                    _ => return None,
                },
                0x14 => {
                    use ComparisonOperator::*;
                    let operator = [Eq, Ne, Lt, Le, Gt, Ge].get(part.byte()? as usize)?.clone();
                    let right = Box::new(stack.pop()?);
                    FilterExpression::Comparison { left: Box::new(stack.pop()?), operator, right }
                }
                0x15 => FilterExpression::Not { expression: Box::new(stack.pop()?) },
                0x16 | 0x17 => {
                    let left = Box::new(stack.pop()?);
                    let operator = if kind == 0x16 { LogicalOperator::And } else { LogicalOperator::Or };
                    FilterExpression::Logical { left, operator, right: Box::new(part.code()?) }
                }
                0x18 => stack.pop()?,
                0x19 | 0x1A | 0x1B => {
                    let name = ["count", "length", "value"][kind as usize - 0x19].to_string();
                    FilterExpression::Function { name, args: vec![stack.pop()?] }
                }
                0x1C | 0x1D => {
                    let (name, expression) = (["match", "search"][kind as usize - 0x1C].to_string(), stack.pop()?);
                    FilterExpression::Function { name, args: vec![stack.pop()?, expression] }
                }
                _ => return None,
            };
            stack.push(item);
        }
        if stack.len() == 1 { stack.pop() } else { None }
    }
}

// The tree of a plan, if the plan and the pool are its translation.
fn tree_of(plan: &[u8], pool: &[u8]) -> Option<Query> {
    let mut reader = Plan { bytes: plan, pool };
    if reader.byte()? != 1 {
        return None;
    }
    let tree = reader.query()?;
    let (bytes, texts) = translation(&tree);
    (bytes == plan && texts == pool).then_some(tree)
}

fn translation(tree: &Query) -> (Vec<u8>, Vec<u8>) {
    let mut writer = Writer { pool: Vec::new() };
    let mut plan = Vec::new();
    writer.query(1, tree, &mut plan);
    (plan, writer.pool)
}

// ---- this engine

enum Call<'a> {
    Select(&'a [u8]),
    Run(&'a [u8], &'a [u8]),
}

// Calls select or run into a list with a length and a start position, and compares the answer, the numbers and every place with what document 01 asks for.
fn call(what: &Call, doc: &Doc, length: usize, start: usize, want: &[usize]) -> Result<u32, String> {
    let (table, texts) = (doc.table.records(), doc.table.texts());
    let mut list: Vec<u32> = (0..length as u32).map(|i| 0xAAAA0000 ^ i).collect();
    let before = list.clone();
    let (mut count, mut node) = (77, 77);
    let refusal = unsafe {
        match what {
            Call::Select(query) => stewpebble_select(query.as_ptr(), query.len(), table.as_ptr(), table.len(), texts.as_ptr(), texts.len(), list.as_mut_ptr(), length, start, &mut count, &mut node),
            Call::Run(plan, pool) => {
                stewpebble_run(plan.as_ptr(), plan.len(), pool.as_ptr(), pool.len(), table.as_ptr(), table.len(), texts.as_ptr(), texts.len(), list.as_mut_ptr(), length, start, &mut count, &mut node)
            }
        }
    };
    let (wanted, filled) = match length.checked_sub(start) {
        None => (14, 0),
        Some(places) if places < want.len() => (13, places),
        _ => (0, want.len()),
    };
    let mut after = before;
    for i in 0..filled {
        after[start + i] = want[i] as u32;
    }
    let number = if wanted == 0 { want.len() as u64 } else { 0 };
    if (refusal, count, node) != (wanted, number, 0) || list != after {
        let name = if let Call::Select(_) = what { "select" } else { "run" };
        return Err(format!("{name} into {length} places from {start}: {refusal}, count {count}, node {node}, list {list:?} and not {wanted}, {number}, 0, {after:?}"));
    }
    Ok(wanted)
}

// A refusal that does not depend on list and start position: no place changes and both numbers are 0.
fn refused(what: &Call, doc: &Doc, want: u32) -> Result<(), String> {
    let (table, texts) = (doc.table.records(), doc.table.texts());
    let mut list = [0xAAAAu32; 3];
    let (mut count, mut node) = (77, 77);
    let refusal = unsafe {
        match what {
            Call::Select(query) => stewpebble_select(query.as_ptr(), query.len(), table.as_ptr(), table.len(), texts.as_ptr(), texts.len(), list.as_mut_ptr(), 3, 0, &mut count, &mut node),
            Call::Run(plan, pool) => stewpebble_run(plan.as_ptr(), plan.len(), pool.as_ptr(), pool.len(), table.as_ptr(), table.len(), texts.as_ptr(), texts.len(), list.as_mut_ptr(), 3, 0, &mut count, &mut node),
        }
    };
    if (refusal, count, node, list) == (want, 0, 0, [0xAAAA; 3]) {
        Ok(())
    } else {
        Err(format!("{refusal}, count {count}, node {node}, list {list:?} and not {want}"))
    }
}

fn compiled(query: &[u8]) -> (u32, Vec<u8>, Vec<u8>) {
    let (mut plan, mut pool) = (vec![0; 15 * query.len()], vec![0; query.len()]);
    let (mut n, mut m) = (0, 0);
    let refusal = unsafe { stewpebble_compile(query.as_ptr(), query.len(), plan.as_mut_ptr(), plan.len(), pool.as_mut_ptr(), pool.len(), &mut n, &mut m) };
    plan.truncate(n as usize);
    pool.truncate(m as usize);
    (refusal, plan, pool)
}

// ---- the comparison

#[derive(Default)]
struct Counts {
    cases: BTreeMap<String, usize>,
    other: BTreeMap<String, usize>,
}

fn add(counts: &mut BTreeMap<String, usize>, what: &str) {
    match counts.get_mut(what) {
        Some(n) => *n += 1,
        None => {
            counts.insert(what.into(), 1);
        }
    }
}

// What document 01 asks for, which the Rust text and this engine were held against.
struct Case {
    refusal: u32,
    nodes: Vec<usize>,
    // The rows of docs/DIFFERENCES.md by which the Rust text's answer is another one, or a dash.
    rows: String,
    // How the two compare.
    how: String,
    tree: Option<Query>,
}

// One document and one query; none where it is left out: the walk would be too long, or, unless all are asked for, it is one of two in three queries that
// plainly select nothing.
fn case(parser: &JSONPathParser, random: &mut Random, doc: &Doc, query: &str, all: bool, counts: &mut Counts) -> Option<Result<Case, String>> {
    let bytes = query.as_bytes();
    let retired = retired(query);
    let (refusal, why, tree) = match rust(parser, query) {
        Rust::Kind(..) if retired => return None,
        Rust::Kind(k, _) => (k, "as the Rust text", None),
        Rust::Ok(tree) if retired => (5, "W12", Some(tree)),
        Rust::Ok(tree) if beyond(bytes) => (8, "R8", Some(tree)),
        Rust::Ok(tree) => (0, "", Some(tree)),
        Rust::Panic => return Some(Err("the Rust text panics".into())),
    };
    let (got, plan, pool) = compiled(bytes);
    if got != refusal {
        return Some(Err(format!("compile: {got} and not {refusal}")));
    }
    if refusal != 0 {
        let how = format!("refused {refusal} {why}");
        add(&mut counts.cases, &how);
        let rows = if tree.is_some() { why.replace(' ', "") } else { "-".into() };
        let stored = tree.as_ref().filter(|_| retired && !beyond(bytes));
        let done = refused(&Call::Select(bytes), doc, refusal).and_then(|()| stored.map_or(Ok(()), |tree| still_runs(doc, tree)));
        return Some(done.map(|()| Case { refusal, nodes: Vec::new(), rows, how, tree }));
    }
    evaluated(random, doc, &Compiled { query: bytes, plan, pool }, tree?, all, counts)
}

// The plan that a query with `!` before a value function had is accepted, and runs as it did.
fn still_runs(doc: &Doc, tree: &Query) -> Result<(), String> {
    let (plan, pool) = translation(tree);
    let (want, walk) = Walk::of(doc, tree, false);
    if walk.steps > MOST_STEPS || walk.unknown {
        return Ok(());
    }
    call(&Call::Run(&plan, &pool), doc, want.len(), 0, &want).map(|_| ())
}

// A query that passes, with its plan and its pool.
struct Compiled<'a> {
    query: &'a [u8],
    plan: Vec<u8>,
    pool: Vec<u8>,
}

fn evaluated(random: &mut Random, doc: &Doc, compiled: &Compiled, tree: Query, all: bool, counts: &mut Counts) -> Option<Result<Case, String>> {
    let (want, walk) = Walk::of(doc, &tree, false);
    if walk.steps > MOST_STEPS || walk.unknown {
        return None;
    }
    let rows = walk.rows;
    if want.is_empty() && rows.is_empty() && !all && !random.one_in(3) {
        return None;
    }
    // The Rust text panics where it comes to one of these.
    if calls_in_segment(&tree.segments) {
        let how = String::from(if want.is_empty() { "match or search, no node (S3, S4)" } else { "match or search, the nodes of documents 01 and 02 (S3, S4)" });
        add(&mut counts.cases, &how);
        return Some(with_lists(random, doc, compiled, &want, counts).map(|()| Case { refusal: 0, nodes: want, rows: "S3,S4".into(), how, tree: Some(tree) }));
    }
    let mut as_rust = want.clone();
    if !rows.is_empty() {
        let walk;
        (as_rust, walk) = Walk::of(doc, &tree, true);
        if walk.steps > MOST_STEPS {
            return None;
        }
    }
    let how = match with_rust(doc, &tree, &want, &as_rust, &rows) {
        Ok(how) => how,
        Err(what) => return Some(Err(what)),
    };
    add(&mut counts.cases, &how);
    let differ = if want == as_rust { "-".into() } else { rows.into_iter().collect::<Vec<_>>().join(",") };
    Some(with_lists(random, doc, compiled, &want, counts).map(|()| Case { refusal: 0, nodes: want, rows: differ, how, tree: Some(tree) }))
}

// The Rust text's nodes against those that document 01 asks for, and how the two compare.
fn with_rust(doc: &Doc, tree: &Query, want: &[usize], as_rust: &[usize], rows: &BTreeSet<&str>) -> Result<String, String> {
    let numbered: Vec<usize> = evaluate_parsed(&doc.numbered, tree).iter().map(|x| if let ValueOrHandler::Handler(h) = x { h.node().id } else { usize::MAX }).collect();
    let plain = evaluate_parsed(&doc.plain, tree);
    let alike = plain.len() == numbered.len() && plain.iter().zip(&numbered).all(|(x, &n)| matches!(x, ValueOrHandler::Value(v) if same(v, doc, n)));
    if !alike {
        return Err(format!("the Rust text's values {plain:?} are not those of its nodes {numbered:?}"));
    }
    if numbered != as_rust || rows.contains(NO_ROW) {
        return Err(format!("the Rust text: {numbered:?} and not {as_rust:?}, rows {rows:?}"));
    }
    Ok(if want == numbered {
        match (want.len(), rows.is_empty()) {
            (0, true) => "alike, no node".into(),
            (1, true) => "alike, one node".into(),
            (_, true) => "alike, several nodes".into(),
            _ => "alike, with rows of C1 to C7, S5 or S6 that change nothing".into(),
        }
    } else if rows.len() == 1 {
        format!("differ by {}", rows.first().unwrap())
    } else {
        "differ by several of C1 to C7, S5 and S6".into()
    })
}

// This engine's nodes, by select and by compile and run, into lists of random lengths from random start positions.
fn with_lists(random: &mut Random, doc: &Doc, compiled: &Compiled, want: &[usize], counts: &mut Counts) -> Result<(), String> {
    let Compiled { query, plan, pool } = compiled;
    // Every place is there in the first call; in the second there may be too few, or the start position may be beyond the list.
    let start = random.below(4);
    let length = start + want.len() + random.below(3);
    call(&Call::Select(query), doc, length, start, want)?;
    call(&Call::Run(plan, pool), doc, length, start, want)?;
    let length = random.below(want.len() + 3);
    let more = random.of(&[1, 1, 1, 3]);
    let start = random.below(length + more);
    let a = call(&Call::Select(query), doc, length, start, want)?;
    let b = call(&Call::Run(plan, pool), doc, length, start, want)?;
    assert_eq!(a, b);
    add(&mut counts.other, if a == 0 { "random places: all nodes" } else if a == 13 { "random places: refused 13" } else { "random places: refused 14" });
    if random.one_in(2) {
        damage(random, doc, plan, pool, counts)?;
    }
    Ok(())
}

// A plan with some bytes changed is refused 11, or it is the translation of another form, and run gives what that form selects.
fn damage(random: &mut Random, doc: &Doc, plan: &[u8], pool: &[u8], counts: &mut Counts) -> Result<(), String> {
    let whole = (plan, pool);
    let (mut plan, mut pool) = (plan.to_vec(), pool.to_vec());
    for _ in 0..1 + random.below(2) {
        let bytes = if !pool.is_empty() && random.one_in(6) { &mut pool } else { &mut plan };
        if bytes.is_empty() {
            continue;
        }
        let at = random.below(bytes.len());
        match random.below(12) {
            0 => bytes[at] = random.below(256) as u8,
            1 => bytes[at] ^= 1 << random.below(8),
            2 => bytes.truncate(at),
            3 => {
                bytes.remove(at);
            }
            4 => bytes.insert(at, random.below(0x1E) as u8),
            5 | 6 => bytes[at] = bytes[at].wrapping_add(1),
            7 | 8 => bytes[at] = bytes[at].wrapping_sub(1),
            9 => bytes[at] ^= 7,
            _ => bytes[at] = random.below(0x1E) as u8,
        }
    }
    if whole == (&plan[..], &pool[..]) {
        return Ok(());
    }
    let damaged = Call::Run(&plan, &pool);
    let tree = tree_of(&plan, &pool);
    let say = |what: String| Err(format!("damaged plan {} pool {}: {what}", hex(&plan), hex(&pool)));
    match unsafe { stewpebble_check_plan(plan.as_ptr(), plan.len(), pool.as_ptr(), pool.len()) } {
        11 => {
            add(&mut counts.other, if tree.is_some() { "damaged plans: refused 11, of a tree that is no query form" } else { "damaged plans: refused 11" });
            // A plan that the Rust text's own tree of a text translates to may not be refused.
            if let Some(tree) = tree {
                let written = tree.to_string();
                if let Rust::Ok(again) = rust(&JSONPathParser::new(), &written) {
                    if translation(&again) == (plan.clone(), pool.clone()) {
                        return say(format!("refused, but it is the plan of {written:?}"));
                    }
                }
            }
            refused(&damaged, doc, 11).or_else(say)
        }
        0 => {
            let Some(tree) = tree else {
                return say("accepted, but it translates no tree".into());
            };
            let (want, walk) = Walk::of(doc, &tree, false);
            if walk.steps > MOST_STEPS || walk.unknown {
                add(&mut counts.other, "damaged plans: accepted, and left out as their evaluation takes too many steps or asks an expression that is not plain");
                return Ok(());
            }
            add(&mut counts.other, "damaged plans: accepted, and run as their form");
            let (length, start) = (want.len() + random.below(3), random.below(3));
            call(&damaged, doc, length, start, &want).map(|_| ()).or_else(say)
        }
        other => say(format!("plan check {other}")),
    }
}

fn run() -> bool {
    std::panic::set_hook(Box::new(|info| {
        if info.location().is_some_and(|l| l.file().contains("differential")) {
            eprintln!("{info}");
        }
    }));
    let words: Vec<String> = std::env::args().collect();
    let count: usize = words[1].parse().expect("a count");
    let seed: u64 = words[2].parse().expect("a seed");
    if words.len() > 3 {
        return sample::write(count, seed, words[4].parse().expect("a share"));
    }
    let parser = JSONPathParser::new();
    let mut random = Random(seed);
    let mut maker = Maker { random: Random(seed ^ 0x5555), wrong: 0 };
    let mut counts = Counts::default();
    let (mut done, mut documents, mut nodes, mut left, mut differences, mut smallest) = (0, 0, 0, 0, 0, None::<(usize, String)>);
    while done < count {
        let doc = make_document(&mut random);
        documents += 1;
        nodes += doc.nodes.len();
        let mut seen = HashSet::new();
        for _ in 0..10 + random.below(20) {
            // Queries of `compile` suit no document, but are of every form; those with neighbouring escapes (S1, S2) are compared there.
            let any = random.one_in(16);
            let query = if any { maker.whole() } else { Queries { random: &mut random, doc: &doc }.whole() };
            if query.len() > 4096 || too_deep(query.as_bytes()) || any && neighbours(&query) || !seen.insert(query.clone()) {
                continue;
            }
            match case(&parser, &mut random, &doc, &query, false, &mut counts) {
                None => {
                    left += 1;
                    continue;
                }
                Some(Ok(_)) => {}
                Some(Err(what)) => {
                    differences += 1;
                    let size = query.len() + doc.json.len();
                    if smallest.as_ref().is_none_or(|(n, _)| size < *n) {
                        smallest = Some((size, format!("{query:?} on {}: {what}", doc.json)));
                    }
                }
            }
            done += 1;
            if done == count {
                break;
            }
        }
    }
    for (what, n) in counts.cases.iter().chain(&counts.other) {
        println!("{n:>8}  {what}");
    }
    println!("{left:>8}  left out, as they select nothing, take too many steps or ask an expression that is not plain");
    println!("{done} cases on {documents} documents of {nodes} nodes, {differences} that no row explains");
    if let Some((_, what)) = smallest {
        println!("the smallest: {what}");
    }
    differences == 0
}

fn main() {
    let ok = std::thread::Builder::new().stack_size(1 << 28).spawn(run).unwrap().join().unwrap();
    std::process::exit(!ok as i32);
}
