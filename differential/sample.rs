//! The sample of select's cases that crates/select_vectors replays: the rows of docs/DIFFERENCES.md, slices and comparisons of every kind on documents of
//! their own, and random queries on small random documents, as many as it takes to have each feature some times. A line is
//!
//!     QUERY TABLE TEXT ROW REFUSAL NODE..
//!
//! with byte strings in hexadecimal, a dash for an empty one. ROW is a dash where the answer is the Rust text's own.

use super::{case, document, Case, Counts, Doc, Documents, Queries};
use crate::compile::{hex, neighbours, too_deep, Maker, Random};
use rustoracle::jsonpath::ast::{ComparisonOperator, FilterExpression, LogicalOperator, Query, Segment, Selector};
use rustoracle::jsonpath::JSONPathParser;
use std::collections::{BTreeMap, BTreeSet, HashSet};
use stewpebble::Value;

// The rows of docs/DIFFERENCES.md that evaluation comes to; the others are among the cases of crates/compile_vectors.
const ROWS: &[(&str, &str)] = &[
    ("$[?@ != 1]", "[\"x\"]"),
    ("$[?@ == @]", "[[]]"),
    ("$[?@ == @]", "[{}]"),
    ("$[?@ != $[1]]", "[[1],[2]]"),
    ("$[?@ <= @]", "[[]]"),
    ("$[?@ >= @]", "[{}]"),
    ("$[?@ <= @]", "[null]"),
    ("$[?@ >= @]", "[null]"),
    ("$[?@ == 0.0]", "[1e-17]"),
    ("$[?@ == 1]", "[0.9999999999999999]"),
    ("$[?@ != 0.0]", "[1e-17]"),
    ("$[?@ == $[1]]", "[9007199254740993,9007199254740992.0]"),
    ("$[?@ > $[1]]", "[9007199254740993,9007199254740992.0]"),
    ("$[?@ <= $[1]]", "[9007199254740993,9007199254740992.0]"),
    ("$[?match(@,'x')]", "[\"x\"]"),
    ("$[?search(@,'x')]", "[]"),
    ("$[?@.a && match(@,'x')]", "[\"x\"]"),
    ("$[?@ == 1e23]", "[]"),
    ("$[?@ == 1e400]", "[]"),
    ("$[?@ == 9223372036854775808]", "[]"),
    ("$[?@ == 1e-23]", "[]"),
    ("$[?@ == 900719925474099.2]", "[]"),
    ("$[?@ == 0e23]", "[]"),
];

// Chains of descendants and of filters in filters, `$` and `@` inside them, and functions of functions.
const CHAINS: &[(&str, &str)] = &[
    ("$..*..*", "{\"a\":[1,{\"a\":2}]}"),
    ("$..a..a", "{\"a\":{\"a\":{\"a\":1}}}"),
    ("$..[0,0]", "[[1,2],[3]]"),
    ("$..['a',?@.a,*]", "{\"a\":[1,{\"a\":2}]}"),
    ("$[?@[?@[?@]]]", "[[[1]],[[]],[]]"),
    ("$[?@[?$[0]]]", "[[1],[[2]]]"),
    ("$[?@.a[?@ == $.a]]", "[{\"a\":[1]},{\"a\":[2]}]"),
    ("$[?count(@..*) > 2]", "[[1,[2]],[1]]"),
    ("$[?length(value(@..a)) == 2]", "[{\"a\":\"\u{e9}\"},{\"a\":\"ab\"}]"),
    ("$[?value(@.*) == 1]", "[[1],[1,1],[]]"),
    ("$[?!count(@.*)]", "[[1],[]]"),
    ("$[?length(@) == 0]", "[[],\"\",1,null]"),
    ("$[?length('\u{e9}') == 2]", "[1]"),
    ("$[?length(@) == 2]", "[\"xy\",[1,2],{\"a\":1},\"\u{e9}\"]"),
    ("$['a','a']", "{\"a\":1}"),
    ("$", "null"),
];

const NUMBERS: &str = "[0,1,2,3]";
const KINDS: &str = "[null,true,1,1.5,\"a\",[],{}]";

// Every sign of a slice's three numbers, and none.
fn slices() -> Vec<(String, String)> {
    let mut out = Vec::new();
    for start in ["", "1", "-2"] {
        for stop in ["", "3", "-1", "-9"] {
            for step in ["", ":0", ":2", ":-1", ":-2"] {
                out.push((format!("$[{start}:{stop}{step}]"), NUMBERS.into()));
            }
        }
    }
    out
}

// Every operator, with a literal of every kind, against values of every kind; and each value against itself.
fn comparisons() -> Vec<(String, String)> {
    let mut out = Vec::new();
    for operator in ["==", "!=", "<", "<=", ">", ">="] {
        for right in ["null", "true", "1", "1.0", "'a'", "@"] {
            out.push((format!("$[?@ {operator} {right}]"), KINDS.into()));
        }
    }
    out
}

fn fixed() -> Vec<(String, String)> {
    let mut out: Vec<(String, String)> = ROWS.iter().chain(CHAINS).map(|(q, d)| (q.to_string(), d.to_string())).collect();
    out.extend(slices());
    out.extend(comparisons());
    out
}

// ---- the features of a query

fn sign(bound: &Option<i64>) -> &'static str {
    match bound {
        None => "none",
        Some(0) => "zero",
        Some(x) if *x > 0 => "above",
        _ => "below",
    }
}

fn segments(s: &Segment, inside: &str, out: &mut BTreeSet<String>) {
    let (left, selectors, kind) = match s {
        Segment::Root {} => return,
        Segment::Child { left, selectors } => (left, selectors, "child"),
        Segment::Recursive { left, selectors } => (left, selectors, "descendant"),
    };
    segments(left, inside, out);
    out.insert(format!("{inside} {kind} of {} selectors", selectors.len().min(3)));
    for s in selectors {
        out.insert(match s {
            Selector::Name { name } if name.is_ascii() => format!("{inside} {kind} name"),
            Selector::Name { .. } => format!("{inside} {kind} name beyond ASCII"),
            Selector::Index { index } => format!("{inside} {kind} index {}", sign(&Some(*index))),
            Selector::Slice { start, stop, step } => format!("slice {} {} {}", sign(start), sign(stop), sign(step)),
            Selector::Wild {} => format!("{inside} {kind} wild"),
            Selector::Filter { .. } => format!("{inside} {kind} filter"),
        });
        if let Selector::Filter { expression } = s {
            filter(expression, out);
        }
    }
}

fn name(e: &FilterExpression) -> String {
    match e {
        FilterExpression::Null {} => "null".into(),
        FilterExpression::True_ {} | FilterExpression::False_ {} => "truth".into(),
        FilterExpression::StringLiteral { .. } => "text".into(),
        FilterExpression::Int { .. } => "integer".into(),
        FilterExpression::Float { .. } => "float".into(),
        FilterExpression::RelativeQuery { .. } => "@".into(),
        FilterExpression::RootQuery { .. } => "$".into(),
        FilterExpression::Function { name, .. } => name.clone(),
        _ => "test".into(),
    }
}

fn operator(o: &ComparisonOperator) -> &'static str {
    match o {
        ComparisonOperator::Eq => "==",
        ComparisonOperator::Ne => "!=",
        ComparisonOperator::Lt => "<",
        ComparisonOperator::Le => "<=",
        ComparisonOperator::Gt => ">",
        ComparisonOperator::Ge => ">=",
        _ => unreachable!("no such operator is in the grammar"),
    }
}

fn filter(e: &FilterExpression, out: &mut BTreeSet<String>) {
    match e {
        FilterExpression::Not { expression } => {
            out.insert(format!("not {}", name(expression)));
            filter(expression, out);
        }
        FilterExpression::Logical { left, operator, right } => {
            out.insert(if matches!(operator, LogicalOperator::And) { "and".into() } else { "or".into() });
            filter(left, out);
            filter(right, out);
        }
        FilterExpression::Comparison { left, operator: o, right } => {
            out.insert(format!("{} {}", name(left), operator(o)));
            out.insert(format!("{} {}", operator(o), name(right)));
            filter(left, out);
            filter(right, out);
        }
        FilterExpression::RelativeQuery { query } => segments(&query.segments, "@", out),
        FilterExpression::RootQuery { query } => segments(&query.segments, "$", out),
        FilterExpression::Function { name: f, args } => {
            out.insert(format!("{f} of {}", args.first().map_or("nothing".into(), name)));
            args.iter().for_each(|a| filter(a, out));
        }
        _ => {}
    }
}

// The features of a case, each with how often it is wanted: those of the query, and what it comes to.
fn features(case: &Case, share: usize) -> Vec<(String, usize)> {
    let mut forms = BTreeSet::new();
    if let Some(Query { segments: s }) = &case.tree {
        segments(s, "", &mut forms);
    }
    let found = if case.nodes.is_empty() { "selects nothing" } else { "selects" };
    let mut out: Vec<(String, usize)> = forms.into_iter().map(|f| (format!("{f}, {found}"), share)).collect();
    out.push((case.how.clone(), OUTCOME * share));
    out.push((format!("rows {}", case.rows), OUTCOME * share));
    out
}

// ---- the sample

// How many times the share each outcome is wanted.
const OUTCOME: usize = 4;
const MOST_NODES: usize = 6;
const MOST_TEXT: usize = 20;
const MOST_QUERY: usize = 40;
const MOST_SELECTED: usize = 12;

fn small(query: &str, doc: &Doc, case: &Case) -> bool {
    query.len() <= MOST_QUERY && doc.nodes.len() <= MOST_NODES && doc.table.texts().len() <= MOST_TEXT && case.nodes.len() <= MOST_SELECTED
}

fn word(bytes: &[u8]) -> String {
    if bytes.is_empty() { "-".into() } else { hex(bytes) }
}

fn line(query: &str, doc: &Doc, case: &Case) -> String {
    let mut out = format!("{} {} {} {} {}", hex(query.as_bytes()), word(doc.table.records()), word(doc.table.texts()), case.rows, case.refusal);
    for node in &case.nodes {
        out.push_str(&format!(" {node}"));
    }
    out
}

fn small_document(random: &mut Random) -> Doc {
    let unique = random.one_in(2);
    let room = 1 + random.below(MOST_NODES - 1);
    let mut maker = Documents { random, room, top: true, kinds: &[0, 1, 2, 2, 3, 4, 4], seen: unique.then(HashSet::new) };
    document(&maker.value(3, 5))
}

struct Sample {
    share: usize,
    // How many of the lines have each feature.
    kept: BTreeMap<String, usize>,
    lines: Vec<String>,
    differences: usize,
}

impl Sample {
    // Takes a case that has a feature of which there are fewer than the share, or any case that must be there.
    fn take(&mut self, query: &str, doc: &Doc, found: Option<Result<Case, String>>, must: bool) {
        let case = match found {
            None => return,
            Some(Ok(case)) => case,
            Some(Err(what)) => {
                eprintln!("{query:?} on {}: {what}", doc.json);
                self.differences += 1;
                return;
            }
        };
        let features = features(&case, self.share);
        let wanted = features.iter().any(|(f, share)| self.kept.get(f).is_none_or(|n| n < share));
        if must || wanted && small(query, doc, &case) {
            for (f, _) in features {
                *self.kept.entry(f).or_default() += 1;
            }
            self.lines.push(line(query, doc, &case));
        }
    }
}

/// Writes the sample; whether this engine gave every answer that was asked of it.
pub fn write(count: usize, seed: u64, share: usize) -> bool {
    let (parser, mut random, mut counts) = (JSONPathParser::new(), Random(seed), Counts::default());
    let mut maker = Maker { random: Random(seed ^ 0x5555), wrong: 25 };
    let mut sample = Sample { share, kept: BTreeMap::new(), lines: Vec::new(), differences: 0 };
    for (query, json) in fixed() {
        let doc = document(&Value::from_json(&json).expect("JSON"));
        let found = case(&parser, &mut random, &doc, &query, true, &mut counts);
        sample.take(&query, &doc, found, true);
    }
    for _ in 0..count {
        let doc = small_document(&mut random);
        let any = random.one_in(16);
        let query = if any { maker.whole() } else { Queries { random: &mut random, doc: &doc }.whole() };
        if query.len() > MOST_QUERY || too_deep(query.as_bytes()) || neighbours(&query) {
            continue;
        }
        let found = case(&parser, &mut random, &doc, &query, true, &mut counts);
        sample.take(&query, &doc, found, false);
    }
    let (kinds, least) = (sample.kept.len(), sample.kept.values().min());
    eprintln!("{} cases with {kinds} features, each in {least:?} or more", sample.lines.len());
    sample.lines.iter().for_each(|l| println!("{l}"));
    sample.differences == 0
}
