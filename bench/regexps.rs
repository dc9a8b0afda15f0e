//! Times match and search beside Rust's regex crate (bench/regexps.sh builds and runs it).
//!
//!   regexps ROUNDS      each figure is the least of that many rounds, in which each engine has its turn
//!
//! Ordinary expressions are asked of a column, a list of 10,000 short texts. A line has the function, the expression, how many texts have it, and ns for a text of
//!   walk     evaluation of the compiled plan alone, plan and table checked before
//!   run      a whole run with both checks
//!   regex    the crate's is_match over the same texts, compiled before, whole texts by `\A(?:..)\z`; the places of those that have it are kept
//! and how often the crate's time the walk and the run take. Both must select the same texts.
//!
//! Hostile expressions are asked of one text that grows, as long as a tenth of a second holds. A line has the longest text, the microseconds, and the factor by which
//! the last doubling made it longer; then the same of the crate, or - where it refuses the expression.
#[allow(dead_code)]
#[path = "../rust/src/record.rs"]
mod record;

use record::{pair, record};
use regex::Regex;
use std::hint::black_box;
use std::time::Instant;

extern "C" {
    fn stewpebble_compile(
        query: *const u8, query_length: usize, plan: *mut u8, plan_room: usize, pool: *mut u8, pool_room: usize, plan_length: *mut u64, pool_length: *mut u64,
    ) -> u32;
    fn stewpebble_run(
        plan: *const u8, plan_length: usize, pool: *const u8, pool_length: usize, table: *const u8, table_length: usize, text: *const u8, text_length: usize,
        list: *mut u32, places: usize, start: usize, count: *mut u64, filled: *mut u64,
    ) -> u32;
    fn stewpebble_walk(
        plan: *const u8, plan_length: usize, pool: *const u8, pool_length: usize, table: *const u8, table_length: usize, text: *const u8, text_length: usize,
        list: *mut u32, places: usize, cap: usize,
    ) -> usize;
}

// The kinds of a text and of a list.
const TEXT: u8 = 5;
const LIST: u8 = 6;
const TEXTS: usize = 10_000;
const WORDS: [&str; 10] = ["north", "south", "east", "west", "paris", "london", "berlin", "madrid", "vienna", "oslo"];

/// Texts as a sheet's column has them: names, codes, addresses, amounts and short sentences.
fn column() -> Vec<String> {
    let mut state = 88_172_645_463_325_252u64;
    let mut below = |n: usize| {
        state ^= state << 13;
        state ^= state >> 7;
        state ^= state << 17;
        (state >> 20) as usize % n
    };
    let words = ["invoice", "order", "Bolt M4", "Bolt M6", "nut", "washer", "spring", "cable 3m", "röhre", "screw"];
    (0..TEXTS)
        .map(|_| match below(6) {
            0 => format!("{} {}", words[below(10)], below(1000)),
            1 => format!("{}-{:05}", ["INV", "ORD", "REF"][below(3)], below(100_000)),
            2 => format!("{}.{}@example.{}", WORDS[below(10)], words[below(3)].to_lowercase().replace(' ', ""), ["com", "org", "net"][below(3)]),
            3 => format!("{}", WORDS[below(10)]),
            4 => format!("{}.{:02} EUR", below(5000), below(100)),
            _ => format!("{} to {}, {}", WORDS[below(10)], WORDS[below(10)], words[below(10)]),
        })
        .collect()
}

/// What every call is lent: the list of texts as a table, and the plan and pool of a query.
struct Lent {
    table: Vec<u8>,
    text: Vec<u8>,
    list: Vec<u32>,
    plan: Vec<u8>,
    pool: Vec<u8>,
}

impl Lent {
    fn new(texts: &[String], query: &str) -> Lent {
        let list = record(LIST, 0, (0, 0), 0, pair((1, texts.len() as u32)));
        let mut lent = Lent { table: list.to_vec(), text: Vec::new(), list: vec![0; texts.len() + 1], plan: vec![0; 65_535], pool: vec![0; 65_535] };
        for text in texts {
            lent.table.extend(record(TEXT, 1, (0, 0), 0, pair((lent.text.len() as u32, text.len() as u32))));
            lent.text.extend(text.as_bytes());
        }
        let (mut n, mut m) = (0, 0);
        let refusal = unsafe {
            stewpebble_compile(query.as_ptr(), query.len(), lent.plan.as_mut_ptr(), lent.plan.len(), lent.pool.as_mut_ptr(), lent.pool.len(), &mut n, &mut m)
        };
        assert!(refusal == 0, "{query}: refused {refusal}");
        lent.plan.truncate(n as usize);
        lent.pool.truncate(m as usize);
        lent
    }

    fn run(&mut self) -> usize {
        let (mut count, mut node) = (0, 0);
        let refusal = unsafe {
            stewpebble_run(
                self.plan.as_ptr(), self.plan.len(), self.pool.as_ptr(), self.pool.len(), self.table.as_ptr(), self.table.len(), self.text.as_ptr(), self.text.len(),
                self.list.as_mut_ptr(), self.list.len(), 0, &mut count, &mut node,
            )
        };
        assert!(refusal == 0, "refused {refusal}");
        count as usize
    }

    fn walk(&mut self) -> usize {
        unsafe {
            stewpebble_walk(
                self.plan.as_ptr(), self.plan.len(), self.pool.as_ptr(), self.pool.len(), self.table.as_ptr(), self.table.len(), self.text.as_ptr(), self.text.len(),
                self.list.as_mut_ptr(), self.list.len(), self.list.len(),
            )
        }
    }
}

fn query(function: &str, expression: &str) -> String {
    format!("$[?{function}(@, '{}')]", expression.replace('\\', "\\\\").replace('\'', "\\'"))
}

/// The expression for the crate. `.` is all but line feed there and here all but carriage return too; no text of the column has one.
fn peer(function: &str, expression: &str) -> Option<Regex> {
    Regex::new(&if function == "match" { format!(r"\A(?:{expression})\z") } else { expression.to_owned() }).ok()
}

fn found(regex: &Regex, texts: &[String], list: &mut Vec<u32>) -> usize {
    list.clear();
    list.extend(texts.iter().zip(1..).filter(|(text, _)| regex.is_match(text)).map(|(_, i)| i));
    list.len()
}

fn ns(work: &mut dyn FnMut() -> usize) -> f64 {
    let start = Instant::now();
    black_box(work());
    start.elapsed().as_secs_f64() * 1e9
}

fn ordinary(function: &str, expression: &str, texts: &[String], rounds: usize) {
    let (mut lent, regex) = (Lent::new(texts, &query(function, expression)), peer(function, expression).expect("an expression of the crate"));
    let mut list = Vec::with_capacity(texts.len());
    let (n, count) = (found(&regex, texts, &mut list), lent.run());
    assert!(count == n && lent.list[..n] == list[..], "{function} {expression}: {count} texts, and {n} by the crate");
    let (mut walk, mut run, mut other) = (f64::MAX, f64::MAX, f64::MAX);
    for _ in 0..rounds {
        walk = walk.min(ns(&mut || lent.walk()));
        other = other.min(ns(&mut || found(&regex, texts, &mut list)));
        run = run.min(ns(&mut || lent.run()));
    }
    let each = |t: f64| t / texts.len() as f64;
    println!("| {function} | `{}` | {n} | {:.0} | {:.0} | {:.0} | {:.1} | {:.1} |", expression.replace('|', "\\|"), each(walk), each(run), each(other), walk / other, run / other);
}

/// The longest text that a tenth of a second holds, its microseconds, and the factor of the last doubling.
fn grown(mut time: impl FnMut(usize) -> f64, most: usize) -> String {
    let (mut n, mut before, mut last) = (8, 0.0, time(8));
    while last < 1e8 && 2 * n <= most {
        n *= 2;
        before = last;
        last = time(n);
    }
    format!("{n} | {:.0} | {:.1}", last / 1e3, last / before.max(1.0))
}

/// Beyond `most` bytes ours is not asked: it may not end (docs/DECISIONS.md, 251).
fn hostile(function: &str, expression: &str, part: &str, end: &str, most: usize) {
    let least = |work: &mut dyn FnMut() -> usize| (0..3).map(|_| ns(work)).fold(f64::MAX, f64::min);
    let text = |n: usize| vec![part.repeat(n / part.len()) + end];
    let ours = grown(
        |n| {
            let mut lent = Lent::new(&text(n), &query(function, expression));
            least(&mut || lent.walk())
        },
        most,
    );
    let other = peer(function, expression).map_or("- | - | -".to_owned(), |regex| {
        grown(
            |n| {
                let (texts, mut list) = (text(n), Vec::with_capacity(1));
                least(&mut || found(&regex, &texts, &mut list))
            },
            65_536,
        )
    });
    println!("| {function} | `{}` | `{part}`.. `{end}` | {ours} | {other} |", expression.replace('|', "\\|"));
}

fn main() {
    let rounds = std::env::args().nth(1).map_or(25, |n| n.parse().expect("a number of rounds"));
    let texts = column();
    println!("| function | expression | texts that have it | walk, ns | run, ns | regex, ns | walk / regex | run / regex |\n|---|---|---|---|---|---|---|---|");
    let ten = WORDS.join("|");
    for expression in ["paris", "INV-.*", "[0-9]{1,4}\\.[0-9]{2} EUR", "[a-z]+\\.[a-z]+@[a-z]+\\.(com|org)", &ten, "[A-Z].*[0-9]"] {
        for function in ["match", "search"] {
            ordinary(function, expression, &texts, rounds);
        }
    }
    println!("\n| function | expression | text | bytes | us | factor | regex: bytes | us | factor |\n|---|---|---|---|---|---|---|---|---|");
    for (function, expression, part, end, most) in [
        ("match", "(a*)*b", "a", "c", 65_536),
        ("match", "(a|aa)+b", "a", "c", 65_536),
        ("search", "a*a*a*a*a*b", "a", "c", 65_536),
        ("match", "(a?){64}a{64}", "a", "", 65_536),
        ("search", "(.*)(.*)(.*)(.*)(.*)(.*)(.*)x", "a", "", 65_536),
        ("search", "(x+x+)+y", "x", "", 65_536),
        ("search", "[ab]*a[ab]{64}c", "ab", "", 65_536),
        ("match", "((a{64}){64}){64}", "a", "", 65_536),
        ("match", "(((a?){64}){64}){64}b", "a", "", 65_536),
        ("match", "((a{2,64}){2,64}){2,64}b", "a", "", 512),
        ("search", "((a|b){0,64}){64}(c{0,64}){64}d", "ab", "", 512),
    ] {
        hostile(function, expression, part, end, most);
    }
}
