//! Times this engine beside the given Rust text on the cases of bench/broad.py (bench/broad.sh builds and runs it).
//!
//!   broad DIR ROUNDS      DIR: cases.tsv and the documents; each figure is the least of that many rounds, in which every engine has its turn
//!
//! A line of output: group, document, nodes of the table, query, nodes selected, whether the Rust text selects the same, and ns for
//!   walk     the walk of a run alone, the plan and the table checked before
//!   before   the same of an earlier library, where one is linked (cfg before)
//!   run      a whole run with both checks
//!   table    the table check
//!   plan     the plan check
//!   rust     the Rust text's evaluation of a query parsed before
//!   compile  compile
//!   parse    the Rust text's parse, its parser made before
//!   c        the C by hand, for the queries that have it (cfg flat)
//! with - for what is not there. It ends with status 1 where two libraries select other nodes, or where the Rust text does so and the case does not say it.

#[allow(dead_code)]
#[path = "../rust/src/record.rs"]
mod record;

use record::RECORD;
use rustoracle::handler::ValueOrHandler;
use rustoracle::json;
use rustoracle::jsonpath::jsonpath_impl::{evaluate_parsed, PathValue};
use rustoracle::jsonpath::{JSONPathParser, Query};
use std::hint::black_box;
use std::time::Instant;

type ByHand = unsafe extern "C" fn() -> u64;
type Walk = unsafe extern "C" fn(*const u8, usize, *const u8, usize, *const u8, usize, *const u8, usize, *mut u32, usize, usize) -> usize;

extern "C" {
    fn stewpebble_compile(
        query: *const u8, query_length: usize, plan: *mut u8, plan_room: usize, pool: *mut u8, pool_room: usize, plan_length: *mut u64, pool_length: *mut u64,
    ) -> u32;
    fn stewpebble_check_plan(plan: *const u8, plan_length: usize, pool: *const u8, pool_length: usize) -> u32;
    fn stewpebble_check_table(table: *const u8, table_length: usize, text: *const u8, text_length: usize, node: *mut u64) -> u32;
    fn stewpebble_run(
        plan: *const u8, plan_length: usize, pool: *const u8, pool_length: usize, table: *const u8, table_length: usize, text: *const u8, text_length: usize,
        list: *mut u32, places: usize, start: usize, count: *mut u64, filled: *mut u64,
    ) -> u32;
    fn stewpebble_walk(
        plan: *const u8, plan_length: usize, pool: *const u8, pool_length: usize, table: *const u8, table_length: usize, text: *const u8, text_length: usize,
        list: *mut u32, places: usize, cap: usize,
    ) -> usize;
    #[cfg(before)]
    fn stewpebble_walk_before(
        plan: *const u8, plan_length: usize, pool: *const u8, pool_length: usize, table: *const u8, table_length: usize, text: *const u8, text_length: usize,
        list: *mut u32, places: usize, cap: usize,
    ) -> usize;
    #[cfg(flat)]
    fn flat_lend(table: *const u8, nodes: u32, text: *const u8, text_length: u32, list: *mut u32);
    #[cfg(flat)]
    fn flat_find(query: *const std::ffi::c_char) -> Option<ByHand>;
}

/// What every call is lent: a document's table and text, a list with room for every answer, and the plan and pool of a query.
struct Lent {
    table: Vec<u8>,
    text: Vec<u8>,
    list: *mut u32,
    places: usize,
    plan: Vec<u8>,
    pool: Vec<u8>,
}

const PLAN_ROOM: usize = 65535;

impl Lent {
    fn load(folder: &str, document: &str) -> Lent {
        let read = |suffix| std::fs::read(format!("{folder}/{document}.{suffix}")).expect("a document of bench/broad.py");
        let (table, text) = (read("table"), read("text"));
        let places = 4 * (table.len() / RECORD) + 64;
        Lent { table, text, list: vec![0u32; places].leak().as_mut_ptr(), places, plan: Vec::new(), pool: Vec::new() }
    }

    fn compile(&mut self, query: &str) {
        let (mut plan, mut pool, mut n, mut m) = (vec![0; PLAN_ROOM], vec![0; PLAN_ROOM], 0, 0);
        let refusal = compile(query, &mut plan, &mut pool, &mut n, &mut m);
        assert!(refusal == 0, "{query}: refused {refusal}");
        plan.truncate(n as usize);
        pool.truncate(m as usize);
        (self.plan, self.pool) = (plan, pool);
    }

    fn walk(&self, walk: Walk) -> usize {
        let Lent { plan, pool, table, text, list, places } = self;
        unsafe { walk(plan.as_ptr(), plan.len(), pool.as_ptr(), pool.len(), table.as_ptr(), table.len(), text.as_ptr(), text.len(), *list, *places, *places) }
    }

    fn run(&self) -> u64 {
        let Lent { plan, pool, table, text, list, places } = self;
        let (mut count, mut filled) = (0, 0);
        let refusal = unsafe {
            stewpebble_run(plan.as_ptr(), plan.len(), pool.as_ptr(), pool.len(), table.as_ptr(), table.len(), text.as_ptr(), text.len(),
                *list, *places, 0, &mut count, &mut filled)
        };
        assert!(refusal == 0, "the run is refused: {refusal}");
        count
    }

    fn check_plan(&self) -> u32 {
        unsafe { stewpebble_check_plan(self.plan.as_ptr(), self.plan.len(), self.pool.as_ptr(), self.pool.len()) }
    }

    fn check_table(&self) -> u32 {
        unsafe { stewpebble_check_table(self.table.as_ptr(), self.table.len(), self.text.as_ptr(), self.text.len(), &mut 0) }
    }

    /// What a run is made of, one behind the other: both checks, and the walk.
    fn in_turn(&self) -> usize {
        assert!(black_box(self.check_plan()) == 0 && black_box(self.check_table()) == 0, "a check refuses");
        self.walk(stewpebble_walk)
    }

    /// The nodes that the last call left in the list.
    fn selected(&self, count: usize) -> Vec<u32> {
        assert!(count <= self.places, "more nodes than the list has places for");
        unsafe { std::slice::from_raw_parts(self.list, count) }.to_vec()
    }
}

fn compile(query: &str, plan: &mut [u8], pool: &mut [u8], n: &mut u64, m: &mut u64) -> u32 {
    unsafe { stewpebble_compile(query.as_ptr(), query.len(), plan.as_mut_ptr(), plan.len(), pool.as_mut_ptr(), pool.len(), n, m) }
}

#[cfg(before)]
fn before() -> Option<Walk> {
    Some(stewpebble_walk_before)
}
#[cfg(not(before))]
fn before() -> Option<Walk> {
    None
}

#[cfg(flat)]
fn by_hand(lent: &Lent, document: &str, query: &str) -> Option<ByHand> {
    let query = std::ffi::CString::new(query).unwrap();
    unsafe {
        flat_lend(lent.table.as_ptr(), (lent.table.len() / RECORD) as u32, lent.text.as_ptr(), lent.text.len() as u32, lent.list);
        flat_find(query.as_ptr()).filter(|_| document.starts_with("rows"))
    }
}
#[cfg(not(flat))]
fn by_hand(_: &Lent, _: &str, _: &str) -> Option<ByHand> {
    None
}

/// A document for the Rust text: as it is timed, and with the number of each node.
struct Document {
    plain: Box<dyn PathValue>,
    numbered: ValueOrHandler,
}

impl Document {
    fn load(folder: &str, document: &str) -> Document {
        let text = std::fs::read_to_string(format!("{folder}/{document}.json")).expect("a document of bench/broad.py");
        let plain = json::parse(&text).expect("a document");
        let numbered = json::numbered(&plain);
        Document { plain: Box::new(plain), numbered }
    }

    fn selected(&self, query: &Query) -> Vec<u32> {
        let number = |v: &ValueOrHandler| match v {
            ValueOrHandler::Handler(h) => h.node().id as u32,
            ValueOrHandler::Value(_) => panic!("a node without a number"),
        };
        evaluate_parsed(&self.numbered, query).iter().map(number).collect()
    }
}

/// Whether the Rust text selects the same nodes. Stops where the libraries do not, or where the case says otherwise of the Rust text.
fn compared(lent: &Lent, document: &Document, hand: Option<ByHand>, case: &[&str], ast: &Query) -> (usize, bool) {
    let ours = lent.selected(lent.walk(stewpebble_walk));
    let stop = |what: &str| {
        eprintln!("DIFFERS: {what} selects other nodes than the walk: {} on {}", case[2], case[1]);
        std::process::exit(1);
    };
    if lent.selected(lent.run() as usize) != ours {
        stop("the run");
    }
    if before().is_some_and(|walk| lent.selected(lent.walk(walk)) != ours) {
        stop("the library before");
    }
    if hand.is_some_and(|select| lent.selected(unsafe { select() } as usize) != ours) {
        stop("the C by hand");
    }
    let same = document.selected(ast) == ours;
    if same != (case[3] == "same") {
        stop(if same { "against what the case says, no engine" } else { "the Rust text" });
    }
    (ours.len(), same)
}

/// One engine's work: what it does that many times, in ns for a call.
type Work<'a> = Box<dyn FnMut(u64) -> f64 + 'a>;

fn work<'a, T>(mut f: impl FnMut() -> T + 'a) -> Work<'a> {
    Box::new(move |calls| {
        let start = Instant::now();
        for _ in 0..calls {
            black_box(f());
        }
        start.elapsed().as_nanos() as f64 / calls as f64
    })
}

const BATCH: f64 = 4e5;

/// As many calls as take some 0.4 ms.
fn calls(work: &mut Work) -> u64 {
    let mut calls = 1;
    loop {
        let took = work(calls) * calls as f64;
        if took >= BATCH / 4.0 {
            return ((calls as f64 * BATCH / took) as u64).max(1);
        }
        calls *= 2;
    }
}

/// The least of the rounds for each, taken in turn.
fn least(mut works: Vec<Option<Work>>, rounds: usize) -> Vec<Option<f64>> {
    let calls: Vec<u64> = works.iter_mut().map(|w| w.as_mut().map_or(0, calls)).collect();
    let mut out = vec![f64::MAX; works.len()];
    for _ in 0..rounds {
        for k in 0..works.len() {
            if let Some(work) = &mut works[k] {
                out[k] = out[k].min(work(calls[k]));
            }
        }
    }
    works.iter().zip(out).map(|(w, ns)| w.as_ref().map(|_| ns)).collect()
}

fn measured(lent: &Lent, document: &Document, hand: Option<ByHand>, query: &str, ast: &Query, rounds: usize) -> Vec<Option<f64>> {
    let parser = JSONPathParser::new();
    let (mut plan, mut pool, mut n, mut m) = (vec![0; PLAN_ROOM], vec![0; PLAN_ROOM], 0, 0);
    let works = vec![
        Some(work(|| lent.walk(stewpebble_walk))),
        before().map(|walk| work(move || lent.walk(walk))),
        Some(work(|| lent.run())),
        Some(work(|| lent.check_table())),
        Some(work(|| lent.check_plan())),
        Some(work(|| evaluate_parsed(black_box(&*document.plain), ast))),
        Some(work(|| compile(black_box(query), &mut plan, &mut pool, &mut n, &mut m))),
        Some(work(|| parser.parse(black_box(query)).unwrap())),
        hand.map(|select| work(move || unsafe { select() })),
        Some(work(|| lent.in_turn())),
    ];
    least(works, rounds)
}

fn main() {
    let args: Vec<String> = std::env::args().collect();
    let (folder, rounds) = (&args[1], args[2].parse().expect("a number of rounds"));
    let cases = std::fs::read_to_string(format!("{folder}/cases.tsv")).expect("the cases of bench/broad.py");
    for line in cases.lines() {
        let case: Vec<&str> = line.split('\t').collect();
        let (mut lent, document) = (Lent::load(folder, case[1]), Document::load(folder, case[1]));
        assert!(lent.check_table() == 0, "{}: no table", case[1]);
        lent.compile(case[2]);
        let ast = JSONPathParser::new().parse(case[2]).expect("a query of the Rust text");
        let hand = by_hand(&lent, case[1], case[2]);
        let (selected, same) = compared(&lent, &document, hand, &case, &ast);
        let figures = measured(&lent, &document, hand, case[2], &ast, rounds);
        let shown: Vec<String> = figures.iter().map(|f| f.map_or("-".into(), |ns| format!("{ns:.2}"))).collect();
        let same = if same { "same" } else { "other" };
        println!("{}\t{}\t{}\t{}\t{selected}\t{same}\t{}", case[0], case[1], lent.table.len() / RECORD, case[2], shown.join("\t"));
    }
}
