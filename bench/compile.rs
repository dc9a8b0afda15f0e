//! Nanoseconds per compile, beside the given Rust text's parse of the same query, in one run: the least of 25 rounds of each, taken in turn.
//! The Rust text's parser is made once, as its own benchmark does; plan and pool are lent once.

use rustoracle::jsonpath::JSONPathParser;
use std::hint::black_box;
use std::time::Instant;

extern "C" {
    fn stewpebble_compile(query: *const u8, query_length: usize, plan: *mut u8, plan_room: usize, pool: *mut u8, pool_room: usize, plan_length: *mut u64, pool_length: *mut u64) -> u32;
}

const QUERIES: &[&str] = &[
    "$",
    "$.rows[7].price",
    "$..price",
    "$.rows[::2]",
    "$.rows[?@.qty > 10].price",
    "$.rows[?@.name == 'x' && @.qty <= 5]",
    "$..[?@.price]",
    "$.rows[?count(@.*) == 5]",
];

// Nanoseconds per call in one round of some 4 ms.
fn round(calls: u32, mut f: impl FnMut()) -> f64 {
    let start = Instant::now();
    for _ in 0..calls {
        f();
    }
    start.elapsed().as_nanos() as f64 / calls as f64
}

fn main() {
    let parser = JSONPathParser::new();
    let (mut plan, mut pool) = (vec![0u8; 61440], vec![0u8; 4096]);
    println!("| query | Rust text's parse, ns | compile, ns | ratio |");
    println!("|---|---|---|---|");
    for query in QUERIES {
        let (mut n, mut m) = (0, 0);
        let mut compile = || {
            let q = black_box(query.as_bytes());
            let refusal = unsafe { stewpebble_compile(q.as_ptr(), q.len(), plan.as_mut_ptr(), plan.len(), pool.as_mut_ptr(), pool.len(), &mut n, &mut m) };
            assert!(black_box(refusal) == 0);
        };
        let mut parse = || {
            black_box(parser.parse(black_box(query)).unwrap());
        };
        let (mut ours, mut rust) = (f64::MAX, f64::MAX);
        for _ in 0..25 {
            rust = rust.min(round(1000, &mut parse));
            ours = ours.min(round(10000, &mut compile));
        }
        println!("| `{query}` | {rust:.0} | {ours:.0} | {:.1} |", rust / ours);
    }
}
