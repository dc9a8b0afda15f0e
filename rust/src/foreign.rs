//! The functions of the proved library, each called with slices that live for the call. This is the only module with unsafe
//! code. What holds for each call, and is said once here:
//!
//! - A slice goes over as its pointer and its length. The pointer of a Rust slice is never null and is aligned, also where
//!   the length is 0, and the slice is borrowed until the call ends.
//! - What is lent to be written is borrowed mutably, so nothing else sees it during the call.
//! - The library reads and writes within the lengths only, keeps no pointer and calls nothing back: its functions are
//!   proved over slices, and the declarations below are those of `include/stewpebble.h`.

extern "C" {
    fn stewpebble_compile(query: *const u8, query_length: usize, plan: *mut u8, plan_room: usize, pool: *mut u8, pool_room: usize, plan_length: *mut u64, pool_length: *mut u64) -> u32;
    fn stewpebble_check_plan(plan: *const u8, plan_length: usize, pool: *const u8, pool_length: usize) -> u32;
    fn stewpebble_tally(plan: *const u8, plan_length: usize, pool: *const u8, pool_length: usize, counts: *mut u64, plans: *mut u64) -> u32;
    fn stewpebble_check_records(table: *const u8, table_length: usize, text: *const u8, text_length: usize, node: *mut u64) -> u32;
    fn stewpebble_check_texts(table: *const u8, table_length: usize, text: *const u8, text_length: usize, node: *mut u64) -> u32;
    fn stewpebble_check_table(table: *const u8, table_length: usize, text: *const u8, text_length: usize, node: *mut u64) -> u32;
    fn stewpebble_run(plan: *const u8, plan_length: usize, pool: *const u8, pool_length: usize, table: *const u8, table_length: usize, text: *const u8, text_length: usize, list: *mut u32, list_length: usize, start: usize, count: *mut u64, node: *mut u64) -> u32;
    fn stewpebble_select(query: *const u8, query_length: usize, table: *const u8, table_length: usize, text: *const u8, text_length: usize, list: *mut u32, list_length: usize, start: usize, count: *mut u64, node: *mut u64) -> u32;
    fn stewpebble_text_of_node(table: *const u8, table_length: usize, text: *const u8, text_length: usize, node: usize, start: *mut u64, length: *mut u64) -> u32;
    fn stewpebble_path_of_node(table: *const u8, table_length: usize, text: *const u8, text_length: usize, node: usize, room: *mut u8, room_length: usize, length: *mut u64, wrong: *mut u64) -> u32;
    fn stewpebble_key_of_node(table: *const u8, table_length: usize, text: *const u8, text_length: usize, node: usize, start: *mut u64, length: *mut u64) -> u32;
}

/// A refusal as the library gives it: its number, and the numbers that it sets.
pub struct Refused {
    pub number: u32,
    pub first: u64,
    pub second: u64,
}

/// The answer of a call: its result, or the refusal with its numbers.
fn answer<T>(number: u32, first: u64, second: u64, result: T) -> Result<T, Refused> {
    match number {
        0 => Ok(result),
        _ => Err(Refused { number, first, second }),
    }
}

/// The lengths of the plan and of the pool that were written.
pub fn compile(query: &[u8], plan: &mut [u8], pool: &mut [u8]) -> Result<(usize, usize), Refused> {
    let (mut a, mut b) = (0, 0);
    // SAFETY: the slices and the two numbers are borrowed for the call, as the module says.
    let number = unsafe { stewpebble_compile(query.as_ptr(), query.len(), plan.as_mut_ptr(), plan.len(), pool.as_mut_ptr(), pool.len(), &mut a, &mut b) };
    answer(number, a, b, (a as usize, b as usize))
}

pub fn check_plan(plan: &[u8], pool: &[u8]) -> Result<(), Refused> {
    // SAFETY: the slices are borrowed for the call, as the module says.
    answer(unsafe { stewpebble_check_plan(plan.as_ptr(), plan.len(), pool.as_ptr(), pool.len()) }, 0, 0, ())
}

pub fn tally(plan: &[u8], pool: &[u8], counts: &mut [u64; 256], plans: &mut u64) -> Result<(), Refused> {
    // SAFETY: the slices, the 256 counts and the number of plans are borrowed for the call, as the module says.
    answer(unsafe { stewpebble_tally(plan.as_ptr(), plan.len(), pool.as_ptr(), pool.len(), counts.as_mut_ptr(), plans) }, 0, 0, ())
}

pub fn check_records(table: &[u8], text: &[u8]) -> Result<(), Refused> {
    let mut node = 0;
    // SAFETY: the slices and the number are borrowed for the call, as the module says.
    let number = unsafe { stewpebble_check_records(table.as_ptr(), table.len(), text.as_ptr(), text.len(), &mut node) };
    answer(number, node, 0, ())
}

pub fn check_texts(table: &[u8], text: &[u8]) -> Result<(), Refused> {
    let mut node = 0;
    // SAFETY: the slices and the number are borrowed for the call, as the module says.
    let number = unsafe { stewpebble_check_texts(table.as_ptr(), table.len(), text.as_ptr(), text.len(), &mut node) };
    answer(number, node, 0, ())
}

pub fn check_table(table: &[u8], text: &[u8]) -> Result<(), Refused> {
    let mut node = 0;
    // SAFETY: the slices and the number are borrowed for the call, as the module says.
    let number = unsafe { stewpebble_check_table(table.as_ptr(), table.len(), text.as_ptr(), text.len(), &mut node) };
    answer(number, node, 0, ())
}

/// The number of nodes that were written into the list from the start position on.
pub fn run(plan: &[u8], pool: &[u8], table: &[u8], text: &[u8], list: &mut [u32], start: usize) -> Result<usize, Refused> {
    let (mut count, mut node) = (0, 0);
    // SAFETY: the slices and the two numbers are borrowed for the call, as the module says.
    let number = unsafe {
        stewpebble_run(plan.as_ptr(), plan.len(), pool.as_ptr(), pool.len(), table.as_ptr(), table.len(), text.as_ptr(), text.len(), list.as_mut_ptr(), list.len(), start, &mut count, &mut node)
    };
    answer(number, node, 0, count as usize)
}

/// The number of nodes that were written into the list from the start position on.
pub fn select(query: &[u8], table: &[u8], text: &[u8], list: &mut [u32], start: usize) -> Result<usize, Refused> {
    let (mut count, mut node) = (0, 0);
    // SAFETY: the slices and the two numbers are borrowed for the call, as the module says.
    let number = unsafe {
        stewpebble_select(query.as_ptr(), query.len(), table.as_ptr(), table.len(), text.as_ptr(), text.len(), list.as_mut_ptr(), list.len(), start, &mut count, &mut node)
    };
    answer(number, node, 0, count as usize)
}

/// Where the text of a node stands in the texts, and its length.
pub fn text_of_node(table: &[u8], text: &[u8], node: u32) -> Result<(usize, usize), Refused> {
    let (mut start, mut length) = (0, 0);
    // SAFETY: the slices and the two numbers are borrowed for the call, as the module says.
    let number = unsafe { stewpebble_text_of_node(table.as_ptr(), table.len(), text.as_ptr(), text.len(), node as usize, &mut start, &mut length) };
    answer(number, 0, 0, (start as usize, length as usize))
}

/// Where the key of a node stands in the texts, and its length.
pub fn key_of_node(table: &[u8], text: &[u8], node: u32) -> Result<(usize, usize), Refused> {
    let (mut start, mut length) = (0, 0);
    // SAFETY: the slices and the two numbers are borrowed for the call, as the module says.
    let number = unsafe { stewpebble_key_of_node(table.as_ptr(), table.len(), text.as_ptr(), text.len(), node as usize, &mut start, &mut length) };
    answer(number, 0, 0, (start as usize, length as usize))
}

/// The length of the path of a node, which stands in the first bytes of the room.
pub fn path_of_node(table: &[u8], text: &[u8], node: u32, room: &mut [u8]) -> Result<usize, Refused> {
    let (mut length, mut wrong) = (0, 0);
    // SAFETY: the slices and the two numbers are borrowed for the call, as the module says.
    let number = unsafe { stewpebble_path_of_node(table.as_ptr(), table.len(), text.as_ptr(), text.len(), node as usize, room.as_mut_ptr(), room.len(), &mut length, &mut wrong) };
    // Only 10 and 17 set the node, and only 16 the length.
    answer(number, length + wrong, 0, length as usize)
}
