//! One record of a table: where its fields stand in its bytes. This file uses nothing of the crate, so that tests and
//! benchmarks which lay out tables of their own include it by its path.

/// The bytes of a record.
pub const RECORD: usize = 24;
/// Where the key stands in them: its start and its length.
const KEY: usize = 4;
/// Where the number of the parent stands.
const PARENT: usize = 12;
/// Where the payload stands, up to the end.
pub const PAYLOAD: usize = 16;

/// The record of a node, by its fields.
pub fn record(kind: u8, depth: u8, key: (u32, u32), parent: u32, payload: u64) -> [u8; RECORD] {
    let mut record = [0; RECORD];
    record[1] = depth;
    record[KEY..PARENT].copy_from_slice(&pair(key).to_le_bytes());
    record[PARENT..PAYLOAD].copy_from_slice(&parent.to_le_bytes());
    set_value(&mut record, kind, payload);
    record
}

/// Writes kind and payload of a record; the other fields stay.
pub fn set_value(record: &mut [u8; RECORD], kind: u8, payload: u64) {
    record[0] = kind;
    record[PAYLOAD..].copy_from_slice(&payload.to_le_bytes());
}

pub fn kind_in(record: &[u8; RECORD]) -> u8 {
    record[0]
}

pub fn key_in(record: &[u8; RECORD]) -> (u32, u32) {
    (word(record, KEY), word(record, KEY + 4))
}

pub fn parent_in(record: &[u8; RECORD]) -> u32 {
    word(record, PARENT)
}

/// The payload as two words: a start and a length, or a first child and a count.
pub fn words_in(record: &[u8; RECORD]) -> (u32, u32) {
    (word(record, PAYLOAD), word(record, PAYLOAD + 4))
}

/// Two words as a payload.
pub fn pair((low, high): (u32, u32)) -> u64 {
    u64::from(low) | u64::from(high) << 32
}

/// Four bytes of a record, from a place that is at most 20.
fn word(record: &[u8; RECORD], at: usize) -> u32 {
    u32::from_le_bytes([record[at], record[at + 1], record[at + 2], record[at + 3]])
}
