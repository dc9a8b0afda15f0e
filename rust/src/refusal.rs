//! The refusals of the library, by name, each with its numbers and in words.
use crate::foreign::Refused;
use crate::limits::{grouped, Grouped, MAX_BRACKETS, MAX_EXACT, MAX_NODES, MAX_QUERY, MAX_TEXT};
use crate::record::RECORD;
use core::fmt;

/// Why an operation refused. Each is given exactly on its condition, in the operation's order; `docs/REFERENCE.md` in the
/// repository has the conditions, and what can be done about each.
///
/// ```
/// use stewpebble::{compile, Refusal};
///
/// let refusal = compile("$[?f(@)]").unwrap_err();
/// assert_eq!(refusal, Refusal::UnknownFunction);
/// assert_eq!(refusal.number(), 6);
/// assert_eq!(refusal.to_string(), "the query calls a function that does not exist");
/// ```
#[derive(Clone, Copy, Debug, PartialEq, Eq, Hash)]
#[non_exhaustive]
pub enum Refusal {
    /// 1: the query has more than 4,096 bytes.
    QueryTooLong {
        /// The bytes of the query.
        bytes: usize,
    },
    /// 2: the query is not UTF-8.
    QueryNotUtf8 {
        /// The bytes before the first that does not fit.
        at: usize,
    },
    /// 3: more than 32 brackets are open at some place of the query.
    QueryTooDeep,
    /// 4: the query is not in the grammar, or an index or a slice number is out of range.
    Syntax,
    /// 5: a function, a comparison or a test has arguments of the wrong type or number. `!` takes no value function: write
    /// `!@.*` to ask whether there is nothing, and `count(@.*) == 0` to ask for a number.
    Type,
    /// 6: no function has this name.
    UnknownFunction,
    /// 7: no operation gives it, and no other refusal has its number. An archive of an earlier version gave it to queries
    /// that call match or search.
    Regex,
    /// 8: a number has over 19 digits, an exponent outside -342..308, or is past the largest float.
    NumberBeyond,
    /// 9: the table is empty or too large, or its size is no multiple of 24, or its texts are too large.
    TableSize {
        /// The bytes of the records.
        records: usize,
        /// The bytes of the texts.
        texts: usize,
    },
    /// 10: a rule on records fails.
    TableRule {
        /// The least node at which a rule fails.
        node: u32,
    },
    /// 17: a text or a key lies outside the texts or is not UTF-8, or two members of a map have one key.
    TextRule {
        /// The least node at which a rule fails; of two equal keys that of the later member.
        node: u32,
    },
    /// 11: the plan and the pool are those of no query.
    Plan,
    /// 12: a room is too small.
    RoomTooSmall {
        /// The bytes that the plan needs.
        plan: usize,
        /// The bytes that the pool needs.
        pool: usize,
    },
    /// 13, where the caller lent the places: more nodes are selected than there are places from the start position on.
    ListFull {
        /// The places from the start position on. Each holds a node.
        places: usize,
    },
    /// 13, where the crate makes the list: more nodes are selected than the limit.
    LimitPassed {
        /// The limit that was given, or [`DEFAULT_LIMIT`](crate::DEFAULT_LIMIT).
        limit: usize,
    },
    /// 14: the start position is beyond the list's end.
    StartBeyond {
        /// The start position.
        start: usize,
        /// The places of the whole list.
        places: usize,
    },
    /// 15: the table has no such node.
    NoSuchNode {
        /// The node that was asked for.
        node: u32,
        /// The number of nodes.
        nodes: usize,
    },
    /// 15: the node is there and is no text.
    NoText {
        /// The node.
        node: u32,
    },
    /// 15: the node is there and is no member of a map.
    NoKey {
        /// The node.
        node: u32,
    },
    /// 16: the room for the path of a node is too small. It is then as it was.
    PathRoom {
        /// The bytes that the path has.
        bytes: u64,
        /// The bytes of the room.
        room: usize,
    },
    /// 21: a count of items, or of plans, would pass 2^53-1.
    CountFull,
    /// A number that this version of the crate has no name for. The archive is of another version.
    Unknown {
        /// The number.
        number: u32,
    },
}

/// What an operation was given, for the numbers of its refusal.
#[derive(Clone, Copy, Default)]
pub(crate) struct Given<'a> {
    pub query: &'a [u8],
    pub records: usize,
    pub texts: usize,
    pub places: usize,
    pub start: usize,
}

impl Refusal {
    /// The refusal that the library gave, with the numbers of what it was given.
    pub(crate) fn new(refused: Refused, given: Given<'_>) -> Refusal {
        match refused.number {
            1 => Refusal::QueryTooLong { bytes: given.query.len() },
            2 => Refusal::QueryNotUtf8 { at: core::str::from_utf8(given.query).map_or_else(|e| e.valid_up_to(), str::len) },
            3 => Refusal::QueryTooDeep,
            4 => Refusal::Syntax,
            5 => Refusal::Type,
            6 => Refusal::UnknownFunction,
            7 => Refusal::Regex,
            8 => Refusal::NumberBeyond,
            9 => Refusal::TableSize { records: given.records, texts: given.texts },
            10 => Refusal::TableRule { node: refused.first as u32 },
            11 => Refusal::Plan,
            12 => Refusal::RoomTooSmall { plan: refused.first as usize, pool: refused.second as usize },
            13 => Refusal::ListFull { places: given.places.saturating_sub(given.start) },
            14 => Refusal::StartBeyond { start: given.start, places: given.places },
            17 => Refusal::TextRule { node: refused.first as u32 },
            21 => Refusal::CountFull,
            number => Refusal::Unknown { number },
        }
    }

    /// Its number, the same as in C and in `docs/REFERENCE.md`.
    ///
    /// ```
    /// assert_eq!(stewpebble::compile("$.a[").unwrap_err().number(), 4);
    /// ```
    #[must_use]
    pub fn number(&self) -> u32 {
        match self {
            Refusal::QueryTooLong { .. } => 1,
            Refusal::QueryNotUtf8 { .. } => 2,
            Refusal::QueryTooDeep => 3,
            Refusal::Syntax => 4,
            Refusal::Type => 5,
            Refusal::UnknownFunction => 6,
            Refusal::Regex => 7,
            Refusal::NumberBeyond => 8,
            Refusal::TableSize { .. } => 9,
            Refusal::TableRule { .. } => 10,
            Refusal::Plan => 11,
            Refusal::RoomTooSmall { .. } => 12,
            Refusal::ListFull { .. } | Refusal::LimitPassed { .. } => 13,
            Refusal::StartBeyond { .. } => 14,
            Refusal::NoSuchNode { .. } | Refusal::NoText { .. } | Refusal::NoKey { .. } => 15,
            Refusal::PathRoom { .. } => 16,
            Refusal::TextRule { .. } => 17,
            Refusal::CountFull => 21,
            Refusal::Unknown { number } => *number,
        }
    }
}

/// Which of the four conditions on sizes it is, in the words of each.
fn table_size(f: &mut fmt::Formatter<'_>, records: usize, texts: usize) -> fmt::Result {
    if records == 0 {
        write!(f, "the table is empty")
    } else if records % RECORD != 0 {
        write!(f, "the table has {} bytes, which is no multiple of {RECORD}", grouped(records))
    } else if records / RECORD > MAX_NODES {
        write!(f, "the table has {} nodes, and {} are the most", grouped(records / RECORD), grouped(MAX_NODES))
    } else {
        write!(f, "the texts have {} bytes, and {} are the most", grouped(texts), grouped(MAX_TEXT))
    }
}

impl fmt::Display for Refusal {
    fn fmt(&self, f: &mut fmt::Formatter<'_>) -> fmt::Result {
        match *self {
            Refusal::QueryTooLong { bytes } => write!(f, "the query has {} bytes, and {} are the most", grouped(bytes), grouped(MAX_QUERY)),
            Refusal::QueryNotUtf8 { at } => write!(f, "the query is not UTF-8 after its first {} bytes", grouped(at)),
            Refusal::QueryTooDeep => write!(f, "the query has more than {MAX_BRACKETS} brackets open at once"),
            Refusal::Syntax => write!(f, "this is not a JSONPath query, or a number in it is out of range"),
            Refusal::Type => write!(f, "a function, a comparison or a test in the query has operands of the wrong type or number; in place of !count(@.*) write !@.* or count(@.*) == 0"),
            Refusal::UnknownFunction => write!(f, "the query calls a function that does not exist"),
            Refusal::Regex => write!(f, "this library is of an earlier version, without the functions match and search"),
            Refusal::NumberBeyond => write!(f, "a number in the query has more than 19 digits, too large or small an exponent, or is too large for a float"),
            Refusal::TableSize { records, texts } => table_size(f, records, texts),
            Refusal::TableRule { node } => write!(f, "the table breaks a rule of tables, first at node {node}"),
            Refusal::TextRule { node } => write!(f, "a text or a key of the table breaks a rule of tables, first at node {node}"),
            Refusal::Plan => write!(f, "the plan is damaged"),
            Refusal::RoomTooSmall { plan, pool } => write!(f, "the plan needs {} bytes and its pool {}", grouped(plan), grouped(pool)),
            Refusal::ListFull { places } => write!(f, "more nodes are selected than the {} places that the list has for them", grouped(places)),
            Refusal::LimitPassed { limit } => write!(f, "more than {} nodes are selected, which is the limit", grouped(limit)),
            Refusal::StartBeyond { start, places } => write!(f, "the start position {} is beyond the {} places of the list", grouped(start), grouped(places)),
            Refusal::NoSuchNode { node, nodes } => write!(f, "there is no node {node}: the table has {} nodes, from 0 on", grouped(nodes)),
            Refusal::NoText { node } => write!(f, "node {node} is no text"),
            Refusal::NoKey { node } => write!(f, "node {node} is no member of a map, so it has no key"),
            Refusal::PathRoom { bytes, room } => write!(f, "the path has {} bytes, and the room has {}", Grouped(bytes), grouped(room)),
            Refusal::CountFull => write!(f, "a count would pass {}", Grouped(MAX_EXACT)),
            Refusal::Unknown { number } => write!(f, "the library refuses with the number {number}, which this version of the crate has no name for"),
        }
    }
}

#[cfg(feature = "std")]
impl std::error::Error for Refusal {}
