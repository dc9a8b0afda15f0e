//! The table of a value, laid out by the rules of tables.
use crate::limits::{grouped, MAX_DEPTH, MAX_MEMBERS, MAX_NODES, MAX_TEXT};
use crate::record::{pair, record, RECORD};
use crate::{Kind, Value};
use alloc::collections::{BTreeSet, VecDeque};
use alloc::string::String;
use alloc::vec::Vec;
use core::fmt;

/// Why a value has no table.
///
/// ```
/// use stewpebble::{Table, TableError, Value};
///
/// let many = Value::List(vec![Value::Null; 70_000]);
/// let error = Table::from_value(&many).unwrap_err();
/// assert_eq!(error, TableError::TooManyNodes { nodes: 70_001 });
/// assert_eq!(error.to_string(), "the value has at least 70,001 nodes, and 65,535 are the most of a table");
/// ```
#[derive(Clone, Debug, PartialEq, Eq)]
#[non_exhaustive]
pub enum TableError {
    /// It has more than 65,535 nodes.
    TooManyNodes {
        /// The nodes that were counted until there were too many.
        nodes: usize,
    },
    /// It nests more than 63 deep.
    TooDeep,
    /// A map has more than 1,024 members.
    TooManyMembers {
        /// The members of the map.
        members: usize,
    },
    /// A map has two members of one name.
    RepeatedName {
        /// The name.
        name: String,
    },
    /// A float is infinite or no number.
    NotFinite,
    /// The texts have more than 16,777,216 bytes.
    TooMuchText {
        /// The bytes that were counted until there were too many.
        bytes: usize,
    },
}

impl fmt::Display for TableError {
    fn fmt(&self, f: &mut fmt::Formatter<'_>) -> fmt::Result {
        match self {
            TableError::TooManyNodes { nodes } => write!(f, "the value has at least {} nodes, and {} are the most of a table", grouped(*nodes), grouped(MAX_NODES)),
            TableError::TooDeep => write!(f, "the value nests more than {MAX_DEPTH} deep, which is the most of a table"),
            TableError::TooManyMembers { members } => write!(f, "a map has {} members, and {} are the most of a table", grouped(*members), grouped(MAX_MEMBERS)),
            TableError::RepeatedName { name } => write!(f, "a map has two members named {name:?}"),
            TableError::NotFinite => write!(f, "a float is infinite or not a number"),
            TableError::TooMuchText { bytes } => write!(f, "the texts and keys have at least {} bytes, and {} are the most of a table", grouped(*bytes), grouped(MAX_TEXT)),
        }
    }
}

#[cfg(feature = "std")]
impl std::error::Error for TableError {}

/// The records and the texts of a value.
pub(crate) fn build(value: &Value) -> Result<(Vec<u8>, Vec<u8>), TableError> {
    let mut builder = Builder { records: Vec::new(), texts: Vec::new(), queue: VecDeque::new(), next_child: 1 };
    builder.queue.push_back(Pending { value, depth: 0, key: None, parent: 0 });
    while let Some(node) = builder.queue.pop_front() {
        builder.record(&node)?;
    }
    Ok((builder.records, builder.texts))
}

/// Puts a text behind those that are there, within the limit; where it starts and its length.
pub(crate) fn place(texts: &mut Vec<u8>, text: &str) -> Result<(u32, u32), TableError> {
    let start = texts.len();
    if MAX_TEXT < start.saturating_add(text.len()) {
        return Err(TableError::TooMuchText { bytes: start.saturating_add(text.len()) });
    }
    texts.extend_from_slice(text.as_bytes());
    Ok((start as u32, text.len() as u32))
}

/// What is to be written for one node.
struct Pending<'a> {
    value: &'a Value,
    depth: u8,
    key: Option<&'a str>,
    /// The node whose child it is; 0 for the root.
    parent: u32,
}

/// Builds the records node by node; the children of a node are queued behind all that are queued already.
struct Builder<'a> {
    records: Vec<u8>,
    texts: Vec<u8>,
    queue: VecDeque<Pending<'a>>,
    next_child: usize,
}

impl<'a> Builder<'a> {
    fn children(&mut self, depth: u8, members: impl ExactSizeIterator<Item = (Option<&'a str>, &'a Value)>) -> Result<(u32, u32), TableError> {
        let count = members.len();
        if count == 0 {
            return Ok((0, 0));
        }
        if depth == MAX_DEPTH {
            return Err(TableError::TooDeep);
        }
        let first = self.next_child;
        let nodes = first.saturating_add(count);
        if MAX_NODES < nodes {
            return Err(TableError::TooManyNodes { nodes });
        }
        self.next_child = nodes;
        let parent = self.next_node();
        self.queue.extend(members.map(|(key, value)| Pending { value, depth: depth + 1, key, parent }));
        Ok((first as u32, count as u32))
    }

    /// The node whose record is written next.
    fn next_node(&self) -> u32 {
        (self.records.len() / RECORD) as u32
    }

    fn members(&mut self, depth: u8, members: &'a [(String, Value)]) -> Result<(u32, u32), TableError> {
        if MAX_MEMBERS < members.len() {
            return Err(TableError::TooManyMembers { members: members.len() });
        }
        let mut names = BTreeSet::new();
        if let Some((name, _)) = members.iter().find(|(name, _)| !names.insert(name.as_str())) {
            return Err(TableError::RepeatedName { name: name.clone() });
        }
        self.children(depth, members.iter().map(|(name, value)| (Some(name.as_str()), value)))
    }

    fn payload(&mut self, node: &Pending<'a>) -> Result<(Kind, u64), TableError> {
        Ok(match node.value {
            Value::Null => (Kind::Null, 0),
            Value::Bool(false) => (Kind::False, 0),
            Value::Bool(true) => (Kind::True, 0),
            Value::Int(n) => (Kind::Integer, *n as u64),
            Value::Float(x) if x.is_finite() => (Kind::Float, x.to_bits()),
            Value::Float(_) => return Err(TableError::NotFinite),
            Value::Text(s) => (Kind::Text, pair(place(&mut self.texts, s)?)),
            Value::List(items) => (Kind::List, pair(self.children(node.depth, items.iter().map(|v| (None, v)))?)),
            Value::Map(members) => (Kind::Map, pair(self.members(node.depth, members)?)),
        })
    }

    fn record(&mut self, node: &Pending<'a>) -> Result<(), TableError> {
        let key = match node.key {
            Some(key) => place(&mut self.texts, key)?,
            None => (0, 0),
        };
        let (kind, payload) = self.payload(node)?;
        self.records.extend_from_slice(&record(kind as u8, node.depth, key, node.parent, payload));
        Ok(())
    }
}
