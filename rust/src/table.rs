//! Tables of values: 24-byte records in the order in which the children of all nodes follow each other, and their texts.
//!
//! A `Table` was accepted by the library, or made of a value by the rules that the library checks. So a part of it is read
//! from its record alone; the library's own operations, which check a whole table at each call, are functions beside it.
use crate::foreign::{self, Refused};
use crate::record::{key_in, kind_in, pair, parent_in, words_in, RECORD};
use crate::refusal::Given;
use crate::{Error, Kind, Node, Refusal, Value};
use alloc::vec::Vec;
use core::fmt;
use core::ops::Range;
use core::str::FromStr;

/// A table of values that the library accepts. `Display` writes the whole as JSON.
///
/// ```
/// use stewpebble::Table;
///
/// let table: Table = r#"{"a":[10,20.0,30],"b":"é"}"#.parse()?;
/// assert_eq!(table.nodes().len(), 6);
/// assert_eq!(table.key(2)?, "b");
/// assert_eq!(table.text(2)?, "é");
/// assert_eq!(table.to_string(), r#"{"a":[10,20.0,30],"b":"é"}"#);
/// # Ok::<(), stewpebble::Error>(())
/// ```
#[derive(Clone, PartialEq, Eq)]
pub struct Table {
    pub(crate) records: Vec<u8>,
    pub(crate) texts: Vec<u8>,
}

/// Checks the records of a table alone: kinds, depths, parents, ranges of children and numbers. No text is read, so this is
/// the check to make where numbers changed and texts did not.
///
/// ```
/// use stewpebble::{check_records, check_texts, Refusal, Table};
///
/// let table: Table = r#"["x"]"#.parse()?;
/// assert_eq!(check_records(table.records(), table.texts()), Ok(()));
/// assert_eq!(check_records(table.records(), b""), Ok(()));
/// assert_eq!(check_texts(table.records(), b""), Err(Refusal::TextRule { node: 1 }));
/// # Ok::<(), stewpebble::Error>(())
/// ```
pub fn check_records(records: &[u8], texts: &[u8]) -> Result<(), Refusal> {
    foreign::check_records(records, texts).map_err(|refused| Refusal::new(refused, given(records, texts)))
}

/// Checks the texts and keys of a table alone: they lie inside the texts, are UTF-8, and the keys of a map are pairwise
/// different. The members of a map are those of the range that its record writes, as far as the table reaches, whatever
/// else is wrong with the records. With wrong records it takes time by the square of the number of nodes.
///
/// ```
/// use stewpebble::check_texts;
///
/// let wrong_kind = [9; 24];
/// assert_eq!(check_texts(&wrong_kind, &[]), Ok(()));
/// ```
pub fn check_texts(records: &[u8], texts: &[u8]) -> Result<(), Refusal> {
    foreign::check_texts(records, texts).map_err(|refused| Refusal::new(refused, given(records, texts)))
}

/// Checks a table of values: records of 24 bytes, and their texts. This is [`check_records`] over all nodes, and then
/// [`check_texts`], in one pass.
///
/// ```
/// use stewpebble::{check_table, Refusal};
///
/// let null = [0; 24];
/// assert_eq!(check_table(&null, &[]), Ok(()));
/// assert_eq!(check_table(&null[1..], &[]), Err(Refusal::TableSize { records: 23, texts: 0 }));
/// assert_eq!(check_table(&[9; 24], &[]), Err(Refusal::TableRule { node: 0 }));
/// ```
pub fn check_table(records: &[u8], texts: &[u8]) -> Result<(), Refusal> {
    foreign::check_table(records, texts).map_err(|refused| Refusal::new(refused, given(records, texts)))
}

/// The text of a node of a table that is lent, which is checked as a whole at each call; [`Table::text`] is the same of a
/// table that was accepted before.
///
/// ```
/// use stewpebble::{text_of_node, Refusal, Table};
///
/// let table: Table = r#"["x"]"#.parse()?;
/// assert_eq!(text_of_node(table.records(), table.texts(), 1)?, "x");
/// assert_eq!(text_of_node(table.records(), table.texts(), 0), Err(Refusal::NoText { node: 0 }));
/// # Ok::<(), stewpebble::Error>(())
/// ```
pub fn text_of_node<'a>(records: &[u8], texts: &'a [u8], node: u32) -> Result<&'a str, Refusal> {
    part_of_node(records, texts, foreign::text_of_node(records, texts, node), node, Refusal::NoText { node })
}

/// The key of a node of a table that is lent, which is checked as a whole at each call; [`Table::key`] is the same of a
/// table that was accepted before.
///
/// ```
/// use stewpebble::{key_of_node, Refusal, Table};
///
/// let table: Table = r#"{"a":null}"#.parse()?;
/// assert_eq!(key_of_node(table.records(), table.texts(), 1)?, "a");
/// assert_eq!(key_of_node(table.records(), table.texts(), 7), Err(Refusal::NoSuchNode { node: 7, nodes: 2 }));
/// # Ok::<(), stewpebble::Error>(())
/// ```
pub fn key_of_node<'a>(records: &[u8], texts: &'a [u8], node: u32) -> Result<&'a str, Refusal> {
    part_of_node(records, texts, foreign::key_of_node(records, texts, node), node, Refusal::NoKey { node })
}

/// The Normalized Path of a node (RFC 9535, section 2.7) of a table that is lent, in the first bytes of the room: how many
/// they are. The table is checked as a whole at each call; [`Node::path`] is the same of a table that was accepted before.
///
/// A path of at most 4,096 bytes, compiled and run on its table, selects that node alone, and no two nodes of a table share
/// a path.
///
/// ```
/// use stewpebble::{path_of_node, Refusal, Table};
///
/// let table: Table = r#"{"a":[10,20.0,30],"b":"é"}"#.parse()?;
/// let mut room = [0; 16];
/// let length = path_of_node(table.records(), table.texts(), 5, &mut room)?;
/// assert_eq!(&room[..length], b"$['a'][2]");
/// assert_eq!(path_of_node(table.records(), table.texts(), 5, &mut room[..8]), Err(Refusal::PathRoom { bytes: 9, room: 8 }));
/// # Ok::<(), stewpebble::Error>(())
/// ```
pub fn path_of_node(records: &[u8], texts: &[u8], node: u32, room: &mut [u8]) -> Result<usize, Refusal> {
    let size = room.len();
    foreign::path_of_node(records, texts, node, room).map_err(|refused| match refused.number {
        15 => Refusal::NoSuchNode { node, nodes: records.len() / RECORD },
        16 => Refusal::PathRoom { bytes: refused.first, room: size },
        _ => Refusal::new(refused, given(records, texts)),
    })
}

/// The part that the library's operation found. Its refusals of the table itself come with the numbers of the check.
fn part_of_node<'a>(records: &[u8], texts: &'a [u8], found: Result<(usize, usize), Refused>, node: u32, none: Refusal) -> Result<&'a str, Refusal> {
    match found {
        Ok((start, length)) => part(texts, start, length).ok_or(none),
        Err(refused) if refused.number == 15 => Err(absent(node, records.len() / RECORD, none)),
        Err(refused) => Err(check_table(records, texts).err().unwrap_or_else(|| Refusal::new(refused, given(records, texts)))),
    }
}

/// Refusal 15 as it is known: there is no such node, or it has no such part.
fn absent(node: u32, nodes: usize, none: Refusal) -> Refusal {
    if (node as usize) < nodes {
        none
    } else {
        Refusal::NoSuchNode { node, nodes }
    }
}

fn part(texts: &[u8], start: usize, length: usize) -> Option<&str> {
    core::str::from_utf8(texts.get(start..)?.get(..length)?).ok()
}

fn given(records: &[u8], texts: &[u8]) -> Given<'static> {
    Given { records: records.len(), texts: texts.len(), ..Given::default() }
}

impl Table {
    /// The table of a value.
    ///
    /// ```
    /// use stewpebble::{Table, TableError, Value};
    ///
    /// let value = Value::List(vec![Value::Int(1), Value::from("x")]);
    /// let table = Table::from_value(&value).unwrap();
    /// assert_eq!(table.root().value(), value);
    /// assert_eq!(Table::from_value(&Value::Float(f64::NAN)), Err(TableError::NotFinite));
    /// ```
    pub fn from_value(value: &Value) -> Result<Table, crate::TableError> {
        let (records, texts) = crate::builder::build(value)?;
        Ok(Table { records, texts })
    }

    /// The table of a JSON text.
    ///
    /// ```
    /// use stewpebble::Table;
    ///
    /// assert_eq!(Table::from_json("[1, 2]").unwrap().nodes().len(), 3);
    /// assert_eq!(Table::from_json("[1, 2").unwrap_err().to_string(), "line 1, column 6: a comma or a closing bracket is expected");
    /// ```
    pub fn from_json(text: &str) -> Result<Table, Error> {
        Ok(Table::from_value(&Value::from_json(text)?)?)
    }

    /// A table that was made elsewhere, checked.
    ///
    /// ```
    /// use stewpebble::{Refusal, Table};
    ///
    /// let table = Table::from_bytes(vec![0; 24], vec![]).unwrap();
    /// assert_eq!(table.to_string(), "null");
    /// assert_eq!(Table::from_bytes(vec![], vec![]), Err(Refusal::TableSize { records: 0, texts: 0 }));
    /// ```
    pub fn from_bytes(records: Vec<u8>, texts: Vec<u8>) -> Result<Table, Refusal> {
        check_table(&records, &texts)?;
        Ok(Table { records, texts })
    }

    /// The records, 24 bytes for each node.
    ///
    /// ```
    /// let table: stewpebble::Table = "7".parse().unwrap();
    /// assert_eq!(table.records().len(), 24);
    /// assert_eq!((table.records()[0], table.records()[16]), (3, 7));
    /// ```
    #[must_use]
    pub fn records(&self) -> &[u8] {
        &self.records
    }

    /// The texts and the keys of all nodes.
    ///
    /// ```
    /// let table: stewpebble::Table = r#"{"a":"x"}"#.parse().unwrap();
    /// assert_eq!(table.texts(), b"ax");
    /// ```
    #[must_use]
    pub fn texts(&self) -> &[u8] {
        &self.texts
    }

    /// The records and the texts, for storing.
    ///
    /// ```
    /// use stewpebble::Table;
    ///
    /// let table: Table = r#"{"a":"x"}"#.parse().unwrap();
    /// let (records, texts) = table.clone().into_bytes();
    /// assert_eq!(Table::from_bytes(records, texts), Ok(table));
    /// ```
    #[must_use]
    pub fn into_bytes(self) -> (Vec<u8>, Vec<u8>) {
        (self.records, self.texts)
    }

    /// All nodes, by their numbers.
    ///
    /// ```
    /// let table: stewpebble::Table = "[1,[2]]".parse().unwrap();
    /// let values: Vec<String> = table.nodes().map(|node| node.to_string()).collect();
    /// assert_eq!(values, ["[1,[2]]", "1", "[2]", "2"]);
    /// ```
    pub fn nodes(&self) -> impl ExactSizeIterator<Item = Node<'_>> + DoubleEndedIterator + Clone + '_ {
        (0..self.count() as u32).map(move |number| Node::new(self, number))
    }

    /// The node of a number, if there is one.
    ///
    /// ```
    /// let table: stewpebble::Table = "[true]".parse().unwrap();
    /// assert_eq!(table.node(1).unwrap().as_bool(), Some(true));
    /// assert!(table.node(2).is_none());
    /// ```
    #[must_use]
    pub fn node(&self, number: u32) -> Option<Node<'_>> {
        ((number as usize) < self.count()).then(|| Node::new(self, number))
    }

    /// The node of the whole value.
    ///
    /// ```
    /// let table: stewpebble::Table = "[1]".parse().unwrap();
    /// assert_eq!(table.root().number(), 0);
    /// ```
    #[must_use]
    pub fn root(&self) -> Node<'_> {
        Node::new(self, 0)
    }

    /// The text of a text node, read from its record.
    ///
    /// ```
    /// use stewpebble::{Refusal, Table};
    ///
    /// let table: Table = r#"["x"]"#.parse().unwrap();
    /// assert_eq!(table.text(1), Ok("x"));
    /// assert_eq!(table.text(0), Err(Refusal::NoText { node: 0 }));
    /// assert_eq!(table.text(2), Err(Refusal::NoSuchNode { node: 2, nodes: 2 }));
    /// ```
    pub fn text(&self, node: u32) -> Result<&str, Refusal> {
        let none = || absent(node, self.count(), Refusal::NoText { node });
        let record = self.record(node).filter(|record| kind_in(record) == Kind::Text as u8).ok_or_else(none)?;
        let (start, length) = words_in(record);
        part(&self.texts, start as usize, length as usize).ok_or_else(none)
    }

    /// The key of a map's member, read from its record.
    ///
    /// ```
    /// use stewpebble::{Refusal, Table};
    ///
    /// let table: Table = r#"{"a":[1]}"#.parse().unwrap();
    /// assert_eq!(table.key(1), Ok("a"));
    /// assert_eq!(table.key(2), Err(Refusal::NoKey { node: 2 }));
    /// ```
    pub fn key(&self, node: u32) -> Result<&str, Refusal> {
        let none = || absent(node, self.count(), Refusal::NoKey { node });
        let parent = self.parent_of(node).ok_or_else(none)?;
        if self.kind_of(parent) != Kind::Map {
            return Err(none());
        }
        let (start, length) = self.record(node).map(key_in).ok_or_else(none)?;
        part(&self.texts, start as usize, length as usize).ok_or_else(none)
    }

    /// The value of a node, with all that is below it; none if there is no such node.
    ///
    /// ```
    /// use stewpebble::{Table, Value};
    ///
    /// let table: Table = "[1]".parse().unwrap();
    /// assert_eq!(table.value(1), Some(Value::Int(1)));
    /// assert_eq!(table.value(2), None);
    /// ```
    #[must_use]
    pub fn value(&self, node: u32) -> Option<Value> {
        Some(self.node(node)?.value())
    }

    /// What an operation on this table is given.
    pub(crate) fn given(&self) -> Given<'static> {
        given(&self.records, &self.texts)
    }

    /// How many nodes there are.
    fn count(&self) -> usize {
        self.records.len() / RECORD
    }

    fn record(&self, node: u32) -> Option<&[u8; RECORD]> {
        let at = (node as usize).checked_mul(RECORD)?;
        self.records.get(at..)?.get(..RECORD)?.try_into().ok()
    }

    /// Null for a node that is not there.
    pub(crate) fn kind_of(&self, node: u32) -> Kind {
        self.record(node).map_or(Kind::Null, |record| Kind::of_byte(kind_in(record)))
    }

    /// The last eight bytes of a record; 0 for a node that is not there.
    pub(crate) fn payload_of(&self, node: u32) -> u64 {
        self.record(node).map_or(0, |record| pair(words_in(record)))
    }

    /// The numbers of a node's children, which are none for what is no list or map.
    pub(crate) fn children_of(&self, node: u32) -> Range<u32> {
        match self.record(node) {
            Some(record) if kind_in(record) >= Kind::List as u8 => {
                let (first, count) = words_in(record);
                first..first.saturating_add(count)
            }
            _ => 0..0,
        }
    }

    pub(crate) fn parent_of(&self, node: u32) -> Option<u32> {
        match node {
            0 => None,
            _ => self.record(node).map(parent_in),
        }
    }
}

impl FromStr for Table {
    type Err = Error;

    fn from_str(json: &str) -> Result<Table, Error> {
        Table::from_json(json)
    }
}

impl TryFrom<&Value> for Table {
    type Error = crate::TableError;

    fn try_from(value: &Value) -> Result<Table, crate::TableError> {
        Table::from_value(value)
    }
}

impl fmt::Display for Table {
    fn fmt(&self, f: &mut fmt::Formatter<'_>) -> fmt::Result {
        self.root().fmt(f)
    }
}

impl fmt::Debug for Table {
    fn fmt(&self, f: &mut fmt::Formatter<'_>) -> fmt::Result {
        f.debug_struct("Table").field("nodes", &self.count()).field("texts", &self.texts.len()).finish_non_exhaustive()
    }
}
