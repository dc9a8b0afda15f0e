//! Changes of one node in place: 24 bytes of its record, of which kind and value change, and the shape stays.
use crate::builder::place;
use crate::limits::{grouped, MAX_TEXT};
use crate::record::{pair, set_value, RECORD};
use crate::{Kind, Table, TableError};
use core::fmt;

/// A number that a node can be: an integer or a float.
///
/// ```
/// use stewpebble::Number;
///
/// assert_eq!(Number::from(20), Number::Int(20));
/// assert_eq!(Number::from(20.0), Number::Float(20.0));
/// ```
#[derive(Clone, Copy, Debug, PartialEq)]
pub enum Number {
    /// An integer.
    Int(i64),
    /// A float.
    Float(f64),
}

impl From<i64> for Number {
    fn from(n: i64) -> Number {
        Number::Int(n)
    }
}

impl From<i32> for Number {
    fn from(n: i32) -> Number {
        Number::Int(n.into())
    }
}

impl From<u32> for Number {
    fn from(n: u32) -> Number {
        Number::Int(n.into())
    }
}

impl From<f64> for Number {
    fn from(x: f64) -> Number {
        Number::Float(x)
    }
}

/// Why a change of a node was refused. The table is then as it was.
///
/// ```
/// use stewpebble::{EditError, Kind, Table};
///
/// let mut table: Table = "[1,2]".parse().unwrap();
/// let error = table.set_number(0, 7).unwrap_err();
/// assert_eq!(error, EditError::HasChildren { node: 0, kind: Kind::List, children: 2 });
/// assert_eq!(error.to_string(), "node 0 is a list with 2 children, which would be no one's; build the table anew");
/// assert_eq!(table.to_string(), "[1,2]");
/// ```
#[derive(Clone, Copy, Debug, PartialEq, Eq)]
#[non_exhaustive]
pub enum EditError {
    /// The table has no such node.
    NoSuchNode {
        /// The node that was asked for.
        node: u32,
        /// The number of nodes.
        nodes: usize,
    },
    /// The node is a list or a map that is not empty.
    HasChildren {
        /// The node.
        node: u32,
        /// What it is.
        kind: Kind,
        /// How many children it has.
        children: usize,
    },
    /// The number is infinite or no number, which no table holds.
    NotFinite {
        /// The node.
        node: u32,
    },
    /// The node's number is none of the other kind.
    NotExact {
        /// The node.
        node: u32,
        /// The kind that was asked for.
        kind: Kind,
    },
    /// The texts would have more than 16,777,216 bytes.
    TooMuchText {
        /// The bytes that they would have.
        bytes: usize,
    },
}

impl fmt::Display for EditError {
    fn fmt(&self, f: &mut fmt::Formatter<'_>) -> fmt::Result {
        match *self {
            EditError::NoSuchNode { node, nodes } => write!(f, "there is no node {node}: the table has {} nodes, from 0 on", grouped(nodes)),
            EditError::HasChildren { node, kind, children } => write!(f, "node {node} is {kind} with {} children, which would be no one's; build the table anew", grouped(children)),
            EditError::NotFinite { node } => write!(f, "node {node} cannot be a float that is infinite or not a number"),
            EditError::NotExact { node, kind } => write!(f, "node {node} has a number that {kind} cannot be; set the number instead"),
            EditError::TooMuchText { bytes } => write!(f, "the texts would have {} bytes, and {} are the most; build the table anew, without the texts that are no longer used", grouped(bytes), grouped(MAX_TEXT)),
        }
    }
}

#[cfg(feature = "std")]
impl std::error::Error for EditError {}

/// The float that is this integer, if one is. The bound shuts out what a float beyond all integers is cast to.
fn exact_float(n: i64) -> Option<f64> {
    let x = n as f64;
    (x < BEYOND && x as i64 == n).then_some(x)
}

/// The integer that is this float, if one is.
fn exact_integer(x: f64) -> Option<i64> {
    let n = x as i64;
    (x < BEYOND && n as f64 == x).then_some(n)
}

/// 2^63, the least float above all integers.
const BEYOND: f64 = 9_223_372_036_854_775_808.0;

impl Table {
    /// Makes a node this number: an integer or a float. It may be anything but a list or a map with children.
    ///
    /// ```
    /// use stewpebble::{compile, EditError, Table};
    ///
    /// let mut table: Table = "[10,20,30]".parse().unwrap();
    /// let plan = compile("$[?@ > 15]").unwrap();
    /// table.set_number(1, 15.5).unwrap();
    /// assert_eq!(plan.run(&table).unwrap().len(), 3);
    /// assert_eq!(table.set_number(1, f64::NAN), Err(EditError::NotFinite { node: 1 }));
    /// ```
    pub fn set_number(&mut self, node: u32, number: impl Into<Number>) -> Result<(), EditError> {
        self.leaf(node)?;
        match number.into() {
            Number::Int(n) => self.write(node, Kind::Integer, n as u64),
            Number::Float(x) if x.is_finite() => self.write(node, Kind::Float, x.to_bits()),
            Number::Float(_) => return Err(EditError::NotFinite { node }),
        }
        Ok(())
    }

    /// Makes a node the plainest value of a kind: null, false, true, 0, 0.0, an empty text, list or map. A node that is of
    /// the kind stays as it is. A number that changes between integer and float keeps its value, and is refused where the
    /// other kind does not have it. A list or a map with children is refused, since the shape stays.
    ///
    /// ```
    /// use stewpebble::{EditError, Kind, Table};
    ///
    /// let mut table: Table = "[1,20.0,0.5,\"x\"]".parse().unwrap();
    /// table.set_kind(1, Kind::True).unwrap();
    /// table.set_kind(2, Kind::Integer).unwrap();
    /// assert_eq!(table.set_kind(3, Kind::Integer), Err(EditError::NotExact { node: 3, kind: Kind::Integer }));
    /// table.set_kind(4, Kind::List).unwrap();
    /// assert_eq!(table.to_string(), "[true,20,0.5,[]]");
    /// ```
    pub fn set_kind(&mut self, node: u32, kind: Kind) -> Result<(), EditError> {
        if self.node(node).map(|there| there.kind()) == Some(kind) {
            return Ok(());
        }
        let payload = match (self.leaf(node)?, kind) {
            (Kind::Integer, Kind::Float) => exact_float(self.payload_of(node) as i64).map(f64::to_bits),
            (Kind::Float, Kind::Integer) => exact_integer(f64::from_bits(self.payload_of(node))).map(|n| n as u64),
            _ => Some(0),
        };
        self.write(node, kind, payload.ok_or(EditError::NotExact { node, kind })?);
        Ok(())
    }

    /// Makes a node this text, which is put behind the texts that are there. It may be anything but a list or a map with
    /// children. Its text before stays behind unused, so a table whose texts change often is built anew at times.
    ///
    /// ```
    /// let mut table: stewpebble::Table = r#"{"a":1}"#.parse().unwrap();
    /// table.set_text(1, "é").unwrap();
    /// assert_eq!(table.to_string(), r#"{"a":"é"}"#);
    /// assert_eq!(table.texts(), "aé".as_bytes());
    /// ```
    pub fn set_text(&mut self, node: u32, text: &str) -> Result<(), EditError> {
        self.leaf(node)?;
        let placed = place(&mut self.texts, text).map_err(|error| match error {
            TableError::TooMuchText { bytes } => EditError::TooMuchText { bytes },
            _ => EditError::TooMuchText { bytes: text.len() },
        })?;
        self.write(node, Kind::Text, pair(placed));
        Ok(())
    }

    /// The kind of a node that is there and has no children.
    fn leaf(&self, node: u32) -> Result<Kind, EditError> {
        let there = self.node(node).ok_or(EditError::NoSuchNode { node, nodes: self.nodes().len() })?;
        match there.children().len() {
            0 => Ok(there.kind()),
            children => Err(EditError::HasChildren { node, kind: there.kind(), children }),
        }
    }

    /// Writes kind and value of a node that is there. Depth and key stay.
    fn write(&mut self, node: u32, kind: Kind, payload: u64) {
        let at = node as usize * RECORD;
        if let Some(Ok(record)) = self.records.get_mut(at..at + RECORD).map(TryInto::try_into) {
            set_value(record, kind as u8, payload);
        }
    }
}

#[cfg(test)]
mod tests {
    use super::{exact_float, exact_integer};

    #[test]
    fn exact_numbers() {
        for n in [0, 1, -1, 1 << 53, -(1 << 53), (1 << 53) + 2, 1 << 62, i64::MIN] {
            assert_eq!(exact_float(n).and_then(exact_integer), Some(n));
        }
        for n in [(1 << 53) + 1, -(1 << 53) - 1, i64::MAX, i64::MAX - 1, i64::MIN + 1] {
            assert_eq!(exact_float(n), None, "{n}");
        }
        for x in [0.5, 9_223_372_036_854_775_808.0, -9_223_372_036_854_777_856.0, 1e300, -1e300, f64::INFINITY, f64::NAN] {
            assert_eq!(exact_integer(x), None, "{x}");
        }
        assert_eq!(exact_integer(-0.0), Some(0));
    }
}
