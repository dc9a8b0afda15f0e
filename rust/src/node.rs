//! Nodes of a table: what a query selects, and what each is.
use crate::value::{write_float, write_text};
use crate::{Path, Table, Value};
use alloc::vec;
use alloc::vec::Vec;
use core::fmt;
use core::iter::FusedIterator;

/// What a node is, in the order of the numbers that records have for it.
///
/// ```
/// use stewpebble::{Kind, Table};
///
/// let table: Table = "[null,true,1,1.5]".parse().unwrap();
/// let kinds: Vec<Kind> = table.nodes().map(|node| node.kind()).collect();
/// assert_eq!(kinds, [Kind::List, Kind::Null, Kind::True, Kind::Integer, Kind::Float]);
/// assert_eq!(Kind::Integer.to_string(), "an integer");
/// ```
#[derive(Clone, Copy, Debug, PartialEq, Eq, Hash)]
#[repr(u8)]
pub enum Kind {
    /// `null`
    Null = 0,
    /// `false`
    False = 1,
    /// `true`
    True = 2,
    /// A whole number of 64 bits.
    Integer = 3,
    /// A finite float of 64 bits.
    Float = 4,
    /// A string.
    Text = 5,
    /// An array.
    List = 6,
    /// An object.
    Map = 7,
}

impl Kind {
    /// The kind of a record's first byte, which is at most 7 in an accepted table.
    pub(crate) fn of_byte(byte: u8) -> Kind {
        match byte {
            0 => Kind::Null,
            1 => Kind::False,
            2 => Kind::True,
            3 => Kind::Integer,
            4 => Kind::Float,
            5 => Kind::Text,
            6 => Kind::List,
            _ => Kind::Map,
        }
    }
}

impl fmt::Display for Kind {
    fn fmt(&self, f: &mut fmt::Formatter<'_>) -> fmt::Result {
        f.write_str(match self {
            Kind::Null => "null",
            Kind::False => "false",
            Kind::True => "true",
            Kind::Integer => "an integer",
            Kind::Float => "a float",
            Kind::Text => "a text",
            Kind::List => "a list",
            Kind::Map => "a map",
        })
    }
}

/// A node of a table. `Display` writes its value as JSON, without making a [`Value`] first.
///
/// ```
/// use stewpebble::{select, Table};
///
/// let table: Table = r#"{"a":[10,20.0,30],"b":"é"}"#.parse()?;
/// let node = select("$.b", &table)?.next().unwrap();
/// assert_eq!((node.number(), node.key(), node.text()), (2, Some("b"), Some("é")));
/// assert_eq!(node.to_string(), "\"é\"");
/// # Ok::<(), stewpebble::Error>(())
/// ```
#[derive(Clone, Copy)]
pub struct Node<'t> {
    table: &'t Table,
    number: u32,
}

impl<'t> Node<'t> {
    /// A node of a number that the table has.
    pub(crate) fn new(table: &'t Table, number: u32) -> Node<'t> {
        Node { table, number }
    }

    /// Its number: 0 is the root, and the children of all nodes follow each other in the order of their parents.
    ///
    /// ```
    /// let table: stewpebble::Table = "[[1],[2]]".parse().unwrap();
    /// let plan = stewpebble::compile("$[1][0]").unwrap();
    /// assert_eq!(plan.run(&table).unwrap().next().unwrap().number(), 4);
    /// ```
    #[must_use]
    pub fn number(&self) -> u32 {
        self.number
    }

    /// What it is.
    ///
    /// ```
    /// let table: stewpebble::Table = "[1]".parse().unwrap();
    /// assert_eq!(table.root().kind(), stewpebble::Kind::List);
    /// ```
    #[must_use]
    pub fn kind(&self) -> Kind {
        self.table.kind_of(self.number)
    }

    /// Its value, with all that is below it.
    ///
    /// ```
    /// let table: stewpebble::Table = "[1,[2]]".parse().unwrap();
    /// assert_eq!(table.node(2).unwrap().value(), vec![stewpebble::Value::Int(2)].into());
    /// ```
    #[must_use]
    pub fn value(&self) -> Value {
        match self.kind() {
            Kind::Null => Value::Null,
            Kind::False => Value::Bool(false),
            Kind::True => Value::Bool(true),
            Kind::Integer => Value::Int(self.payload() as i64),
            Kind::Float => Value::Float(f64::from_bits(self.payload())),
            Kind::Text => Value::from(self.text().unwrap_or_default()),
            Kind::List => Value::List(self.children().map(|child| child.value()).collect()),
            Kind::Map => Value::Map(self.children().map(|child| (child.key().unwrap_or_default().into(), child.value())).collect()),
        }
    }

    /// Its key, if it is a member of a map.
    ///
    /// ```
    /// let table: stewpebble::Table = r#"{"a":[1]}"#.parse().unwrap();
    /// let keys: Vec<Option<&str>> = table.nodes().map(|node| node.key()).collect();
    /// assert_eq!(keys, [None, Some("a"), None]);
    /// ```
    #[must_use]
    pub fn key(&self) -> Option<&'t str> {
        self.table.key(self.number).ok()
    }

    /// Its text, if it is a text.
    ///
    /// ```
    /// let table: stewpebble::Table = r#"["x",1]"#.parse().unwrap();
    /// let texts: Vec<Option<&str>> = table.root().children().map(|node| node.text()).collect();
    /// assert_eq!(texts, [Some("x"), None]);
    /// ```
    #[must_use]
    pub fn text(&self) -> Option<&'t str> {
        self.table.text(self.number).ok()
    }

    /// Its boolean, if it is one.
    ///
    /// ```
    /// let table: stewpebble::Table = "false".parse().unwrap();
    /// assert_eq!(table.root().as_bool(), Some(false));
    /// ```
    #[must_use]
    pub fn as_bool(&self) -> Option<bool> {
        match self.kind() {
            Kind::False => Some(false),
            Kind::True => Some(true),
            _ => None,
        }
    }

    /// Its integer, if it is one.
    ///
    /// ```
    /// let table: stewpebble::Table = "[20,20.0]".parse().unwrap();
    /// assert_eq!(table.node(1).unwrap().as_i64(), Some(20));
    /// assert_eq!(table.node(2).unwrap().as_i64(), None);
    /// ```
    #[must_use]
    pub fn as_i64(&self) -> Option<i64> {
        match self.kind() {
            Kind::Integer => Some(self.payload() as i64),
            _ => None,
        }
    }

    /// Its number as a float, if it is a float, or an integer, of which the nearest float is taken.
    ///
    /// ```
    /// let table: stewpebble::Table = "[20,20.5,\"x\"]".parse().unwrap();
    /// let floats: Vec<Option<f64>> = table.root().children().map(|node| node.as_f64()).collect();
    /// assert_eq!(floats, [Some(20.0), Some(20.5), None]);
    /// ```
    #[must_use]
    pub fn as_f64(&self) -> Option<f64> {
        match self.kind() {
            Kind::Integer => Some(self.payload() as i64 as f64),
            Kind::Float => Some(f64::from_bits(self.payload())),
            _ => None,
        }
    }

    /// Its children, in their order.
    ///
    /// ```
    /// let table: stewpebble::Table = "[[1],[2,3]]".parse().unwrap();
    /// let second = table.root().children().nth(1).unwrap();
    /// assert_eq!(second.children().len(), 2);
    /// ```
    pub fn children(&self) -> impl ExactSizeIterator<Item = Node<'t>> + DoubleEndedIterator + Clone + 't {
        let table = self.table;
        table.children_of(self.number).map(move |number| Node { table, number })
    }

    /// The node that it is a child of; the root is none's.
    ///
    /// ```
    /// let table: stewpebble::Table = "[[1],[2]]".parse().unwrap();
    /// assert_eq!(table.node(4).unwrap().parent().unwrap().number(), 2);
    /// assert!(table.root().parent().is_none());
    /// ```
    #[must_use]
    pub fn parent(&self) -> Option<Node<'t>> {
        Some(Node { table: self.table, number: self.table.parent_of(self.number)? })
    }

    /// Its place among its parent's children, from 0.
    ///
    /// ```
    /// let table: stewpebble::Table = "[[1],[2,3]]".parse().unwrap();
    /// assert_eq!(table.node(5).unwrap().position(), Some(1));
    /// assert_eq!(table.root().position(), None);
    /// ```
    #[must_use]
    pub fn position(&self) -> Option<usize> {
        let first = self.table.children_of(self.table.parent_of(self.number)?).start;
        Some(self.number.saturating_sub(first) as usize)
    }

    /// Its Normalized Path: the address that selects it alone, and no other node of the table.
    ///
    /// ```
    /// let table: stewpebble::Table = r#"{"a":[1,{"b c":2}]}"#.parse().unwrap();
    /// assert_eq!(table.node(4).unwrap().path().to_string(), "$['a'][1]['b c']");
    /// assert_eq!(table.root().path().to_string(), "$");
    /// ```
    #[must_use]
    pub fn path(&self) -> Path<'t> {
        Path(*self)
    }

    fn payload(&self) -> u64 {
        self.table.payload_of(self.number)
    }
}

/// Nodes are equal that have one number in one table.
impl PartialEq for Node<'_> {
    fn eq(&self, other: &Self) -> bool {
        self.number == other.number && core::ptr::eq(self.table, other.table)
    }
}

impl Eq for Node<'_> {}

impl fmt::Debug for Node<'_> {
    fn fmt(&self, f: &mut fmt::Formatter<'_>) -> fmt::Result {
        f.debug_struct("Node").field("number", &self.number).field("kind", &self.kind()).finish_non_exhaustive()
    }
}

impl fmt::Display for Node<'_> {
    fn fmt(&self, f: &mut fmt::Formatter<'_>) -> fmt::Result {
        match self.kind() {
            Kind::Null => f.write_str("null"),
            Kind::False => f.write_str("false"),
            Kind::True => f.write_str("true"),
            Kind::Integer => write!(f, "{}", self.payload() as i64),
            Kind::Float => write_float(f, f64::from_bits(self.payload())),
            Kind::Text => write_text(f, self.text().unwrap_or_default()),
            Kind::List => {
                f.write_str("[")?;
                self.children().try_for_each(|child| write!(f, "{}{child}", child.comma()))?;
                f.write_str("]")
            }
            Kind::Map => {
                f.write_str("{")?;
                self.children().try_for_each(|child| {
                    f.write_str(child.comma())?;
                    write_text(f, child.key().unwrap_or_default())?;
                    write!(f, ":{child}")
                })?;
                f.write_str("}")
            }
        }
    }
}

impl Node<'_> {
    /// What stands before it among its parent's children.
    fn comma(&self) -> &'static str {
        match self.position() {
            Some(0) | None => "",
            Some(_) => ",",
        }
    }
}

/// The nodes that a query selects, in its order, with repeats.
///
/// ```
/// use stewpebble::{select, Table};
///
/// let table: Table = r#"{"a":1,"b":2}"#.parse()?;
/// let mut nodes = select("$['b','a','b']", &table)?;
/// assert_eq!((nodes.len(), nodes.numbers()), (3, &[2, 1, 2][..]));
/// assert_eq!(nodes.next().unwrap().as_i64(), Some(2));
/// assert_eq!(nodes.map(|node| node.key().unwrap()).collect::<String>(), "ab");
/// # Ok::<(), stewpebble::Error>(())
/// ```
#[derive(Clone)]
pub struct Nodes<'t> {
    table: &'t Table,
    numbers: vec::IntoIter<u32>,
}

impl<'t> Nodes<'t> {
    /// Nodes of numbers that the table has.
    pub(crate) fn new(table: &'t Table, numbers: Vec<u32>) -> Nodes<'t> {
        Nodes { table, numbers: numbers.into_iter() }
    }

    /// The numbers of the nodes that are left.
    ///
    /// ```
    /// let table: stewpebble::Table = "[1,2]".parse().unwrap();
    /// let nodes = stewpebble::select("$[*]", &table).unwrap();
    /// assert_eq!(nodes.numbers(), [1, 2]);
    /// ```
    #[must_use]
    pub fn numbers(&self) -> &[u32] {
        self.numbers.as_slice()
    }

    /// The numbers of the nodes that are left, to keep: they do not borrow the table, which may be changed.
    ///
    /// ```
    /// let mut table: stewpebble::Table = "[1,2]".parse().unwrap();
    /// for node in stewpebble::select("$[*]", &table).unwrap().into_numbers() {
    ///     table.set_number(node, 0.5).unwrap();
    /// }
    /// assert_eq!(table.to_string(), "[0.5,0.5]");
    /// ```
    #[must_use]
    pub fn into_numbers(self) -> Vec<u32> {
        self.numbers.collect()
    }
}

impl<'t> Iterator for Nodes<'t> {
    type Item = Node<'t>;

    fn next(&mut self) -> Option<Node<'t>> {
        Some(Node { table: self.table, number: self.numbers.next()? })
    }

    fn size_hint(&self) -> (usize, Option<usize>) {
        self.numbers.size_hint()
    }

    fn nth(&mut self, n: usize) -> Option<Node<'t>> {
        Some(Node { table: self.table, number: self.numbers.nth(n)? })
    }
}

impl DoubleEndedIterator for Nodes<'_> {
    fn next_back(&mut self) -> Option<Self::Item> {
        Some(Node { table: self.table, number: self.numbers.next_back()? })
    }
}

impl ExactSizeIterator for Nodes<'_> {}
impl FusedIterator for Nodes<'_> {}

impl fmt::Debug for Nodes<'_> {
    fn fmt(&self, f: &mut fmt::Formatter<'_>) -> fmt::Result {
        f.debug_tuple("Nodes").field(&self.numbers()).finish()
    }
}
