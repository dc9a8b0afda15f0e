//! The Normalized Path of a node: RFC 9535, section 2.7.
//!
//! It is read from the records of a table that was accepted. The library's own operation, which is proved, is
//! [`path_of_node`](crate::path_of_node); the tests hold the two against each other.
use crate::Node;
use alloc::vec::Vec;
use core::fmt::{self, Write};
use core::iter::successors;

/// The Normalized Path of a node from the root, written by `Display`.
///
/// ```
/// use stewpebble::{select, Table};
///
/// let table: Table = r#"{"a":[10,20.0,30],"it's":"é"}"#.parse()?;
/// let paths: Vec<String> = select("$..*", &table)?.map(|node| node.path().to_string()).collect();
/// assert_eq!(paths, ["$['a']", r"$['it\'s']", "$['a'][0]", "$['a'][1]", "$['a'][2]"]);
///
/// // The path selects that node alone.
/// assert_eq!(select(&paths[4], &table)?.numbers(), [5]);
/// # Ok::<(), stewpebble::Error>(())
/// ```
#[derive(Clone, Copy, Debug, PartialEq, Eq)]
pub struct Path<'t>(pub(crate) Node<'t>);

impl fmt::Display for Path<'_> {
    fn fmt(&self, f: &mut fmt::Formatter<'_>) -> fmt::Result {
        let mut steps: Vec<Node<'_>> = successors(Some(self.0), |node| node.parent()).collect();
        // The root, which is no child, is the sign at the beginning.
        steps.pop();
        f.write_char('$')?;
        steps.iter().rev().try_for_each(|node| match node.key() {
            Some(key) => write!(f, "[{}]", Quoted(key)),
            None => write!(f, "[{}]", node.position().unwrap_or_default()),
        })
    }
}

/// A name in single quotes. Only these are escaped: the quote, the backslash and the control characters.
struct Quoted<'a>(&'a str);

impl fmt::Display for Quoted<'_> {
    fn fmt(&self, f: &mut fmt::Formatter<'_>) -> fmt::Result {
        f.write_char('\'')?;
        self.0.chars().try_for_each(|c| match c {
            '\'' => f.write_str("\\'"),
            '\\' => f.write_str("\\\\"),
            '\u{8}' => f.write_str("\\b"),
            '\u{C}' => f.write_str("\\f"),
            '\n' => f.write_str("\\n"),
            '\r' => f.write_str("\\r"),
            '\t' => f.write_str("\\t"),
            c if c < ' ' => write!(f, "\\u{:04x}", u32::from(c)),
            c => f.write_char(c),
        })?;
        f.write_char('\'')
    }
}
