//! JSON values: what they are, how they are written and what they are made from.
use alloc::string::String;
use alloc::vec::Vec;
use core::fmt::{self, Write};

/// A JSON value. Numbers without fraction and exponent that fit are integers, all others floats.
///
/// `Display` writes it as JSON in one line, and reading that gives the value again; a float that is infinite or no number
/// has no JSON, and is written `null`.
///
/// ```
/// use stewpebble::Value;
///
/// let value: Value = r#"{"a": [1, 2.0, "x"]}"#.parse().unwrap();
/// assert_eq!(value.get("a").and_then(|a| a.item(1)).and_then(Value::as_f64), Some(2.0));
/// assert_eq!(value.to_string(), r#"{"a":[1,2.0,"x"]}"#);
/// ```
#[derive(Clone, Debug, Default, PartialEq)]
pub enum Value {
    /// `null`
    #[default]
    Null,
    /// `true` or `false`
    Bool(bool),
    /// A whole number.
    Int(i64),
    /// A number with a fraction or an exponent, or beyond the whole numbers.
    Float(f64),
    /// A string.
    Text(String),
    /// An array.
    List(Vec<Value>),
    /// An object, with its members in their order.
    Map(Vec<(String, Value)>),
}

impl Value {
    /// Whether it is null.
    ///
    /// ```
    /// assert!(stewpebble::Value::Null.is_null());
    /// ```
    #[must_use]
    pub fn is_null(&self) -> bool {
        matches!(self, Value::Null)
    }

    /// Its boolean, if it is one.
    ///
    /// ```
    /// assert_eq!(stewpebble::Value::from(true).as_bool(), Some(true));
    /// ```
    #[must_use]
    pub fn as_bool(&self) -> Option<bool> {
        match self {
            Value::Bool(b) => Some(*b),
            _ => None,
        }
    }

    /// Its integer, if it is one.
    ///
    /// ```
    /// assert_eq!(stewpebble::Value::from(7).as_i64(), Some(7));
    /// assert_eq!(stewpebble::Value::from(7.0).as_i64(), None);
    /// ```
    #[must_use]
    pub fn as_i64(&self) -> Option<i64> {
        match self {
            Value::Int(n) => Some(*n),
            _ => None,
        }
    }

    /// Its number as a float, if it is a float, or an integer, of which the nearest float is taken.
    ///
    /// ```
    /// assert_eq!(stewpebble::Value::from(7).as_f64(), Some(7.0));
    /// ```
    #[must_use]
    pub fn as_f64(&self) -> Option<f64> {
        match self {
            Value::Int(n) => Some(*n as f64),
            Value::Float(x) => Some(*x),
            _ => None,
        }
    }

    /// Its text, if it is one.
    ///
    /// ```
    /// assert_eq!(stewpebble::Value::from("x").as_str(), Some("x"));
    /// ```
    #[must_use]
    pub fn as_str(&self) -> Option<&str> {
        match self {
            Value::Text(s) => Some(s),
            _ => None,
        }
    }

    /// Its items, if it is a list.
    ///
    /// ```
    /// use stewpebble::Value;
    ///
    /// assert_eq!(Value::from(vec![Value::Null]).as_list(), Some(&[Value::Null][..]));
    /// ```
    #[must_use]
    pub fn as_list(&self) -> Option<&[Value]> {
        match self {
            Value::List(items) => Some(items),
            _ => None,
        }
    }

    /// Its members, if it is a map.
    ///
    /// ```
    /// use stewpebble::Value;
    ///
    /// let value: Value = r#"{"a":1}"#.parse().unwrap();
    /// assert_eq!(value.as_map(), Some(&[("a".to_string(), Value::Int(1))][..]));
    /// ```
    #[must_use]
    pub fn as_map(&self) -> Option<&[(String, Value)]> {
        match self {
            Value::Map(members) => Some(members),
            _ => None,
        }
    }

    /// The value of the first member of this name, if it is a map that has one.
    ///
    /// ```
    /// use stewpebble::Value;
    ///
    /// let value: Value = r#"{"a":1}"#.parse().unwrap();
    /// assert_eq!(value.get("a"), Some(&Value::Int(1)));
    /// assert_eq!(value.get("b"), None);
    /// ```
    #[must_use]
    pub fn get(&self, name: &str) -> Option<&Value> {
        self.as_map()?.iter().find(|(key, _)| key == name).map(|(_, value)| value)
    }

    /// The item at a place, from 0, if it is a list that has one.
    ///
    /// ```
    /// use stewpebble::Value;
    ///
    /// let value: Value = "[1,2]".parse().unwrap();
    /// assert_eq!(value.item(1), Some(&Value::Int(2)));
    /// assert_eq!(value.item(2), None);
    /// ```
    #[must_use]
    pub fn item(&self, place: usize) -> Option<&Value> {
        self.as_list()?.get(place)
    }
}

impl From<bool> for Value {
    fn from(b: bool) -> Value {
        Value::Bool(b)
    }
}

impl From<i64> for Value {
    fn from(n: i64) -> Value {
        Value::Int(n)
    }
}

impl From<i32> for Value {
    fn from(n: i32) -> Value {
        Value::Int(n.into())
    }
}

impl From<u32> for Value {
    fn from(n: u32) -> Value {
        Value::Int(n.into())
    }
}

impl From<f64> for Value {
    fn from(x: f64) -> Value {
        Value::Float(x)
    }
}

impl From<&str> for Value {
    fn from(text: &str) -> Value {
        Value::Text(text.into())
    }
}

impl From<String> for Value {
    fn from(text: String) -> Value {
        Value::Text(text)
    }
}

impl From<Vec<Value>> for Value {
    fn from(items: Vec<Value>) -> Value {
        Value::List(items)
    }
}

impl From<Vec<(String, Value)>> for Value {
    fn from(members: Vec<(String, Value)>) -> Value {
        Value::Map(members)
    }
}

impl<T: Into<Value>> From<Option<T>> for Value {
    fn from(value: Option<T>) -> Value {
        value.map_or(Value::Null, Into::into)
    }
}

impl fmt::Display for Value {
    fn fmt(&self, f: &mut fmt::Formatter<'_>) -> fmt::Result {
        match self {
            Value::Null => f.write_str("null"),
            Value::Bool(b) => write!(f, "{b}"),
            Value::Int(n) => write!(f, "{n}"),
            Value::Float(x) => write_float(f, *x),
            Value::Text(s) => write_text(f, s),
            Value::List(items) => {
                f.write_str("[")?;
                for (place, item) in items.iter().enumerate() {
                    write!(f, "{}{item}", comma(place))?;
                }
                f.write_str("]")
            }
            Value::Map(members) => {
                f.write_str("{")?;
                for (place, (name, value)) in members.iter().enumerate() {
                    f.write_str(comma(place))?;
                    write_text(f, name)?;
                    write!(f, ":{value}")?;
                }
                f.write_str("}")
            }
        }
    }
}

fn comma(place: usize) -> &'static str {
    if place == 0 {
        ""
    } else {
        ","
    }
}

/// A float as the shortest JSON number that reads as it, with a fraction or an exponent.
pub(crate) fn write_float(f: &mut fmt::Formatter<'_>, x: f64) -> fmt::Result {
    if x.is_finite() {
        write!(f, "{x:?}")
    } else {
        f.write_str("null")
    }
}

/// A text as a JSON string: quotes, backslashes and control characters are escaped, and nothing else.
pub(crate) fn write_text(f: &mut fmt::Formatter<'_>, text: &str) -> fmt::Result {
    f.write_char('"')?;
    let mut rest = text;
    while let Some(at) = rest.find(|c| c < ' ' || c == '"' || c == '\\') {
        let (before, after) = rest.split_at(at);
        f.write_str(before)?;
        let mut characters = after.chars();
        match characters.next() {
            Some('"') => f.write_str("\\\""),
            Some('\\') => f.write_str("\\\\"),
            Some('\u{8}') => f.write_str("\\b"),
            Some('\u{C}') => f.write_str("\\f"),
            Some('\n') => f.write_str("\\n"),
            Some('\r') => f.write_str("\\r"),
            Some('\t') => f.write_str("\\t"),
            Some(other) => write!(f, "\\u{:04x}", u32::from(other)),
            None => Ok(()),
        }?;
        rest = characters.as_str();
    }
    f.write_str(rest)?;
    f.write_char('"')
}
