//! JSON texts (RFC 8259), read into values.
use crate::limits::{MAX_DEPTH, MAX_MEMBERS};
use crate::Value;
use alloc::string::String;
use alloc::vec::Vec;
use core::fmt;
use core::str::FromStr;

/// Where a text is not JSON, or is JSON that no table holds, and what is wrong there.
///
/// ```
/// use stewpebble::Value;
///
/// let error = Value::from_json("[1,\n 02]").unwrap_err();
/// assert_eq!((error.at, error.line, error.column), (6, 2, 3));
/// assert_eq!(error.to_string(), "line 2, column 3: no digit may follow a leading zero");
/// ```
#[derive(Clone, Debug, PartialEq, Eq)]
#[non_exhaustive]
pub struct JsonError {
    /// The byte at which reading stopped, from 0.
    pub at: usize,
    /// The line of that byte, from 1.
    pub line: usize,
    /// The character of that byte in its line, from 1.
    pub column: usize,
    /// What is wrong there.
    pub wrong: &'static str,
}

impl fmt::Display for JsonError {
    fn fmt(&self, f: &mut fmt::Formatter<'_>) -> fmt::Result {
        write!(f, "line {}, column {}: {}", self.line, self.column, self.wrong)
    }
}

#[cfg(feature = "std")]
impl std::error::Error for JsonError {}

impl Value {
    /// The value of a JSON text. Integers that 64 bits hold are [`Value::Int`], all other numbers the nearest float. A byte
    /// order mark before the text is passed over. What RFC 8259 allows and no table holds is refused: a number beyond the
    /// floats, two members of one name in a map, more than 1,024 members, and values that nest more than 63 deep.
    ///
    /// ```
    /// use stewpebble::Value;
    ///
    /// assert_eq!(Value::from_json(r#""\u00e9\ud83d\ude00""#), Ok(Value::from("é😀")));
    /// assert_eq!(Value::from_json("9223372036854775808"), Ok(Value::Float(9223372036854775808.0)));
    /// assert_eq!(Value::from_json("1e999").unwrap_err().wrong, "the number is too large for a float");
    /// ```
    pub fn from_json(text: &str) -> Result<Value, JsonError> {
        let at = if text.starts_with('\u{FEFF}') { '\u{FEFF}'.len_utf8() } else { 0 };
        let mut reader = Reader { text, bytes: text.as_bytes(), at };
        let value = reader.value(0)?;
        reader.blanks();
        if reader.at < reader.bytes.len() {
            return reader.wrong("nothing may follow the value");
        }
        Ok(value)
    }
}

impl FromStr for Value {
    type Err = JsonError;

    fn from_str(json: &str) -> Result<Value, JsonError> {
        Value::from_json(json)
    }
}

/// Reads a text from left to right. `at` is always at the beginning of a character.
struct Reader<'a> {
    text: &'a str,
    bytes: &'a [u8],
    at: usize,
}

impl Reader<'_> {
    fn wrong<T>(&self, wrong: &'static str) -> Result<T, JsonError> {
        let before = self.text.get(..self.at).unwrap_or(self.text);
        let line = before.rsplit('\n').next().unwrap_or_default().trim_start_matches('\u{FEFF}');
        Err(JsonError { at: self.at, line: 1 + before.matches('\n').count(), column: 1 + line.chars().count(), wrong })
    }

    /// The text from a place on.
    fn since(&self, start: usize) -> &str {
        self.text.get(start..self.at).unwrap_or_default()
    }

    fn starts_with(&self, word: &str) -> bool {
        self.bytes.get(self.at..).map_or(false, |rest| rest.starts_with(word.as_bytes()))
    }

    fn peek(&self) -> Option<u8> {
        self.bytes.get(self.at).copied()
    }

    fn blanks(&mut self) {
        while matches!(self.peek(), Some(b' ' | b'\t' | b'\n' | b'\r')) {
            self.at += 1;
        }
    }

    fn take(&mut self, byte: u8, wrong: &'static str) -> Result<(), JsonError> {
        if self.peek() != Some(byte) {
            return self.wrong(wrong);
        }
        self.at += 1;
        Ok(())
    }

    fn value(&mut self, depth: u8) -> Result<Value, JsonError> {
        self.blanks();
        if depth > MAX_DEPTH {
            return self.wrong("the value nests more than 63 deep");
        }
        match self.peek() {
            Some(b'{') => self.map(depth),
            Some(b'[') => self.list(depth),
            Some(b'"') => Ok(Value::Text(self.string()?)),
            Some(b'-' | b'0'..=b'9') => self.number(),
            _ => self.word(),
        }
    }

    fn word(&mut self) -> Result<Value, JsonError> {
        for (word, value) in [("null", Value::Null), ("true", Value::Bool(true)), ("false", Value::Bool(false))] {
            if self.starts_with(word) {
                self.at += word.len();
                return Ok(value);
            }
        }
        self.wrong("a value is expected")
    }

    fn list(&mut self, depth: u8) -> Result<Value, JsonError> {
        self.at += 1;
        let mut items = Vec::new();
        self.blanks();
        if self.peek() == Some(b']') {
            self.at += 1;
            return Ok(Value::List(items));
        }
        loop {
            items.push(self.value(depth + 1)?);
            self.blanks();
            if self.peek() == Some(b']') {
                self.at += 1;
                return Ok(Value::List(items));
            }
            self.take(b',', "a comma or a closing bracket is expected")?;
        }
    }

    fn map(&mut self, depth: u8) -> Result<Value, JsonError> {
        self.at += 1;
        let mut members = Vec::new();
        let mut order = Vec::new();
        self.blanks();
        if self.peek() == Some(b'}') {
            self.at += 1;
            return Ok(Value::Map(members));
        }
        loop {
            self.blanks();
            if self.peek() != Some(b'"') {
                return self.wrong("a member's name is expected");
            }
            let name = self.name(&members, &mut order)?;
            self.blanks();
            self.take(b':', "a colon is expected")?;
            members.push((name, self.value(depth + 1)?));
            self.blanks();
            if self.peek() == Some(b'}') {
                self.at += 1;
                return Ok(Value::Map(members));
            }
            self.take(b',', "a comma or a closing brace is expected")?;
        }
    }

    /// The name of one more member. `order` has the places of the members before, in the order of their names.
    fn name(&mut self, members: &[(String, Value)], order: &mut Vec<usize>) -> Result<String, JsonError> {
        let start = self.at;
        let name = self.string()?;
        let same = |&place: &usize| members.get(place).map_or("", |(other, _)| other.as_str()).cmp(name.as_str());
        let wrong = match order.binary_search_by(same) {
            Ok(_) => "the map has two members of this name",
            Err(_) if members.len() == MAX_MEMBERS => "the map has more than 1,024 members",
            Err(place) => {
                order.insert(place, members.len());
                return Ok(name);
            }
        };
        self.at = start;
        self.wrong(wrong)
    }

    fn digits(&mut self) -> Result<(), JsonError> {
        if !matches!(self.peek(), Some(b'0'..=b'9')) {
            return self.wrong("a digit is expected");
        }
        while matches!(self.peek(), Some(b'0'..=b'9')) {
            self.at += 1;
        }
        Ok(())
    }

    fn number(&mut self) -> Result<Value, JsonError> {
        let start = self.at;
        if self.peek() == Some(b'-') {
            self.at += 1;
        }
        if self.peek() == Some(b'0') {
            self.at += 1;
            if matches!(self.peek(), Some(b'0'..=b'9')) {
                return self.wrong("no digit may follow a leading zero");
            }
        } else {
            self.digits()?;
        }
        let mut whole = true;
        if self.peek() == Some(b'.') {
            whole = false;
            self.at += 1;
            self.digits()?;
        }
        if matches!(self.peek(), Some(b'e' | b'E')) {
            whole = false;
            self.at += 1;
            if matches!(self.peek(), Some(b'+' | b'-')) {
                self.at += 1;
            }
            self.digits()?;
        }
        let text = self.since(start);
        if whole {
            if let Ok(n) = text.parse::<i64>() {
                return Ok(Value::Int(n));
            }
        }
        match text.parse::<f64>() {
            Ok(x) if x.is_finite() => Ok(Value::Float(x)),
            _ => {
                self.at = start;
                self.wrong("the number is too large for a float")
            }
        }
    }

    fn string(&mut self) -> Result<String, JsonError> {
        self.at += 1;
        let mut out = String::new();
        loop {
            let start = self.at;
            while !matches!(self.peek(), None | Some(b'"' | b'\\' | 0..=0x1F)) {
                self.at += 1;
            }
            out.push_str(self.since(start));
            match self.peek() {
                Some(b'"') => {
                    self.at += 1;
                    return Ok(out);
                }
                Some(b'\\') => out.push(self.escape()?),
                Some(_) => return self.wrong("a control character may not stand in a string"),
                None => return self.wrong("the string is not closed"),
            }
        }
    }

    fn escape(&mut self) -> Result<char, JsonError> {
        self.at += 1;
        let c = match self.peek() {
            Some(c @ (b'"' | b'\\' | b'/')) => c as char,
            Some(b'b') => '\u{8}',
            Some(b'f') => '\u{C}',
            Some(b'n') => '\n',
            Some(b'r') => '\r',
            Some(b't') => '\t',
            Some(b'u') => {
                self.at += 1;
                return self.unicode();
            }
            _ => return self.wrong("no such escape"),
        };
        self.at += 1;
        Ok(c)
    }

    fn hex(&mut self) -> Result<u32, JsonError> {
        let wrong = "four hexadecimal digits are expected";
        let mut n = 0;
        for _ in 0..4 {
            match self.peek().and_then(|digit| char::from(digit).to_digit(16)) {
                Some(digit) => n = n * 16 + digit,
                None => return self.wrong(wrong),
            }
            self.at += 1;
        }
        Ok(n)
    }

    /// One character of one `\uXXXX`, or of two that are a pair of surrogates.
    fn unicode(&mut self) -> Result<char, JsonError> {
        let start = self.at;
        let first = self.hex()?;
        if let Some(c) = char::from_u32(first) {
            return Ok(c);
        }
        if first < LOW_SURROGATES && self.starts_with("\\u") {
            self.at += 2;
            let second = self.hex()?;
            let low = second.checked_sub(LOW_SURROGATES).filter(|low| *low < 0x400);
            if let Some(c) = low.and_then(|low| char::from_u32(0x10000 + ((first - HIGH_SURROGATES) << 10) + low)) {
                return Ok(c);
            }
        }
        self.at = start;
        self.wrong("a surrogate stands for a character only as one of a pair")
    }
}

/// The first of the high and of the low surrogates.
const HIGH_SURROGATES: u32 = 0xD800;
const LOW_SURROGATES: u32 = 0xDC00;
