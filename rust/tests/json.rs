//! The reader of JSON texts: what RFC 8259 has, what is refused and in which words, and that no text makes it panic.
mod common;
use common::Random;
use stewpebble::{Table, Value};

fn read(json: &str) -> Value {
    Value::from_json(json).unwrap_or_else(|error| panic!("{json}: {error}"))
}

#[test]
fn texts_that_are_json() {
    for (json, value) in [
        (" null\n", Value::Null),
        ("\u{FEFF}true", Value::Bool(true)),
        ("\t[ ]\r\n", Value::List(vec![])),
        ("{ }", Value::Map(vec![])),
        ("-0", Value::Int(0)),
        ("-0.0", Value::Float(-0.0)),
        ("1e3", Value::Float(1000.0)),
        ("1E+2", Value::Float(100.0)),
        ("2e-1", Value::Float(0.2)),
        ("9223372036854775807", Value::Int(i64::MAX)),
        ("-9223372036854775808", Value::Int(i64::MIN)),
        ("9223372036854775808", Value::Float(9_223_372_036_854_775_808.0)),
        ("-9223372036854775809", Value::Float(-9_223_372_036_854_775_808.0)),
        ("1e-999", Value::Float(0.0)),
        ("1.7976931348623157e308", Value::Float(f64::MAX)),
        (r#""\"\\\/\b\f\n\r\t""#, Value::from("\"\\/\u{8}\u{C}\n\r\t")),
        (r#""\u0000\u00E9\ud83D\uDE00\uffff""#, Value::from("\0é😀\u{FFFF}")),
        ("\"é😀\u{7F}\"", Value::from("é😀\u{7F}")),
        (r#"{"":{"a":[1,{"b":null}]}}"#, Value::Map(vec![(String::new(), read(r#"{"a":[1,{"b":null}]}"#))])),
    ] {
        assert_eq!(Value::from_json(json), Ok(value), "{json}");
    }
    assert!(matches!(read("-0.0"), Value::Float(x) if x.is_sign_negative()));
    let digits = "123456789".repeat(100);
    assert_eq!(Value::from_json(&format!("0.{digits}")), Ok(Value::Float(0.123_456_789_123_456_78)));
}

#[test]
fn texts_that_are_not_json() {
    for (json, words) in [
        ("", "line 1, column 1: a value is expected"),
        ("\u{FEFF}", "line 1, column 1: a value is expected"),
        ("\u{FEFF}\u{FEFF}1", "line 1, column 1: a value is expected"),
        ("nul", "line 1, column 1: a value is expected"),
        ("True", "line 1, column 1: a value is expected"),
        ("NaN", "line 1, column 1: a value is expected"),
        ("[1,]", "line 1, column 4: a value is expected"),
        ("[1 2]", "line 1, column 4: a comma or a closing bracket is expected"),
        ("[", "line 1, column 2: a value is expected"),
        ("{\"a\"}", "line 1, column 5: a colon is expected"),
        ("{\"a\":1,}", "line 1, column 8: a member's name is expected"),
        ("{\"a\":1 \"b\"}", "line 1, column 8: a comma or a closing brace is expected"),
        ("{a:1}", "line 1, column 2: a member's name is expected"),
        ("[1]\n\n 2", "line 3, column 2: nothing may follow the value"),
        ("01", "line 1, column 2: no digit may follow a leading zero"),
        ("-", "line 1, column 2: a digit is expected"),
        ("+1", "line 1, column 1: a value is expected"),
        ("1.", "line 1, column 3: a digit is expected"),
        (".5", "line 1, column 1: a value is expected"),
        ("1e", "line 1, column 3: a digit is expected"),
        ("\"é\nb\"", "line 1, column 3: a control character may not stand in a string"),
        ("\"ab", "line 1, column 4: the string is not closed"),
        ("\"\\x\"", "line 1, column 3: no such escape"),
        ("\"\\", "line 1, column 3: no such escape"),
        ("\"\\u12g4\"", "line 1, column 6: four hexadecimal digits are expected"),
        ("\"\\u12", "line 1, column 6: four hexadecimal digits are expected"),
        ("\"\\ud800\"", "line 1, column 4: a surrogate stands for a character only as one of a pair"),
        ("\"\\udc00\\ud800\"", "line 1, column 4: a surrogate stands for a character only as one of a pair"),
        ("\"\\udc00\\udc00\"", "line 1, column 4: a surrogate stands for a character only as one of a pair"),
        ("\"\\ud800\\u0041\"", "line 1, column 4: a surrogate stands for a character only as one of a pair"),
        ("\"\\ud800\\ue000\"", "line 1, column 4: a surrogate stands for a character only as one of a pair"),
        ("[1e400]", "line 1, column 2: the number is too large for a float"),
        ("{\"a\":1,\n \"\\u0061\":2}", "line 2, column 2: the map has two members of this name"),
    ] {
        assert_eq!(Value::from_json(json).unwrap_err().to_string(), words, "{json}");
    }
}

#[test]
fn as_deep_and_as_wide_as_a_table() {
    let nested = |deep: usize| format!("{}{}", "[".repeat(deep), "]".repeat(deep));
    assert!(Table::from_json(&nested(64)).is_ok());
    assert_eq!(Value::from_json(&nested(65)).unwrap_err().to_string(), "line 1, column 65: the value nests more than 63 deep");
    assert!(Value::from_json(&"[".repeat(1_000_000)).is_err());
    let members = |count: usize| format!("{{{}}}", (0..count).map(|i| format!("\"{i}\":0")).collect::<Vec<_>>().join(","));
    assert!(Table::from_json(&members(1024)).is_ok());
    assert!(Value::from_json(&members(1025)).unwrap_err().to_string().ends_with("the map has more than 1,024 members"));
    let list = |count: usize| format!("[{}0]", "0,".repeat(count - 1));
    assert!(Table::from_json(&list(65_534)).is_ok());
    assert_eq!(Table::from_json(&list(65_535)).unwrap_err().to_string(), "the value has at least 65,536 nodes, and 65,535 are the most of a table");
}

#[test]
fn no_text_makes_it_panic() {
    let pieces = ["[", "]", "{", "}", ",", ":", "\"", "\\", "\\u", "d83d", "\\ude00", "0", "-", "1.5", "e9", "é", "😀", "null", " ", "\n", "\u{1}", "a"];
    let (mut random, mut read) = (Random(6), 0);
    for _ in 0..200_000 {
        let text: String = (0..random.below(9)).map(|_| *random.pick(&pieces)).collect();
        if let Ok(value) = Value::from_json(&text) {
            read += 1;
            assert_eq!(Value::from_json(&value.to_string()), Ok(value), "{text}");
        }
    }
    assert!(read > 1000, "{read}");
}
