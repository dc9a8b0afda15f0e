//! Values to and from those of `serde_json`.
use crate::Value;
use serde_json::{Number, Value as Json};

/// A value of `serde_json`. An integer beyond 64 bits with a sign becomes the nearest float. Where a number is beyond the
/// floats, which `serde_json` holds only with its feature `arbitrary_precision`, the float is infinite, and
/// [`Table::from_value`](crate::Table::from_value) refuses it.
///
/// ```
/// use stewpebble::{Table, Value};
///
/// let json = serde_json::json!({"a": [1, 2.5, "x"]});
/// let value = Value::from(json.clone());
/// assert_eq!(serde_json::Value::from(value.clone()), json);
/// assert_eq!(Table::from_value(&value).unwrap().nodes().len(), 5);
/// ```
impl From<Json> for Value {
    fn from(json: Json) -> Value {
        match json {
            Json::Null => Value::Null,
            Json::Bool(b) => Value::Bool(b),
            Json::Number(n) => number(&n),
            Json::String(s) => Value::Text(s),
            Json::Array(items) => Value::List(items.into_iter().map(Value::from).collect()),
            Json::Object(members) => Value::Map(members.into_iter().map(|(name, json)| (name, Value::from(json))).collect()),
        }
    }
}

fn number(n: &Number) -> Value {
    match (n.as_i64(), n.as_f64()) {
        (Some(n), _) => Value::Int(n),
        (None, Some(x)) => Value::Float(x),
        (None, None) => Value::Float(f64::INFINITY),
    }
}

/// A value for `serde_json`. A float that is infinite or no number becomes null, as `serde_json` writes it; of two members
/// of one name the last stays.
///
/// ```
/// use stewpebble::{select, Table};
///
/// let table: Table = r#"{"a":[1,2]}"#.parse().unwrap();
/// let node = select("$.a", &table).unwrap().next().unwrap();
/// assert_eq!(serde_json::Value::from(node.value()), serde_json::json!([1, 2]));
/// ```
impl From<Value> for Json {
    fn from(value: Value) -> Json {
        match value {
            Value::Null => Json::Null,
            Value::Bool(b) => Json::Bool(b),
            Value::Int(n) => Json::from(n),
            Value::Float(x) => Number::from_f64(x).map_or(Json::Null, Json::Number),
            Value::Text(s) => Json::String(s),
            Value::List(items) => Json::Array(items.into_iter().map(Json::from).collect()),
            Value::Map(members) => Json::Object(members.into_iter().map(|(name, value)| (name, Json::from(value))).collect()),
        }
    }
}
