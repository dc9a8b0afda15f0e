//! Values to serde_json and back.
#[path = "../../tests/common/mod.rs"]
mod common;
use common::Random;
use serde_json::{json, Value as Json};
use stewpebble::{Table, TableError, Value};

#[test]
fn there_and_back() {
    let mut random = Random(7);
    for _ in 0..2000 {
        let value = common::value(&mut random, 4);
        let json = Json::from(value.clone());
        // serde_json reads what is written here as the same, and this crate what serde_json writes.
        assert_eq!(serde_json::from_str::<Json>(&value.to_string()).unwrap(), json, "{value}");
        assert_eq!(Value::from(json.clone()), Value::from_json(&json.to_string()).unwrap(), "{value}");
        assert_eq!(Json::from(Value::from(json.clone())), json);
    }
}

#[test]
fn numbers() {
    assert_eq!(Value::from(json!([i64::MIN, i64::MAX, u64::MAX, 0.5])).to_string(), "[-9223372036854775808,9223372036854775807,1.8446744073709552e19,0.5]");
    assert_eq!(Json::from(Value::Float(f64::NAN)), Json::Null);
    assert_eq!(Table::from_value(&Value::Float(f64::INFINITY)), Err(TableError::NotFinite));
}

#[test]
fn selected_values() {
    let document = json!({"rows": [{"name": "x", "qty": 3}, {"name": "y", "qty": 7}]});
    let table = Table::from_value(&document.into()).unwrap();
    let rows: Vec<Json> = stewpebble::select("$.rows[?@.qty > 5]", &table).unwrap().map(|node| node.value().into()).collect();
    assert_eq!(rows, [json!({"name": "y", "qty": 7})]);
}
