//! Tables from values and bytes: parts that are read from an accepted table against the library's own operations, changes
//! in place, and values that have no table.
mod common;
use common::record::{PAYLOAD, RECORD};
use common::Random;
use stewpebble::{check_records, check_table, check_texts, compile, key_of_node, path_of_node, select, text_of_node, EditError, Kind, Number, Refusal, Table, TableError, Value};

/// Every text and key of a table is what the library's operation gives, also beyond its end.
fn parts_agree(table: &Table) {
    let (records, texts) = (table.records(), table.texts());
    let beyond = table.nodes().len() as u32;
    for node in (0..beyond + 2).chain([u32::MAX]) {
        assert_eq!(table.text(node), text_of_node(records, texts, node), "text of node {node} of {table}");
        assert_eq!(table.key(node), key_of_node(records, texts, node), "key of node {node} of {table}");
        path_agrees(table, node);
    }
}

/// The path of a node is what the library's operation writes, in any room, and selects that node alone.
fn path_agrees(table: &Table, node: u32) {
    let mut room = [b'-'; 4096];
    let written = path_of_node(table.records(), table.texts(), node, &mut room);
    let Some(there) = table.node(node) else {
        assert_eq!(written, Err(Refusal::NoSuchNode { node, nodes: table.nodes().len() }));
        return;
    };
    let path = there.path().to_string();
    assert_eq!((written, &room[..path.len()], room[path.len()]), (Ok(path.len()), path.as_bytes(), b'-'), "path of node {node} of {table}");
    assert_eq!(select(&path, table).unwrap().numbers(), [node], "{path}");
    let mut less = vec![b'-'; path.len() - 1];
    let short = Refusal::PathRoom { bytes: path.len() as u64, room: less.len() };
    assert_eq!(path_of_node(table.records(), table.texts(), node, &mut less), Err(short));
    assert!(less.iter().all(|&b| b == b'-'));
}

#[test]
fn parts_of_tables_of_values() {
    let mut random = Random(1);
    for _ in 0..3000 {
        let table = Table::from_value(&common::value(&mut random, 4)).unwrap();
        check_table(table.records(), table.texts()).unwrap();
        parts_agree(&table);
    }
}

#[test]
fn parts_of_tables_of_bytes() {
    let (mut random, mut accepted, mut refused) = (Random(2), 0, 0);
    for _ in 0..6000 {
        let (records, texts) = common::bytes(&mut random);
        match Table::from_bytes(records.clone(), texts.clone()) {
            Ok(table) => {
                accepted += 1;
                parts_agree(&table);
                // The table of its value is another layout of the texts of the same nodes.
                assert_eq!(Table::from_value(&table.root().value()).unwrap().root().value(), table.root().value());
            }
            Err(refusal) => {
                refused += 1;
                assert_eq!(text_of_node(&records, &texts, 0), Err(refusal));
                assert_eq!(key_of_node(&records, &texts, 0), Err(refusal));
                assert_eq!(path_of_node(&records, &texts, 0, &mut [0; 9]), Err(refusal));
            }
        }
        // The pair is the check of the records, and where that accepts the one of the texts.
        assert_eq!(check_records(&records, &texts).and_then(|()| check_texts(&records, &texts)), check_table(&records, &texts));
    }
    assert!(accepted > 2000 && refused > 500, "{accepted} accepted, {refused} refused");
}

#[test]
fn values_there_and_back() {
    let mut random = Random(3);
    for _ in 0..3000 {
        let value = common::value(&mut random, 5);
        let table = Table::from_value(&value).unwrap();
        assert_eq!(table.root().value(), value);
        assert_eq!(table.to_string(), value.to_string());
        assert_eq!(Value::from_json(&value.to_string()), Ok(value));
    }
}

#[test]
fn parents_and_positions() {
    let mut random = Random(4);
    for _ in 0..500 {
        let table = Table::from_value(&common::value(&mut random, 5)).unwrap();
        let mut children = 0;
        for node in table.nodes() {
            for (place, child) in node.children().enumerate() {
                assert_eq!((child.parent(), child.position()), (Some(node), Some(place)));
                children += 1;
            }
        }
        assert_eq!(children, table.nodes().len() - 1);
        assert_eq!((table.root().parent(), table.root().position()), (None, None));
    }
}

/// The value after a node that is found by its number is set.
fn set_in_value(table: &Table, node: u32, to: &Value) -> Value {
    fn walk(there: stewpebble::Node<'_>, node: u32, to: &Value) -> Value {
        if there.number() == node {
            return to.clone();
        }
        match there.kind() {
            Kind::List => Value::List(there.children().map(|child| walk(child, node, to)).collect()),
            Kind::Map => Value::Map(there.children().map(|child| (child.key().unwrap().to_owned(), walk(child, node, to))).collect()),
            _ => there.value(),
        }
    }
    walk(table.root(), node, to)
}

#[test]
fn changes_in_place() {
    const KINDS: [Kind; 8] = [Kind::Null, Kind::False, Kind::True, Kind::Integer, Kind::Float, Kind::Text, Kind::List, Kind::Map];
    let plain = [Value::Null, Value::Bool(false), Value::Bool(true), Value::Int(0), Value::Float(0.0), Value::from(""), Value::List(vec![]), Value::Map(vec![])];
    let (mut random, mut changed, mut refused) = (Random(5), 0, 0);
    for _ in 0..400 {
        let mut table = Table::from_value(&common::value(&mut random, 4)).unwrap();
        for _ in 0..30 {
            let node = random.below(table.nodes().len()) as u32;
            let before = table.clone();
            let (number, float, text) = (*random.pick(&common::INTEGERS), *random.pick(&common::FLOATS), *random.pick(&common::TEXTS));
            let kind = random.below(8);
            let (result, to) = match random.below(4) {
                0 => (table.set_number(node, number), Value::Int(number)),
                1 => (table.set_number(node, float), Value::Float(float)),
                2 => (table.set_text(node, text), Value::from(text)),
                _ => (table.set_kind(node, KINDS[kind]), converted(&before, node, KINDS[kind]).unwrap_or_else(|| plain[kind].clone())),
            };
            if result.is_err() {
                refused += 1;
                assert_eq!(table, before);
                continue;
            }
            changed += 1;
            check_table(table.records(), table.texts()).unwrap();
            assert_eq!(table.root().value(), set_in_value(&before, node, &to));
            assert!(table.texts().starts_with(before.texts()));
            let at = RECORD * node as usize;
            let same = |i: &usize| table.records()[*i] == before.records()[*i];
            assert!((0..table.records().len()).filter(|i| !same(i)).all(|i| i == at || (at + PAYLOAD..at + RECORD).contains(&i)));
        }
        parts_agree(&table);
    }
    assert!(changed > 4000 && refused > 500, "{changed} changed, {refused} refused");
}

/// What a change of kind keeps: a node of the kind as it is, and a number that the other kind has.
fn converted(table: &Table, node: u32, kind: Kind) -> Option<Value> {
    let there = table.node(node)?;
    match (there.value(), kind) {
        (value, kind) if kind == there.kind() => Some(value),
        (Value::Int(n), Kind::Float) => Some(Value::Float(n as f64)),
        (Value::Float(x), Kind::Integer) => Some(Value::Int(x as i64)),
        _ => None,
    }
}

#[test]
fn refused_changes_say_why() {
    let mut table: Table = r#"{"a":[1],"b":0.5,"c":9007199254740993,"d":[]}"#.parse().unwrap();
    let before = table.clone();
    for (result, words) in [
        (table.set_number(9, 1), "there is no node 9: the table has 6 nodes, from 0 on"),
        (table.set_kind(u32::MAX, Kind::Null), "there is no node 4294967295: the table has 6 nodes, from 0 on"),
        (table.set_text(6, "x"), "there is no node 6: the table has 6 nodes, from 0 on"),
        (table.set_number(1, 1), "node 1 is a list with 1 children, which would be no one's; build the table anew"),
        (table.set_kind(0, Kind::List), "node 0 is a map with 4 children, which would be no one's; build the table anew"),
        (table.set_text(0, "x"), "node 0 is a map with 4 children, which would be no one's; build the table anew"),
        (table.set_number(2, f64::INFINITY), "node 2 cannot be a float that is infinite or not a number"),
        (table.set_kind(2, Kind::Integer), "node 2 has a number that an integer cannot be; set the number instead"),
        (table.set_kind(3, Kind::Float), "node 3 has a number that a float cannot be; set the number instead"),
        (table.set_text(2, &"x".repeat(16_777_217)), "the texts would have 16,777,221 bytes, and 16,777,216 are the most; build the table anew, without the texts that are no longer used"),
    ] {
        assert_eq!(result.unwrap_err().to_string(), words);
    }
    assert_eq!(table, before);
    assert_eq!(table.set_kind(0, Kind::Map), Ok(()));
    assert_eq!(table.set_kind(4, Kind::Map), Ok(()));
    assert_eq!(table.to_string(), r#"{"a":[1],"b":0.5,"c":9007199254740993,"d":{}}"#);
    assert_eq!(table.set_number(1, Number::Int(1)), Err(EditError::HasChildren { node: 1, kind: Kind::List, children: 1 }));
}

#[test]
fn the_texts_fill_up_to_their_limit() {
    let mut table: Table = "[1]".parse().unwrap();
    table.set_text(1, &"x".repeat(16_777_216)).unwrap();
    check_table(table.records(), table.texts()).unwrap();
    assert_eq!(table.set_text(1, "y"), Err(EditError::TooMuchText { bytes: 16_777_217 }));
    table.set_text(1, "").unwrap();
    check_table(table.records(), table.texts()).unwrap();
    assert_eq!(table.to_string(), r#"[""]"#);
}

#[test]
fn one_plan_serves_changed_kinds() {
    let plan = compile("$[?@ >= 20]").unwrap();
    let mut table: Table = "[10,20,30]".parse().unwrap();
    assert_eq!(plan.run(&table).unwrap().numbers(), [2, 3]);
    table.set_number(1, 20.5).unwrap();
    table.set_kind(2, Kind::Null).unwrap();
    table.set_text(3, "30").unwrap();
    assert_eq!(plan.run(&table).unwrap().numbers(), [1]);
}

#[test]
fn values_without_a_table() {
    let mut deep = Value::Null;
    for _ in 0..63 {
        deep = Value::List(vec![deep]);
    }
    assert!(Table::from_value(&deep).is_ok());
    assert_eq!(Table::from_value(&Value::List(vec![deep])), Err(TableError::TooDeep));
    let members = |count: usize| Value::Map((0..count).map(|i| (i.to_string(), Value::Null)).collect());
    assert!(Table::from_value(&members(1024)).is_ok());
    assert_eq!(Table::from_value(&members(1025)), Err(TableError::TooManyMembers { members: 1025 }));
    let twice = Value::Map(vec![("a".into(), Value::Null), ("a".into(), Value::Null)]);
    assert_eq!(Table::from_value(&twice), Err(TableError::RepeatedName { name: "a".into() }));
    assert_eq!(Table::from_value(&Value::Float(f64::NAN)), Err(TableError::NotFinite));
    let nodes = |count: usize| Value::List(vec![Value::Null; count - 1]);
    check_table(Table::from_value(&nodes(65_535)).unwrap().records(), &[]).unwrap();
    assert_eq!(Table::from_value(&nodes(65_536)), Err(TableError::TooManyNodes { nodes: 65_536 }));
    let long = Value::from("x".repeat(16_777_217));
    assert_eq!(Table::from_value(&long), Err(TableError::TooMuchText { bytes: 16_777_217 }));
}

#[test]
fn bytes_without_a_table() {
    let words = |records: usize, texts: usize| check_table(&vec![0; records], &vec![0; texts]).unwrap_err().to_string();
    assert_eq!(words(0, 0), "the table is empty");
    assert_eq!(words(RECORD + 1, 0), "the table has 25 bytes, which is no multiple of 24");
    assert_eq!(words(RECORD * 65_536, 0), "the table has 65,536 nodes, and 65,535 are the most");
    assert_eq!(words(RECORD, 16_777_217), "the texts have 16,777,217 bytes, and 16,777,216 are the most");
    assert_eq!(words(48, 0), "the table breaks a rule of tables, first at node 1");
    assert_eq!(Table::from_bytes(vec![9; RECORD], vec![]), Err(Refusal::TableRule { node: 0 }));
}

#[test]
fn each_check_alone() {
    let table: Table = r#"{"a":[10,20.0,30],"b":"é"}"#.parse().unwrap();
    let changed = |at: usize, byte: u8| {
        let mut records = table.records().to_vec();
        records[at] = byte;
        (check_records(&records, table.texts()), check_texts(&records, table.texts()), check_table(&records, table.texts()))
    };
    let (record, text) = (|node| Err(Refusal::TableRule { node }), |node| Err(Refusal::TextRule { node }));
    // A depth, which is no matter of texts; a text past the end; two equal keys, by the length of the second and its start.
    assert_eq!(changed(97, 1), (record(4), Ok(()), record(4)));
    assert_eq!(changed(68, 9), (Ok(()), text(2), text(2)));
    assert_eq!(text(2).unwrap_err().to_string(), "a text or a key of the table breaks a rule of tables, first at node 2");
    assert_eq!(text(2).unwrap_err().number(), 17);
    // A map that claims members behind its own: both take its range, and the text check goes on where the record check stops.
    assert_eq!(changed(20, 6).0, record(0));
    // Bytes that are no table are refused alike by all three.
    assert_eq!(check_records(&[], &[]), check_texts(&[], &[]));
}
