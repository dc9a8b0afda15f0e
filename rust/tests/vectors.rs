//! Random queries and values with the answers of `tools/reference.py`, which `tests/vectors/make.py` stored: select and
//! compile and run give the same nodes, or refuse with the same number.
use stewpebble::{compile, select, Table, Value};

#[test]
fn as_the_reference_answers() {
    let (mut selected, mut refused) = (0, 0);
    for line in include_str!("vectors/select.txt").lines() {
        let words: Vec<&str> = line.split('\t').collect();
        let query = Value::from_json(words[1]).unwrap();
        let query = query.as_str().unwrap();
        let table = Table::from_json(words[2]).unwrap();
        let answer = match select(query, &table) {
            Ok(nodes) => {
                selected += 1;
                nodes.numbers().iter().fold("ok".to_owned(), |answer, number| format!("{answer} {number}"))
            }
            Err(refusal) => {
                refused += 1;
                format!("refused {}", refusal.number())
            }
        };
        assert_eq!(answer, words[0], "{query} of {}", words[2]);
        let ran = compile(query).and_then(|plan| plan.run(&table).map(|nodes| nodes.into_numbers()));
        assert_eq!(ran, select(query, &table).map(|nodes| nodes.into_numbers()), "{query} of {}", words[2]);
    }
    assert!(selected > 300 && refused > 50, "{selected} selected, {refused} refused");
}
