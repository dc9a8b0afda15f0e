//! Queries from outside: sample rows, refusals, limits, stored plans, lent places, plan items and counts.
use stewpebble::{compile, compile_bytes, select, select_into, select_up_to, Plan, Refusal, Table, Tally, Value, DEFAULT_LIMIT};
#[cfg(feature = "std")]
use stewpebble::Error;

fn sample() -> Table {
    r#"{"a":[10,20.0,30],"b":"é"}"#.parse().unwrap()
}

#[test]
fn sample_rows() {
    let table = sample();
    for (query, nodes) in [
        ("$.a[1]", &[4][..]),
        ("$.a[7]", &[]),
        ("$.a[1:]", &[4, 5]),
        ("$.a[::-1]", &[5, 4, 3]),
        ("$[?length(@) == 0]", &[]),
        ("$[?length(@) == 3]", &[1]),
        ("$[?length(@) == 1]", &[2]),
        ("$[?length('é') == 1]", &[1, 2]),
        ("$[?length(@.x) == 0]", &[1, 2]),
        ("$[?@ == 'é']", &[2]),
        ("$..*", &[1, 2, 3, 4, 5]),
    ] {
        assert_eq!(select(query, &table).unwrap().numbers(), nodes, "{query}");
        assert_eq!(query.parse::<Plan>().unwrap().run(&table).unwrap().into_numbers(), nodes, "{query}");
    }
}

#[test]
fn refusals_tell_why() {
    let long = format!("$.{}", "a".repeat(4096));
    let deep = format!("{}{}", "$[?@".repeat(40), "]".repeat(40));
    for (query, number, words) in [
        (long.as_str(), 1, "the query has 4,098 bytes, and 4,096 are the most"),
        (deep.as_str(), 3, "the query has more than 32 brackets open at once"),
        ("", 4, "this is not a JSONPath query, or a number in it is out of range"),
        ("$.a[", 4, "this is not a JSONPath query, or a number in it is out of range"),
        ("$[9007199254740992]", 4, "this is not a JSONPath query, or a number in it is out of range"),
        ("$[?count(1) == 1]", 5, "a function, a comparison or a test in the query has operands of the wrong type or number; in place of !count(@.*) write !@.* or count(@.*) == 0"),
        ("$[?!count(@.*)]", 5, "a function, a comparison or a test in the query has operands of the wrong type or number; in place of !count(@.*) write !@.* or count(@.*) == 0"),
        ("$[?f(@)]", 6, "the query calls a function that does not exist"),
        ("$[?match(@, 'x') == true]", 5, "a function, a comparison or a test in the query has operands of the wrong type or number; in place of !count(@.*) write !@.* or count(@.*) == 0"),
        ("$[?@ == 1e999]", 8, "a number in the query has more than 19 digits, too large or small an exponent, or is too large for a float"),
    ] {
        let refusal = compile(query).unwrap_err();
        assert_eq!((refusal.number(), refusal.to_string().as_str()), (number, words), "{query}");
        assert_eq!(select(query, &sample()).unwrap_err(), refusal);
    }
    let refusal = compile_bytes(b"$.a\xFF").unwrap_err();
    assert_eq!((refusal.number(), refusal.to_string().as_str()), (2, "the query is not UTF-8 after its first 3 bytes"));
}

#[cfg(feature = "std")]
#[test]
fn errors_are_errors() {
    let errors: [(Box<dyn std::error::Error>, &str); 4] = [
        (Error::from(compile("$[?f(@)]").unwrap_err()).into(), "the query calls a function that does not exist"),
        (Error::from(Value::from_json("x").unwrap_err()).into(), "line 1, column 1: a value is expected"),
        (Error::from(Table::from_value(&Value::Float(f64::NAN)).unwrap_err()).into(), "a float is infinite or not a number"),
        (Error::from(sample().set_number(0, 1).unwrap_err()).into(), "node 0 is a map with 2 children, which would be no one's; build the table anew"),
    ];
    for (error, words) in errors {
        assert_eq!((error.to_string().as_str(), error.source().unwrap().to_string().as_str()), (words, words));
    }
}

#[test]
fn no_query_grows_beyond_the_limit() {
    let table: Table = format!("{}1{}", "[".repeat(50), "]".repeat(50)).parse().unwrap();
    let doubling = |times: usize| format!("${}", "[*,*]".repeat(times));
    let plan = compile(&doubling(50)).unwrap();
    assert_eq!(plan.run(&table).unwrap_err(), Refusal::LimitPassed { limit: DEFAULT_LIMIT });
    assert_eq!(plan.run(&table).unwrap_err().to_string(), "more than 1,048,576 nodes are selected, which is the limit");
    assert_eq!(select(&doubling(20), &table).unwrap().len(), DEFAULT_LIMIT);
    assert_eq!(select(&doubling(21), &table).unwrap_err(), Refusal::LimitPassed { limit: DEFAULT_LIMIT });
    for (times, limit, holds) in [(9, 512, true), (9, 511, false), (1, 0, false), (10, 1024, true), (10, 1023, false), (9, usize::MAX, true)] {
        let selected = select_up_to(&doubling(times), &table, limit);
        let ran = compile(&doubling(times)).unwrap().run_up_to(&table, limit);
        assert_eq!(selected.map(|nodes| nodes.len()), if holds { Ok(1 << times) } else { Err(Refusal::LimitPassed { limit }) });
        assert_eq!(ran.map(|nodes| nodes.len()), if holds { Ok(1 << times) } else { Err(Refusal::LimitPassed { limit }) });
    }
    assert_eq!(select_up_to("$.nothing", &table, 0).unwrap().len(), 0);
}

#[test]
fn one_plan_serves_values_of_any_kind() {
    let plan = compile("$[?@ >= 20]").unwrap();
    for (json, nodes) in [("[10,20,30]", &[2, 3][..]), ("[10.0,20.0,\"30\"]", &[2]), ("[null,[],{}]", &[])] {
        let table: Table = json.parse().unwrap();
        assert_eq!(plan.run(&table).unwrap().numbers(), nodes, "{json}");
    }
}

#[test]
fn the_rooms_are_enough() {
    let slices = format!("$[{}:]", ":,".repeat(2046));
    assert_eq!(compile(&slices).unwrap().items().count(), 2050);
    let names = format!("$['{}']", "a".repeat(4091));
    assert_eq!(compile(&names).unwrap().bytes().1.len(), 4091);
}

#[test]
fn stored_plans() {
    let plan = compile("$.a[?@ > 10]").unwrap();
    let (bytes, pool) = plan.bytes();
    let again = Plan::from_bytes(bytes.to_vec(), pool.to_vec()).unwrap();
    assert_eq!(again, plan);
    for i in 0..bytes.len() {
        let cut = Plan::from_bytes(bytes[..i].to_vec(), pool.to_vec());
        assert_eq!(cut.unwrap_err(), Refusal::Plan);
    }
}

#[test]
fn lent_places() {
    let (table, plan) = (sample(), compile("$.a[*]").unwrap());
    let mut list = [99; 6];
    assert_eq!(plan.run_into(&table, &mut list, 2).unwrap(), 3);
    assert_eq!(list, [99, 99, 3, 4, 5, 99]);
    let mut list = [99; 3];
    assert_eq!(plan.run_into(&table, &mut list, 1).unwrap_err(), Refusal::ListFull { places: 2 });
    assert_eq!(list, [99, 3, 4]);
    assert_eq!(select_into("$.a[*]", &table, &mut list, 4).unwrap_err(), Refusal::StartBeyond { start: 4, places: 3 });
    assert_eq!(plan.run_into(&table, &mut [], 1).unwrap_err().to_string(), "the start position 1 is beyond the 0 places of the list");
    assert_eq!(list, [99, 3, 4]);
}

#[test]
fn lists_grow() {
    let value = Value::List((0..5000).map(Value::Int).collect());
    let table = Table::from_value(&value).unwrap();
    assert_eq!(select("$[*,*]", &table).unwrap().len(), 10000);
}

#[test]
fn nodes_are_an_iterator() {
    let table = sample();
    let mut nodes = select("$..*", &table).unwrap();
    assert_eq!((nodes.len(), nodes.size_hint()), (5, (5, Some(5))));
    assert_eq!(nodes.next_back().unwrap().number(), 5);
    assert_eq!(nodes.nth(1).unwrap().key(), Some("b"));
    assert_eq!(nodes.numbers(), [3, 4]);
    let values: Vec<Value> = nodes.map(|node| node.value()).collect();
    assert_eq!(values, [Value::Int(10), Value::Float(20.0)]);
}

#[test]
fn items_say_the_whole_plan() {
    let words = |query: &str| compile(query).unwrap().items().map(|item| format!("{}{item}", "  ".repeat(item.level()))).collect::<Vec<_>>();
    assert_eq!(
        words("$..['a',-1,1:,::-2,*][?!(@.x == 'y' && count($[0]) >= 1.5) || length(value(@.*)) != null]"),
        [
            "query from $",
            "  descendant, 5 selectors",
            "    name \"a\"",
            "    index -1",
            "    slice 1:",
            "    slice ::-2",
            "    wildcard",
            "  child, 1 selector",
            "    filter, 62 bytes",
            "      query from @",
            "        child, 1 selector",
            "          name \"x\"",
            "      end of the query",
            "      text \"y\"",
            "      compare ==",
            "      and, unless false, 26 bytes",
            "        query from $",
            "          child, 1 selector",
            "            index 0",
            "        end of the query",
            "        count",
            "        float 1.5",
            "        compare >=",
            "      not",
            "      or, unless true, 12 bytes",
            "        query from @",
            "          child, 1 selector",
            "            wildcard",
            "        end of the query",
            "        value",
            "        length",
            "        null",
            "        compare !=",
            "end of the query",
        ]
    );
    for slice in ["1:2", ":", "1:", ":2", "::3", "1:2:3", ":-2:0", "-1::-3"] {
        assert_eq!(words(&format!("$[{slice}]"))[2], format!("    slice {slice}"));
    }
    for query in ["$", "$..*", "$[?@ == true]", "$[?!@[?@.a || @.b && false != 1]]"] {
        let plan = compile(query).unwrap();
        let bytes: Vec<u8> = plan.items().flat_map(|item| [&[item.kind()], item.body()].concat()).collect();
        assert_eq!(bytes, plan.bytes().0, "{query}");
    }
}

#[test]
fn stored_plans_run_as_before() {
    // The plan that `$[?!count(@.*)]` had, which is refused now.
    let stored = [0x01, 0x03, 0x01, 0x00, 0x09, 0x09, 0x00, 0x02, 0x03, 0x01, 0x00, 0x08, 0x0A, 0x19, 0x18, 0x15, 0x0A];
    let plan = Plan::from_bytes(stored.to_vec(), Vec::new()).unwrap();
    assert_eq!(plan.run(&sample()).unwrap().into_numbers(), [2]);
    let words: Vec<String> = plan.items().map(|item| item.to_string()).collect();
    assert_eq!(words[6..], ["end of the query", "count", "test", "not", "end of the query"]);
    for query in ["$[?!count(@.*)]", "$[? ! value(@)]", "$[?!(!length('a'))]"] {
        assert_eq!((compile(query).unwrap_err(), select(query, &sample()).unwrap_err()), (Refusal::Type, Refusal::Type), "{query}");
    }
    assert_eq!(select("$[?!@.*]", &sample()).unwrap().into_numbers(), [2]);
    assert_eq!(select("$[?count(@.*) == 0]", &sample()).unwrap().into_numbers(), [2]);
}

#[test]
fn expressions() {
    let table: Table = r#"{"t":["bolt","nut","b","bo\nlt","é😀","a.b",4,null,["b"]],"e":["b.*","(",4,"[a-u]{3}"]}"#.parse().unwrap();
    let names = select("$.t[*]", &table).unwrap().into_numbers();
    for (test, selected) in [
        ("match(@, 'b.*')", &[0, 2][..]),
        ("search(@, 'b')", &[0, 2, 3, 5]),
        ("!search(@, 'b')", &[1, 4, 6, 7, 8]),
        ("match(@, '[a-u]{3}')", &[1]),
        ("match(@, $.e[3])", &[1]),
        ("match(@, $.e[0])", &[0, 2]),
        ("search(@, $.e[1])", &[]),
        ("search(@, $.e[2]) || match($.x, @)", &[]),
        ("match(@, 'bo(\\\\n|x)?lt')", &[0, 3]),
        ("match(@, '..')", &[4]),
        ("match(@, '[é][😀-😂]')", &[4]),
        ("search(@, '\\\\.')", &[5]),
        ("search(@, '^b')", &[]),
        ("search(@, '\\\\d')", &[]),
        ("search(@, '')", &[0, 1, 2, 3, 4, 5]),
        ("match(@, 'a{65}|b')", &[]),
        ("match(@, 'a{64}|b')", &[2]),
    ] {
        let query = format!("$.t[?{test}]");
        let wanted: Vec<u32> = selected.iter().map(|&i: &usize| names[i]).collect();
        assert_eq!(select(&query, &table).unwrap().into_numbers(), wanted, "{query}");
        assert_eq!(compile(&query).unwrap().run(&table).unwrap().into_numbers(), wanted, "{query}");
    }
}

#[test]
fn plans_of_match_and_search() {
    let plan = compile("$[?match('a','b')]").unwrap();
    assert_eq!(plan.bytes().0[7..], [0x12, 0, 0, 1, 0, 0x12, 1, 0, 1, 0, 0x1C, 0x0A]);
    let words: Vec<String> = compile("$[?!search(@,'b')]").unwrap().items().map(|item| item.to_string()).collect();
    assert_eq!(words[2..], ["filter, 9 bytes", "query from @", "end of the query", "text \"b\"", "search", "not", "end of the query"]);
    // A test item behind one is the plan of no query.
    let (bytes, pool) = plan.bytes();
    let mut tested = bytes.to_vec();
    tested[5] += 1;
    tested.insert(18, 0x18);
    assert_eq!(Plan::from_bytes(tested, pool.to_vec()).unwrap_err(), Refusal::Plan);
    for query in ["$[?match('a')]", "$[?match(@.*, 'a')]", "$[?length(match('a','b')) == 1]", "$[?search('a','b') != 1]", "$[?match('a','b','c')]"] {
        assert_eq!(compile(query).unwrap_err(), Refusal::Type, "{query}");
    }
    // No expression is looked at before it is used.
    assert!(compile("$[?match('a', '(')]").is_ok());
}

#[test]
fn plans_are_counted() {
    let mut tally = Tally::new();
    tally.take(&compile("$.a[1]").unwrap()).unwrap();
    tally.take(&compile("$[1:2]").unwrap()).unwrap();
    let before = tally.clone();
    assert_eq!(tally.take_bytes(&[1, 8, 10], &[]).unwrap_err(), Refusal::Plan);
    assert_eq!(tally, before);
    let kinds: Vec<(u8, u64)> = (0..=255).map(|k| (k, tally.count(k))).filter(|&(_, n)| n > 0).collect();
    assert_eq!(kinds, [(1, 2), (3, 3), (5, 1), (6, 1), (7, 1), (10, 2)]);
    assert_eq!((tally.items(), tally.plans()), (10, 2));
    assert_eq!(Refusal::CountFull.number(), 21);
}
