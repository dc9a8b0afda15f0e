//! The command line tool, run as a program: what it writes, where, and its exit status.
#![cfg(feature = "std")]
use std::io::Write;
use std::process::{Command, Output, Stdio};

const SAMPLE: &str = r#"{"a":[10,20.0,30],"b":"é\n"}"#;

/// Runs the tool with words and standard input: its exit status, what it wrote, and what it said on standard error.
fn run(words: &[&str], input: &[u8]) -> (i32, String, String) {
    let mut command = Command::new(env!("CARGO_BIN_EXE_stewpebble"));
    finished(command.args(words), input)
}

fn finished(command: &mut Command, input: &[u8]) -> (i32, String, String) {
    let mut child = command.stdin(Stdio::piped()).stdout(Stdio::piped()).stderr(Stdio::piped()).spawn().unwrap();
    // A query that is refused ends the tool before it reads.
    let _ = child.stdin.take().unwrap().write_all(input);
    let Output { status, stdout, stderr } = child.wait_with_output().unwrap();
    (status.code().unwrap(), String::from_utf8(stdout).unwrap(), String::from_utf8(stderr).unwrap())
}

/// The same with the sample on standard input.
fn on_sample(words: &[&str]) -> (i32, String, String) {
    run(words, SAMPLE.as_bytes())
}

/// A file with this content, under a name of its own.
fn file(name: &str, content: &[u8]) -> String {
    let path = std::path::Path::new(env!("CARGO_TARGET_TMPDIR")).join(name);
    std::fs::write(&path, content).unwrap();
    path.to_str().unwrap().to_owned()
}

#[test]
fn values_as_lines() {
    assert_eq!(on_sample(&["$.a[1:]"]), (0, "20.0\n30\n".into(), String::new()));
    assert_eq!(on_sample(&["$.b"]), (0, "\"é\\n\"\n".into(), String::new()));
    assert_eq!(on_sample(&["$"]), (0, format!("{SAMPLE}\n"), String::new()));
    assert_eq!(on_sample(&["$.a[7]"]), (1, String::new(), String::new()));
}

#[test]
fn values_of_a_file() {
    let path = file("sample.json", SAMPLE.as_bytes());
    assert_eq!(run(&["$.a[0]", &path], b""), (0, "10\n".into(), String::new()));
    assert_eq!(run(&["$.a[0]", "-"], SAMPLE.as_bytes()), (0, "10\n".into(), String::new()));
    assert_eq!(run(&["--", "$.a[0]", &path], b""), (0, "10\n".into(), String::new()));
    let (status, out, said) = run(&["$", "no/such/file.json"], b"");
    assert_eq!((status, out.as_str()), (2, ""));
    assert!(said.starts_with("stewpebble: no/such/file.json: "), "{said}");
}

#[test]
fn values_with_their_places() {
    assert_eq!(on_sample(&["--paths", "$..*"]).1, "$['a']\t[10,20.0,30]\n$['b']\t\"é\\n\"\n$['a'][0]\t10\n$['a'][1]\t20.0\n$['a'][2]\t30\n");
    assert_eq!(on_sample(&["$", "-p"]).1, format!("$\t{SAMPLE}\n"));
    let names = r#"{"":1,"'":2,"\\":3,"\b\f\n\r\t\u000b\u0000":4,"\"é\u007f":5,"a b":[[6]]}"#;
    let (status, out, said) = run(&["-p", "$..[?@ > 0]"], names.as_bytes());
    assert_eq!((status, said.as_str()), (0, ""));
    assert_eq!(out, "$['']\t1\n$['\\'']\t2\n$['\\\\']\t3\n$['\\b\\f\\n\\r\\t\\u000b\\u0000']\t4\n$['\"é\u{7F}']\t5\n$['a b'][0][0]\t6\n");
    for line in out.lines() {
        // A place is itself a query, which selects that value alone.
        let (place, value) = line.split_once('\t').unwrap();
        assert_eq!(run(&[place], names.as_bytes()), (0, format!("{value}\n"), String::new()));
    }
}

#[test]
fn plans_are_readable() {
    let plan = "    0  01  query from $\n    1  03    child, 1 selector\n    4  05      name \"a\"\n    9  03    child, 1 selector\n   12  06      index 1\n   21  0A  end of the query\n";
    assert_eq!(run(&["--plan", "$.a[1]"], b""), (0, plan.into(), String::new()));
    assert_eq!(run(&["--plan", "$.a["], b"").0, 2);
    assert_eq!(run(&["--plan", "$", "x.json"], b"").0, 2);
    assert_eq!(run(&["--plan", "--paths", "$"], b"").0, 2);
}

#[test]
fn refusals_in_words() {
    for (query, number, words, more) in [
        ("$.a[", 4, "this is not a JSONPath query", "A query is $ and then segments"),
        ("", 4, "this is not a JSONPath query", "The query is empty"),
        ("a", 4, "this is not a JSONPath query", "It does not begin with $."),
        ("$.a\r", 4, "this is not a JSONPath query", "It ends with a blank or a line end"),
        ("\u{FEFF}$", 4, "this is not a JSONPath query", "It begins with a byte order mark"),
        (" $", 4, "this is not a JSONPath query", "It begins with a blank or a line end"),
        ("$[?count(1) == 1]", 5, "wrong type or number", "count(..) and value(..) take a query"),
        ("$[?!count(@.*)]", 5, "write !@.* or count(@.*) == 0", "write !@.* to ask whether there is nothing"),
        ("$[?f(@)]", 6, "a function that does not exist", "in small letters"),
        ("$[?match(@, 'a') == true]", 5, "wrong type or number", "they are compared with nothing"),
        ("$[?@ == 1e999]", 8, "more than 19 digits", "-342 to 308"),
    ] {
        let (status, out, said) = on_sample(&[query]);
        assert_eq!((status, out.as_str(), said.lines().count()), (2, "", 1), "{query}");
        assert!(said.starts_with(&format!("stewpebble: refused {number}: ")) && said.contains(words), "{said}");
        let (status, out, explained) = on_sample(&["--explain", query]);
        assert_eq!((status, out.as_str()), (2, ""), "{query}");
        assert!(explained.starts_with(&said) && explained.contains(more), "{explained}");
    }
    assert_eq!(on_sample(&["--explain", "$.a[0]"]), (0, "10\n".into(), String::new()));
    let long = format!("$.{}", "a".repeat(5000));
    assert!(on_sample(&["-e", &long]).2.contains("refused 1: the query has 5,002 bytes, and 4,096 are the most\n\n    $.aaaa"));
    assert!(on_sample(&["-e", &long]).2.lines().all(|line| line.len() <= 130));
    // What stands between the line ends of a query is shown in one line.
    assert!(on_sample(&["-e", "$\n\\"]).2.contains("\n    $\\n\\\n"));
}

#[cfg(unix)]
#[test]
fn a_query_that_is_not_utf8() {
    let mut command = Command::new(env!("CARGO_BIN_EXE_stewpebble"));
    command.arg(<std::ffi::OsStr as std::os::unix::ffi::OsStrExt>::from_bytes(b"$.a\xFF"));
    assert_eq!(finished(&mut command, b"").2, "stewpebble: refused 2: the query is not UTF-8 after its first 3 bytes\n");
}

#[test]
fn the_limit() {
    let deep = format!("{}1{}", "[".repeat(50), "]".repeat(50));
    let query = format!("${}", "[*,*]".repeat(50));
    let (status, out, said) = run(&[&query], deep.as_bytes());
    assert_eq!((status, out.as_str()), (2, ""));
    assert_eq!(said, "stewpebble: refused 13: more than 1,048,576 nodes are selected, which is the limit\n");
    assert_eq!(on_sample(&["--limit", "2", "$.a[*]"]).2, "stewpebble: refused 13: more than 2 nodes are selected, which is the limit\n");
    assert_eq!(on_sample(&["--limit=3", "$.a[*]"]).0, 0);
    assert_eq!(on_sample(&["-l", "3", "$.a[*]"]).0, 0);
    assert!(on_sample(&["-e", "-l", "2", "$.a[*]"]).2.contains("by --limit"));
    assert!(on_sample(&["$", "--limit"]).2.contains("--limit takes a number"));
    assert!(on_sample(&["$", "--limit", "many"]).2.contains("\"many\" is none"));
}

#[test]
fn json_that_is_refused() {
    let members = format!("{{{}}}", (0..1025).map(|i| format!("\"{i}\":0")).collect::<Vec<_>>().join(","));
    let many = format!("[{}0]", "0,".repeat(65_534));
    let deep = "[".repeat(65) + &"]".repeat(65);
    for (json, words) in [
        ("", "line 1, column 1: a value is expected"),
        ("[1,\n  2,]", "line 2, column 5: a value is expected"),
        ("{\"a\":1,\"a\":2}", "line 1, column 8: the map has two members of this name"),
        ("[1e400]", "line 1, column 2: the number is too large for a float"),
        (deep.as_str(), "line 1, column 65: the value nests more than 63 deep"),
        (members.as_str(), "line 1, column 8108: the map has more than 1,024 members"),
        (many.as_str(), "the value has at least 65,536 nodes, and 65,535 are the most of a table"),
    ] {
        let (status, out, said) = run(&["$"], json.as_bytes());
        assert_eq!((status, out.as_str(), said), (2, "", format!("stewpebble: standard input: {words}\n")));
    }
    assert!(run(&["$"], b"[\"\xFF\"]").2.ends_with("the text is not UTF-8 after its first 2 bytes\n"));
    let path = file("wrong.json", b"[1,\n  2,]");
    let (_, _, said) = run(&["-e", "$", &path], b"");
    assert!(said.ends_with("wrong.json: line 2, column 5: a value is expected\n\n      2,]\n        ^\n"), "{said}");
    assert!(run(&["-e", "$"], many.as_bytes()).2.contains("65,535 nodes, 63 deep"));
    let long = format!("[{}x]", "1,".repeat(500));
    assert!(run(&["-e", "$"], long.as_bytes()).2.lines().all(|line| line.chars().count() <= 130));
}

#[test]
fn help_fits_a_screen() {
    let (status, out, said) = run(&["--help"], b"");
    assert_eq!((status, said.as_str()), (0, ""));
    assert!(out.lines().count() <= 24 && out.lines().all(|line| line.chars().count() <= 80), "{out}");
    for word in ["--paths", "--plan", "--explain", "--limit", "--help", "--version", "Exit status"] {
        assert!(out.contains(word), "{word}");
    }
    assert_eq!(run(&["--version"], b"").1, format!("stewpebble {}\n", env!("CARGO_PKG_VERSION")));
}

#[test]
fn words_that_are_wrong() {
    for (words, said) in [(&[][..], "a query is needed"), (&["--no"][..], "there is no option --no"), (&["$", "a", "b"][..], "b is too much")] {
        let (status, out, line) = run(words, b"");
        assert_eq!((status, out.as_str()), (2, ""));
        assert!(line.starts_with("stewpebble: ") && line.contains(said) && line.ends_with("; stewpebble --help says how it is used\n"), "{line}");
    }
}

#[test]
fn a_reader_that_has_seen_enough() {
    let list = format!("[{}0]", "0,".repeat(60_000));
    let path = file("list.json", list.as_bytes());
    let mut child = Command::new(env!("CARGO_BIN_EXE_stewpebble")).args(["$[*]", &path]).stdout(Stdio::piped()).stderr(Stdio::piped()).spawn().unwrap();
    drop(child.stdout.take());
    let Output { status, stderr, .. } = child.wait_with_output().unwrap();
    assert_eq!((status.code(), stderr.as_slice()), (Some(0), &b""[..]));
}
