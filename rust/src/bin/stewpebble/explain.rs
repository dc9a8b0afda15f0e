//! What `--explain` adds to a refusal: the query or the line of JSON, and what can be done.
use stewpebble::{Error, JsonError, Refusal};

/// So many characters of a line are shown on each side of a mark, and twice as many of a query.
const SHOWN: usize = 60;

/// The query, what is seen of it, and what the refusal asks for.
pub fn query(refusal: &Refusal, query: &[u8]) -> String {
    let text = String::from_utf8_lossy(query);
    let mut out = format!("\n    {}\n\n", shown(&text));
    if *refusal == Refusal::Syntax {
        for seen in seen(&text) {
            out += &format!("{seen}\n");
        }
    }
    out + advice(refusal) + "\n"
}

/// A query in one line, cut off where it is long: what has no sign of its own is escaped.
fn shown(text: &str) -> String {
    let sign = |c: char| if c.is_control() || c == '\u{FEFF}' { c.escape_default().to_string() } else { c.to_string() };
    let end = if text.chars().count() > 2 * SHOWN { " ..." } else { "" };
    text.chars().take(2 * SHOWN).map(sign).collect::<String>() + end
}

/// What shows in the letters of a query that is not in the grammar.
fn seen(text: &str) -> Vec<&'static str> {
    let blank = |c: char| matches!(c, ' ' | '\t' | '\n' | '\r');
    let facts = [
        (text.is_empty(), "The query is empty; the shortest is $, which selects the whole value."),
        (text.starts_with('\u{FEFF}'), "It begins with a byte order mark, which is no part of a query."),
        (text.starts_with(blank), "It begins with a blank or a line end, which is no part of a query."),
        (text.ends_with(blank), "It ends with a blank or a line end, which is no part of a query."),
        (!text.is_empty() && !text.trim_start_matches('\u{FEFF}').trim_start_matches(blank).starts_with('$'), "It does not begin with $. (A shell takes $ away outside of single quotes.)"),
    ];
    facts.into_iter().filter(|(holds, _)| *holds).map(|(_, words)| words).collect()
}

fn advice(refusal: &Refusal) -> &'static str {
    match refusal {
        Refusal::QueryTooLong { .. } => "Select a part first, and query that by the rest.",
        Refusal::QueryNotUtf8 { .. } => "Write the query in UTF-8.",
        Refusal::QueryTooDeep => "Brackets are [ and ( outside of quotes. Fewer filters inside filters, or fewer parentheses, need fewer.",
        Refusal::Syntax => {
            "A query is $ and then segments: .name ['name'] [0] [-1] [1:3] [*] ..name [?@.price < 10]\n\
             An index or a slice number is a whole number up to 9,007,199,254,740,991, without leading\n\
             zeros. Names with blanks or signs stand in brackets and quotes."
        }
        Refusal::Type => {
            "count(..) and value(..) take a query; length(..) takes a literal, a query that selects at\n\
             most one node, or one of these three. Only these can be compared: literals, queries that select\n\
             at most one node (no * and .. and slice), and these functions. None of them alone is a test, and\n\
             ! takes none: write !@.* to ask whether there is nothing, and count(@.*) == 0 to ask for a number.\n\
             match(..) and search(..) take a text and an expression, each as length takes its operand, and\n\
             are tests: they are compared with nothing."
        }
        Refusal::UnknownFunction => "The functions are count, length, value, match and search, in small letters.",
        Refusal::Regex => "Make the library and the tool from one version.",
        Refusal::NumberBeyond => {
            "Whole numbers up to 9,223,372,036,854,775,807 are read as integers. Every other number is\n\
             read as the nearest float: it may have 19 digits, its exponent less the digits of its\n\
             fraction may be from -342 to 308, and it may not pass the largest float, 1.8e308."
        }
        Refusal::LimitPassed { .. } => "Set another limit by --limit, or select less.",
        _ => "docs/REFERENCE.md of the repository has all refusals.",
    }
}

/// The line of JSON with a mark where the fault is, or the limits if the fault is in the whole.
pub fn json(error: &Error, text: &str) -> String {
    match error {
        Error::Json(error) => marked(error, text),
        _ => "\nA table holds at most 65,535 nodes, 63 deep, maps of 1,024 members, and 16,777,216 bytes of text.\nSplit the JSON, and select in each part.\n".to_owned(),
    }
}

fn marked(error: &JsonError, text: &str) -> String {
    let line = text.split('\n').nth(error.line - 1).unwrap_or_default().trim_start_matches('\u{FEFF}');
    let first = error.column.saturating_sub(SHOWN + 1);
    // Each character takes one place, so that the mark stands under its own.
    let shown: String = line.chars().skip(first).take(2 * SHOWN).map(|c| if c.is_control() { ' ' } else { c }).collect();
    format!("\n    {shown}\n    {:indent$}^\n", "", indent = error.column - 1 - first)
}
