//! What the tool is asked for on the command line.
use std::ffi::{OsStr, OsString};
use stewpebble::DEFAULT_LIMIT;

pub const HELP: &str = "\
Selects values of a JSON text by a JSONPath query.

    stewpebble [OPTIONS] QUERY [FILE]

The JSON is read from FILE, or from standard input where FILE is - or not there.
Each selected value is written as a line of JSON.

    -p, --paths      before each value its path, as $['a'][0], and a tab
        --plan       write the plan that QUERY compiles to; no JSON is read
    -e, --explain    where something is refused, say what can be done about it
    -l, --limit N    refuse to select more than N nodes (1,048,576 if not given)
    -h, --help       write this text
    -V, --version    write the version

Exit status: 0 if values were found, 1 if there were none, 2 if refused.

    stewpebble '$.rows[?@.qty > 5].name' order.json
    stewpebble '$.rows[?match(@.name, \"b.*\")]' order.json
    echo '[1,2,3]' | stewpebble --paths '$[-1]'
";

/// What is to be done.
pub enum Asked {
    Help,
    Version,
    Selection(Options),
}

pub struct Options {
    pub query: Vec<u8>,
    pub file: Option<OsString>,
    pub paths: bool,
    pub plan: bool,
    pub explain: bool,
    pub limit: usize,
}

impl Options {
    /// The name of what is read, for messages.
    pub fn source(&self) -> String {
        match self.file.as_deref().filter(|file| *file != OsStr::new("-")) {
            Some(file) => file.to_string_lossy().into_owned(),
            None => "standard input".to_owned(),
        }
    }
}

/// Reads the words behind the tool's name; what is wrong with them, if anything is.
pub fn read(mut words: impl Iterator<Item = OsString>) -> Result<Asked, String> {
    let mut options = Options { query: Vec::new(), file: None, paths: false, plan: false, explain: false, limit: DEFAULT_LIMIT };
    let (mut plain, mut only_plain) = (Vec::new(), false);
    while let Some(word) = words.next() {
        let text = word.to_string_lossy().into_owned();
        match text.as_str() {
            _ if only_plain || text == "-" || !text.starts_with('-') => plain.push(word),
            "--" => only_plain = true,
            "-h" | "--help" => return Ok(Asked::Help),
            "-V" | "--version" => return Ok(Asked::Version),
            "-p" | "--paths" => options.paths = true,
            "--plan" => options.plan = true,
            "-e" | "--explain" => options.explain = true,
            "-l" | "--limit" => options.limit = limit(&words.next().unwrap_or_default().to_string_lossy())?,
            other => match other.strip_prefix("--limit=") {
                Some(number) => options.limit = limit(number)?,
                None => return Err(format!("there is no option {other}")),
            },
        }
    }
    arranged(options, plain).map(Asked::Selection)
}

/// The options with the query and the file.
fn arranged(mut options: Options, plain: Vec<OsString>) -> Result<Options, String> {
    let mut plain = plain.into_iter();
    options.query = bytes(plain.next().ok_or("a query is needed")?);
    options.file = plain.next();
    if let Some(third) = plain.next() {
        return Err(format!("a query and a file are enough: {} is too much (put the query into single quotes)", third.to_string_lossy()));
    }
    if options.plan && (options.file.is_some() || options.paths) {
        return Err("--plan reads no JSON, so neither a file nor --paths goes with it".to_owned());
    }
    Ok(options)
}

fn limit(number: &str) -> Result<usize, String> {
    number.parse().map_err(|_| format!("--limit takes a number of nodes, and {number:?} is none"))
}

/// The bytes of a word, which need not be UTF-8.
#[cfg(unix)]
fn bytes(word: OsString) -> Vec<u8> {
    std::os::unix::ffi::OsStringExt::into_vec(word)
}

#[cfg(not(unix))]
fn bytes(word: OsString) -> Vec<u8> {
    word.to_string_lossy().into_owned().into_bytes()
}
