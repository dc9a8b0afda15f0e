//! The command line tool: selects values of a JSON text by a query. `stewpebble --help` says how it is used.
mod explain;
mod options;

use options::{Asked, Options};
use std::ffi::OsStr;
use std::io::{self, BufWriter, ErrorKind, Read, Write};
use std::process::ExitCode;
use stewpebble::{compile_bytes, Plan, Refusal, Table};

/// What the exit status tells.
#[derive(Clone, Copy)]
enum Status {
    Found = 0,
    Nothing = 1,
    Refused = 2,
}

/// What was refused: a line in words, and more words for `--explain`.
struct Failure {
    line: String,
    more: String,
}

impl Failure {
    fn plain(line: impl ToString) -> Failure {
        Failure { line: line.to_string(), more: String::new() }
    }
}

fn main() -> ExitCode {
    let status = match options::read(std::env::args_os().skip(1)) {
        Ok(Asked::Help) => written(|out| out.write_all(options::HELP.as_bytes()), Status::Found),
        Ok(Asked::Version) => written(|out| writeln!(out, "stewpebble {}", env!("CARGO_PKG_VERSION")), Status::Found),
        Ok(Asked::Selection(options)) => answer(&options),
        Err(wrong) => refuse(&Failure::plain(wrong + "; stewpebble --help says how it is used"), false),
    };
    ExitCode::from(status as u8)
}

fn answer(options: &Options) -> Status {
    let done = match options.plan {
        true => compiled(options).map(|plan| written(|out| write_plan(out, &plan), Status::Found)),
        false => select(options),
    };
    done.unwrap_or_else(|failure| refuse(&failure, options.explain))
}

fn compiled(options: &Options) -> Result<Plan, Failure> {
    compile_bytes(&options.query).map_err(|refusal| refused(&refusal, options))
}

fn refused(refusal: &Refusal, options: &Options) -> Failure {
    Failure { line: format!("refused {}: {refusal}", refusal.number()), more: explain::query(refusal, &options.query) }
}

/// Compiles, reads and runs, in this order: a query that is refused waits for no input.
fn select(options: &Options) -> Result<Status, Failure> {
    let plan = compiled(options)?;
    let text = input(options)?;
    let named = |words: &dyn ToString| format!("{}: {}", options.source(), words.to_string());
    let table = Table::from_json(&text).map_err(|error| Failure { line: named(&error), more: explain::json(&error, &text) })?;
    let nodes = plan.run_up_to(&table, options.limit).map_err(|refusal| refused(&refusal, options))?;
    let status = if nodes.len() == 0 { Status::Nothing } else { Status::Found };
    let write = |out: &mut dyn Write| {
        for node in nodes {
            if options.paths {
                write!(out, "{}\t", node.path())?;
            }
            writeln!(out, "{node}")?;
        }
        Ok(())
    };
    Ok(written(write, status))
}

/// The whole of the file, or of standard input, which must be UTF-8.
fn input(options: &Options) -> Result<String, Failure> {
    let named = |words: &dyn ToString| Failure::plain(format!("{}: {}", options.source(), words.to_string()));
    let mut bytes = Vec::new();
    match options.file.as_deref().filter(|file| *file != OsStr::new("-")) {
        Some(file) => bytes = std::fs::read(file).map_err(|error| named(&error))?,
        None => drop(io::stdin().lock().read_to_end(&mut bytes).map_err(|error| named(&error))?),
    }
    String::from_utf8(bytes).map_err(|error| named(&format!("the text is not UTF-8 after its first {} bytes", error.utf8_error().valid_up_to())))
}

/// Each item with its place, its kind and its words, moved in as deep as it nests.
fn write_plan(out: &mut dyn Write, plan: &Plan) -> io::Result<()> {
    plan.items().try_for_each(|item| writeln!(out, "{:5}  {:02X}  {:indent$}{item}", item.at(), item.kind(), "", indent = 2 * item.level()))
}

/// Writes to standard output, and gives the status. A reader that has seen enough is no failure.
fn written(write: impl FnOnce(&mut dyn Write) -> io::Result<()>, status: Status) -> Status {
    let mut out = BufWriter::new(io::stdout().lock());
    match write(&mut out).and_then(|()| out.flush()) {
        Err(error) if error.kind() != ErrorKind::BrokenPipe => refuse(&Failure::plain(format!("standard output: {error}")), false),
        _ => status,
    }
}

/// Says on standard error what was refused. Where that cannot be written either, the status is left.
fn refuse(failure: &Failure, explain: bool) -> Status {
    let more = if explain { failure.more.as_str() } else { "" };
    let _ = write!(io::stderr().lock(), "stewpebble: {}\n{more}", failure.line);
    Status::Refused
}
