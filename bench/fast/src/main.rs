//! The baseline that the program is measured beside: a replay in plain Rust that was written for speed. Nothing in it is proved, and it is no
//! reference of what is right.
//!
//! fast [--suppress FILE] [--explain] [--byte-limit N] TRACE
//!
//! It reads a trace and writes the report and the exit status of docs/FORMATS.md. It goes over the bytes once and keeps no list of steps. What makes
//! it fast: masks of the bytes that part words, 64 bytes at a time; names of up to 8 bytes as integers; shadow words of 4 bytes in pages, fetched some
//! lines before they are needed; locksets with numbers, and remembered intersections.

mod bytes;
mod lines;
mod machine;
mod maps;
mod names;
mod reader;
mod reasons;
mod report;
mod rules;
mod sets;
mod shadow;

use reader::{Fault, TextFault};
use rules::Rules;
use std::fs::File;
use std::io::{self, Read, Write};
use std::process::ExitCode;

const USAGE: &str = "usage: fast [--suppress FILE] [--explain] [--byte-limit N] TRACE";
/// The bytes that a text may have if no limit is given.
const BYTE_LIMIT: u64 = 268_435_456;

/// What the command line asks for.
struct Options {
    suppressions: Option<String>,
    explain: bool,
    byte_limit: u64,
    trace: String,
}

impl Options {
    fn read(mut words: impl Iterator<Item = String>) -> Option<Options> {
        let (mut suppressions, mut explain, mut byte_limit, mut trace) = (None, false, BYTE_LIMIT, None);
        while let Some(word) = words.next() {
            match word.as_str() {
                "--suppress" => suppressions = Some(words.next()?),
                "--explain" => explain = true,
                "--byte-limit" => byte_limit = words.next()?.parse().ok()?,
                _ => trace = Some(word),
            }
        }
        Some(Options { suppressions, explain, byte_limit, trace: trace? })
    }
}

/// A whole report with its exit status, or the line of a fault with its own.
struct Outcome {
    report: Vec<u8>,
    errors: String,
    status: u8,
}

impl Outcome {
    fn fault(line: String, status: u8) -> Outcome {
        Outcome { report: Vec::new(), errors: line + "\n", status }
    }

    fn of(fault: Fault, text: &str) -> Outcome {
        match fault {
            Fault::Text(TextFault { line, kind }) => Outcome::fault(format!("{text}line {line}: {kind}"), 2),
            Fault::Read => Outcome::fault("read fault".to_string(), 4),
        }
    }
}

fn run(options: &Options) -> Result<Outcome, Outcome> {
    let mut rules = Rules::default();
    if let Some(path) = &options.suppressions {
        let mut file = File::open(path).map_err(|_| Outcome::fault("cannot open suppressions".to_string(), 4))?;
        reader::feed(&mut file, options.byte_limit, &mut rules).map_err(|fault| Outcome::of(fault, "suppressions "))?;
    }
    let mut reader: Box<dyn Read> = match options.trace.as_str() {
        "-" => Box::new(io::stdin().lock()),
        path => Box::new(File::open(path).map_err(|_| Outcome::fault("cannot open trace".to_string(), 4))?),
    };
    let replayed = match options.explain {
        true => lines::replay::<true>(&mut reader, options.byte_limit, &rules),
        false => lines::replay::<false>(&mut reader, options.byte_limit, &rules),
    };
    let (report, status) = replayed.map_err(|fault| Outcome::of(fault, ""))?;
    Ok(Outcome { report, errors: String::new(), status })
}

fn main() -> ExitCode {
    let Some(options) = Options::read(std::env::args().skip(1)) else {
        eprintln!("{USAGE}");
        return ExitCode::from(2);
    };
    let outcome = run(&options).unwrap_or_else(|fault| fault);
    if io::stdout().write_all(&outcome.report).and_then(|()| io::stdout().flush()).is_err() {
        eprintln!("write fault");
        return ExitCode::from(4);
    }
    eprint!("{}", outcome.errors);
    ExitCode::from(outcome.status)
}
