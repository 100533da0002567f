//! The program `adqurim`: every proved entry by hand, over the binding and the standard library
//! alone. [`run`] is the whole program with its streams lent.

#![forbid(unsafe_code)]

mod arguments;
mod entries;
mod help;
mod lines;
mod progress;
mod records;
mod rounds;
mod sheet;
mod sources;

use arguments::Asked;
use std::ffi::OsString;
use std::fmt;
use std::io::{self, Read, Write};

pub use progress::allowances;

/// How the program ends.
#[derive(Debug, Clone, Copy, PartialEq, Eq)]
pub enum Status {
    /// The table holds, or what was given is accepted.
    Accepted = 0,
    /// The walk found an order that fails.
    Fails = 1,
    /// A missing or unreadable file, or words that ask for nothing.
    Unusable = 2,
    /// Refused, or undecided within the allowance.
    Refused = 3,
}

/// What the program reads and writes.
pub struct Streams<'a> {
    pub input: &'a mut dyn Read,
    pub output: &'a mut dyn Write,
    pub errors: &'a mut dyn Write,
    /// Whether someone watches the errors, so that a long walk shows that it is running.
    pub watched: bool,
}

/// Why the program does not come to an answer.
#[derive(Debug)]
enum Problem {
    /// The words ask for nothing; the second part says whose help to read.
    Usage(String, String),
    /// A name of what was to be read, and why it could not be.
    Unreadable(String, io::Error),
    Unwritable(io::Error),
}

impl From<io::Error> for Problem {
    /// What is read says so with its name, so this is about writing.
    fn from(error: io::Error) -> Problem {
        Problem::Unwritable(error)
    }
}

impl fmt::Display for Problem {
    fn fmt(&self, f: &mut fmt::Formatter<'_>) -> fmt::Result {
        match self {
            Problem::Usage(says, help) => write!(f, "{says}\nadqurim: try `{help}`"),
            Problem::Unreadable(name, error) => write!(f, "cannot read {name}: {error}"),
            Problem::Unwritable(error) => write!(f, "cannot write: {error}"),
        }
    }
}

/// Does what the words ask for, the program's own name not among them.
pub fn run(words: &[OsString], streams: &mut Streams) -> Status {
    let answered = arguments::parse(words).and_then(|asked| match asked {
        Asked::Help(subcommand) => {
            streams.output.write_all(help::text(subcommand).as_bytes())?;
            Ok(Status::Accepted)
        }
        Asked::Request(request) => entries::answer(&request, streams),
    });
    answered.and_then(|status| flush(streams).map(|()| status)).unwrap_or_else(|problem| {
        // If this cannot be written either, the status alone has to do.
        let _ = writeln!(streams.errors, "adqurim: {problem}");
        Status::Unusable
    })
}

fn flush(streams: &mut Streams) -> Result<(), Problem> {
    Ok(streams.output.flush()?)
}
