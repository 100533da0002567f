//! The program `adqurim`.

use command::{run, Streams};
use std::ffi::OsString;
use std::io::{self, IsTerminal};
use std::process::ExitCode;

fn main() -> ExitCode {
    let words: Vec<OsString> = std::env::args_os().skip(1).collect();
    let mut streams = Streams {
        input: &mut io::stdin(),
        output: &mut io::stdout(),
        errors: &mut io::stderr(),
        watched: io::stderr().is_terminal(),
    };
    ExitCode::from(run(&words, &mut streams) as u8)
}
