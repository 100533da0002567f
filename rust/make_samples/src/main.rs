//! Rewrites the task file and the sheet of every sample from its text.

use std::{env, fs, io};

fn main() -> io::Result<()> {
    if env::args().len() > 1 {
        eprintln!("usage: make_samples (it rewrites the task file and the sheet of every sample)");
        std::process::exit(2);
    }
    for sample in make_samples::all() {
        fs::write(make_samples::path(sample.name, "task"), sample.file())?;
        fs::write(make_samples::path(sample.name, "sheet"), sample.sheet())?;
        println!("{}", sample.name);
    }
    Ok(())
}
