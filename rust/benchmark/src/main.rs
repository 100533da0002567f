//! Times the proved entries and the interpreter on the same inputs, and the proved walk beside a
//! walker in Rust; prints a table for each entry and writes them to `docs/BENCHMARKS.md`, above what
//! that page keeps of earlier measurements.

#![forbid(unsafe_code)]

mod files;
mod measure;
mod report;
mod stack;
mod walker;
mod walks;

use files::Row;
use measure::{time_both, Side};
use report::{Tables, Timing};
use std::time::Duration;
use walks::WalkTiming;

/// Where the tables are kept.
const PAGE: &str = concat!(env!("CARGO_MANIFEST_DIR"), "/../../docs/BENCHMARKS.md");

/// The times of a row's input, or of its slowest by the proved entry.
fn measure_row(row: Row) -> std::io::Result<Timing> {
    eprintln!("{}", row.name);
    let mut slowest = &row.inputs[0];
    let mut most = Duration::ZERO;
    for input in row.inputs.iter().filter(|_| row.inputs.len() > 1) {
        let time = Side::Proved.least(input)?;
        if time > most {
            (slowest, most) = (input, time);
        }
    }
    let [proved, interpreter] = time_both(slowest);
    let number = slowest.number();
    Ok(Timing { name: row.name, kind: row.kind, number, proved, interpreter })
}

fn measure_rows(rows: Vec<Row>) -> std::io::Result<Vec<Timing>> {
    rows.into_iter().map(measure_row).collect()
}

fn main() -> std::io::Result<()> {
    // A child is told which side to run once.
    if let Some(side) = std::env::args().nth(1).and_then(|name| Side::named(&name)) {
        return side.answer_parent();
    }
    if let Some(answered) = stack::answer_parent() {
        return answered;
    }
    let load = report::load();
    let reads = measure_rows(files::read_rows())?;
    let replays = measure_rows(files::replay_rows())?;
    let plans = measure_rows(files::plan_rows())?;
    let conversions = measure_rows(files::conversion_rows())?;
    let files = measure_rows(files::file_rows())?;
    let memories = measure_rows(files::memory_rows())?;
    let texts = measure_rows(files::text_rows())?;
    let walks: Vec<WalkTiming> = walks::walk_rows().into_iter().map(walks::time_walks).collect();
    let tables = Tables {
        reads: report::read_table(&reads),
        replays: report::replay_table(&replays),
        plans: report::plan_table(&plans),
        conversions: report::conversion_table(&conversions),
        files: report::file_table(&files),
        memories: report::memory_table(&memories),
        texts: report::text_table(&texts),
        walks: report::walk_table(&walks),
        stack: report::stack(stack::least_kib()?),
    };
    let Tables { reads, replays, plans, conversions, .. } = &tables;
    print!("{reads}\n{replays}\n{plans}\n{conversions}\n");
    let Tables { files, memories, texts, walks, stack, .. } = &tables;
    print!("{files}\n{memories}\n{texts}\n{walks}\n{stack}");
    let page = report::page(&tables, &load);
    std::fs::write(PAGE, page + &report::history(&std::fs::read_to_string(PAGE)?))
}
