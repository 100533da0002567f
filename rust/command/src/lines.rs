//! Lines of a word and numbers.

use adqurim::{Ending, JobNumber, Refusal};
use std::fmt::Display;

/// A word and numbers, separated by single spaces.
pub fn line(word: &str, numbers: impl IntoIterator<Item = impl Display>) -> String {
    let text: String = numbers.into_iter().map(|number| format!(" {number}")).collect();
    format!("{word}{text}\n")
}

/// The numbers of the jobs that failed; `none` if there are none.
fn failed(jobs: &[JobNumber]) -> String {
    match jobs {
        [] => "failed none\n".to_string(),
        _ => line("failed", jobs.iter().map(|job| job.0)),
    }
}

/// What an order or a plan ends with.
pub fn ending(ending: &Ending) -> String {
    failed(&ending.failed_jobs) + &line("store", ending.end_store)
}

/// A refusal in the form of the sheet.
pub fn refused(refusal: &Refusal) -> String {
    line("refused", [refusal.number, refusal.place])
}
