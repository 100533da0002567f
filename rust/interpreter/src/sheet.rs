//! The section "The check program and its sheet".

use crate::numbers::{JobNumber, Refusal, TaskNumber};
use crate::timing::{accept, Accepted};
use crate::walk::{walk, Outcome};
use crate::{conversion, plan};
use std::fmt::Display;

/// "It ... uses allowance 1,000,000".
pub const SHEET_ALLOWANCE: u64 = 1_000_000;

/// The sheet of a file, each line ended by a newline. "with a file refusal that form (number,
/// place) is the only line."
pub fn sheet(file: &[u8]) -> String {
    match accept(file) {
        Err(Refusal { number, place }) => format!("refused {number} {place}\n"),
        Ok(accepted) => totals(&accepted) + &findings(&accepted),
    }
}

/// "First come totals and each task's line".
fn totals(accepted: &Accepted) -> String {
    let tasks = accepted.response_times.len();
    let mut text = format!("tasks {tasks} jobs {}\n", accepted.jobs.len());
    for (number, response) in accepted.response_times.iter().enumerate() {
        let task = TaskNumber(number as u8);
        let jobs = accepted.jobs.iter().filter(|job| job.task == task).count();
        text += &format!("task {number} response {response} jobs {jobs}\n");
    }
    text
}

/// "With no failure the sheet ends at `verdict holds N`. With 21 it ends at `refused 21 0`
/// instead".
fn findings(accepted: &Accepted) -> String {
    match walk(accepted, SHEET_ALLOWANCE) {
        Outcome::Undecided => "refused 21 0\n".to_string(),
        Outcome::Holds { count } => format!("verdict holds {count}\n"),
        Outcome::Fails { count, order, ending } => {
            let failed = accepted.job_numbers().filter(|job| ending.failed_jobs >> job.0 & 1 == 1);
            format!("verdict fails {count}\n")
                + &line("order", order.iter())
                + &line("failed", failed.map(|JobNumber(job)| job))
                + &rounds(accepted, &order)
        }
    }
}

/// "then each job's rounds in that order's plan."
fn rounds(accepted: &Accepted, order: &[u8]) -> String {
    let converted = conversion::order_to_plan(accepted, order);
    let run = converted.and_then(|(plan, _)| plan::run(accepted, &plan));
    let run = run.expect("a complete order converts to a plan");
    let job_line = |(job, steps): (usize, &Vec<plan::PlanStep>)| {
        line(&format!("job {job} rounds"), steps.iter().map(|step| step.round.0))
    };
    run.steps.iter().enumerate().map(job_line).collect()
}

/// A word and numbers, separated by single spaces.
fn line(word: &str, numbers: impl Iterator<Item = impl Display>) -> String {
    let text: String = numbers.map(|number| format!(" {number}")).collect();
    format!("{word}{text}\n")
}
