//! The totals at a sheet's front, and what a sheet comes to.

use adqurim::{Job, Refusal, Timing};

/// The totals, and a line for each task of an accepted file.
pub fn totals(timing: &Timing, jobs: &[Job]) -> String {
    let times = &timing.response_times;
    let mut text = format!("tasks {} jobs {}\n", times.len(), timing.jobs);
    for (task, response) in times.iter().enumerate() {
        let own = jobs.iter().filter(|job| usize::from(job.task) == task).count();
        text += &format!("task {task} response {response} jobs {own}\n");
    }
    text
}

/// What a sheet comes to.
#[derive(Debug, PartialEq, Eq)]
pub enum Finding {
    Holds,
    Fails,
    Refused(Refusal),
}

/// What a sheet comes to, by the line that says it.
pub fn finding(sheet: &str) -> Finding {
    let of_line = |line: &str| {
        let words: Vec<&str> = line.split(' ').collect();
        match words[..] {
            ["verdict", "holds", _] => Some(Finding::Holds),
            ["verdict", "fails", _] => Some(Finding::Fails),
            ["refused", number, place] => {
                let (number, place) = (number.parse().ok()?, place.parse().ok()?);
                Some(Finding::Refused(Refusal { number, place }))
            }
            _ => None,
        }
    };
    sheet.lines().find_map(of_line).expect("each sheet has a verdict or a refusal")
}
