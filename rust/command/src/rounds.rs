//! The parts of a plan, found with the order that it came from.

use adqurim::{BYTES_OF_TASK, VARIABLES};

/// A step's two bytes in a plan.
#[derive(Debug, Clone, Copy, PartialEq, Eq)]
pub struct Step {
    pub round: u8,
    pub value: u8,
}

/// A plan's guesses and its jobs' steps.
#[derive(Debug, PartialEq, Eq)]
pub struct Parts {
    /// The store that each round starts with.
    pub stores: Vec<[u8; VARIABLES]>,
    /// By job number.
    pub jobs: Vec<Vec<Step>>,
}

/// Of a plan: the step's round and its value.
const BYTES_OF_STEP: usize = 2;

/// The parts of a complete order's plan.
///
/// Jobs are numbered by task, then by arrival, and a task's jobs run one after the other, so the
/// plan has the order's steps sorted by task. A round ends with a job's End, so a step is the last
/// of its job if the step after it in the order is in another round.
pub fn parts(order: &[u8], plan: &[u8]) -> Parts {
    let (stores, steps) = plan[1..].split_at(usize::from(plan[0]) * VARIABLES);
    let store = |bytes: &[u8]| std::array::from_fn(|variable| bytes[variable]);
    let step = |bytes: &[u8]| Step { round: bytes[0], value: bytes[1] };
    let stores = stores.chunks(VARIABLES).map(store).collect();
    let steps: Vec<Step> = steps.chunks(BYTES_OF_STEP).map(step).collect();
    let mut by_task: Vec<usize> = (0..order.len()).collect();
    by_task.sort_by_key(|place| order[*place] / BYTES_OF_TASK);
    let mut rounds = vec![0; order.len()];
    by_task.iter().zip(&steps).for_each(|(place, step)| rounds[*place] = step.round);
    let ends = |place: usize| rounds.get(place + 1) != Some(&rounds[place]);
    let (mut jobs, mut job) = (Vec::new(), Vec::new());
    for (place, step) in by_task.iter().zip(&steps) {
        job.push(*step);
        if ends(*place) {
            jobs.push(std::mem::take(&mut job));
        }
    }
    Parts { stores, jobs }
}
