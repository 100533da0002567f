//! The conversions between complete orders and legal plans (demand 3).

use crate::machine::Store;
use crate::numbers::Refusal;
use crate::order::{replay_with, Ending};
use crate::plan::check;
use crate::timing::Accepted;

/// A complete order's plan. "a round ends with a job's End": the round of a step is the number of
/// Ends before it, and a round's guess is the store where that round begins.
pub fn order_to_plan(accepted: &Accepted, order: &[u8]) -> Result<(Vec<u8>, Ending), Refusal> {
    let k = accepted.jobs.len();
    let mut guesses: Vec<Store> = vec![accepted.table.initial_store];
    let mut columns: Vec<Vec<[u8; 2]>> = vec![Vec::new(); k];
    let ending = replay_with(accepted, order, |state, job, value| {
        let round = guesses.len() - 1;
        columns[job.0].push([round as u8, value]);
        if state.has_ended(job) {
            guesses.push(state.store);
        }
    })?;
    // The last End begins no round: there are k rounds, so k guesses.
    guesses.truncate(k);
    let mut plan = vec![k as u8];
    plan.extend(guesses.concat());
    plan.extend(columns.concat().concat());
    Ok((plan, ending))
}

/// A legal plan's order: round after round, in each round job after job, the job's steps in it.
pub fn plan_to_order(accepted: &Accepted, plan: &[u8]) -> Result<(Vec<u8>, Ending), Refusal> {
    let (run, ending) = check(accepted, plan)?;
    let mut order = Vec::new();
    for round in 0..accepted.jobs.len() {
        for job in accepted.job_numbers() {
            let in_round = run.steps[job.0].iter().filter(|step| step.round.0 == round);
            order.extend(in_round.map(|step| 16 * accepted.base(job).0 + step.value));
        }
    }
    Ok((order, ending))
}
