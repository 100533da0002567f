//! Listings of every complete order and every legal plan of a small table.

use interpreter::file::MOST_LOCKS;
use interpreter::machine::{perform, values_on_offer, Instruction, Local, LockCounts, Store};
use interpreter::order::{Ending, State};
use interpreter::timing::Accepted;
use interpreter::{plan, JobNumber};
use std::collections::BTreeMap;
use std::ops::RangeInclusive;

/// The counts of a job that holds no lock.
const NONE_HELD: LockCounts = [0; MOST_LOCKS];

/// All complete orders, found by trying all 256 bytes at each state.
#[derive(Debug, Default)]
pub struct Orders {
    /// Each order and what it ends with, in ascending byte order.
    pub complete: BTreeMap<Vec<u8>, Ending>,
    /// All moves: every allowed step from every state reached, each path on its own.
    pub moves: u64,
    /// States without a move in which not all jobs have ended.
    pub dead_ends: u64,
    /// Starts while another job is active.
    pub preemptions: u64,
    /// Starts while two or more jobs are active.
    pub preemptions_of_two: u64,
    /// Starts while an active job holds a lock.
    pub preemptions_under_lock: u64,
    /// States in which a start is kept back by a present priority alone.
    pub held_back: u64,
    /// Steps with a Pick value above 0.
    pub picked: u64,
    /// Skips that passed over an instruction.
    pub skipped: u64,
}

/// Lists the orders; None if there are more than `most`.
pub fn orders(accepted: &Accepted, most: usize) -> Option<Orders> {
    let mut found = Orders::default();
    let complete = explore(accepted, &State::first(accepted), &mut Vec::new(), most, &mut found);
    complete.then_some(found)
}

/// All orders from one state on; false if there are too many.
fn explore(
    accepted: &Accepted,
    state: &State,
    path: &mut Vec<u8>,
    most: usize,
    found: &mut Orders,
) -> bool {
    let ended = state.all_ended();
    if ended {
        found.complete.insert(path.clone(), state.ending());
    }
    let moves_before = found.moves;
    note_held_back(accepted, state, found);
    for byte in 0..=255 {
        let mut next = state.clone();
        if let Ok(job) = next.step(accepted, byte) {
            found.moves += 1;
            note_step(accepted, state, &next, (job, byte), found);
            path.push(byte);
            if found.complete.len() > most || !explore(accepted, &next, path, most, found) {
                return false;
            }
            path.pop();
        }
    }
    found.dead_ends += u64::from(!ended && found.moves == moves_before);
    true
}

/// Counts what makes a step interesting.
fn note_step(
    accepted: &Accepted,
    state: &State,
    next: &State,
    (job, byte): (JobNumber, u8),
    found: &mut Orders,
) {
    let starts = state.locals[job.0].is_none();
    let holds = |x: &JobNumber| state.locals[x.0].is_some_and(|local| local.held != NONE_HELD);
    found.preemptions += u64::from(starts && !state.active.is_empty());
    found.preemptions_of_two += u64::from(starts && state.active.len() >= 2);
    found.preemptions_under_lock += u64::from(starts && state.active.iter().any(holds));
    found.picked += u64::from(byte % 16 > 0);
    let position = |state: &State| state.locals[job.0].unwrap_or_default().position;
    let skips = matches!(
        state.next_instruction(accepted, job),
        Instruction::SkipIfLess { .. } | Instruction::SkipIfEqual { .. }
    );
    found.skipped += u64::from(skips && position(next) > position(state) + 1);
}

/// Counts a state in which a job would start if no active job held a lock.
fn note_held_back(accepted: &Accepted, state: &State, found: &mut Orders) {
    let mut without_locks = state.clone();
    without_locks.locals.iter_mut().flatten().for_each(|local| local.held = NONE_HELD);
    let kept_back =
        |job: JobNumber| !state.may_start(accepted, job) && without_locks.may_start(accepted, job);
    found.held_back += u64::from(accepted.job_numbers().any(kept_back));
}

/// One way for a job to run in a plan: for each step its round, for each position of its body the
/// value there if it is a Pick. Both are as long as the body; a job may need less of them.
pub struct Choice {
    pub rounds: Vec<u8>,
    pub values: Vec<u8>,
}

/// All plans that the checker accepts, and how many were refused by 43 and 44.
#[derive(Debug, Default)]
pub struct Plans {
    pub legal: BTreeMap<Vec<u8>, Ending>,
    pub refused_43: u64,
    pub refused_44: u64,
}

/// Lists the legal plans out of all round assignments and Pick values. None if there are more than
/// `most` assignments.
pub fn plans(accepted: &Accepted, most: usize) -> Option<Plans> {
    let mut found = Plans::default();
    let listed = each_plan(accepted, most, |plan| match plan::check(accepted, &plan) {
        Ok((_, ending)) => drop(found.legal.insert(plan, ending)),
        Err(refusal) if refusal.number == 43 => found.refused_43 += 1,
        Err(refusal) if refusal.number == 44 => found.refused_44 += 1,
        Err(refusal) => panic!("a forced plan is refused by {refusal:?}"),
    });
    listed.then_some(found)
}

/// Visits the plan of each round assignment with each choice of Pick values, its guesses right.
/// Every legal plan is among them, some more than once, as a job may need less than its choice.
/// False, and none visited, if there are more than `most`. A job's rounds never fall, so round r
/// depends on the guesses up to r alone and the right guesses are forced.
pub fn each_plan(accepted: &Accepted, most: usize, mut visit: impl FnMut(Vec<u8>)) -> bool {
    let choices: Vec<Vec<Choice>> =
        accepted.job_numbers().map(|job| job_choices(accepted, job)).collect();
    let total = choices.iter().try_fold(1_usize, |total, of_job| total.checked_mul(of_job.len()));
    let Some(total) = total.filter(|total| *total <= most) else { return false };
    for mut number in 0..total {
        let mut chosen = Vec::new();
        for of_job in &choices {
            chosen.push(&of_job[number % of_job.len()]);
            number /= of_job.len();
        }
        visit(forced_plan(accepted, &chosen));
    }
    true
}

/// Every sequence of rounds that never falls, with every value for each Pick of the body.
fn job_choices(accepted: &Accepted, job: JobNumber) -> Vec<Choice> {
    let body = &accepted.task(job).body;
    let k = accepted.jobs.len() as u8;
    let mut rounds: Vec<Vec<u8>> = vec![Vec::new()];
    let mut values: Vec<Vec<u8>> = vec![Vec::new()];
    for placed in body {
        rounds = extend(rounds, |so_far| so_far.last().copied().unwrap_or(0)..=k - 1);
        values = extend(values, |_| values_on_offer(placed.instruction));
    }
    let all = |rounds: &Vec<u8>| -> Vec<Choice> {
        let one = |values: &Vec<u8>| Choice { rounds: rounds.clone(), values: values.clone() };
        values.iter().map(one).collect()
    };
    rounds.iter().flat_map(all).collect()
}

/// Each list with each of its possible next bytes at its end.
fn extend(lists: Vec<Vec<u8>>, next: impl Fn(&[u8]) -> RangeInclusive<u8>) -> Vec<Vec<u8>> {
    let longer = |list: Vec<u8>| -> Vec<Vec<u8>> {
        next(&list).map(|byte| [&list[..], &[byte]].concat()).collect()
    };
    lists.into_iter().flat_map(longer).collect()
}

/// The plan of one choice for each job with its forced guesses: k times, guess r + 1 becomes the
/// store left in round r.
pub fn forced_plan(accepted: &Accepted, chosen: &[&Choice]) -> Vec<u8> {
    let k = chosen.len();
    let mut guesses: Vec<Store> = vec![accepted.table.initial_store; k];
    let mut columns = Vec::new();
    for _ in 0..=k {
        let mut left = guesses.clone();
        columns.clear();
        for (job, choice) in accepted.job_numbers().zip(chosen) {
            run_choice(accepted, job, choice, &mut left, &mut columns);
        }
        if k > 0 && guesses[1..] == left[..k - 1] {
            break;
        }
        guesses.iter_mut().skip(1).zip(left).for_each(|(guess, left)| *guess = left);
    }
    let mut plan = vec![k as u8];
    plan.extend(guesses.concat());
    plan.extend(columns);
    plan
}

/// Runs one job whole by its choice and appends the pairs it used.
fn run_choice(
    accepted: &Accepted,
    job: JobNumber,
    choice: &Choice,
    left: &mut [Store],
    columns: &mut Vec<u8>,
) {
    let mut local = Local::default();
    for round in &choice.rounds {
        let value = choice.values[local.position];
        columns.extend([*round, value]);
        let instruction = accepted.task(job).body[local.position].instruction;
        perform(&mut local, &mut left[*round as usize], instruction, value);
        if local.ended {
            return;
        }
    }
    unreachable!("each body ends within its length");
}
