//! The section "Round plans", with numbers 40 to 45.

use crate::machine::{perform, priority, values_on_offer, Local, Store};
use crate::numbers::{refuse, JobNumber, Refusal, RoundNumber};
use crate::order::Ending;
use crate::timing::Accepted;

/// One step of a job in a plan.
#[derive(Debug, Clone, Copy, PartialEq, Eq)]
pub struct PlanStep {
    pub round: RoundNumber,
    pub value: u8,
    /// The job's priority after this step.
    pub priority: u8,
}

/// A plan that earned none of 40 to 42, and its run.
#[derive(Debug, Clone, PartialEq, Eq)]
pub struct Run {
    /// One store for each round: "the guessed start of each round".
    pub guesses: Vec<Store>,
    /// The store left in each round when all jobs have run.
    pub left: Vec<Store>,
    /// For each job its steps.
    pub steps: Vec<Vec<PlanStep>>,
    /// Bit j is set if job j has a failed assertion noted.
    pub failed_jobs: u32,
}

impl Run {
    /// "Start and end of a job are the rounds of its first and last step."
    pub fn start(&self, job: JobNumber) -> RoundNumber {
        self.steps[job.0][0].round
    }

    /// The round of a job's last step. Each body has an End, so each job has a step.
    pub fn end(&self, job: JobNumber) -> RoundNumber {
        self.steps[job.0][self.steps[job.0].len() - 1].round
    }

    /// "The end store is that of the last round, or the initial store if k is 0. A plan ends with
    /// that store and the jobs its run noted as failed."
    fn ending(&self, initial_store: Store) -> Ending {
        let store = self.left.last().copied().unwrap_or(initial_store);
        Ending { store, failed_jobs: self.failed_jobs }
    }
}

/// The plan's bytes and how many of them have been read.
struct Bytes<'a> {
    plan: &'a [u8],
    offset: usize,
}

impl Bytes<'_> {
    /// The next bytes. Number 40: "bytes run out"; the first missing byte is at the plan's length.
    fn take<const N: usize>(&mut self) -> Result<[u8; N], Refusal> {
        match self.plan[self.offset..].first_chunk::<N>() {
            Some(bytes) => {
                self.offset += N;
                Ok(*bytes)
            }
            None => refuse(40, self.plan.len()),
        }
    }
}

/// "A plan checks 40 for the first byte and guesses, then per step 40, 42, 41, then leftover 40".
/// "Jobs run whole, in number order, each step on its round's store, which at first is that
/// round's guess."
pub fn run(accepted: &Accepted, plan: &[u8]) -> Result<Run, Refusal> {
    let k = accepted.jobs.len();
    let mut bytes = Bytes { plan, offset: 0 };
    if bytes.take::<1>()? != [k as u8] {
        return refuse(40, 0);
    }
    let guesses = (0..k).map(|_| bytes.take::<8>()).collect::<Result<Vec<Store>, Refusal>>()?;
    let mut run = Run { left: guesses.clone(), guesses, steps: Vec::new(), failed_jobs: 0 };
    for job in accepted.job_numbers() {
        run_job(accepted, job, &mut bytes, &mut run)?;
    }
    if bytes.offset < plan.len() {
        return refuse(40, bytes.offset);
    }
    Ok(run)
}

/// One job from its first instruction to its End, on the stores of the rounds of its steps.
fn run_job(
    accepted: &Accepted,
    job: JobNumber,
    bytes: &mut Bytes,
    run: &mut Run,
) -> Result<(), Refusal> {
    let (mut local, mut steps) = (Local::default(), Vec::new());
    let mut previous = RoundNumber(0);
    while !local.ended {
        let at = bytes.offset;
        let [round, value] = bytes.take::<2>()?;
        let round = RoundNumber(round as usize);
        // Number 42: "at least k, or below the job's previous step; offset."
        if round.0 >= accepted.jobs.len() || round < previous {
            return refuse(42, at);
        }
        // Number 41: "not a value its instruction allows; offset." 02, E7: "34 and 41 speak of the
        // new range."
        let instruction = accepted.task(job).body[local.position].instruction;
        if !values_on_offer(instruction).contains(&value) {
            return refuse(41, at + 1);
        }
        perform(&mut local, &mut run.left[round.0], instruction, value);
        let priority = priority(accepted.base(job), &local.held, &accepted.table.ceilings);
        steps.push(PlanStep { round, value, priority });
        previous = round;
    }
    run.failed_jobs |= u32::from(local.failed) << job.0;
    run.steps.push(steps);
    Ok(())
}

/// Whether a pair keeps the round rules in this direction, "locks aside".
pub fn rounds_kept(accepted: &Accepted, run: &Run, x: JobNumber, y: JobNumber) -> bool {
    // "X before Y: end X < start Y."
    let before_kept = !accepted.comes_before(x, y) || run.end(x) < run.start(y);
    // "Y may preempt X: either end X < start Y, or end Y < start X, or" the third case.
    let preempt_kept = !accepted.may_preempt(y, x)
        || run.end(x) < run.start(y)
        || run.end(y) < run.start(x)
        || (nested(run, x, y) && leaves_rounds(run, x, y));
    before_kept && preempt_kept
}

/// The third case: "start X ≤ start Y and end Y < end X."
fn nested(run: &Run, x: JobNumber, y: JobNumber) -> bool {
    run.start(x) <= run.start(y) && run.end(y) < run.end(x)
}

/// "In the third case X has no step in rounds start Y + 1 to end Y".
fn leaves_rounds(run: &Run, x: JobNumber, y: JobNumber) -> bool {
    let closed = |round: RoundNumber| run.start(y) < round && round <= run.end(y);
    !run.steps[x.0].iter().any(|step| closed(step.round))
}

/// "and after X's steps up to round start Y its priority is below Y's base." Only a nested pair
/// has this clause. Priorities are those of the lock counts: "the plan's lock clause reads them"
/// (02, E3).
pub fn priority_kept(accepted: &Accepted, run: &Run, x: JobNumber, y: JobNumber) -> bool {
    let mut up_to_start = run.steps[x.0].iter().rev().filter(|step| step.round <= run.start(y));
    let reached = up_to_start.next().map(|step| step.priority);
    !accepted.may_preempt(y, x)
        || !nested(run, x, y)
        || reached.is_some_and(|priority| priority < accepted.base(y).0)
}

/// The first pair, "by lower, then higher job number", that a rule refuses in either direction;
/// the place is the lower job number.
fn check_pairs(
    accepted: &Accepted,
    number: u8,
    kept: impl Fn(JobNumber, JobNumber) -> bool,
) -> Result<(), Refusal> {
    for lower in accepted.job_numbers() {
        for higher in accepted.job_numbers().skip(lower.0 + 1) {
            if !kept(lower, higher) || !kept(higher, lower) {
                return refuse(number, lower.0);
            }
        }
    }
    Ok(())
}

/// "Guess 0 is the initial store, and the store left in round r is guess r + 1." Number 45:
/// "lowest round whose guess is wrong."
fn check_guesses(accepted: &Accepted, run: &Run) -> Result<(), Refusal> {
    let right = std::iter::once(&accepted.table.initial_store).chain(&run.left);
    match run.guesses.iter().zip(right).position(|(guess, right)| guess != right) {
        Some(round) => refuse(45, round),
        None => Ok(()),
    }
}

/// The whole check: 40 to 42, "then 43, 44 ..., 45". A legal plan's run and what it ends with.
pub fn check(accepted: &Accepted, plan: &[u8]) -> Result<(Run, Ending), Refusal> {
    let run = run(accepted, plan)?;
    check_pairs(accepted, 43, |x, y| rounds_kept(accepted, &run, x, y))?;
    check_pairs(accepted, 44, |x, y| priority_kept(accepted, &run, x, y))?;
    check_guesses(accepted, &run)?;
    let ending = run.ending(accepted.table.initial_store);
    Ok((run, ending))
}
