//! The section "Orders of steps" up to the walk, with numbers 30 to 34: document 01's 30 to 32, and
//! 33 and 34 by document 02, E1.

use crate::machine::{perform, priority, values_on_offer, Instruction, Local, Store};
use crate::numbers::{refuse, JobNumber, Refusal, TaskNumber};
use crate::timing::Accepted;

/// What a complete order or a legal plan ends with: "the store left and the failed jobs".
#[derive(Debug, Clone, Copy, PartialEq, Eq, Default)]
pub struct Ending {
    pub store: Store,
    /// Bit j is set if job j has a failed assertion noted.
    pub failed_jobs: u32,
}

/// Which of the "three quite separate slips" of document 02, E1, keeps a byte from being an allowed
/// step: "33 for a task number outside the table, then 30 for a job with no turn, then 34 for a
/// value".
#[derive(Debug, Clone, Copy, PartialEq, Eq)]
pub enum Slip {
    /// "the task doesn't exist"
    Task = 33,
    /// "the job has no turn"
    Turn = 30,
    /// "the chosen value isn't on offer". 02, E7: "34 and 41 speak of the new range."
    Value = 34,
}

impl Slip {
    /// The number that a refusal by this slip has.
    pub fn number(self) -> u8 {
        self as u8
    }
}

/// The state between two steps of an order.
#[derive(Debug, Clone, PartialEq, Eq)]
pub struct State {
    pub store: Store,
    /// One for each job: None until it has begun.
    pub locals: Vec<Option<Local>>,
    /// The active jobs, the one started last at the end. "A job is active from its first
    /// instruction until its End is done."
    pub active: Vec<JobNumber>,
}

impl State {
    /// "An order starts from the initial store with no job begun".
    pub fn first(accepted: &Accepted) -> State {
        let store = accepted.table.initial_store;
        State { store, locals: vec![None; accepted.jobs.len()], active: Vec::new() }
    }

    /// Whether a job's End is done.
    pub fn has_ended(&self, job: JobNumber) -> bool {
        self.locals[job.0].is_some_and(|local| local.ended)
    }

    /// Whether "all jobs have ended".
    pub fn all_ended(&self) -> bool {
        self.locals.iter().all(|local| local.is_some_and(|local| local.ended))
    }

    /// "the store left and the failed jobs, those with a failed assertion noted."
    pub fn ending(&self) -> Ending {
        let noted = |(job, local): (usize, &Option<Local>)| {
            u32::from(local.is_some_and(|local| local.failed)) << job
        };
        Ending { store: self.store, failed_jobs: self.locals.iter().enumerate().map(noted).sum() }
    }

    /// The present priority of a job that has begun.
    pub fn present_priority(&self, accepted: &Accepted, job: JobNumber) -> u8 {
        let held = self.locals[job.0].unwrap_or_default().held;
        priority(accepted.base(job), &held, &accepted.table.ceilings)
    }

    /// "A job not yet begun may start when each job that comes before it has ended, it may preempt
    /// every active job, and its base is above every active job's present priority."
    pub fn may_start(&self, accepted: &Accepted, job: JobNumber) -> bool {
        let base = accepted.base(job).0;
        let mut earlier = accepted.job_numbers().filter(|x| accepted.comes_before(*x, job));
        self.locals[job.0].is_none()
            && earlier.all(|x| self.has_ended(x))
            && self.active.iter().all(|x| {
                accepted.may_preempt(job, *x) && base > self.present_priority(accepted, *x)
            })
    }

    /// The job that a byte with this task would step: the running job ("only the active job started
    /// last may step") or a job of the task that may start. There is at most one: an earlier job of
    /// a task comes before a later one.
    pub fn turn(&self, accepted: &Accepted, task: TaskNumber) -> Option<JobNumber> {
        let running = self.active.last().copied();
        running.filter(|job| accepted.base(*job) == task).or_else(|| {
            let mut of_task = accepted.job_numbers().filter(|job| accepted.base(*job) == task);
            of_task.find(|job| self.may_start(accepted, *job))
        })
    }

    /// The instruction a job performs next; a job not yet begun its first.
    pub fn next_instruction(&self, accepted: &Accepted, job: JobNumber) -> Instruction {
        let position = self.locals[job.0].unwrap_or_default().position;
        accepted.task(job).body[position].instruction
    }

    /// One step by an order byte, "16 × task + value, the value being the Pick's choice, else 0".
    /// If the byte is not an allowed step, the state stays as it was and the first slip is told.
    pub fn step(&mut self, accepted: &Accepted, byte: u8) -> Result<JobNumber, Slip> {
        let (task, value) = (TaskNumber(byte / 16), byte % 16);
        if usize::from(task.0) >= accepted.table.tasks.len() {
            return Err(Slip::Task);
        }
        let job = self.turn(accepted, task).ok_or(Slip::Turn)?;
        let instruction = self.next_instruction(accepted, job);
        if !values_on_offer(instruction).contains(&value) {
            return Err(Slip::Value);
        }
        // "Starting performs its first instruction."
        if self.locals[job.0].is_none() {
            self.active.push(job);
        }
        let local = self.locals[job.0].get_or_insert_with(Local::default);
        perform(local, &mut self.store, instruction, value);
        if local.ended {
            self.active.pop();
        }
        Ok(job)
    }
}

/// "A replay checks 32, 30 at each byte, 31 at the end." The slips of a byte, 30 among them, come
/// "all at the step's index and after 32." What is done after each step, with the step's job and
/// value, is the caller's.
pub fn replay_with(
    accepted: &Accepted,
    order: &[u8],
    mut after: impl FnMut(&State, JobNumber, u8),
) -> Result<Ending, Refusal> {
    let mut state = State::first(accepted);
    for (place, byte) in order.iter().enumerate() {
        if state.all_ended() {
            return refuse(32, place);
        }
        match state.step(accepted, *byte) {
            Ok(job) => after(&state, job, byte % 16),
            Err(slip) => return refuse(slip.number(), place),
        }
    }
    if !state.all_ended() {
        return refuse(31, order.len());
    }
    Ok(state.ending())
}

/// The replay of an order: what it ends with, if it is complete.
pub fn replay(accepted: &Accepted, order: &[u8]) -> Result<Ending, Refusal> {
    replay_with(accepted, order, |_, _, _| {})
}
