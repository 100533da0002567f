//! The section "Response times and jobs", with numbers 10 and 11.

use crate::file::{read_table, Table, Task};
use crate::machine::Instruction;
use crate::numbers::{refuse, JobNumber, Refusal, TaskNumber};

/// "at most 32 jobs"
pub const MOST_JOBS: usize = 32;

/// "one record a job: task, arrival, latest finish". Arrival plus response time may pass 32 bits.
#[derive(Debug, Clone, Copy, PartialEq, Eq, Default)]
pub struct JobRecord {
    pub task: TaskNumber,
    pub arrival: u64,
    pub latest_finish: u64,
}

/// "A table is accepted if its file earns no number."
#[derive(Debug, Clone, PartialEq, Eq)]
pub struct Accepted {
    pub table: Table,
    /// One for each task.
    pub response_times: Vec<u64>,
    /// In job number order.
    pub jobs: Vec<JobRecord>,
}

/// All the file's numbers, 1 to 11, in their order.
pub fn accept(file: &[u8]) -> Result<Accepted, Refusal> {
    accept_table(read_table(file)?)
}

/// Numbers 10 and 11, for a table that earned none before them.
pub fn accept_table(table: Table) -> Result<Accepted, Refusal> {
    let response_times = response_times(&table)?;
    let jobs = jobs(&table, &response_times)?;
    Ok(Accepted { table, response_times, jobs })
}

/// "A table needs R ≤ P_i for every task"; number 10: "no R ≤ P; the lowest such task's record."
fn response_times(table: &Table) -> Result<Vec<u64>, Refusal> {
    let tasks = &table.tasks;
    let mut found: Vec<Option<u64>> = vec![None; tasks.len()];
    // Whether each task above would fit if none waited for a lock: the points ask no more.
    let mut above_fits = true;
    for (number, task) in tasks.iter().enumerate().rev() {
        let above = &tasks[number + 1..];
        let least = if above_fits { least_by_points } else { least_by_growth };
        found[number] = least(task.execution + blocking(table, number), above, task.period);
        let fits = || least(task.execution, above, task.period).is_some();
        above_fits = above_fits && (found[number].is_some() || fits());
    }
    match found.iter().position(Option::is_none) {
        Some(number) => refuse(10, tasks[number].record),
        None => Ok(found.into_iter().flatten().collect()),
    }
}

/// 02, E4: "B_i is the largest H among locks with ceiling at least i that an Acquire in the body of
/// some task below i names, 0 if none". Such a lock is in the table, by number 9.
pub fn blocking(table: &Table, task: usize) -> u64 {
    let below = table.tasks[..task].iter().flat_map(|task| &task.body);
    let named = below.filter_map(|placed| match placed.instruction {
        Instruction::Acquire { lock } => Some(lock),
        _ => None,
    });
    let reaches = |lock: &usize| usize::from(table.ceilings[*lock]) >= task;
    named.filter(reaches).map(|lock| table.holdings[lock]).max().unwrap_or(0)
}

/// The right side of "R = C_i + B_i + the same sum", which is that "over k > i of ceil(R / P_k)
/// times C_k"; `own` is C_i + B_i. At most that plus the sum of R + P_k, since C_k ≤ P_k, so 64 bits
/// hold it.
pub fn right_side(own: u64, above: &[Task], time: u64) -> u64 {
    own + above.iter().map(|task| time.div_ceil(task.period) * task.execution).sum::<u64>()
}

/// The smallest R ≤ `limit`, when each task above has a response time within its period, were it
/// not to wait for a lock.
///
/// Going from R to R + 1 raises the left side by 1 and never lowers the right side. So the smallest
/// solution is the smallest time at or above its right side, and "there is such a time ≤ D" grows
/// with D: bisect on D.
pub fn least_by_points(own: u64, above: &[Task], limit: u64) -> Option<u64> {
    let within =
        |bound| some_point(above, bound, &|time| time > 0 && right_side(own, above, time) <= time);
    if !within(limit) {
        return None;
    }
    let (mut low, mut high) = (1, limit);
    while low < high {
        let middle = low + (high - low) / 2;
        if within(middle) {
            high = middle;
        } else {
            low = middle + 1;
        }
    }
    Some(low)
}

/// Tries the scheduling points of a bound (Bini and Buttazzo): the bound itself, and for each task
/// the last multiple of its period, the lowest task first. If each task above would have a response
/// time within its period without waiting for locks, time − right side is largest over 0 to the
/// bound at one of these points: in each whole period of a task the tasks above it leave at least
/// its execution time free. What a task waits for is no part of the right side of those below.
fn some_point(above: &[Task], bound: u64, test: &dyn Fn(u64) -> bool) -> bool {
    match above.split_first() {
        None => test(bound),
        Some((task, rest)) => {
            some_point(rest, bound, test)
                || some_point(rest, bound / task.period * task.period, test)
        }
    }
}

/// The smallest R ≤ `limit` for any tasks above, by growing a lower bound of it.
///
/// If R ≥ `time`, then for any set F of tasks R is at least its right side with ceil(time / P)
/// for the tasks outside F and R / P for those in F. Solved for R this is the next bound. For F take
/// the tasks with the shortest periods, as many as gives most. When nothing grows, the empty F says
/// that the time is at or above its right side. Rates are rounded down, which keeps lower bounds.
pub fn least_by_growth(own: u64, above: &[Task], limit: u64) -> Option<u64> {
    let free: Vec<u128> = (0..=above.len()).map(|counted| free_share(&above[counted..])).collect();
    if free.contains(&0) {
        return None;
    }
    let mut time: u64 = 1;
    loop {
        let mut grown = time;
        for (counted, free) in free.iter().enumerate() {
            let work = right_side(own, &above[..counted], time) as u128;
            let bound = (work * WHOLE).div_ceil(*free);
            if bound > limit as u128 {
                return None;
            }
            grown = grown.max(bound as u64);
        }
        if grown == time {
            return Some(time);
        }
        time = grown;
    }
}

/// All of the processor's time, for shares of it.
const WHOLE: u128 = 1 << 64;

/// The share of time that some tasks leave free, rounded up; 0 if they leave none.
fn free_share(tasks: &[Task]) -> u128 {
    let rates = tasks.iter().map(|task| task.execution as u128 * WHOLE / task.period as u128);
    WHOLE.saturating_sub(rates.sum())
}

/// "The jobs of task i arrive at A_i + k × P_i for each k ≥ 0 with arrival < W. Jobs are numbered
/// by task, then by arrival. A job's latest finish is arrival + response time."
fn jobs(table: &Table, response_times: &[u64]) -> Result<Vec<JobRecord>, Refusal> {
    let counts = table.tasks.iter().map(|task| job_count(task, table.window));
    if counts.sum::<u64>() > MOST_JOBS as u64 {
        return refuse(11, 0);
    }
    let mut jobs = Vec::new();
    for (number, task) in table.tasks.iter().enumerate() {
        for k in 0..job_count(task, table.window) {
            let arrival = task.first_arrival + k * task.period;
            let latest_finish = arrival + response_times[number];
            jobs.push(JobRecord { task: TaskNumber(number as u8), arrival, latest_finish });
        }
    }
    Ok(jobs)
}

/// How many k ≥ 0 have A + k × P < W.
fn job_count(task: &Task, window: u64) -> u64 {
    window.saturating_sub(task.first_arrival).div_ceil(task.period)
}

impl Accepted {
    /// The record of a job.
    pub fn job(&self, job: JobNumber) -> &JobRecord {
        &self.jobs[job.0]
    }

    /// All job numbers, ascending.
    pub fn job_numbers(&self) -> impl Iterator<Item = JobNumber> {
        (0..self.jobs.len()).map(JobNumber)
    }

    /// "A task's number is its base priority".
    pub fn base(&self, job: JobNumber) -> TaskNumber {
        self.job(job).task
    }

    /// The task of a job.
    pub fn task(&self, job: JobNumber) -> &Task {
        &self.table.tasks[self.base(job).0 as usize]
    }

    /// "X comes before Y if X's latest finish ≤ Y's arrival, or X arrives no later than Y and X's
    /// base priority is at least Y's (X and Y distinct)."
    pub fn comes_before(&self, x: JobNumber, y: JobNumber) -> bool {
        let (first, second) = (self.job(x), self.job(y));
        let apart = first.latest_finish <= second.arrival;
        let goes_first = first.arrival <= second.arrival && self.base(x) >= self.base(y);
        x != y && (apart || goes_first)
    }

    /// "Y may preempt X if Y's base is higher and X's arrival < Y's arrival < X's latest finish."
    pub fn may_preempt(&self, y: JobNumber, x: JobNumber) -> bool {
        let (upper, lower) = (self.job(y), self.job(x));
        let meets = lower.arrival < upper.arrival && upper.arrival < lower.latest_finish;
        self.base(y) > self.base(x) && meets
    }
}
