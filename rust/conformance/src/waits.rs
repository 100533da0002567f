//! Tables with and without their locks' holding times (document 02, E4), and the response equation
//! reckoned from a description.

use generator::{InstructionDescription, TableDescription};
use interpreter::Accepted;

/// The same table whose locks are held for no time: what it meant before E4.
pub fn without_holding(table: &TableDescription) -> TableDescription {
    TableDescription { holdings: Vec::new(), ..table.clone() }
}

const ACQUIRE: u8 = 9;

/// B of a task, lock by lock: the largest H whose lock reaches the task and is named by an Acquire
/// below it.
pub fn blocking_of(table: &TableDescription, task: usize) -> u64 {
    let mut most = 0;
    for (lock, ceiling) in table.ceilings.iter().enumerate() {
        let below = &table.tasks[..task];
        let names = |body: &[InstructionDescription]| {
            body.iter().any(|one| one.operation == ACQUIRE && usize::from(one.a) == lock)
        };
        if usize::from(*ceiling) >= task && below.iter().any(|task| names(&task.body)) {
            most = most.max(u64::from(table.holding(lock)));
        }
    }
    most
}

/// The smallest R up to the period that solves a task's equation, by trying 1, 2, 3 and so on.
pub fn response_by_trying(table: &TableDescription, task: usize) -> Option<u64> {
    let own = u64::from(table.tasks[task].execution) + blocking_of(table, task);
    let sum = |time: u64| -> u64 {
        let above = table.tasks[task + 1..].iter();
        above.map(|task| time.div_ceil(task.period.into()) * u64::from(task.execution)).sum()
    };
    (1..=u64::from(table.tasks[task].period)).find(|time| *time == own + sum(*time))
}

/// The record of a task in the file in walk order.
pub fn record_of(table: &TableDescription, task: usize) -> usize {
    1 + table.tasks[..task].iter().map(|task| 1 + task.body.len()).sum::<usize>()
}

/// How many pairs of jobs are apart in the first table, one before the other, and may preempt in
/// the second, which has the same jobs with longer response times. All other pairs stay.
pub fn loosened(short: &Accepted, long: &Accepted) -> usize {
    let mut pairs = 0;
    for x in short.job_numbers() {
        for y in short.job_numbers() {
            let relation = |of: &Accepted| (of.comes_before(x, y), of.may_preempt(y, x));
            match (relation(short), relation(long)) {
                ((true, false), (false, true)) => pairs += 1,
                (before, now) => assert_eq!(before, now, "{x:?} {y:?}"),
            }
        }
    }
    pairs
}
