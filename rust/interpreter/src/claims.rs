//! A table that comes from elsewhere than a file: from memory (02, E2) or from a text (02, E5). It
//! may claim more parts than a table can have, and nothing in it need be in range.

use crate::file::{check_rules, demand_field, BodyInstruction, Table, Task};
use crate::file::{MOST_INSTRUCTIONS, MOST_LOCKS, MOST_TASKS};
use crate::machine::{decode, Store};
use crate::numbers::{refuse, Refusal};
use crate::timing::{accept_table, Accepted};

/// The parts that a table claims, in walk order.
#[derive(Debug, Clone, PartialEq, Eq, Default)]
pub struct ClaimedTable {
    pub window: u64,
    pub initial_store: Store,
    pub tasks: Vec<ClaimedTask>,
    pub locks: Vec<ClaimedLock>,
}

/// A task's times and its body: the operation and the fields a, b and c of each instruction.
#[derive(Debug, Clone, PartialEq, Eq, Default)]
pub struct ClaimedTask {
    pub execution: u64,
    pub period: u64,
    pub first_arrival: u64,
    pub body: Vec<[u8; 4]>,
}

/// A lock's ceiling and its longest holding time H, of which any is in range.
#[derive(Debug, Clone, Copy, PartialEq, Eq, Default)]
pub struct ClaimedLock {
    pub ceiling: u8,
    pub holding: u64,
}

/// 02, E2: "4, 5, 7, 8, 9, 10 and 11 for a bad table, in the reader's order, at the index the
/// record would have had".
pub fn accept_claims(claimed: &ClaimedTable) -> Result<Accepted, Refusal> {
    let table = walk_claims(claimed)?;
    check_rules(&table.tasks, &table.ceilings)?;
    accept_table(table)
}

/// 4 and 5 as the walk of records meets them: "header, each task followed by its body, then locks".
/// No index is followed here, so of the reader's "3, 5, 2, 4" only 5 and 4 are left at a record.
pub(crate) fn walk_claims(claimed: &ClaimedTable) -> Result<Table, Refusal> {
    demand_field(claimed.window >= 1, 0)?;
    if claimed.tasks.is_empty() {
        return refuse(5, 0);
    }
    let mut tasks: Vec<Task> = Vec::new();
    let mut record = 1;
    for task in &claimed.tasks {
        demand_count(tasks.len(), MOST_TASKS, record)?;
        tasks.push(walk_task(task, record)?);
        record += 1 + task.body.len();
    }
    let (mut ceilings, mut holdings) = (Vec::new(), Vec::new());
    for ClaimedLock { ceiling, holding } in &claimed.locks {
        demand_count(ceilings.len(), MOST_LOCKS, record)?;
        demand_field(*ceiling <= 7, record)?;
        ceilings.push(*ceiling);
        holdings.push(*holding);
        record += 1;
    }
    let (window, initial_store) = (claimed.window, claimed.initial_store);
    Ok(Table { window, initial_store, tasks, ceilings, holdings })
}

/// A task and its body: "1 ≤ C ≤ P", then "an empty body (place: the holder)".
fn walk_task(task: &ClaimedTask, record: usize) -> Result<Task, Refusal> {
    let ClaimedTask { execution, period, first_arrival, .. } = *task;
    demand_field(1 <= execution && execution <= period, record)?;
    if task.body.is_empty() {
        return refuse(5, record);
    }
    let mut body = Vec::new();
    for (position, [operation, a, b, c]) in task.body.iter().enumerate() {
        let record = record + 1 + position;
        demand_count(position, MOST_INSTRUCTIONS, record)?;
        match decode(*operation, *a, *b, *c) {
            Some(instruction) => body.push(BodyInstruction { record, instruction }),
            None => return refuse(4, record),
        }
    }
    Ok(Task { record, execution, period, first_arrival, body })
}

/// Number 5 for a part too many, after as many as there may be.
fn demand_count(before: usize, most: usize, record: usize) -> Result<(), Refusal> {
    if before < most {
        Ok(())
    } else {
        refuse(5, record)
    }
}
