//! E2 of document 02: "a writer that lays a table out in walk order".

use crate::file::{Table, Task, RECORD};
use crate::machine::encode;
use crate::memory::narrow;

/// The file of a table, "each record once, unused bytes zero".
pub fn lay_out(table: &Table) -> Vec<u8> {
    let mut records = vec![header(table)];
    for (number, task) in table.tasks.iter().enumerate() {
        let own = records.len();
        let after = own + 1 + task.body.len();
        let last = number + 1 == table.tasks.len();
        records.push(task_record(task, if last { 0 } else { after }, own + 1));
        for (position, placed) in task.body.iter().enumerate() {
            let [operation, a, b, c] = encode(placed.instruction);
            let next = if position + 1 == task.body.len() { 0 } else { records.len() + 1 };
            records.push(record(&[4, next as u8, operation, a, b, c]));
        }
    }
    for (number, (ceiling, holding)) in table.ceilings.iter().zip(&table.holdings).enumerate() {
        let next = if number + 1 == table.ceilings.len() { 0 } else { records.len() + 1 };
        records.push(record(&[&[3, next as u8, *ceiling, 0], &narrow(*holding)[..]].concat()));
    }
    records.concat()
}

/// A record with these bytes at its front, the others zero.
fn record(front: &[u8]) -> [u8; RECORD] {
    let mut bytes = [0; RECORD];
    bytes[..front.len()].copy_from_slice(front);
    bytes
}

/// "byte 2 first task, byte 3 first lock (zero: no locks), 4-7 window W ..., 8-15 the initial
/// values". The first task comes right after the header, the first lock after all bodies.
fn header(table: &Table) -> [u8; RECORD] {
    let before_locks = 1 + table.tasks.iter().map(|task| 1 + task.body.len()).sum::<usize>();
    let first_lock = if table.ceilings.is_empty() { 0 } else { before_locks };
    let links = [1, 0, 1, first_lock as u8];
    record(&[&links[..], &narrow(table.window), &table.initial_store].concat())
}

/// "byte 2 first instruction, byte 3 zero, 4-7 execution time C, 8-11 period P, 12-15 first
/// arrival A."
fn task_record(task: &Task, next: usize, first: usize) -> [u8; RECORD] {
    let times = [task.execution, task.period, task.first_arrival].map(narrow).concat();
    record(&[&[2, next as u8, first as u8, 0], &times[..]].concat())
}
