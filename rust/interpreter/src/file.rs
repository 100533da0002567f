//! The section "The task file", with numbers 1 to 9.

use crate::machine::{decode, skip_count, Instruction, Store};
use crate::numbers::{refuse, Refusal};

/// "Records of 16 bytes, at most 256."
pub const RECORD: usize = 16;
/// "Limits: 1 to 8 tasks, 0 to 8 locks, 1 to 16 instructions in a body".
pub const MOST_TASKS: usize = 8;
pub const MOST_LOCKS: usize = 8;
pub const MOST_INSTRUCTIONS: usize = 16;

/// A table that earned none of the numbers 1 to 9. Tasks and locks are in chain order. Of a table
/// in memory, a record is the index that it would have in the file that is written.
#[derive(Debug, Clone, PartialEq, Eq)]
pub struct Table {
    pub window: u64,
    pub initial_store: Store,
    pub tasks: Vec<Task>,
    /// The ceiling of each lock.
    pub ceilings: Vec<u8>,
    /// The longest holding time H of each lock.
    pub holdings: Vec<u64>,
}

/// A task record and its body.
#[derive(Debug, Clone, PartialEq, Eq)]
pub struct Task {
    pub record: usize,
    pub execution: u64,
    pub period: u64,
    pub first_arrival: u64,
    pub body: Vec<BodyInstruction>,
}

/// An instruction and its record.
#[derive(Debug, Clone, Copy, PartialEq, Eq)]
pub struct BodyInstruction {
    pub record: usize,
    pub instruction: Instruction,
}

/// The lent file and the records reached so far.
struct Reader<'a> {
    file: &'a [u8],
    reached: Vec<bool>,
}

impl<'a> Reader<'a> {
    /// Number 1: "length 0, above 4,096 or no multiple of 16; place 0."
    fn open(file: &'a [u8]) -> Result<Reader<'a>, Refusal> {
        if file.is_empty() || file.len() > 256 * RECORD || !file.len().is_multiple_of(RECORD) {
            return refuse(1, 0);
        }
        Ok(Reader { file, reached: vec![false; file.len() / RECORD] })
    }

    /// The 16 bytes of a record.
    fn record(&self, index: usize) -> &'a [u8] {
        &self.file[index * RECORD..(index + 1) * RECORD]
    }

    /// "On following an index: 3, 5, 2, 4." This does 3, 5 and 2; the caller does 4 for its kind.
    /// `full` says that the chain already has as many records as the limit allows.
    fn follow(&mut self, holder: usize, index: u8, full: bool, kind: u8) -> Result<usize, Refusal> {
        let index = index as usize;
        if index >= self.reached.len() || self.reached[index] {
            return refuse(3, holder);
        }
        self.reached[index] = true;
        if full {
            return refuse(5, index);
        }
        if self.record(index)[0] != kind {
            return refuse(2, index);
        }
        Ok(index)
    }
}

/// "Wide fields are unsigned 32-bit, low byte first."
pub(crate) fn wide(record: &[u8], at: usize) -> u64 {
    u32::from_le_bytes([record[at], record[at + 1], record[at + 2], record[at + 3]]) as u64
}

/// Number 4 for a record whose field test is `fine`.
pub(crate) fn demand_field(fine: bool, record: usize) -> Result<(), Refusal> {
    if fine {
        Ok(())
    } else {
        refuse(4, record)
    }
}

/// "Order: 1; then the walk of records: header, each task followed by its body, then locks.
/// ... Then 6, 7, 8, 9 ... each over the whole table."
pub fn read_table(file: &[u8]) -> Result<Table, Refusal> {
    let mut reader = Reader::open(file)?;
    let header = read_header(&mut reader)?;
    let tasks = read_tasks(&mut reader, header[2])?;
    let (ceilings, holdings) = read_locks(&mut reader, header[3])?;
    check_stray(&reader)?;
    check_rules(&tasks, &ceilings)?;
    let mut initial_store = [0; 8];
    initial_store.copy_from_slice(&header[8..16]);
    Ok(Table { window: wide(header, 4), initial_store, tasks, ceilings, holdings })
}

/// "Kind 1, header, record 0 only: byte 1 zero, ... window W (at least 1)".
fn read_header<'a>(reader: &mut Reader<'a>) -> Result<&'a [u8], Refusal> {
    reader.reached[0] = true;
    let header = reader.record(0);
    if header[0] != 1 {
        return refuse(2, 0);
    }
    demand_field(header[1] == 0 && wide(header, 4) >= 1, 0)?;
    Ok(header)
}

/// The task chain from the header's byte 2. "no tasks ... (place: the holder)".
fn read_tasks(reader: &mut Reader, first: u8) -> Result<Vec<Task>, Refusal> {
    let mut tasks = Vec::new();
    let (mut holder, mut index) = (0, first);
    if first == 0 {
        return refuse(5, 0);
    }
    while index != 0 {
        holder = reader.follow(holder, index, tasks.len() == MOST_TASKS, 2)?;
        tasks.push(read_task(reader, holder)?);
        index = reader.record(holder)[1];
    }
    Ok(tasks)
}

/// "Kind 2, task: byte 2 first instruction, byte 3 zero, 4-7 execution time C, 8-11 period P,
/// 12-15 first arrival A. 1 ≤ C ≤ P; A is free." Then its body.
fn read_task(reader: &mut Reader, record: usize) -> Result<Task, Refusal> {
    let bytes = reader.record(record);
    let (execution, period) = (wide(bytes, 4), wide(bytes, 8));
    demand_field(bytes[3] == 0 && 1 <= execution && execution <= period, record)?;
    let body = read_body(reader, record, bytes[2])?;
    Ok(Task { record, execution, period, first_arrival: wide(bytes, 12), body })
}

/// The instruction chain of a task. "an empty body (place: the holder)".
fn read_body(reader: &mut Reader, task: usize, first: u8) -> Result<Vec<BodyInstruction>, Refusal> {
    let mut body = Vec::new();
    let (mut holder, mut index) = (task, first);
    if first == 0 {
        return refuse(5, task);
    }
    while index != 0 {
        holder = reader.follow(holder, index, body.len() == MOST_INSTRUCTIONS, 4)?;
        let bytes = reader.record(holder);
        let rest_zero = bytes[6..].iter().all(|byte| *byte == 0);
        match decode(bytes[2], bytes[3], bytes[4], bytes[5]) {
            Some(instruction) if rest_zero => {
                body.push(BodyInstruction { record: holder, instruction })
            }
            _ => return refuse(4, holder),
        }
        index = bytes[1];
    }
    Ok(body)
}

/// "Kind 3, lock: byte 2 ceiling, 0 to 7; the rest zero." 02, E4: "Lock bytes 4-7 become the
/// longest holding time H, no longer unused bytes." Zero in the header means no locks. Gives the
/// ceiling and the holding time of each.
fn read_locks(reader: &mut Reader, first: u8) -> Result<(Vec<u8>, Vec<u64>), Refusal> {
    let (mut ceilings, mut holdings) = (Vec::new(), Vec::new());
    let (mut holder, mut index) = (0, first);
    while index != 0 {
        holder = reader.follow(holder, index, ceilings.len() == MOST_LOCKS, 3)?;
        let bytes = reader.record(holder);
        let rest_zero = bytes[3] == 0 && bytes[8..].iter().all(|byte| *byte == 0);
        demand_field(bytes[2] <= 7 && rest_zero, holder)?;
        ceilings.push(bytes[2]);
        holdings.push(wide(bytes, 4));
        index = bytes[1];
    }
    Ok((ceilings, holdings))
}

/// Number 6: "lowest record never reached."
fn check_stray(reader: &Reader) -> Result<(), Refusal> {
    match reader.reached.iter().position(|reached| !reached) {
        Some(record) => refuse(6, record),
        None => Ok(()),
    }
}

/// "7, 8, 9 ... each over the whole table", whether it was read from a file or stands in memory.
pub(crate) fn check_rules(tasks: &[Task], ceilings: &[u8]) -> Result<(), Refusal> {
    check_bodies(tasks)?;
    check_rates(tasks)?;
    check_ceilings(tasks, ceilings)
}

/// Number 7: "last instruction not End (place: it), or a skip beyond it (place: the skip); the
/// first in chain order."
fn check_bodies(tasks: &[Task]) -> Result<(), Refusal> {
    for task in tasks {
        let last = task.body.len() - 1;
        for (position, placed) in task.body.iter().enumerate() {
            let target = position + 1 + skip_count(placed.instruction).unwrap_or(0);
            let skips_beyond = skip_count(placed.instruction).is_some() && target > last;
            let no_end = position == last && placed.instruction != Instruction::End;
            if skips_beyond || no_end {
                return refuse(7, placed.record);
            }
        }
    }
    Ok(())
}

/// Number 8: "a period above the previous task's; first such task."
fn check_rates(tasks: &[Task]) -> Result<(), Refusal> {
    match tasks.windows(2).find(|pair| pair[1].period > pair[0].period) {
        Some(pair) => refuse(8, pair[1].record),
        None => Ok(()),
    }
}

/// Number 9: "Acquire or Release of a lock not in the table, or Acquire of one with a ceiling
/// below the task's base; first such instruction."
fn check_ceilings(tasks: &[Task], ceilings: &[u8]) -> Result<(), Refusal> {
    for (base, task) in tasks.iter().enumerate() {
        for placed in &task.body {
            let wrong = match placed.instruction {
                Instruction::Acquire { lock } => {
                    ceilings.get(lock).is_none_or(|ceiling| (*ceiling as usize) < base)
                }
                Instruction::Release { lock } => lock >= ceilings.len(),
                _ => false,
            };
            if wrong {
                return refuse(9, placed.record);
            }
        }
    }
    Ok(())
}
