//! A table as a test describes it, and the writer of its file bytes.

use crate::random::Random;

/// One instruction's four fields, as written.
#[derive(Debug, Clone, Copy, PartialEq, Eq)]
pub struct InstructionDescription {
    pub operation: u8,
    pub a: u8,
    pub b: u8,
    pub c: u8,
}

/// A task and its body.
#[derive(Debug, Clone, PartialEq, Eq)]
pub struct TaskDescription {
    pub execution: u32,
    pub period: u32,
    pub first_arrival: u32,
    pub body: Vec<InstructionDescription>,
}

/// A whole table. Nothing in it need be in range.
#[derive(Debug, Clone, PartialEq, Eq)]
pub struct TableDescription {
    pub window: u32,
    pub initial_store: [u8; 8],
    pub tasks: Vec<TaskDescription>,
    pub ceilings: Vec<u8>,
    /// The longest holding time of each lock; of one without an entry it is 0.
    pub holdings: Vec<u32>,
}

/// The operations by name, each with the fields it uses.
pub mod code {
    use super::InstructionDescription;

    fn instruction(operation: u8, a: u8, b: u8, c: u8) -> InstructionDescription {
        InstructionDescription { operation, a, b, c }
    }
    pub fn end() -> InstructionDescription {
        instruction(0, 0, 0, 0)
    }
    pub fn load(register: u8, variable: u8) -> InstructionDescription {
        instruction(1, register, variable, 0)
    }
    pub fn store(variable: u8, register: u8) -> InstructionDescription {
        instruction(2, variable, register, 0)
    }
    pub fn set(register: u8, number: u8) -> InstructionDescription {
        instruction(3, register, number, 0)
    }
    pub fn add(to: u8, from: u8) -> InstructionDescription {
        instruction(4, to, from, 0)
    }
    pub fn subtract(to: u8, from: u8) -> InstructionDescription {
        instruction(5, to, from, 0)
    }
    pub fn skip_if_less(left: u8, right: u8, count: u8) -> InstructionDescription {
        instruction(6, left, right, count)
    }
    pub fn skip_if_equal(left: u8, right: u8, count: u8) -> InstructionDescription {
        instruction(7, left, right, count)
    }
    /// A Pick of any value from 0 to the highest.
    pub fn pick(register: u8, highest: u8) -> InstructionDescription {
        pick_between(register, 0, highest)
    }
    /// A Pick of any value from the lowest, its field c, to the highest, its field b.
    pub fn pick_between(register: u8, lowest: u8, highest: u8) -> InstructionDescription {
        instruction(8, register, highest, lowest)
    }
    pub fn acquire(lock: u8) -> InstructionDescription {
        instruction(9, lock, 0, 0)
    }
    pub fn release(lock: u8) -> InstructionDescription {
        instruction(10, lock, 0, 0)
    }
    pub fn assert(register: u8) -> InstructionDescription {
        instruction(11, register, 0, 0)
    }
}

impl TaskDescription {
    /// A task with its times and body.
    pub fn new(times: [u32; 3], body: &[InstructionDescription]) -> TaskDescription {
        let [execution, period, first_arrival] = times;
        TaskDescription { execution, period, first_arrival, body: body.to_vec() }
    }
}

impl TableDescription {
    /// A table without locks whose store is all zero.
    pub fn new(window: u32, tasks: Vec<TaskDescription>) -> TableDescription {
        let (ceilings, holdings) = (Vec::new(), Vec::new());
        TableDescription { window, initial_store: [0; 8], tasks, ceilings, holdings }
    }

    /// The longest holding time of a lock.
    pub fn holding(&self, lock: usize) -> u32 {
        self.holdings.get(lock).copied().unwrap_or(0)
    }

    /// How many records the file has.
    pub fn records(&self) -> usize {
        1 + self.tasks.iter().map(|task| 1 + task.body.len()).sum::<usize>() + self.ceilings.len()
    }

    /// The file with its records in walk order: header, each task followed by its body, locks.
    pub fn write(&self) -> Vec<u8> {
        let places: Vec<usize> = (0..self.records()).collect();
        self.write_at(&places)
    }

    /// The same table with its records shuffled: record 0 stays, indices are renamed. Also gives,
    /// for each record in walk order, where it went.
    pub fn write_shuffled(&self, random: &mut Random) -> (Vec<u8>, Vec<usize>) {
        let mut places: Vec<usize> = (0..self.records()).collect();
        random.shuffle(&mut places[1..]);
        (self.write_at(&places), places)
    }

    /// The file with the n-th record of the walk at `places[n]`.
    fn write_at(&self, places: &[usize]) -> Vec<u8> {
        assert!(places.len() <= 256, "an index is one byte");
        let mut file = vec![0; places.len() * 16];
        let index = |walk_order: usize| places[walk_order] as u8;
        let records = self.records_in_walk_order();
        for (walk_order, (mut bytes, next, first)) in records.into_iter().enumerate() {
            bytes[1] = next.map_or(0, index);
            if let Some(first) = first {
                bytes[2] = index(first);
            }
            if walk_order == 0 && !self.ceilings.is_empty() {
                bytes[3] = index(places.len() - self.ceilings.len());
            }
            let at = places[walk_order] * 16;
            file[at..at + 16].copy_from_slice(&bytes);
        }
        file
    }

    /// Each record's bytes without indices, the record next in its chain, and its first task or
    /// instruction. Records are named by their place in walk order.
    fn records_in_walk_order(&self) -> Vec<([u8; 16], Option<usize>, Option<usize>)> {
        let first_task = (!self.tasks.is_empty()).then_some(1);
        let mut records = vec![(header(self), None, first_task)];
        for (number, task) in self.tasks.iter().enumerate() {
            let own = records.len();
            let after = own + 1 + task.body.len();
            let next = (number + 1 < self.tasks.len()).then_some(after);
            records.push((task_record(task), next, (!task.body.is_empty()).then_some(own + 1)));
            for (position, instruction) in task.body.iter().enumerate() {
                let next = (position + 1 < task.body.len()).then_some(own + position + 2);
                let InstructionDescription { operation, a, b, c } = *instruction;
                let mut bytes = [0; 16];
                bytes[..6].copy_from_slice(&[4, 0, operation, a, b, c]);
                records.push((bytes, next, None));
            }
        }
        for (number, ceiling) in self.ceilings.iter().enumerate() {
            let next = (number + 1 < self.ceilings.len()).then_some(records.len() + 1);
            let mut bytes = [0; 16];
            bytes[..3].copy_from_slice(&[3, 0, *ceiling]);
            bytes[4..8].copy_from_slice(&self.holding(number).to_le_bytes());
            records.push((bytes, next, None));
        }
        records
    }
}

/// The header's bytes without its indices.
fn header(table: &TableDescription) -> [u8; 16] {
    let mut bytes = [0; 16];
    bytes[0] = 1;
    bytes[4..8].copy_from_slice(&table.window.to_le_bytes());
    bytes[8..].copy_from_slice(&table.initial_store);
    bytes
}

/// A task record's bytes without its indices.
fn task_record(task: &TaskDescription) -> [u8; 16] {
    let mut bytes = [0; 16];
    bytes[0] = 2;
    bytes[4..8].copy_from_slice(&task.execution.to_le_bytes());
    bytes[8..12].copy_from_slice(&task.period.to_le_bytes());
    bytes[12..].copy_from_slice(&task.first_arrival.to_le_bytes());
    bytes
}
