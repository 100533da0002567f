//! A table in plain Rust, its bytes in memory as the C interface has them, and its records.

use crate::words::{MOST_INSTRUCTIONS, MOST_LOCKS, MOST_TASKS, TABLE_ROOM, VARIABLES};
use std::fmt;

/// An instruction: the operation and its fields. Unused fields are zero. A Pick has its highest value
/// in `b` and its lowest in `c`.
#[derive(Debug, Clone, Copy, PartialEq, Eq, Hash, Default)]
pub struct Instruction {
    pub operation: u8,
    pub a: u8,
    pub b: u8,
    pub c: u8,
}

/// A task: its times, and its body.
#[derive(Debug, Clone, PartialEq, Eq, Hash, Default)]
pub struct TaskEntry {
    pub execution: u32,
    pub period: u32,
    /// The first.
    pub arrival: u32,
    pub body: Vec<Instruction>,
}

/// A table. Nothing in it need be in range: [`crate::write`] judges it.
#[derive(Debug, Clone, PartialEq, Eq, Hash, Default)]
pub struct Table {
    pub window: u32,
    /// The initial one.
    pub store: [u8; VARIABLES],
    pub tasks: Vec<TaskEntry>,
    /// Of each lock.
    pub ceilings: Vec<u8>,
    /// The longest holding time of each lock; of one without an entry it is 0.
    pub holdings: Vec<u32>,
}

/// What a record of a table's file is. All counts start at 0.
#[derive(Debug, Clone, Copy, PartialEq, Eq, Hash)]
pub enum Site {
    Header,
    Task(usize),
    Instruction { task: usize, position: usize },
    Lock(usize),
}

/// Where the parts of a table in memory are.
const STORE: usize = 4;
const TASKS: usize = 12;
const LOCKS: usize = 13;
const CEILINGS: usize = 16;
const ENTRIES: usize = 24;
const HOLDINGS: usize = 664;

/// A task's entry: how many bytes it has, and where its parts are.
const ENTRY: usize = 80;
const PERIOD: usize = 4;
const ARRIVAL: usize = 8;
const LENGTH: usize = 12;
const BODY: usize = 16;
/// An instruction has as many bytes as a wide field.
const WIDE: usize = 4;

/// The operation that has a choice of values.
const PICK: u8 = 8;
/// The operation that names a lock to wait for.
const ACQUIRE: u8 = 9;

/// A count's byte. A count that it cannot hold is far above every limit, as 255 is.
fn count(parts: usize) -> u8 {
    u8::try_from(parts).unwrap_or(u8::MAX)
}

/// Writes bytes at an offset.
fn put(bytes: &mut [u8], at: usize, part: &[u8]) {
    bytes[at..at + part.len()].copy_from_slice(part);
}

/// Reads bytes at an offset.
fn get<const LONG: usize>(bytes: &[u8], at: usize) -> [u8; LONG] {
    std::array::from_fn(|byte| bytes[at + byte])
}

fn wide(bytes: &[u8], at: usize) -> u32 {
    u32::from_le_bytes(get(bytes, at))
}

/// Where a lock's holding time is.
fn holding_at(lock: usize) -> usize {
    HOLDINGS + WIDE * lock
}

impl Instruction {
    /// What is wrong with a Pick whose lowest value is above its highest; none with any other
    /// instruction.
    pub(crate) fn without_values(&self) -> Option<String> {
        let Instruction { operation, b, c, .. } = self;
        let none = *operation == PICK && c > b;
        none.then(|| format!("c {c}, the lowest value, is above b {b}, the highest"))
    }
}

impl TaskEntry {
    /// Writes the task's entry. Instructions past the room are left out; the length counts them.
    fn write(&self, bytes: &mut [u8]) {
        put(bytes, 0, &self.execution.to_le_bytes());
        put(bytes, PERIOD, &self.period.to_le_bytes());
        put(bytes, ARRIVAL, &self.arrival.to_le_bytes());
        bytes[LENGTH] = count(self.body.len());
        for (position, instruction) in self.body.iter().take(MOST_INSTRUCTIONS).enumerate() {
            let Instruction { operation, a, b, c } = *instruction;
            put(bytes, BODY + WIDE * position, &[operation, a, b, c]);
        }
    }

    fn read(bytes: &[u8]) -> TaskEntry {
        let instruction = |position| {
            let [operation, a, b, c] = get(bytes, BODY + WIDE * position);
            Instruction { operation, a, b, c }
        };
        TaskEntry {
            execution: wide(bytes, 0),
            period: wide(bytes, PERIOD),
            arrival: wide(bytes, ARRIVAL),
            body: (0..usize::from(bytes[LENGTH])).map(instruction).collect(),
        }
    }
}

impl Table {
    /// The table in memory. Parts past the room are left out; the counts have them, so that the
    /// writer refuses the first of them.
    pub(crate) fn to_bytes(&self) -> [u8; TABLE_ROOM] {
        let mut bytes = [0; TABLE_ROOM];
        put(&mut bytes, 0, &self.window.to_le_bytes());
        put(&mut bytes, STORE, &self.store);
        bytes[TASKS] = count(self.tasks.len());
        bytes[LOCKS] = count(self.ceilings.len());
        put(&mut bytes, CEILINGS, &self.ceilings[..self.ceilings.len().min(MOST_LOCKS)]);
        for (task, entry) in self.tasks.iter().zip(bytes[ENTRIES..HOLDINGS].chunks_mut(ENTRY)) {
            task.write(entry);
        }
        let locks = self.ceilings.len();
        for (lock, holding) in self.holdings.iter().take(locks.min(MOST_LOCKS)).enumerate() {
            put(&mut bytes, holding_at(lock), &holding.to_le_bytes());
        }
        bytes
    }

    /// The table of an accepted file, whose counts are within their limits.
    pub(crate) fn from_bytes(bytes: &[u8; TABLE_ROOM]) -> Table {
        let entries = bytes[ENTRIES..HOLDINGS].chunks(ENTRY).take(bytes[TASKS].into());
        let ceilings = bytes[CEILINGS..][..MOST_LOCKS].iter().take(bytes[LOCKS].into());
        let holdings = (0..MOST_LOCKS).map(holding_at).take(bytes[LOCKS].into());
        Table {
            window: wide(bytes, 0),
            store: get(bytes, STORE),
            tasks: entries.map(TaskEntry::read).collect(),
            ceilings: ceilings.copied().collect(),
            holdings: holdings.map(|place| wide(bytes, place)).collect(),
        }
    }

    /// B of a task: the longest time that it waits for a lower task to release a lock.
    pub fn blocking(&self, task: usize) -> u32 {
        let below = self.tasks.iter().take(task).flat_map(|task| &task.body);
        let acquires = below.filter(|instruction| instruction.operation == ACQUIRE);
        let holding = |instruction: &Instruction| {
            let lock = usize::from(instruction.a);
            let reaches = usize::from(*self.ceilings.get(lock)?) >= task;
            self.holdings.get(lock).copied().filter(|_| reaches)
        };
        acquires.filter_map(holding).max().unwrap_or(0)
    }

    /// What the record at an index of the table's file is or would be; none past the last.
    ///
    /// The file has the header at 0, each task followed by its body, then the locks.
    pub fn site(&self, record: usize) -> Option<Site> {
        let mut left = record;
        if left == 0 {
            return Some(Site::Header);
        }
        left -= 1;
        for (task, TaskEntry { body, .. }) in self.tasks.iter().enumerate() {
            match left {
                0 => return Some(Site::Task(task)),
                _ if left <= body.len() => {
                    return Some(Site::Instruction { task, position: left - 1 })
                }
                _ => left -= 1 + body.len(),
            }
        }
        (left < self.ceilings.len()).then_some(Site::Lock(left))
    }
}

impl fmt::Display for Site {
    fn fmt(&self, f: &mut fmt::Formatter<'_>) -> fmt::Result {
        match self {
            Site::Header => write!(f, "the header"),
            Site::Task(task) => write!(f, "task {task}"),
            Site::Instruction { task, position } => {
                write!(f, "instruction {position} of task {task}")
            }
            Site::Lock(lock) => write!(f, "lock {lock}"),
        }
    }
}

/// Entries and holding times fill what the counts and the ceilings leave.
const _: () = assert!(ENTRIES + MOST_TASKS * ENTRY == HOLDINGS);
const _: () = assert!(HOLDINGS + MOST_LOCKS * WIDE == TABLE_ROOM);
const _: () = assert!(BODY + MOST_INSTRUCTIONS * WIDE == ENTRY);
