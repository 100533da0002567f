//! The table in memory of E2 in document 02, which leaves its form to the C interface: counts, and
//! room for as many parts as document 01 allows, in 696 bytes.

use crate::claims::{ClaimedLock, ClaimedTable, ClaimedTask};
use crate::file::{wide, Table, Task, MOST_INSTRUCTIONS, MOST_LOCKS, MOST_TASKS};
use crate::machine::{encode, Store};

/// How many bytes a table in memory has.
pub const TABLE_ROOM: usize = HOLDINGS + MOST_LOCKS * 4;

/// Where the parts of the table are.
const STORE: usize = 4;
const TASKS: usize = 12;
const LOCKS: usize = 13;
const CEILINGS: usize = 16;
const ENTRIES: usize = 24;
const HOLDINGS: usize = ENTRIES + MOST_TASKS * ENTRY;

/// How many bytes a task's entry has, and where its parts are.
const ENTRY: usize = 80;
const PERIOD: usize = 4;
const ARRIVAL: usize = 8;
const LENGTH: usize = 12;
const BODY: usize = 16;

/// A table as memory holds it. Nothing in it need be in range; what stands past a count is no part
/// of the table.
#[derive(Debug, Clone, PartialEq, Eq, Default)]
pub struct TaskTable {
    pub window: u64,
    pub initial_store: Store,
    /// How many tasks and locks it says it has.
    pub tasks: u8,
    pub locks: u8,
    pub ceilings: [u8; MOST_LOCKS],
    pub entries: [TaskEntry; MOST_TASKS],
    /// The longest holding time of each lock.
    pub holdings: [u64; MOST_LOCKS],
}

/// A task's times and its body.
#[derive(Debug, Clone, Copy, PartialEq, Eq, Default)]
pub struct TaskEntry {
    pub execution: u64,
    pub period: u64,
    pub first_arrival: u64,
    /// How many instructions its body says it has.
    pub length: u8,
    /// The operation and the fields a, b and c of each.
    pub body: [[u8; 4]; MOST_INSTRUCTIONS],
}

/// Some bytes of a slice as an array.
fn part<const LONG: usize>(bytes: &[u8], at: usize) -> [u8; LONG] {
    std::array::from_fn(|byte| bytes[at + byte])
}

/// A wide field's bytes, low byte first.
pub(crate) fn narrow(value: u64) -> [u8; 4] {
    u32::try_from(value).expect("a wide field has 32 bits").to_le_bytes()
}

impl TaskEntry {
    fn from_bytes(bytes: &[u8]) -> TaskEntry {
        TaskEntry {
            execution: wide(bytes, 0),
            period: wide(bytes, PERIOD),
            first_arrival: wide(bytes, ARRIVAL),
            length: bytes[LENGTH],
            body: std::array::from_fn(|position| part(bytes, BODY + 4 * position)),
        }
    }

    fn write(&self, bytes: &mut [u8]) {
        bytes[..4].copy_from_slice(&narrow(self.execution));
        bytes[PERIOD..][..4].copy_from_slice(&narrow(self.period));
        bytes[ARRIVAL..][..4].copy_from_slice(&narrow(self.first_arrival));
        bytes[LENGTH] = self.length;
        bytes[BODY..].copy_from_slice(&self.body.concat());
    }

    /// The task that it claims. Instructions past the room are blank: the first is too many.
    fn claims(&self) -> ClaimedTask {
        let instruction = |position| self.body.get(position).copied().unwrap_or_default();
        ClaimedTask {
            execution: self.execution,
            period: self.period,
            first_arrival: self.first_arrival,
            body: (0..usize::from(self.length)).map(instruction).collect(),
        }
    }

    fn of(task: &Task) -> TaskEntry {
        let mut entry = TaskEntry {
            execution: task.execution,
            period: task.period,
            first_arrival: task.first_arrival,
            length: task.body.len() as u8,
            ..TaskEntry::default()
        };
        for (room, placed) in entry.body.iter_mut().zip(&task.body) {
            *room = encode(placed.instruction);
        }
        entry
    }
}

impl TaskTable {
    /// The table that any 696 bytes hold. Unused bytes are not looked at.
    pub fn from_bytes(bytes: &[u8; TABLE_ROOM]) -> TaskTable {
        let entry = |number| TaskEntry::from_bytes(&bytes[ENTRIES + ENTRY * number..][..ENTRY]);
        TaskTable {
            window: wide(bytes, 0),
            initial_store: part(bytes, STORE),
            tasks: bytes[TASKS],
            locks: bytes[LOCKS],
            ceilings: part(bytes, CEILINGS),
            entries: std::array::from_fn(entry),
            holdings: std::array::from_fn(|lock| wide(bytes, HOLDINGS + 4 * lock)),
        }
    }

    /// Its bytes, with unused bytes zero.
    pub fn to_bytes(&self) -> [u8; TABLE_ROOM] {
        let mut bytes = [0; TABLE_ROOM];
        bytes[..4].copy_from_slice(&narrow(self.window));
        bytes[STORE..][..8].copy_from_slice(&self.initial_store);
        bytes[TASKS] = self.tasks;
        bytes[LOCKS] = self.locks;
        bytes[CEILINGS..][..MOST_LOCKS].copy_from_slice(&self.ceilings);
        for (entry, bytes) in self.entries.iter().zip(bytes[ENTRIES..].chunks_mut(ENTRY)) {
            entry.write(bytes);
        }
        bytes[HOLDINGS..].copy_from_slice(&self.holdings.map(narrow).concat());
        bytes
    }

    /// The table that it claims. Tasks and locks past the room are blank: the first is too many.
    pub fn claims(&self) -> ClaimedTable {
        let task = |number| self.entries.get(number).map(TaskEntry::claims).unwrap_or_default();
        let lock = |number| match self.ceilings.get(number) {
            Some(ceiling) => ClaimedLock { ceiling: *ceiling, holding: self.holdings[number] },
            None => ClaimedLock::default(),
        };
        ClaimedTable {
            window: self.window,
            initial_store: self.initial_store,
            tasks: (0..usize::from(self.tasks)).map(task).collect(),
            locks: (0..usize::from(self.locks)).map(lock).collect(),
        }
    }

    /// A table that was read, with zeros past its counts.
    pub fn of(table: &Table) -> TaskTable {
        let mut memory = TaskTable {
            window: table.window,
            initial_store: table.initial_store,
            tasks: table.tasks.len() as u8,
            locks: table.ceilings.len() as u8,
            ..TaskTable::default()
        };
        memory.ceilings[..table.ceilings.len()].copy_from_slice(&table.ceilings);
        memory.holdings[..table.holdings.len()].copy_from_slice(&table.holdings);
        for (entry, task) in memory.entries.iter_mut().zip(&table.tasks) {
            *entry = TaskEntry::of(task);
        }
        memory
    }
}
