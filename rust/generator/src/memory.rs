//! Tables in memory, good and bad: 696 bytes as the C interface lays them out.

use crate::description::{InstructionDescription, TableDescription};
use crate::kinds::{self, drawn, light};
use crate::random::Random;

/// How many bytes a table in memory has.
pub const TABLE_ROOM: usize = 696;
/// A table in memory.
pub type Memory = [u8; TABLE_ROOM];

/// How many tasks, locks and instructions there is room for.
const MOST_TASKS: usize = 8;
const MOST_LOCKS: usize = 8;
const MOST_INSTRUCTIONS: usize = 16;

/// Where the counts and the ceilings are, and the unused bytes between them.
pub const TASKS: usize = 12;
pub const LOCKS: usize = 13;
pub const CEILINGS: usize = 16;

/// Where a task's entry begins, where the length of its body is, and where an instruction is.
pub fn entry_at(task: usize) -> usize {
    24 + 80 * task
}

pub fn length_at(task: usize) -> usize {
    entry_at(task) + 12
}

pub fn instruction_at(task: usize, position: usize) -> usize {
    entry_at(task) + 16 + 4 * position
}

/// Where a lock's holding time is.
pub fn holding_at(lock: usize) -> usize {
    entry_at(MOST_TASKS) + 4 * lock
}

/// A count's byte; 255 for what it cannot hold.
fn count(parts: usize) -> u8 {
    parts.min(255) as u8
}

/// Writes bytes at an offset.
fn put(memory: &mut Memory, at: usize, bytes: &[u8]) {
    memory[at..at + bytes.len()].copy_from_slice(bytes);
}

impl TableDescription {
    /// The table in memory, with zeros past its counts. Parts that have no room are left out, but
    /// the counts have them.
    pub fn memory(&self) -> Memory {
        let mut memory = [0; TABLE_ROOM];
        put(&mut memory, 0, &self.window.to_le_bytes());
        put(&mut memory, 4, &self.initial_store);
        memory[TASKS] = count(self.tasks.len());
        memory[LOCKS] = count(self.ceilings.len());
        let locks = self.ceilings.len().min(MOST_LOCKS);
        put(&mut memory, CEILINGS, &self.ceilings[..locks]);
        for lock in 0..locks {
            put(&mut memory, holding_at(lock), &self.holding(lock).to_le_bytes());
        }
        for (number, task) in self.tasks.iter().take(MOST_TASKS).enumerate() {
            let times = [task.execution, task.period, task.first_arrival];
            put(&mut memory, entry_at(number), &times.map(u32::to_le_bytes).concat());
            memory[length_at(number)] = count(task.body.len());
            for (position, one) in task.body.iter().take(MOST_INSTRUCTIONS).enumerate() {
                let InstructionDescription { operation, a, b, c } = *one;
                put(&mut memory, instruction_at(number, position), &[operation, a, b, c]);
            }
        }
        memory
    }
}

/// Random bytes wherever a table in memory has no part: in unused bytes and past the counts.
pub fn litter(random: &mut Random, memory: &mut Memory) {
    let [tasks, locks] = [TASKS, LOCKS].map(|at| usize::from(memory[at]));
    let mut free = vec![
        LOCKS + 1..CEILINGS,
        CEILINGS + locks.min(MOST_LOCKS)..CEILINGS + MOST_LOCKS,
        entry_at(tasks.min(MOST_TASKS))..entry_at(MOST_TASKS),
        holding_at(locks.min(MOST_LOCKS))..TABLE_ROOM,
    ];
    for task in 0..tasks.min(MOST_TASKS) {
        let length = usize::from(memory[length_at(task)]).min(MOST_INSTRUCTIONS);
        free.push(length_at(task) + 1..instruction_at(task, 0));
        free.push(instruction_at(task, length)..entry_at(task + 1));
    }
    for byte in free.into_iter().flatten() {
        memory[byte] = random.byte();
    }
}

/// The table in memory, with litter in half of the cases.
fn kept(random: &mut Random, table: &TableDescription) -> Memory {
    let mut memory = table.memory();
    if random.chance(1, 2) {
        litter(random, &mut memory);
    }
    memory
}

/// A table of this family in memory.
fn of(random: &mut Random, make: fn(&mut Random) -> TableDescription) -> Memory {
    let table = make(random);
    kept(random, &table)
}

/// Tables that are mostly accepted, half of them with holding times.
pub fn good(random: &mut Random) -> Memory {
    of(random, kinds::good)
}

/// Good tables with more parts than there is room for.
pub fn overfull(random: &mut Random) -> Memory {
    of(random, kinds::overfull)
}

/// Tables with an instruction that breaks a rule or nearly does.
pub fn wrong_instruction(random: &mut Random) -> Memory {
    of(random, kinds::wrong_instruction)
}

/// Tables with one or more times, ceilings or the window drawn anew.
pub fn wrong_times(random: &mut Random) -> Memory {
    of(random, kinds::wrong_times)
}

/// Tables whose processor is full or nearly so.
pub fn busy(random: &mut Random) -> Memory {
    of(random, kinds::busy)
}

/// Tables with about 32 jobs, and with far more.
pub fn many_jobs(random: &mut Random) -> Memory {
    of(random, kinds::many_jobs)
}

/// Tables with one count that is another: of tasks, of locks, or of a body's instructions. What
/// stands past the counts is litter, or End and zeros.
pub fn miscounted(random: &mut Random) -> Memory {
    let table = light(random);
    let mut memory = kept(random, &table);
    let task = random.index(table.tasks.len());
    let at = [TASKS, LOCKS, length_at(task)][random.index(3)];
    let others = [0, 1, 7, 8, 9, 10, 15, 16, 17, 18, 200, 255, random.byte()];
    memory[at] = others[random.index(others.len())];
    memory
}

/// Tables with one byte changed, mostly by a little.
pub fn one_byte(random: &mut Random) -> Memory {
    let table = if random.chance(1, 2) { light(random) } else { drawn(random) };
    let mut memory = table.memory();
    let at = match random.chance(1, 2) {
        true => random.index(TABLE_ROOM),
        false => random.index(entry_at(table.tasks.len())),
    };
    let change = if random.chance(1, 2) { random.between(1, 3) } else { random.between(1, 255) };
    memory[at] = memory[at].wrapping_add(change as u8);
    memory
}

/// Any bytes, or bytes that are likely in a table, so that a reader goes further.
pub fn random_bytes(random: &mut Random) -> Memory {
    if random.chance(1, 4) {
        return std::array::from_fn(|_| random.byte());
    }
    let mut memory = [0; TABLE_ROOM];
    memory[0] = random.between(0, 20) as u8;
    memory[TASKS] = random.between(0, 9) as u8;
    memory[LOCKS] = random.between(0, 9) as u8;
    memory[CEILINGS..][..MOST_LOCKS].iter_mut().for_each(|c| *c = random.between(4, 8) as u8);
    for lock in 0..MOST_LOCKS {
        memory[holding_at(lock)] = random.between(0, 99) as u8;
    }
    for task in 0..MOST_TASKS {
        let times = [random.between(0, 3) as u8, 0, 0, 0, random.between(1, 99) as u8];
        put(&mut memory, entry_at(task), &times);
        memory[length_at(task)] = random.between(0, 3) as u8;
        for position in 0..random.index(3) {
            let one = [random.between(0, 11) as u8, random.between(0, 3) as u8, 0, 0];
            put(&mut memory, instruction_at(task, position), &one);
        }
    }
    memory
}
