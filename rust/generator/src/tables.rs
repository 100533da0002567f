//! Random tables.

use crate::description::{code, InstructionDescription, TableDescription, TaskDescription};
use crate::random::Random;

/// How large the random tables are. Each pair is the least and the most.
#[derive(Debug, Clone, Copy, PartialEq, Eq)]
pub struct Sizes {
    pub tasks: (u64, u64),
    pub jobs: (u64, u64),
    /// Instructions in a body, the last End among them.
    pub body: (u64, u64),
    pub locks: (u64, u64),
    /// The largest b of a Pick.
    pub most_pick: u64,
    /// How many variables the bodies use, from 0.
    pub variables: u64,
    /// The longest period.
    pub longest_period: u64,
}

impl Sizes {
    /// Tables so small that every order and every plan can be listed.
    pub const SMALL: Sizes = Sizes {
        tasks: (2, 3),
        jobs: (2, 4),
        body: (2, 4),
        locks: (0, 2),
        most_pick: 2,
        variables: 2,
        longest_period: 12,
    };

    /// Fewer jobs with longer bodies, so that locks, skips and assertions meet more often.
    pub const LONG: Sizes = Sizes {
        tasks: (2, 3),
        jobs: (2, 3),
        body: (4, 6),
        locks: (0, 2),
        most_pick: 1,
        variables: 2,
        longest_period: 12,
    };

    /// Tables of any size that document 01 allows.
    pub const ANY: Sizes = Sizes {
        tasks: (1, 8),
        jobs: (0, 32),
        body: (1, 16),
        locks: (0, 8),
        most_pick: 15,
        variables: 8,
        longest_period: 60,
    };
}

/// A random table in range, with periods that never grow along the chain and ceilings that fit the
/// tasks that acquire the locks. It may still be overloaded. The job count is within the sizes.
pub fn random_table(random: &mut Random, sizes: &Sizes) -> TableDescription {
    loop {
        let table = draft(random, sizes);
        let jobs = table.tasks.iter().map(|task| job_count(task, table.window)).sum::<u64>();
        if (sizes.jobs.0..=sizes.jobs.1).contains(&jobs) {
            return table;
        }
    }
}

/// How many jobs of a task arrive before the window's end.
fn job_count(task: &TaskDescription, window: u32) -> u64 {
    let mut arrivals = 0;
    let mut arrival = task.first_arrival as u64;
    while arrival < window as u64 && arrivals <= 32 {
        arrivals += 1;
        arrival += task.period as u64;
    }
    arrivals
}

/// A table whose job count is not yet looked at.
fn draft(random: &mut Random, sizes: &Sizes) -> TableDescription {
    let count = random.between(sizes.tasks.0, sizes.tasks.1);
    let mut periods: Vec<u64> =
        (0..count).map(|_| random.between(3, sizes.longest_period)).collect();
    periods.sort_unstable_by(|a, b| b.cmp(a));
    let locks = random.between(sizes.locks.0, sizes.locks.1);
    let ceilings: Vec<u8> = (0..locks).map(|_| random.between(0, count.min(7)) as u8).collect();
    let window = random.between(2, sizes.longest_period);
    let mut tasks = Vec::new();
    for (base, period) in periods.iter().enumerate() {
        let share = (period / count).max(1);
        let times = [
            random.between(1, share + 1).min(*period) as u32,
            *period as u32,
            random.between(0, window * 2 / 3) as u32,
        ];
        tasks.push(TaskDescription::new(times, &random_body(random, sizes, &ceilings, base)));
    }
    // Mostly not zero, so that assertions on variables hold until a job stores a zero.
    let initial_store = std::array::from_fn(|_| [0, 1, 1, 1, 2][random.index(5)]);
    let (window, holdings) = (window as u32, Vec::new());
    TableDescription { window, initial_store, tasks, ceilings, holdings }
}

/// A body whose skips stay within it and whose last instruction is End.
fn random_body(
    random: &mut Random,
    sizes: &Sizes,
    ceilings: &[u8],
    base: usize,
) -> Vec<InstructionDescription> {
    let length = random.between(sizes.body.0, sizes.body.1);
    let fit = |lock: &usize| ceilings[*lock] as usize >= base;
    let locks: Vec<usize> = (0..ceilings.len()).filter(fit).collect();
    let mut body: Vec<InstructionDescription> = Vec::new();
    while (body.len() as u64) + 1 < length {
        if (body.len() as u64) + 2 < length && random.chance(1, 4) {
            body.extend(random_pair(random, sizes));
            continue;
        }
        let skip_most = (length - 2 - body.len() as u64).min(15);
        body.push(random_instruction(random, sizes, &locks, skip_most));
    }
    body.push(code::end());
    body
}

/// Two instructions that make what a job does depend on other jobs: an assertion on a variable, or a
/// store of a picked or set value.
fn random_pair(random: &mut Random, sizes: &Sizes) -> [InstructionDescription; 2] {
    let register = random.between(0, 1) as u8;
    let variable = random.between(0, sizes.variables - 1) as u8;
    match random.between(0, 3) {
        0 => [code::pick(register, sizes.most_pick as u8), code::store(variable, register)],
        1 => [code::set(register, random.between(0, 1) as u8), code::store(variable, register)],
        _ => [code::load(register, variable), code::assert(register)],
    }
}

/// A random table in which task 0 reads a variable twice and fails if the two differ, while all other
/// tasks store to it. A lock, if there is one, may guard the reads. Whether an order fails depends
/// on who preempts whom, and the first order seldom does.
pub fn random_race(random: &mut Random) -> TableDescription {
    let mut table = random_table(random, &Sizes::LONG);
    let guarded = !table.ceilings.is_empty() && random.chance(2, 3);
    let mut reader = vec![code::load(0, 0), code::load(1, 0)];
    if guarded {
        let lock = random.index(table.ceilings.len()) as u8;
        reader.insert(0, code::acquire(lock));
        reader.insert(random.between(2, 3) as usize, code::release(lock));
    }
    reader.extend([code::skip_if_equal(0, 1, 1), code::assert(2), code::end()]);
    table.tasks[0].body = reader;
    for task in &mut table.tasks[1..] {
        let value = random.between(0, 2) as u8;
        let first = if random.chance(1, 3) { code::pick(0, value) } else { code::set(0, value) };
        task.body = vec![first, code::store(0, 0), code::end()];
    }
    table
}

/// A random table of three jobs, each of which may preempt those of all lower tasks, so that jobs
/// nest two deep. Bodies, locks and ceilings are random.
pub fn random_nest(random: &mut Random) -> TableDescription {
    let mut table = random_table(random, &Sizes { tasks: (3, 3), locks: (0, 3), ..Sizes::SMALL });
    table.window = 3;
    for (task, times) in table.tasks.iter_mut().zip([[3, 20, 0], [2, 10, 1], [1, 5, 2]]) {
        [task.execution, task.period, task.first_arrival] = times;
    }
    table
}

/// One instruction; `skip_most` is the longest skip that stays within the body.
fn random_instruction(
    random: &mut Random,
    sizes: &Sizes,
    locks: &[usize],
    skip_most: u64,
) -> InstructionDescription {
    let registers = if sizes.variables > 2 { 3 } else { 1 };
    let one = random.between(0, registers) as u8;
    let other = random.between(0, registers) as u8;
    let variable = random.between(0, sizes.variables - 1) as u8;
    let skip = random.between(0, skip_most) as u8;
    let small_or_any = if random.chance(3, 4) { random.between(0, 3) as u8 } else { random.byte() };
    if !locks.is_empty() && random.chance(2, 5) {
        let lock = locks[random.index(locks.len())] as u8;
        return if random.chance(2, 3) { code::acquire(lock) } else { code::release(lock) };
    }
    match random.between(0, 21) {
        0..=3 => code::load(one, variable),
        4..=7 => code::store(variable, one),
        8..=9 => code::set(one, small_or_any),
        10 => code::add(one, other),
        11 => code::subtract(one, other),
        12..=13 => code::skip_if_less(one, other, skip),
        14..=16 => code::skip_if_equal(one, other, skip),
        17..=18 => code::pick(one, random.between(0, sizes.most_pick) as u8),
        19..=20 => code::assert(one),
        _ => code::end(),
    }
}
