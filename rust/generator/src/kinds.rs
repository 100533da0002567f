//! Random tables that break a rule or nearly do, each rule of document 01 that a table alone can
//! break, and those that mostly break none.

use crate::description::{code, TableDescription, TaskDescription};
use crate::holding::hold;
use crate::hostile::{nearly_full, WIDEST};
use crate::random::Random;
use crate::tables::{random_nest, random_race, random_table, Sizes};

/// A random table of small, long or any size, or one of the two special shapes.
pub fn drawn(random: &mut Random) -> TableDescription {
    match random.between(0, 7) {
        0 => random_table(random, &Sizes::SMALL),
        1 => random_table(random, &Sizes::LONG),
        2 => random_race(random),
        3 => random_nest(random),
        _ => random_table(random, &Sizes::ANY),
    }
}

/// A table of any size with so short execution times that it is mostly accepted.
pub fn light(random: &mut Random) -> TableDescription {
    let mut table = random_table(random, &Sizes::ANY);
    for task in &mut table.tasks {
        (task.execution, task.period) = (1, task.period * 8);
    }
    table
}

/// Tables that are mostly accepted, half of them with holding times.
pub fn good(random: &mut Random) -> TableDescription {
    let mut table = if random.chance(1, 2) { light(random) } else { drawn(random) };
    if random.chance(1, 2) {
        hold(random, &mut table);
    }
    table
}

/// Good tables with more parts than a table may have, up to 300 of a kind.
pub fn overfull(random: &mut Random) -> TableDescription {
    let mut table = light(random);
    let many = [8, 9, 10, 16, 17, 18, 255, 256, 300][random.index(9)];
    let last = table.tasks.len() - 1;
    match random.between(0, 2) {
        0 => table.tasks.resize(many, table.tasks[last].clone()),
        1 => table.ceilings.resize(many, random.between(6, 8) as u8),
        _ => table.tasks[random.index(last + 1)].body.resize(many, code::end()),
    }
    table
}

/// A number near to a limit, or any byte.
fn near(random: &mut Random) -> u8 {
    let likely = [0, 1, 2, 3, 4, 7, 8, 9, 15, 16, 255, random.byte()];
    likely[random.index(likely.len())]
}

/// Tables with an instruction that breaks a rule or nearly does: an unused or a wrong field, a skip
/// beyond the end, a lock that is missing or has a low ceiling, a last instruction that is not End.
pub fn wrong_instruction(random: &mut Random) -> TableDescription {
    let mut table = light(random);
    let task = random.index(table.tasks.len());
    let body = &mut table.tasks[task].body;
    let (at, last) = (random.index(body.len()), body.len() - 1);
    match random.between(0, 7) {
        0 => body[at].operation = random.between(0, 13) as u8,
        1 => body[at].a = near(random),
        2 => body[at].b = near(random),
        3 => body[at].c = near(random),
        4 => body[at] = code::skip_if_less(0, 1, random.between(0, 16) as u8),
        5 => body[at] = code::acquire(near(random)),
        6 => body[at] = code::release(near(random)),
        _ => body[last] = code::set(0, random.byte()),
    }
    if random.chance(1, 4) {
        table.ceilings.iter_mut().for_each(|ceiling| *ceiling /= 2);
    }
    table
}

/// A time from 0 to the widest, mostly near to an end or small.
fn time(random: &mut Random) -> u32 {
    match random.between(0, 5) {
        0 => random.between(0, 2) as u32,
        1 => WIDEST - random.between(0, 2) as u32,
        2 => random.bits() as u32,
        _ => random.between(1, 300) as u32,
    }
}

/// Tables with one or more times, ceilings or the window drawn anew.
pub fn wrong_times(random: &mut Random) -> TableDescription {
    let mut table = light(random);
    let task = random.index(table.tasks.len());
    match random.between(0, 7) {
        0 => table.window = time(random),
        1 => table.tasks[task].execution = time(random),
        2 => table.tasks[task].period = time(random),
        3 => table.tasks[task].first_arrival = time(random),
        4 => table.tasks.iter_mut().for_each(|task| task.execution = time(random)),
        5 => table.tasks.iter_mut().for_each(|task| task.period = time(random)),
        6 => table.holdings = table.ceilings.iter().map(|_| time(random)).collect(),
        _ => table.ceilings.iter_mut().for_each(|ceiling| *ceiling = near(random)),
    }
    table
}

/// A table in which only one task, mostly a middle one, has no response time within its period: 4
/// of each 7 under 2 of each 5. The tasks below it have far longer periods.
fn bottleneck(random: &mut Random) -> TableDescription {
    let mut table = light(random);
    let middle = random.index(table.tasks.len());
    for (number, task) in table.tasks.iter_mut().enumerate() {
        (task.execution, task.period) = match number {
            _ if number < middle => (1, 4_000_000),
            _ if number == middle => (4_000, 7_000),
            _ if number == middle + 1 => (2_000, 5_000),
            _ => (1, 5_000),
        };
    }
    table
}

/// Tables whose processor is full or nearly so.
pub fn busy(random: &mut Random) -> TableDescription {
    match random.between(0, 19) {
        0 => nearly_full(random),
        1..=9 => bottleneck(random),
        _ => {
            let mut table = light(random);
            let tasks = table.tasks.len() as u32;
            let share = |task: &TaskDescription| (task.period / tasks).max(1);
            table.tasks.iter_mut().for_each(|task| task.execution = share(task));
            table
        }
    }
}

/// Tables with about 32 jobs, and with far more.
pub fn many_jobs(random: &mut Random) -> TableDescription {
    let mut table = light(random);
    let tasks = table.tasks.len() as u64;
    let longest = u64::from(table.tasks[0].period);
    table.window = match random.chance(1, 4) {
        true => time(random).max(1),
        false => (longest * random.between(20, 44) / tasks).max(1) as u32,
    };
    table.tasks.iter_mut().for_each(|task| task.period = longest as u32);
    table
}
