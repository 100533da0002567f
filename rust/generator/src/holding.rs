//! Random tables whose locks have longest holding times: of all sorts; such that it depends on them
//! who may preempt whom; and such that they make a nearly full processor late.

use crate::description::{code, InstructionDescription, TableDescription, TaskDescription};
use crate::hostile::{nearly_full, tasks_of, WIDEST};
use crate::random::Random;
use crate::tables::{random_table, Sizes};

/// A holding time of any sort: none, little, about what a task leaves of its period, half of what
/// a wide field holds, nearly all, any.
fn some_holding(random: &mut Random, table: &TableDescription) -> u32 {
    let task = &table.tasks[random.index(table.tasks.len())];
    let left = task.period.wrapping_sub(task.execution);
    let near = random.between(0, 4) as u32;
    match random.between(0, 11) {
        0 => 0,
        1 => 1,
        2..=5 => random.between(2, 12) as u32,
        6..=8 => left.wrapping_add(near).wrapping_sub(2),
        9 => (1 << 31) + near - 2,
        10 => WIDEST - near,
        _ => random.bits() as u32,
    }
}

/// Gives each lock a holding time: in half of the tables short ones, else of any sort.
pub fn hold(random: &mut Random, table: &mut TableDescription) {
    let short = random.chance(1, 2);
    let holding = |_| match short {
        true => random.between(0, 6) as u32,
        false => some_holding(random, table),
    };
    table.holdings = (0..table.ceilings.len()).map(holding).collect();
}

/// A random table of any size with locks and holding times. Half of them have periods so long that
/// most are accepted. Of the others some have a task that is late without a wait, 4 of each 7 under
/// 2 of each 5, above tasks that are not; and some have periods about as long as any.
pub fn random_holding(random: &mut Random) -> TableDescription {
    let mut table = random_table(random, &Sizes { tasks: (2, 8), locks: (1, 8), ..Sizes::ANY });
    let tasks = table.tasks.len();
    match random.between(0, 7) {
        0..=3 => table.tasks.iter_mut().for_each(|task| task.period *= 8),
        4 if tasks > 3 => {
            for (number, task) in table.tasks.iter_mut().enumerate() {
                (task.execution, task.period) = match tasks - number {
                    1 => (2, 5),
                    2 => (4, 7),
                    _ => (1, 480 - number as u32),
                };
            }
        }
        5 => {
            for (number, task) in table.tasks.iter_mut().enumerate() {
                task.period = WIDEST - number as u32 / 2;
            }
        }
        _ => {}
    }
    hold(random, &mut table);
    table
}

/// The variable that the jobs of a long hold share.
const SHARED: u8 = 0;

type Body = Vec<InstructionDescription>;

/// What the lowest task does with its locks. Only the last names none to wait for.
fn holder(random: &mut Random, locks: [u8; 2]) -> Body {
    let [lock, other] = locks;
    let (take, free) = (code::acquire(lock), code::release(lock));
    match random.between(0, 6) {
        0 | 1 => vec![take, code::load(0, SHARED), free, code::end()],
        2 => vec![take, code::end()],
        // Never reached: past an End, and skipped.
        3 => vec![code::end(), take, code::end()],
        4 => vec![code::skip_if_equal(0, 0, 1), take, code::end()],
        5 => vec![take, code::acquire(other), free, code::release(other), code::end()],
        _ => vec![free, code::end()],
    }
}

/// Some steps, mostly without a lock, else under one of these.
fn guarded(random: &mut Random, steps: &[InstructionDescription], locks: &[u8]) -> Body {
    let mut body = steps.to_vec();
    if !locks.is_empty() && random.chance(1, 3) {
        let lock = locks[random.index(locks.len())];
        body.insert(0, code::acquire(lock));
        body.push(code::release(lock));
    }
    body.push(code::end());
    body
}

/// A random table of three or four tasks. The lowest holds a lock that one above may wait for; the
/// next reads a variable twice and fails if another stores to it between, which one may or may not
/// do by how long the wait is.
pub fn random_long_hold(random: &mut Random) -> TableDescription {
    let uppers = random.between(1, 2);
    let ceilings: Vec<u8> = (0..2).map(|_| random.between(0, uppers + 1) as u8).collect();
    let mut times = vec![
        [random.between(1, 3) as u32, 64, random.between(0, 1) as u32],
        [random.between(1, 3) as u32, 48, random.between(0, 2) as u32],
    ];
    let upper = |_| [1, random.between(12, 24) as u32, random.between(2, 11) as u32];
    let mut highest: Vec<[u32; 3]> = (0..uppers).map(upper).collect();
    highest.sort_unstable_by_key(|[_, period, _]| std::cmp::Reverse(*period));
    times.extend(highest);
    let reads = [code::load(0, SHARED), code::load(1, SHARED), code::skip_if_equal(0, 1, 1)];
    let reads = [&reads[..], &[code::assert(2)]].concat();
    let mut tasks = Vec::new();
    for (base, times) in times.into_iter().enumerate() {
        let fits = |lock: &u8| usize::from(ceilings[usize::from(*lock)]) >= base;
        let locks: Vec<u8> = (0..2).filter(fits).collect();
        let stores = [code::set(0, random.between(0, 2) as u8), code::store(SHARED, 0)];
        let body = match base {
            0 => {
                let first = random.index(2) as u8;
                holder(random, [first, 1 - first])
            }
            1 => guarded(random, &reads, &locks),
            _ => guarded(random, &stores, &locks),
        };
        tasks.push(TaskDescription::new(times, &body));
    }
    let mut table = TableDescription::new(random.between(12, 15) as u32, tasks);
    table.ceilings = ceilings;
    table.holdings = (0..2).map(|_| random.between(0, 14) as u32).collect();
    table
}

/// The most time that tasks with these C and P, each of which meets its period, leave up to some
/// point of a bound: the bound, or the last multiple of a period before it, the longest first.
fn most_left(above: &[(u32, u32)], periods: &[(u32, u32)], bound: u64) -> u64 {
    let Some(((_, period), shorter)) = periods.split_last() else {
        let used = |(c, p): &(u32, u32)| bound.div_ceil((*p).into()) * u64::from(*c);
        return bound.saturating_sub(above.iter().map(used).sum());
    };
    let multiple = bound / u64::from(*period) * u64::from(*period);
    most_left(above, shorter, bound).max(most_left(above, shorter, multiple))
}

/// Seven periods, ascending: any, or each a small multiple of the one before or little more.
fn seven_periods(random: &mut Random) -> Vec<u32> {
    if random.chance(1, 3) {
        let most = 1 << random.between(3, 20);
        let mut periods: Vec<u32> = (0..7).map(|_| random.between(2, most) as u32).collect();
        periods.sort_unstable();
        return periods;
    }
    let most = random.between(2, 24);
    let mut periods = vec![random.between(2, 9) as u32];
    for place in 0..6 {
        let times = if random.chance(1, 3) { 1 } else { random.between(2, most) as u32 };
        let more = if random.chance(1, 2) { random.between(1, 2) as u32 } else { 0 };
        periods.push(periods[place] * times + more);
    }
    periods
}

/// Tasks above one with the longest period that leave little time free, and each of which meets its
/// period while it waits for no lock, the longest of them with little to spare.
fn full_and_fitting(random: &mut Random) -> TableDescription {
    let mut above: Vec<(u32, u32)> = Vec::new();
    for (place, period) in seven_periods(random).into_iter().enumerate() {
        let most = most_left(&above, &above, period.into()) as u32;
        let execution = match place {
            6 => most.saturating_sub(random.between(0, 3) as u32),
            _ => (u64::from(most) * random.between(20, 70)).div_ceil(100) as u32,
        };
        if execution > 0 {
            above.push((execution, period));
        }
    }
    above.push((random.between(1, 9) as u32, WIDEST));
    above.reverse();
    tasks_of(&above)
}

/// Waits that make one task late, or all that the lock reaches, while the tasks above the lowest
/// leave next to no time free. Only the lowest takes a lock; if none waits, each meets its period.
pub fn late_waits() -> Vec<TableDescription> {
    let sylvester = [(1, WIDEST), (1, 1807), (1, 43), (1, 7), (1, 3), (1, 2)];
    let longer = [&[(1, WIDEST), (1, 3_300_000)], &sylvester[1..]].concat();
    let tenfold: Vec<(u32, u32)> =
        longer.iter().map(|(c, p)| (c * 10, p.saturating_mul(10))).collect();
    let sevenths = [&[(1, WIDEST), (1, 8)], &[(1, 7); 6][..]].concat();
    let waits = [
        (&sylvester[..], 1, 1),
        (&sylvester, 1, WIDEST),
        (&sylvester, 5, WIDEST),
        (&longer, 1, WIDEST),
        (&longer, 2, 1),
        (&longer, 6, WIDEST),
        (&tenfold, 1, 36_700_000),
        (&tenfold, 2, 1 << 31),
        (&sevenths, 7, 1 << 31),
    ];
    let table = |(times, ceiling, holding): (&[(u32, u32)], u8, u32)| {
        let mut table = tasks_of(times);
        table.tasks[0].body.insert(0, code::acquire(0));
        (table.ceilings, table.holdings) = (vec![ceiling], vec![holding]);
        table
    };
    waits.map(table).into()
}

/// Gives a table some locks with holding times of any sort, each with a task that acquires it.
fn hold_somewhere(random: &mut Random, table: &mut TableDescription) {
    let top = table.tasks.len() - 1;
    let locks = random.between(1, 3) as usize;
    table.ceilings = (0..locks).map(|_| random.between(1, top.max(1) as u64) as u8).collect();
    for lock in 0..locks {
        let below = usize::from(table.ceilings[lock]).min(top + 1);
        let task = if random.chance(1, 2) { 0 } else { random.index(below) };
        table.tasks[task].body.insert(0, code::acquire(lock as u8));
    }
    table.holdings = (0..locks).map(|_| some_holding(random, table)).collect();
}

/// A nearly full table that is mostly accepted without holding times, with locks of which one is
/// held for little, for about as much as is left to some task, or for far more.
pub fn late_by_holding(random: &mut Random) -> TableDescription {
    let mut table = full_and_fitting(random);
    hold_somewhere(random, &mut table);
    if random.chance(1, 4) {
        table.holdings.fill(random.between(0, 3) as u32);
    } else {
        let long = [WIDEST, 1 << 31, random.bits() as u32, random.between(1, 4_000) as u32];
        table.holdings[0] = long[random.index(long.len())];
    }
    table
}

/// A nearly full table in which a task may be late without any wait, with locks held for any time.
pub fn full_with_holding(random: &mut Random) -> TableDescription {
    let fits = random.chance(3, 4);
    let mut table = if fits { full_and_fitting(random) } else { nearly_full(random) };
    hold_somewhere(random, &mut table);
    table
}
