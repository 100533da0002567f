//! Random tables whose Picks need not start at zero (document 02, E7): jobs that meet and for which
//! it depends on the values on offer whether an order fails, and tables of any size.

use crate::description::{code, InstructionDescription, TableDescription, TaskDescription};
use crate::nesting::{MORE_JOBS, TWO_JOBS};
use crate::random::Random;
use crate::tables::{random_table, Sizes};

/// The operation of a Pick, and its largest value.
pub const PICK: u8 = 8;
pub const LARGEST: u8 = 15;

/// The lowest and the highest value of a Pick.
type Values = (u8, u8);

/// How many values a Pick has at most in a table of two jobs, and in one of more.
const MANY: u64 = 4;
const FEW: u64 = 2;

/// Values of all sorts, at most so many: mostly some above zero; one alone; the largest alone; some up
/// to the largest; some from zero.
fn some_values(random: &mut Random, most: u64) -> Values {
    let more = random.between(0, most - 1) as u8;
    match random.between(0, 11) {
        0 => (LARGEST, LARGEST),
        1 => (LARGEST - more, LARGEST),
        2 => {
            let alone = random.between(0, LARGEST.into()) as u8;
            (alone, alone)
        }
        3 | 4 => (0, more),
        _ => {
            let lowest = random.between(1, (LARGEST - more).into()) as u8;
            (lowest, lowest + more)
        }
    }
}

/// A number at an end of the values or next to it: within them or not.
fn limit(random: &mut Random, (lowest, highest): Values) -> u8 {
    let near = [lowest.saturating_sub(1), lowest, lowest + 1, highest, highest + 1];
    near[random.index(near.len())]
}

/// Registers: the picked value, what is read, one that stays zero, and what the others are compared
/// with.
const PICKED: u8 = 0;
const READ: u8 = 1;
const ZERO: u8 = 2;
const LIMIT: u8 = 3;

/// The variable that the jobs share.
const SHARED: u8 = 0;

/// How many locks such a table has.
const LOCKS: u8 = 2;

/// Instructions that stay together: a skip with what it skips, else one alone.
type Piece = Vec<InstructionDescription>;

fn alone(instructions: &[InstructionDescription]) -> Vec<Piece> {
    instructions.iter().map(|one| vec![*one]).collect()
}

/// What a job does with a picked value, which is one of these or not.
fn uses(random: &mut Random, values: Values) -> Vec<Piece> {
    let set = vec![code::set(LIMIT, limit(random, values))];
    let unless = |skip| vec![skip, code::assert(ZERO)];
    match random.between(0, 9) {
        // Others see it, alone or in a sum.
        0..=2 => alone(&[code::store(SHARED, PICKED)]),
        3 => alone(&[code::load(READ, SHARED), code::add(READ, PICKED), code::store(SHARED, READ)]),
        // It fails at zero, from the limit on, up to the limit, or at the limit alone.
        4 => alone(&[code::assert(PICKED)]),
        5 => vec![set, unless(code::skip_if_less(PICKED, LIMIT, 1))],
        6 => vec![set, unless(code::skip_if_less(LIMIT, PICKED, 1))],
        7 => {
            let differs = alone(&[code::subtract(PICKED, LIMIT), code::assert(PICKED)]);
            [vec![set], differs].concat()
        }
        // It is stored unless it is the limit, or only if it is below.
        8 => vec![set, vec![code::skip_if_equal(PICKED, LIMIT, 1), code::store(SHARED, PICKED)]],
        _ => vec![set, vec![code::skip_if_less(PICKED, LIMIT, 1), code::store(SHARED, PICKED)]],
    }
}

/// What a job does with the shared variable, which holds a picked value or not: it fails if it is
/// zero, if it changes between two reads, or if it is the limit.
fn looks(random: &mut Random, values: Values) -> Vec<Piece> {
    let reads = vec![code::load(READ, SHARED)];
    match random.between(0, 3) {
        0 => vec![reads, vec![code::assert(READ)]],
        1 => {
            let compare = vec![code::skip_if_equal(READ, LIMIT, 1), code::assert(ZERO)];
            vec![reads, vec![code::load(LIMIT, SHARED)], compare]
        }
        _ => {
            let differs = [code::subtract(READ, LIMIT), code::assert(READ)];
            let set = vec![code::set(LIMIT, limit(random, values))];
            [vec![reads, set], alone(&differs)].concat()
        }
    }
}

/// The pieces of a job that picks once or twice or not at all. Mostly its Pick comes first.
fn pieces(random: &mut Random, shared: Values, short: bool) -> Vec<Piece> {
    let own = some_values(random, if short { FEW } else { MANY });
    let (lowest, highest) = if random.chance(1, 2) { shared } else { own };
    let pick = vec![code::pick_between(PICKED, lowest, highest)];
    let mut pieces = match random.between(0, 5) {
        0 => looks(random, shared),
        1 if !short => {
            let (lowest, highest) = some_values(random, FEW);
            let again = [code::pick_between(PICKED, lowest, highest), code::store(SHARED, PICKED)];
            [vec![pick], uses(random, (lowest, highest)), alone(&again)].concat()
        }
        _ => [vec![pick], uses(random, (lowest, highest))].concat(),
    };
    if random.chance(1, 4) {
        pieces.insert(0, vec![code::load(READ, SHARED)]);
    }
    pieces
}

/// Puts an Acquire of one of the locks before some piece, and mostly a Release after a later one.
fn guard(random: &mut Random, pieces: &mut Vec<Piece>, locks: &[u8]) {
    let lock = locks[random.index(locks.len())];
    let from = random.index(pieces.len());
    pieces.insert(from, vec![code::acquire(lock)]);
    if random.chance(3, 4) {
        let to = random.between(from as u64 + 2, pieces.len() as u64) as usize;
        pieces.insert(to, vec![code::release(lock)]);
    }
}

/// A body, some of it under a lock if there is one that it may acquire.
fn body(
    random: &mut Random,
    shared: Values,
    locks: &[u8],
    short: bool,
) -> Vec<InstructionDescription> {
    let mut pieces = pieces(random, shared, short);
    if !locks.is_empty() && random.chance(1, 3) {
        guard(random, &mut pieces, locks);
    }
    let mut body = pieces.concat();
    body.push(code::end());
    body
}

/// A table of jobs that meet; it may have no Pick above zero.
fn meeting(random: &mut Random) -> TableDescription {
    let two_jobs = random.chance(3, 4);
    let (window, times) =
        if two_jobs { TWO_JOBS } else { MORE_JOBS[random.index(MORE_JOBS.len())] };
    let top = times.len() as u64 - 1;
    let ceilings: Vec<u8> = (0..LOCKS).map(|_| random.between(0, top + 1) as u8).collect();
    let shared = some_values(random, if two_jobs { MANY } else { FEW });
    let mut tasks = Vec::new();
    for (base, times) in times.iter().enumerate() {
        let fits = |lock: &u8| usize::from(ceilings[usize::from(*lock)]) >= base;
        let locks: Vec<u8> = (0..LOCKS).filter(fits).collect();
        tasks.push(TaskDescription::new(*times, &body(random, shared, &locks, !two_jobs)));
    }
    let mut table = TableDescription { ceilings, ..TableDescription::new(window, tasks) };
    table.initial_store[usize::from(SHARED)] = limit(random, shared);
    table
}

/// The Picks of a table that do not start at zero.
pub fn lifted(table: &TableDescription) -> impl Iterator<Item = &InstructionDescription> {
    let instructions = table.tasks.iter().flat_map(|task| &task.body);
    instructions.filter(|one| one.operation == PICK && one.c > 0)
}

/// A random table with a Pick above zero, of two or three jobs of which some may preempt others. A
/// picked value is stored, added, compared or asserted on, under a lock or not. All its orders can
/// be walked.
pub fn random_lifted_picks(random: &mut Random) -> TableDescription {
    loop {
        let table = meeting(random);
        if lifted(&table).next().is_some() {
            return table;
        }
    }
}

/// Gives each Pick a lowest value: in half of the cases any, else zero, its highest or one below.
pub fn lift(random: &mut Random, table: &mut TableDescription) {
    let instructions = table.tasks.iter_mut().flat_map(|task| &mut task.body);
    for pick in instructions.filter(|one| one.operation == PICK) {
        pick.c = match random.between(0, 5) {
            0..=2 => random.between(0, pick.b.into()) as u8,
            3 => 0,
            4 => pick.b,
            _ => pick.b.saturating_sub(1),
        };
    }
}

/// A random table of any size with a Pick above zero. It may be overloaded.
pub fn random_lifted(random: &mut Random) -> TableDescription {
    loop {
        let mut table = random_table(random, &Sizes::ANY);
        lift(random, &mut table);
        if lifted(&table).next().is_some() {
            return table;
        }
    }
}
