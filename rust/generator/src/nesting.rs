//! Random tables whose jobs take locks that they hold, and release locks that they do not.

use crate::description::{code, InstructionDescription, TableDescription, TaskDescription};
use crate::random::Random;

/// A step that a job makes with one of its two locks.
#[derive(Debug, Clone, Copy, PartialEq, Eq)]
enum LockStep {
    Acquire,
    Release,
    AcquireOther,
    ReleaseOther,
}
use LockStep::*;

/// What a job does with its locks, in this order, where it takes one that it holds.
const NESTING: [&[LockStep]; 7] = [
    // Taken twice, released once; taken three times, released once or twice.
    &[Acquire, Acquire, Release],
    &[Acquire, Acquire, Acquire, Release],
    &[Acquire, Acquire, Acquire, Release, Release],
    // A helper's pair inside its caller's: once, twice, and with a Release too many.
    &[Acquire, Acquire, Release, Release],
    &[Acquire, Acquire, Release, Acquire, Release, Release],
    &[Acquire, Acquire, Release, Release, Release],
    // The same amid another lock's steps, and the first lock is released first.
    &[Acquire, AcquireOther, Acquire, Release, Release, ReleaseOther],
];

/// What else a job does with its locks.
const OTHERS: [&[LockStep]; 8] = [
    &[Acquire, Release],
    // Released at zero: before any Acquire, once more than acquired, and then taken again.
    &[Release, Acquire, Release],
    &[Acquire, Release, Release],
    &[Acquire, Release, Release, Acquire, Release],
    // Left at End.
    &[Acquire],
    &[Acquire, Acquire],
    // Two locks that nest, released in the other order.
    &[Acquire, AcquireOther, Release, ReleaseOther],
    &[AcquireOther, Acquire, ReleaseOther, Release],
];

/// How many lock steps a body has at most in a table of more than two jobs.
const SHORT: usize = 4;

/// How many locks such a table has.
const LOCKS: u8 = 2;

/// How the jobs meet: the window, and C, P and A of each task, lowest first.
pub(crate) type Meeting = (u32, &'static [[u32; 3]]);

/// Two jobs, the upper of which may preempt the lower. Its tree is small, so bodies may be long.
pub(crate) const TWO_JOBS: Meeting = (4, &[[2, 8, 0], [1, 4, 1]]);

/// Meetings with larger trees: a job that may be preempted twice; three jobs, each of which may
/// preempt those below it; two jobs of a task, each with one that may preempt it.
pub(crate) const MORE_JOBS: [Meeting; 3] = [
    (6, &[[4, 20, 0], [1, 4, 1]]),
    (3, &[[3, 20, 0], [2, 10, 1], [1, 5, 2]]),
    (10, &[[2, 8, 0], [1, 8, 1]]),
];

/// Registers: two for what is read or stored, one that stays zero, and one for a choice.
const FIRST: u8 = 0;
const SECOND: u8 = 1;
const ZERO: u8 = 2;
const CHOICE: u8 = 3;

/// The variables that the jobs share; both start with the same value.
const SHARED: u8 = 0;
const COPY: u8 = 1;

/// Instructions that stay together: a skip with what it skips, else one alone.
type Piece = Vec<InstructionDescription>;

/// What a body does besides its lock steps.
#[derive(Debug, Clone, Copy, PartialEq, Eq)]
enum Work {
    /// Reads a variable twice and asserts that both reads are equal.
    ReadsTwice,
    Stores,
    /// Stores to both variables alike.
    StoresBoth,
    /// Reads both variables and asserts that they are equal.
    ReadsBoth,
}

/// Work that others can disturb, and the work that disturbs it.
const RACES: [[Work; 2]; 2] =
    [[Work::ReadsTwice, Work::Stores], [Work::StoresBoth, Work::ReadsBoth]];

impl Work {
    fn pieces(self, random: &mut Random) -> Vec<Piece> {
        let value = random.between(0, 2) as u8;
        let picks = self == Work::Stores && random.chance(1, 4);
        let from = if picks { code::pick(FIRST, value) } else { code::set(FIRST, value) };
        let stores = |variable| vec![code::store(variable, FIRST)];
        let reads = |other| {
            let compare = vec![code::skip_if_equal(FIRST, SECOND, 1), code::assert(ZERO)];
            vec![vec![code::load(FIRST, SHARED)], vec![code::load(SECOND, other)], compare]
        };
        match self {
            Work::ReadsTwice => reads(SHARED),
            Work::ReadsBoth => reads(COPY),
            Work::Stores => vec![vec![from], stores(SHARED)],
            Work::StoresBoth => vec![vec![from], stores(SHARED), stores(COPY)],
        }
    }
}

/// One of the patterns above, mostly one that nests.
fn lock_steps(random: &mut Random, short: bool) -> &'static [LockStep] {
    let all = if random.chance(2, 3) { &NESTING[..] } else { &OTHERS[..] };
    let fits = |steps: &&&[LockStep]| !short || steps.len() <= SHORT;
    let fitting: Vec<&&[LockStep]> = all.iter().filter(fits).collect();
    fitting[random.index(fitting.len())]
}

/// The steps of a pattern on a lock and another. One of them may be skipped, as the job's choice or
/// its reads have it.
fn lock_pieces(random: &mut Random, short: bool, locks: [u8; LOCKS as usize]) -> Vec<Piece> {
    let instruction = |step: &LockStep| match step {
        Acquire => code::acquire(locks[0]),
        Release => code::release(locks[0]),
        AcquireOther => code::acquire(locks[1]),
        ReleaseOther => code::release(locks[1]),
    };
    let steps = lock_steps(random, short);
    let mut pieces: Vec<Piece> = steps.iter().map(|step| vec![instruction(step)]).collect();
    if random.chance(1, 4) {
        let skips = [
            code::skip_if_equal(CHOICE, ZERO, 1),
            code::skip_if_equal(FIRST, SECOND, 1),
            code::skip_if_less(FIRST, SECOND, 1),
        ];
        let skipped = random.index(pieces.len());
        pieces[skipped].insert(0, skips[random.index(skips.len())]);
    }
    pieces
}

/// The pieces of both lists, each list in its order. Mostly the first lock step comes first and the
/// last one last, so that the others are amid the work.
fn mixed(random: &mut Random, locks: Vec<Piece>, work: Vec<Piece>) -> Vec<InstructionDescription> {
    let (mut locks, mut work) = (locks.into_iter(), work.into_iter());
    let first = if random.chance(2, 3) { locks.next() } else { None };
    let last = if random.chance(1, 2) { locks.next_back() } else { None };
    let mut body: Vec<Piece> = first.into_iter().collect();
    while locks.len() + work.len() > 0 {
        let is_lock = random.index(locks.len() + work.len()) < locks.len();
        body.extend(if is_lock { locks.next() } else { work.next() });
    }
    body.extend(last);
    body.concat()
}

/// A body that does its work amid lock steps, if there is a lock that it may acquire.
fn body(random: &mut Random, work: Work, locks: &[u8], short: bool) -> Vec<InstructionDescription> {
    let mut pieces = work.pieces(random);
    if !short && random.chance(1, 4) {
        pieces.insert(0, vec![code::pick(CHOICE, 1)]);
        if random.chance(1, 2) {
            let ends = vec![code::skip_if_equal(CHOICE, ZERO, 1), code::end()];
            pieces.insert(random.between(1, pieces.len() as u64) as usize, ends);
        }
    }
    let mut lock_steps = Vec::new();
    if !locks.is_empty() {
        let first = random.index(locks.len());
        let chosen = [locks[first], locks[(first + 1) % locks.len()]];
        lock_steps = lock_pieces(random, short, chosen);
    }
    let mut body = mixed(random, lock_steps, pieces);
    body.push(code::end());
    body
}

/// A random table whose jobs take a lock again while they hold it, release one that they do not
/// hold, end with locks, and release two locks in any order. The lowest job reads a variable twice
/// while the others store to it, or stores two alike while the others read them, so that whether an
/// order fails depends on whether a lock is still held.
pub fn random_nested_locks(random: &mut Random) -> TableDescription {
    let two_jobs = random.chance(5, 8);
    let meeting = if two_jobs { TWO_JOBS } else { MORE_JOBS[random.index(MORE_JOBS.len())] };
    let (window, times) = meeting;
    let top = times.len() - 1;
    let ceiling = |_| match random.chance(2, 3) {
        true => top as u8,
        false => random.between(0, top as u64 + 1) as u8,
    };
    let ceilings: Vec<u8> = (0..LOCKS).map(ceiling).collect();
    let race = RACES[random.index(RACES.len())];
    let mut tasks = Vec::new();
    for (base, times) in times.iter().enumerate() {
        let disturbed = base == 0 || (base < top && random.chance(1, 2));
        let fits = |lock: &u8| usize::from(ceilings[usize::from(*lock)]) >= base;
        let mut locks: Vec<u8> = (0..LOCKS).filter(fits).collect();
        if !disturbed && random.chance(2, 3) {
            locks.clear();
        }
        let work = if disturbed { race[0] } else { race[1] };
        tasks.push(TaskDescription::new(*times, &body(random, work, &locks, !two_jobs)));
    }
    let mut table = TableDescription { ceilings, ..TableDescription::new(window, tasks) };
    for variable in [SHARED, COPY] {
        table.initial_store[usize::from(variable)] = 1;
    }
    table
}

/// As many tasks and locks as a table may have, and as many lock steps as a body has room for
/// besides its End.
const MOST: u8 = 8;
const DEEP_STEPS: usize = 15;

/// A random table of eight jobs, each of which may preempt those below it and makes lock steps
/// alone, mostly with one lock, so that counts rise high.
pub fn random_deep_locks(random: &mut Random) -> TableDescription {
    let ceiling = |lock: u8| random.between(lock.into(), u64::from(MOST) - 1) as u8;
    let ceilings: Vec<u8> = (0..MOST).map(ceiling).collect();
    let mut tasks = Vec::new();
    for base in 0..MOST {
        let fits = |lock: &u8| ceilings[usize::from(*lock)] >= base;
        let locks: Vec<u8> = (0..MOST).filter(fits).collect();
        let favourite = locks[random.index(locks.len())];
        let acquires_of_ten = random.between(4, 8);
        let mut body = Vec::new();
        for _ in 0..DEEP_STEPS {
            let any = locks[random.index(locks.len())];
            let lock = if random.chance(3, 4) { favourite } else { any };
            let acquires = random.chance(acquires_of_ten, 10);
            body.push(if acquires { code::acquire(lock) } else { code::release(lock) });
        }
        body.push(code::end());
        tasks.push(TaskDescription::new([1, 20, base.into()], &body));
    }
    TableDescription { ceilings, ..TableDescription::new(MOST.into(), tasks) }
}
