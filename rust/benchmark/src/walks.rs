//! The tables whose walk is timed, and how long the proved walk and the walker take on them. Every
//! walk holds after about 20,000,000 moves; the sizes were found by trying.

use crate::walker::{self, Lent, STEPS};
use adqurim::raw;
use conformance::cases::accepted;
use generator::{code, InstructionDescription, TableDescription, TaskDescription};
use std::hint::black_box;
use std::time::{Duration, Instant};

/// More than the moves of any table here.
const ALLOWANCE: u64 = 50_000_000;

/// The two walks take turns, so that both meet the same load of the machine. An odd number.
pub const WALK_TURNS: usize = 3;

/// A table and what its jobs are.
pub struct WalkRow {
    pub name: &'static str,
    pub table: TableDescription,
}

/// How long both walks of a table took, and the moves that both made.
pub struct WalkTiming {
    pub name: &'static str,
    pub moves: u64,
    pub proved: Duration,
    pub walker: Duration,
}

type Body = Vec<InstructionDescription>;

/// A body of so many instructions that works on one variable; its assertions hold.
fn work(length: usize, variable: u8) -> Body {
    let all = [
        code::set(3, 1),
        code::load(0, variable),
        code::add(0, 3),
        code::store(variable, 0),
        code::assert(3),
        code::skip_if_less(0, 3, 0),
        code::load(1, variable),
        code::subtract(1, 3),
        code::skip_if_equal(0, 1, 0),
        code::set(2, 7),
        code::add(2, 1),
        code::store(variable, 2),
    ];
    [&all[..length - 1], &[code::end()]].concat()
}

/// A body that reads a variable twice under its lock and asserts that both are equal, then goes on
/// for some instructions.
fn guarded_reads(lock: u8, more: usize) -> Body {
    let reads = [
        code::acquire(lock),
        code::load(0, lock),
        code::load(1, lock),
        code::release(lock),
        code::skip_if_equal(0, 1, 1),
        code::assert(2),
    ];
    [&reads[..], &vec![code::add(3, 0); more], &[code::end()]].concat()
}

/// A body that stores a value to a variable under its lock.
fn guarded_store(lock: u8, value: InstructionDescription) -> Body {
    vec![value, code::acquire(lock), code::store(lock, 0), code::release(lock), code::end()]
}

/// A body with two Picks.
fn picks(most: u8, variable: u8) -> Body {
    let first = [code::pick(0, most), code::store(variable, 0)];
    [&first[..], &[code::pick(1, most), code::add(0, 1), code::end()]].concat()
}

/// A job for each body; each may preempt all jobs before it.
fn nest(bodies: Vec<Body>, ceilings: &[u8]) -> TableDescription {
    let window = bodies.len() as u32;
    let task = |(number, body): (usize, &Body)| TaskDescription::new([1, 100, number as u32], body);
    let tasks = bodies.iter().enumerate().map(task).collect();
    TableDescription { ceilings: ceilings.to_vec(), ..TableDescription::new(window, tasks) }
}

/// Fourteen times a job of two instructions that a job of one may preempt.
fn many_short() -> TableDescription {
    let lower = TaskDescription::new([2, 10, 0], &work(2, 0));
    let upper = TaskDescription::new([1, 10, 1], &work(1, 1));
    TableDescription::new(140, vec![lower, upper])
}

/// Tasks with periods 24, 8 and 4.
fn three_periods() -> TableDescription {
    let times = [[6, 24, 0], [1, 8, 1], [1, 4, 2]];
    let bodies = [work(4, 0), work(3, 1), work(1, 2)];
    let task = |(times, body): ([u32; 3], &Body)| TaskDescription::new(times, body);
    TableDescription::new(36, times.into_iter().zip(&bodies).map(task).collect())
}

/// Reads and stores under two locks.
fn locks() -> TableDescription {
    let store = |lock, number| guarded_store(lock, code::set(0, number));
    let readers = [guarded_reads(0, 4), guarded_reads(1, 4), guarded_reads(1, 4)];
    let [first, second, third] = readers;
    nest(vec![first, second, store(0, 1), third, store(1, 2), store(0, 3)], &[5, 4])
}

/// Reads under two locks, and stores of picked values.
fn locks_and_picks() -> TableDescription {
    let store = |lock| guarded_store(lock, code::pick(0, 4));
    nest(vec![guarded_reads(0, 2), store(0), guarded_reads(1, 2), store(1), store(0)], &[4, 3])
}

/// The rows in the order of the table.
pub fn walk_rows() -> Vec<WalkRow> {
    let long = (0..5).map(|variable| work(13, variable)).collect();
    let eight = (0..8).map(|task| work(if task == 0 { 3 } else { 2 }, task)).collect();
    let picked = vec![picks(5, 0), picks(6, 1), picks(5, 2)];
    let row = |name, table| WalkRow { name, table };
    vec![
        row("few long jobs: 5 of 13 instructions", nest(long, &[])),
        row("many short jobs: 28 of 1 or 2 instructions", many_short()),
        row("locks: 6 jobs, reads and stores under 2 locks", locks()),
        row("Picks: 3 jobs with 2 Picks each", nest(picked, &[])),
        row("8 tasks: 8 jobs of 2 or 3 instructions", nest(eight, &[])),
        row("locks and Picks: 5 jobs, stores of picked values", locks_and_picks()),
        row("periods 24, 8 and 4: 16 jobs", three_periods()),
    ]
}

/// The median times of both walks of a table, in turn. Both must hold after as many moves.
pub fn time_walks(row: WalkRow) -> WalkTiming {
    eprintln!("{}", row.name);
    let file = row.table.write();
    let lent = Lent::new(&file, &accepted(&file));
    let (mut proved, mut walker) = (Vec::new(), Vec::new());
    let mut moves = 0;
    for _ in 0..WALK_TURNS {
        let mut order = [0; STEPS];
        let begin = Instant::now();
        let answer = raw::walk(black_box(&file), ALLOWANCE, &mut order);
        proved.push(begin.elapsed());
        let begin = Instant::now();
        let (verdict, count) = walker::walk(black_box(&lent), ALLOWANCE, &mut order);
        walker.push(begin.elapsed());
        assert_eq!((answer.verdict, verdict), (raw::Verdict::Holds, walker::Verdict::Holds));
        assert_eq!(answer.count, count);
        moves = count;
    }
    WalkTiming { name: row.name, moves, proved: median(proved), walker: median(walker) }
}

/// The median of an odd number of times.
fn median(mut times: Vec<Duration>) -> Duration {
    times.sort_unstable();
    times[times.len() / 2]
}
