//! Tables and bytes that document 01 gives, and the largest table.

use generator::{code, InstructionDescription, TableDescription, TaskDescription};
use interpreter::timing::{accept, Accepted};

/// The order in the sheet of table X.
pub const ORDER_OF_X: [u8; 8] = [0, 16, 16, 16, 0, 0, 0, 0];

/// The text of table X, by hand: line 2 is task 0, 8 is task 1.
pub const TEXT_OF_X: &str = "\
window 5
start 0 0 0 0 0 0 0 0
task 2 8 0
load 0 0
load 1 0
equal 0 1 1
assert 2
end
task 1 4 1
set 0 1
store 0 0
end
";

/// A text with the word of every line, by hand: two tasks and three locks.
pub const TEXT_OF_ALL: &str = "\
window 7
start 0 1 22 255 4 5 6 7
task 3 40 0
load 3 7
store 7 3
set 0 255
add 1 2
subtract 2 1
less 0 1 7
equal 3 2 6
pick 1 15 0
acquire 0
acquire 2
release 2
release 0
assert 1
end
task 1 40 4294967295
end
lock 0 0
lock 7 4294967295
lock 1 12
";

/// A table with the longest text, 2,091 bytes: each of its lines is as long as it can be.
pub fn longest_text_table() -> TableDescription {
    let skips = (10..15).rev().map(|count| code::skip_if_equal(3, 3, count));
    let sums = (0..10).map(|_| code::subtract(3, 3));
    let body: Vec<InstructionDescription> = skips.chain(sums).chain([code::end()]).collect();
    // Three execution times of ten digits and five of nine are the most digits that fit a period.
    let execution = |task: u32| if task < 3 { 1_000_000_000 } else { 100_000_000 };
    let task = |number| TaskDescription::new([execution(number), u32::MAX, u32::MAX], &body);
    let mut table = TableDescription::new(u32::MAX, (0..8).map(task).collect());
    (table.initial_store, table.ceilings) = ([255; 8], vec![7; 8]);
    table.holdings = vec![u32::MAX; 8];
    table
}

/// Table X of document 01, in walk order: record 1 is task 0, 7 is task 1.
pub fn table_x() -> TableDescription {
    let reader =
        [code::load(0, 0), code::load(1, 0), code::skip_if_equal(0, 1, 1), code::assert(2)];
    let writer = [code::set(0, 1), code::store(0, 0), code::end()];
    TableDescription::new(
        5,
        vec![
            TaskDescription::new([2, 8, 0], &[&reader[..], &[code::end()]].concat()),
            TaskDescription::new([1, 4, 1], &writer),
        ],
    )
}

/// The plan of case P10.
pub fn plan_of_x() -> Vec<u8> {
    plan(&[[0; 8], [1, 0, 0, 0, 0, 0, 0, 0]], &[&[0, 1, 1, 1, 1], &[0, 0, 0]])
}

/// A plan's bytes from its guesses and each job's rounds; all values 0.
pub fn plan(guesses: &[[u8; 8]], rounds: &[&[u8]]) -> Vec<u8> {
    let mut bytes = vec![guesses.len() as u8];
    bytes.extend(guesses.concat());
    bytes.extend(rounds.concat().iter().flat_map(|round| [*round, 0]));
    bytes
}

/// A table of tasks given by C, P and A, lowest first, each with the same body.
pub fn tasks(window: u32, times: &[[u32; 3]], body: &[InstructionDescription]) -> TableDescription {
    let tasks = times.iter().map(|times| TaskDescription::new(*times, body)).collect();
    TableDescription::new(window, tasks)
}

/// A table of tasks given by C and P, all A 0, each with the body End, in a window of 1.
pub fn rates(times: &[(u32, u32)]) -> TableDescription {
    let times: Vec<[u32; 3]> = times.iter().map(|(c, p)| [*c, *p, 0]).collect();
    tasks(1, &times, &[code::end()])
}

/// Tables whose bytes are tried one by one: of one task, of eight with a job each that may preempt
/// those below it, and of two of which one has no job in the window. All have Picks.
pub fn tables_with_picks() -> [TableDescription; 3] {
    let nested: [[u32; 3]; 8] = std::array::from_fn(|number| [1, 20, number as u32]);
    [
        tasks(8, &[[1, 4, 0]], &[code::pick(0, 3), code::set(0, 1), code::end()]),
        tasks(8, &nested, &[code::pick(0, 2), code::end()]),
        tasks(5, &[[2, 8, 0], [1, 4, 5]], &[code::pick(0, 15), code::pick(1, 0), code::end()]),
    ]
}

/// The largest table: each body uses locks and skips, and each task has four jobs. Every complete
/// order of it has 512 steps.
pub fn full_table() -> TableDescription {
    let mut body: Vec<InstructionDescription> = Vec::new();
    for lock in 0..5 {
        body.extend([code::acquire(lock), code::skip_if_equal(0, 1, 0), code::release(lock)]);
    }
    body.push(code::end());
    let task = |number: u32| TaskDescription::new([1, 64 - number, number], &body);
    let mut table = TableDescription::new(200, (0..8).map(task).collect());
    table.ceilings = vec![7; 8];
    table
}

/// The largest table with as many Acquires as its bodies have room for, of locks whose holding times
/// grow from one to the next: each of them may be the longest wait.
pub fn full_holding_table() -> TableDescription {
    let acquires = (0..15).map(|position| code::acquire(position % 8));
    let body: Vec<InstructionDescription> = acquires.chain([code::end()]).collect();
    let mut table = full_table();
    table.tasks.iter_mut().for_each(|task| task.body = body.clone());
    table.holdings = (1..=8).collect();
    table
}

/// A file with some of its bytes replaced.
pub fn edited(file: &[u8], edits: &[(usize, u8)]) -> Vec<u8> {
    let mut bytes = file.to_vec();
    for (at, byte) in edits {
        bytes[*at] = *byte;
    }
    bytes
}

/// The accepted table of a file known to be accepted.
pub fn accepted(file: &[u8]) -> Accepted {
    accept(file).expect("the file is accepted")
}
