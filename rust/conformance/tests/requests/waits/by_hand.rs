//! The wait for a lower task's lock (document 02, E4) on tables by hand: B, the response times, 10
//! with its place, the bytes of H. Each answer is that of both the interpreter and the proved
//! entries.

use adqurim::raw;
use adqurim::{FILE_ROOM, TABLE_ROOM};
use conformance::cases::{edited, full_holding_table, plan};
use conformance::comparison::{compare_check_plan, compare_replay};
use conformance::entries::pattern;
use conformance::proved::expected_read;
use generator::code::*;
use generator::hostile::WIDEST;
use generator::memory::{holding_at, CEILINGS, LOCKS};
use generator::{InstructionDescription, TableDescription, TaskDescription};

type Body<'a> = &'a [InstructionDescription];

/// A table of tasks given by C, P and their bodies, lowest first, and of locks given by ceiling and
/// H. The window has no jobs.
fn table(tasks: &[(u32, u32, Body)], locks: &[(u8, u32)]) -> TableDescription {
    let task = |(execution, period, body): &(u32, u32, Body)| {
        TaskDescription::new([*execution, *period, 1], body)
    };
    let mut table = TableDescription::new(1, tasks.iter().map(task).collect());
    (table.ceilings, table.holdings) = locks.iter().copied().unzip();
    table
}

/// Tasks of C/P 3/50, 2/30 and 1/20 with these bodies. If none waits, R is 6 = 3 + 2 + 1, 3 = 2 + 1
/// and 1.
fn three(bodies: [Body; 3], locks: &[(u8, u32)]) -> TableDescription {
    let [lowest, middle, highest] = bodies;
    table(&[(3, 50, lowest), (2, 30, middle), (1, 20, highest)], locks)
}

/// Number, place and response times of both readers; of both writers the same number and place.
fn answer(table: &TableDescription) -> (u64, u64, Vec<u64>) {
    let file = table.write();
    let read = raw::read(&file);
    assert_eq!(read, expected_read(&file));
    let mut buffer = pattern(FILE_ROOM);
    let written = raw::write(&table.memory(), &mut buffer);
    let by_interpreter = interpreter::write(&table.memory(), &mut pattern(FILE_ROOM));
    assert_eq!((written.number, written.place), (read.number, read.place));
    assert_eq!(u64::from(by_interpreter.number), read.number);
    assert_eq!(by_interpreter.place as u64, read.place);
    if read.number == 0 {
        assert_eq!(buffer[..file.len()], file);
    }
    let (times, past) = read.responses.split_at(table.tasks.len());
    assert!(past.iter().all(|time| *time == 0));
    (read.number, read.place, times.to_vec())
}

fn responds(table: &TableDescription, times: &[u64]) {
    assert_eq!(answer(table), (0, 0, times.to_vec()), "{table:?}");
}

/// Asserts 10 at this record.
fn is_late(table: &TableDescription, record: u64) {
    assert_eq!(answer(table), (10, record, vec![0; table.tasks.len()]), "{table:?}");
}

const END: Body = &[InstructionDescription { operation: 0, a: 0, b: 0, c: 0 }];

/// A body that takes a lock and releases it.
fn takes(lock: u8) -> [InstructionDescription; 3] {
    [acquire(lock), release(lock), end()]
}

/// "locks with ceiling at least i": one that task 0 holds for 5.
#[test]
fn the_ceiling_reaches_the_task_or_not() {
    let by = |ceiling: u8| three([&takes(0), END, END], &[(ceiling, 5)]);
    // Ceiling 0 reaches neither; 1 is exactly task 1: R = 2 + 5 + 1.
    responds(&by(0), &[6, 3, 1]);
    responds(&by(1), &[6, 8, 1]);
    // 2 is above task 1 and exactly task 2: R = 1 + 5. Above both it is the same.
    responds(&by(2), &[6, 8, 6]);
    responds(&by(3), &[6, 8, 6]);
    responds(&by(7), &[6, 8, 6]);
}

/// "an Acquire in the body of some task below i": not of task i, nor of one above.
#[test]
fn who_names_the_lock() {
    let lock = [(2, 5)];
    responds(&three([END, END, END], &lock), &[6, 3, 1]);
    responds(&three([&takes(0), END, END], &lock), &[6, 8, 6]);
    // Task 1 is below 2 alone.
    responds(&three([END, &takes(0), END], &lock), &[6, 3, 6]);
    responds(&three([END, &takes(0), END], &[(1, 5)]), &[6, 3, 1]);
    responds(&three([END, END, &takes(0)], &lock), &[6, 3, 1]);
    // Two below name it: it is waited for once. With the task itself and all above it is no more.
    responds(&three([&takes(0), &takes(0), END], &lock), &[6, 8, 6]);
    responds(&three([&takes(0), &takes(0), &takes(0)], &lock), &[6, 8, 6]);
    responds(&three([END, &takes(0), &takes(0)], &lock), &[6, 3, 6]);
}

/// The lowest task has none below it, whatever it names: B is 0.
#[test]
fn the_lowest_task_never_waits() {
    responds(&table(&[(3, 50, &takes(0))], &[(7, WIDEST)]), &[3]);
    responds(&table(&[(3, 50, &takes(0)), (2, 40, END)], &[(0, WIDEST)]), &[5, 2]);
    responds(&three([END, END, &takes(0)], &[(7, WIDEST)]), &[6, 3, 1]);
}

/// It has to be an Acquire, wherever it stands.
#[test]
fn which_instructions_name_a_lock() {
    let by = |body: Body| three([body, END, END], &[(2, 5)]);
    responds(&by(&[release(0), end()]), &[6, 3, 1]);
    responds(&by(&[release(0), release(0), end()]), &[6, 3, 1]);
    responds(&by(&[acquire(0), end()]), &[6, 8, 6]);
    responds(&by(&[acquire(0), acquire(0), end()]), &[6, 8, 6]);
    // Never reached: past an End, skipped always, and at the end of the longest body.
    responds(&by(&[end(), acquire(0), end()]), &[6, 8, 6]);
    responds(&by(&[skip_if_equal(0, 0, 1), acquire(0), end()]), &[6, 8, 6]);
    let mut longest = [end(); 16];
    longest[14] = acquire(0);
    responds(&by(&longest), &[6, 8, 6]);
    // A field that is 0 as lock 0 is, of other operations.
    let others = [load(0, 0), store(0, 0), set(0, 0), add(0, 0), pick(0, 0), set(2, 9), end()];
    responds(&by(&others), &[6, 3, 1]);
}

/// "the largest H": not the sum, the first, the last, nor that of the highest ceiling.
#[test]
fn of_several_locks_the_largest() {
    let both = [acquire(0), acquire(1), release(0), release(1), end()];
    // R = 2 + 9 + 1 and 1 + 9.
    responds(&three([&both, END, END], &[(2, 5), (2, 9)]), &[6, 12, 10]);
    responds(&three([&both, END, END], &[(2, 9), (2, 5)]), &[6, 12, 10]);
    responds(&three([&both, END, END], &[(7, 5), (2, 9)]), &[6, 12, 10]);
    // The longer one reaches task 1 alone: 2 + 9 + 1 and 1 + 5. Then the other way: both 5.
    responds(&three([&both, END, END], &[(2, 5), (1, 9)]), &[6, 12, 6]);
    responds(&three([&both, END, END], &[(2, 5), (0, 9)]), &[6, 8, 6]);
    // One from each task below: task 1 waits for 5, task 2 for 9; then 9 and 9.
    responds(&three([&takes(0), &takes(1), END], &[(2, 5), (2, 9)]), &[6, 8, 10]);
    responds(&three([&takes(1), &takes(0), END], &[(2, 5), (2, 9)]), &[6, 12, 10]);
    // A lock that nobody names does not count, nor does one that is only released.
    responds(&three([&takes(0), END, END], &[(2, 5), (7, 9)]), &[6, 8, 6]);
    responds(&three([&[acquire(0), release(1), end()], END, END], &[(2, 5), (7, 9)]), &[6, 8, 6]);
    // The eighth of eight.
    let mut eight = [(2, 4); 8];
    eight[7] = (2, 11);
    responds(&three([&takes(7), END, END], &eight), &[6, 14, 12]);
    responds(&three([&takes(6), END, END], &eight), &[6, 7, 5]);
}

/// Eight tasks with C 1 that each name all eight locks, held for 1 to 8: all but task 0 wait for 8,
/// and each has those above it once, since no R passes a period, which is at least 57.
#[test]
fn the_largest_table_waits_for_its_longest_lock() {
    responds(&full_holding_table(), &[8, 15, 14, 13, 12, 11, 10, 9]);
}

/// B counts once, while the tasks above come again in the longer time: C/P 2/30 under 1/4 with a
/// wait of 5 is 2 + 5 + ceil(R / 4), which is 8, 9, 10 and stays at 10. Task 0 does not wait: 3 + 2
/// + ceil(R / 4) is 6, then 7.
#[test]
fn a_longer_response_meets_more_jobs_above() {
    let tasks = [(3, 50, &takes(0)[..]), (2, 30, END), (1, 4, END)];
    responds(&table(&tasks, &[(1, 5)]), &[7, 10, 1]);
    // Without a wait task 1 has 2 + ceil(R / 4) = 3.
    responds(&table(&tasks, &[(1, 0)]), &[7, 3, 1]);
    // 2 + 1 + ceil(R / 4) is 4, exactly a period; 2 + 2 + ceil(R / 4) is 5, then 6.
    responds(&table(&tasks, &[(1, 1)]), &[7, 4, 1]);
    responds(&table(&tasks, &[(1, 2)]), &[7, 6, 1]);
}

/// "R ≤ P": C + B = P is accepted, one more is not. Records: the header, task 0 with three
/// instructions, so task 1 is record 5.
#[test]
fn as_long_as_the_period_and_one_more() {
    let by = |period: u32, holding: u32| {
        table(&[(1, WIDEST, &takes(0)), (1, period, END)], &[(1, holding)])
    };
    responds(&by(100, 99), &[2, 100]);
    is_late(&by(100, 100), 5);
    responds(&by(WIDEST, WIDEST - 1), &[2, WIDEST.into()]);
    is_late(&by(WIDEST, WIDEST), 5);
}

/// The lowest late task is named. Task 1 is record 5, task 2 record 7.
#[test]
fn which_task_is_late() {
    let by = |ceiling: u8, holding: u32| three([&takes(0), END, END], &[(ceiling, holding)]);
    // 2 + 19 + ceil(R / 20) is 22, then 23; 1 + 19 is task 2's period.
    responds(&by(2, 19), &[6, 23, 20]);
    is_late(&by(2, 20), 7);
    // 2 + 26 + 2 is task 1's period, so up to there only task 2 is late.
    is_late(&by(2, 26), 7);
    is_late(&by(2, 27), 5);
    responds(&by(1, 26), &[6, 30, 1]);
    is_late(&by(1, 27), 5);
    // Task 0 is late without a wait: 9 + 2 * ceil(R / 8) is 11, then 13. Task 1 is late too.
    is_late(&table(&[(9, 10, &takes(0)), (2, 8, END)], &[(1, 7)]), 1);
}

/// Sums that 32 bits would make small enough to accept.
#[test]
fn sums_past_32_bits() {
    let two = |execution: u32, period: u32, holding: u32| {
        table(&[(1, WIDEST, &takes(0)), (execution, period, END)], &[(1, holding)])
    };
    // C + B is 2^32 + 1, 2^32 + 5 and 2^32 + 5.
    is_late(&two(2, WIDEST, WIDEST), 5);
    is_late(&two(10, WIDEST, WIDEST - 4), 5);
    is_late(&two(10, 50, WIDEST - 4), 5);
    // C + B is 2^32.
    is_late(&two(1 << 31, WIDEST, 1 << 31), 5);
    let under = |execution: u32, holding: u32, above: u32| {
        let tasks = [(1, WIDEST, &takes(0)[..]), (execution, WIDEST, END), (above, WIDEST, END)];
        table(&tasks, &[(1, holding)])
    };
    // C + B is 2^32 - 1, and with the task above 2^32 + 4.
    is_late(&under(1, WIDEST - 1, 5), 5);
    // 1 + 2^31 + 2^31 is 2^32 + 1.
    is_late(&under(1, 1 << 31, 1 << 31), 5);
    // 1 + (2^31 - 1) + (2^31 - 1) is 2^32 - 1; task 0 has 1 + 1 + (2^31 - 1).
    let half = (1 << 31) - 1;
    responds(&under(1, half, half), &[2_147_483_649, 4_294_967_295, 2_147_483_647]);
}

/// "7, 8, 9, 10, 11, each over the whole table": a table that is also late by its wait.
#[test]
fn numbers_before_and_after_10() {
    let mut late = three([&takes(0), END, END], &[(2, 27)]);
    late.window = WIDEST;
    is_late(&late, 5);
    late.tasks[2].body = vec![acquire(1), end()];
    assert_eq!(answer(&late).0, 9);
    late.tasks[1].period = 51;
    assert_eq!(answer(&late).0, 8);
    late.tasks[1].period = 30;
    late.tasks[2].body = vec![acquire(0), end()];
    is_late(&late, 5);
    late.holdings = vec![5];
    assert_eq!(answer(&late).0, 11);
}

/// Tasks with the longest periods, of which task 0 takes the lock that is record 9.
fn wide_periods(holding: u32) -> TableDescription {
    table(&[(3, WIDEST, &takes(0)), (2, WIDEST, END), (1, WIDEST, END)], &[(1, holding)])
}

const LOCK: usize = 9 * 16;

/// "Lock bytes 4-7 become the longest holding time H", low byte first, and all others but the
/// ceiling stay unused.
#[test]
fn bytes_of_a_lock() {
    let file = wide_periods(0).write();
    for (place, weight) in [1, 256, 65_536, 16_777_216].into_iter().enumerate() {
        for byte in 0..=255 {
            let read = raw::read(&edited(&file, &[(LOCK + 4 + place, byte)]));
            let expected = (0, [6, 2 + u64::from(byte) * weight + 1, 1]);
            assert_eq!((read.number, &read.responses[..3]), (expected.0, &expected.1[..]));
        }
    }
    for holding in [0, 77, 0x0403_0201] {
        let file = wide_periods(holding).write();
        for unused in (3..4).chain(8..16) {
            for byte in [1, 128, 255] {
                let changed = edited(&file, &[(LOCK + unused, byte)]);
                let read = raw::read(&changed);
                assert_eq!(read, expected_read(&changed));
                assert_eq!((read.number, read.place), (4, 9), "byte {unused}");
            }
        }
    }
}

/// Four different bytes: 0x04030201 is 67,305,985.
#[test]
fn a_holding_time_of_four_different_bytes() {
    let table = wide_periods(0x0403_0201);
    assert_eq!(table.write()[LOCK..][..16], [3, 0, 1, 0, 1, 2, 3, 4, 0, 0, 0, 0, 0, 0, 0, 0]);
    responds(&table, &[6, 67_305_988, 1]);
}

/// In memory lock l's holding time is at 664 + 4 * l, with zeros past the locks, which the writer
/// does not look at.
#[test]
fn holding_times_in_memory() {
    let mut table = wide_periods(0);
    for locks in 0..=8 {
        table.ceilings = vec![0; locks];
        table.holdings = (0..locks as u32).map(|lock| 0x0403_0201 + 0x1010_1010 * lock).collect();
        table.tasks[0].body = vec![end()];
        let file = table.write();
        let mut memory = [0xa5; TABLE_ROOM + 1];
        assert_eq!(raw::table(&file, &mut memory[..TABLE_ROOM - 1]).number, 20);
        assert_eq!(memory, [0xa5; TABLE_ROOM + 1]);
        assert_eq!(raw::table(&file, &mut memory).length, 696);
        for lock in 0..8 {
            let high = if lock < locks { 0x10 * lock as u8 } else { 0 };
            let held = if lock < locks { [1, 2, 3, 4].map(|byte| high + byte) } else { [0; 4] };
            assert_eq!(memory[664 + 4 * lock..][..4], held, "lock {lock} of {locks}");
        }
        assert_eq!(memory[TABLE_ROOM], 0xa5);
        memory[holding_at(locks)..TABLE_ROOM].fill(255);
        let mut buffer = pattern(FILE_ROOM);
        let whole = memory.first_chunk().expect("a whole table");
        assert_eq!(raw::write(whole, &mut buffer).length, file.len() as u64);
        assert_eq!(buffer[..file.len()], file);
    }
}

/// A holding time past the count of locks makes nobody late, and one more lock does.
#[test]
fn a_lock_past_the_count() {
    let mut memory = three([&takes(0), END, END], &[(2, 5)]).memory();
    memory[CEILINGS + 1] = 7;
    memory[holding_at(1)..holding_at(2)].fill(255);
    let mut buffer = pattern(FILE_ROOM);
    assert_eq!(raw::write(&memory, &mut buffer).number, 0);
    memory[LOCKS] = 2;
    // Task 0's body is Acquire, Release, End: nobody names lock 1 yet.
    assert_eq!(raw::write(&memory, &mut buffer).number, 0);
    memory[generator::memory::instruction_at(0, 0) + 1] = 1;
    let late = raw::write(&memory, &mut buffer);
    assert_eq!((late.number, late.place), (10, 5));
}

/// Task 0 holds a lock for H below task 1, which has C 2 and one job of task 2 above: R is 3 + H.
/// Its job arrives at 0 and that of task 2 at 4.
fn waiting(holding: u32) -> Vec<u8> {
    let tasks = vec![
        TaskDescription::new([2, 60, 0], &[acquire(0), end()]),
        TaskDescription::new([2, 40, 0], &[set(0, 0), end()]),
        TaskDescription::new([1, 20, 4], &[end()]),
    ];
    let mut table = TableDescription::new(5, tasks);
    (table.ceilings, table.holdings) = (vec![1], vec![holding]);
    table.write()
}

/// "Latest finishes follow, and with them which job may preempt which."
#[test]
fn a_longer_wait_lets_a_job_preempt() {
    let order = [16, 32, 16, 0, 0];
    let plan = plan(&[[0; 8]; 3], &[&[2, 2], &[0, 1], &[0]]);
    for holding in 0..=8 {
        let file = waiting(holding);
        let latest: Vec<u64> =
            adqurim::jobs(&file).expect("it is accepted").iter().map(|job| job.latest).collect();
        assert_eq!(latest, [5, 3 + u64::from(holding), 5]);
        // Up to a latest finish of 4, job 1 comes before job 2.
        let [replayed, checked] = if holding > 1 { [(0, 0); 2] } else { [(30, 1), (43, 1)] };
        let answer = compare_replay("by hand", &file, &order);
        assert_eq!((answer.number, answer.place), replayed, "H {holding}");
        let answer = compare_check_plan("by hand", &file, &plan);
        assert_eq!((answer.number, answer.place), checked, "H {holding}");
        // One after the other is an order either way.
        assert_eq!(compare_replay("by hand", &file, &[16, 16, 32, 0, 0]).number, 0);
    }
}
