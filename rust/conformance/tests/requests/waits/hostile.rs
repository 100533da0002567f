//! No slow call: holding times of all sorts in tables whose tasks leave little time free. Each
//! answer is also compared with the interpreter's.

use adqurim::raw::{read, ReadAnswer};
use conformance::proved::expected_read;
use conformance::waits::without_holding;
use generator::holding::late_waits;
use generator::{full_with_holding, late_by_holding, Random, TableDescription};
use std::time::{Duration, Instant};

/// No read takes longer, with a margin for a loaded machine.
const LIMIT: Duration = Duration::from_millis(50);

/// A read that takes longer is timed again, and the shortest time counts.
const TURNS: usize = 5;

/// A share of the time that leaves little free.
const NEARLY_ALL: f64 = 0.99;

/// How many tables of each family are drawn.
const TABLES: usize = 20_000;

/// The proved reader's answer to a table, which is the interpreter's, and the time that it took.
fn timed(table: &TableDescription) -> (ReadAnswer, Duration) {
    let file = table.write();
    let (mut least, mut answer) = (Duration::MAX, ReadAnswer::default());
    for _ in 0..TURNS {
        let begin = Instant::now();
        answer = read(&file);
        least = least.min(begin.elapsed());
        if least < LIMIT {
            break;
        }
    }
    assert_eq!(answer, expected_read(&file), "{table:?}");
    assert!(least < LIMIT, "{least:?}: {table:?}");
    (answer, least)
}

/// The share of the time that the tasks above the lowest use.
fn share_above(table: &TableDescription) -> f64 {
    let share = |execution: u32, period: u32| f64::from(execution) / f64::from(period);
    table.tasks[1..].iter().map(|task| share(task.execution, task.period)).sum()
}

/// Whether a task above the lowest is late without a wait.
fn late_above(table: &TableDescription) -> bool {
    let mut above = without_holding(table);
    above.tasks.remove(0);
    expected_read(&above.write()).number == 10
}

/// By hand: the tasks above the lowest leave 1 of each 3,263,442 free, or far less.
#[test]
fn late_by_a_known_wait() {
    for table in late_waits() {
        assert_eq!(expected_read(&without_holding(&table).write()).number, 0, "{table:?}");
        assert_eq!(timed(&table).0.number, 10, "{table:?}");
    }
}

/// Each task meets its period without a wait, and a wait makes one late.
#[test]
fn late_by_a_wait_alone() {
    let (mut random, mut slowest) = (Random::new(980), Duration::ZERO);
    let (mut tables, mut late, mut full, mut lower) = (0, 0, 0, 0);
    for _ in 0..TABLES {
        let table = late_by_holding(&mut random);
        if expected_read(&without_holding(&table).write()).number != 0 {
            continue;
        }
        let (answer, time) = timed(&table);
        slowest = slowest.max(time);
        tables += 1;
        late += u64::from(answer.number == 10);
        full += u64::from(answer.number == 10 && share_above(&table) > NEARLY_ALL);
        // Not only the highest task is late.
        let highest = table.tasks[..table.tasks.len() - 1].iter().map(|task| 1 + task.body.len());
        let last = 1 + highest.sum::<usize>() as u64;
        lower += u64::from(answer.number == 10 && answer.place < last);
    }
    println!("{tables} tables, {late} late, {full} full, {lower} lower, slowest {slowest:?}");
    assert!(tables >= 10_000 && late >= 8_000, "{tables} {late}");
    assert!(full >= 2_000 && lower >= 5_000, "{full} {lower}");
}

/// Tasks may be late without a wait too. Known to be slow, and left out, is one above the lowest
/// that is, where little is left free.
#[test]
fn late_in_any_way() {
    let (mut random, mut slowest) = (Random::new(981), Duration::ZERO);
    let (mut tables, mut left_out, mut numbers, mut above) = (0, 0, [0; 12], 0);
    for _ in 0..TABLES {
        let table = full_with_holding(&mut random);
        let is_late = late_above(&table);
        if is_late && (NEARLY_ALL..1.0).contains(&share_above(&table)) {
            left_out += 1;
            continue;
        }
        let (answer, time) = timed(&table);
        slowest = slowest.max(time);
        tables += 1;
        numbers[answer.number as usize] += 1;
        above += u64::from(is_late);
    }
    println!("{tables} tables, {left_out} left out, {numbers:?}, {above}, slowest {slowest:?}");
    assert!(tables >= 10_000, "{tables}");
    assert!(numbers[0] >= 500 && numbers[10] >= 5_000 && above >= 500, "{numbers:?} {above}");
}
