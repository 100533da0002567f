//! Numbers 30 to 34, and the rules of steps behind number 30.

use conformance::cases::*;
use conformance::entries::pattern;
use conformance::orders::{random_order, state_after};
use generator::{code, InstructionDescription, Random, TableDescription, TaskDescription};
use interpreter::walk::moves;
use interpreter::*;

/// Asserts that replay and conversion refuse an order alike and leave the buffer untouched.
fn refused(table: &TableDescription, order: &[u8], number: u8, place: usize) {
    let file = table.write();
    let expected = RunAnswer { number, place, ..RunAnswer::default() };
    assert_eq!(replay(&file, order), expected, "{order:?}");
    let mut buffer = pattern(1290);
    let expected = ConversionAnswer { number, place, ..ConversionAnswer::default() };
    assert_eq!(order_to_plan(&file, order, &mut buffer), expected, "{order:?}");
    assert_eq!(buffer, pattern(1290));
}

/// Asserts that an order is complete.
fn complete(table: &TableDescription, order: &[u8]) {
    assert_eq!(replay(&table.write(), order).number, 0, "{order:?}");
}

/// Task 0 arrives at 0 with this body; task 1's one job arrives at 1, may preempt it, and only ends.
fn below_one(body: &[InstructionDescription], ceilings: &[u8]) -> TableDescription {
    let mut table = TableDescription::new(
        4,
        vec![
            TaskDescription::new([2, 8, 0], body),
            TaskDescription::new([1, 4, 1], &[code::end()]),
        ],
    );
    table.ceilings = ceilings.to_vec();
    table
}

#[test]
fn number_33_task_outside_the_table() {
    let one = tasks(8, &[[1, 4, 0]], &[code::end()]);
    for byte in 16..=255 {
        refused(&one, &[byte], 33, 0);
        refused(&one, &[0, byte], 33, 1);
    }
    for byte in 32..=255 {
        refused(&table_x(), &[byte], 33, 0);
        refused(&table_x(), &[0, byte, 16], 33, 1);
    }
    // Eight tasks are all that a byte below 128 can name.
    let eight = tasks(1, &[[1, 100, 0]; 8], &[code::end()]);
    complete(&eight, &[112, 96, 80, 64, 48, 32, 16, 0]);
    for byte in 128..=255 {
        refused(&eight, &[byte], 33, 0);
        refused(&eight, &[112, 96, byte], 33, 2);
    }
}

#[test]
fn number_30_task_without_a_job() {
    // Task 1 has no further job.
    refused(&table_x(), &[16, 16, 16, 16], 30, 3);
    // Its one job would arrive when the window is over.
    let table = tasks(4, &[[2, 8, 0], [1, 4, 4]], &[code::end()]);
    refused(&table, &[16], 30, 0);
    complete(&table, &[0]);
}

#[test]
fn number_34_value() {
    // No Pick: any value but 0.
    for value in 1..=15 {
        refused(&table_x(), &[value], 34, 0);
        refused(&table_x(), &[0, 16 + value], 34, 1);
    }
    let table = below_one(&[code::pick(0, 3), code::end()], &[]);
    for value in 0..4 {
        complete(&table, &[value, 0, 16]);
    }
    refused(&table, &[4, 0, 16], 34, 0);
    refused(&table, &[15, 0, 16], 34, 0);
    refused(&table, &[3, 3, 16], 34, 1);
    // The End of a job that starts takes no value either.
    refused(&table, &[3, 17], 34, 1);
    refused(&below_one(&[code::pick(0, 0), code::end()], &[]), &[1], 34, 0);
    // A Pick of 15 uses all of the low half byte.
    complete(&below_one(&[code::pick(0, 15), code::end()], &[]), &[15, 0, 16]);
    refused(&below_one(&[code::pick(0, 14), code::end()], &[]), &[15], 34, 0);
}

/// 33 before 30 and 34: whatever the value, and although no job of such a task can have a turn.
/// 30 before 34: a value that the task's next instruction would not take.
#[test]
fn two_slips_in_one_byte() {
    for value in 0..=15 {
        refused(&table_x(), &[32 + value], 33, 0);
        refused(&table_x(), &[0, 16, 240 + value], 33, 2);
        // Task 0 waits for task 1; task 1 has no further job.
        refused(&table_x(), &[0, 16, value], 30, 2);
        refused(&table_x(), &[16, 16, 16, 16 + value], 30, 3);
    }
    // Job 0 waits before its Pick of 3.
    let mut table = below_one(&[code::set(0, 0), code::pick(0, 3), code::end()], &[]);
    table.tasks[1].body = vec![code::set(0, 0), code::end()];
    for value in 0..=15 {
        refused(&table, &[0, 16, value], 30, 2);
    }
    complete(&table, &[0, 16, 16, 3, 0]);
    refused(&table, &[0, 16, 16, 4], 34, 3);
}

/// The number of a byte behind allowed steps, by the moves of the walk; none if it is a move.
fn slip(table: &Accepted, steps: &[u8], byte: u8) -> Option<u8> {
    let state = state_after(table, steps);
    let moves = moves(table, &state);
    let is_of_task = |other: &u8| other / 16 == byte / 16;
    if state.all_ended() {
        Some(32)
    } else if usize::from(byte / 16) >= table.table.tasks.len() {
        Some(33)
    } else if !moves.iter().any(is_of_task) {
        Some(30)
    } else {
        (!moves.contains(&byte)).then_some(34)
    }
}

#[test]
fn every_byte_behind_each_beginning() {
    let mut random = Random::new(310);
    let mut seen = [0; 35];
    for description in tables_with_picks() {
        let table = accepted(&description.write());
        let order = random_order(&mut random, &table);
        for length in 0..=order.len() {
            for byte in 0..=255 {
                let steps = [&order[..length], &[byte]].concat();
                let number = slip(&table, &order[..length], byte);
                match number {
                    Some(number) => refused(&description, &steps, number, length),
                    None => assert!([0, 31].contains(&replay(&description.write(), &steps).number)),
                }
                assert!(byte < 128 || [Some(32), Some(33)].contains(&number));
                seen[usize::from(number.unwrap_or(0))] += 1;
            }
        }
    }
    println!("{seen:?}");
    assert!([0, 30, 32, 33, 34].iter().all(|number| seen[*number] >= 50), "{seen:?}");
}

#[test]
fn number_30_only_the_job_started_last_may_step() {
    refused(&table_x(), &[0, 16, 16, 0], 30, 3);
    refused(&table_x(), &[0, 16, 0], 30, 2);
    complete(&table_x(), &[0, 0, 0, 0, 16, 16, 16]);
}

#[test]
fn number_30_jobs_that_come_before() {
    // Task 1's job arrives with job 0 and comes before it.
    let table = tasks(4, &[[2, 8, 0], [1, 4, 0]], &[code::end()]);
    refused(&table, &[0, 16], 30, 0);
    complete(&table, &[16, 0]);
    // It arrives when job 0 is finished at the latest: job 0 comes before it.
    let table = tasks(4, &[[2, 8, 0], [1, 4, 3]], &[code::end()]);
    refused(&table, &[16, 0], 30, 0);
    complete(&table, &[0, 16]);
}

#[test]
fn number_30_may_preempt_every_active_job() {
    // Job 1 of task 1 may preempt job 0; once job 0 is active, job 2 comes after it.
    let table = tasks(8, &[[2, 8, 0], [1, 4, 1]], &[code::set(0, 0), code::end()]);
    refused(&table, &[0, 16, 16, 16], 30, 3);
    complete(&table, &[0, 16, 16, 0, 16, 16]);
    refused(&table, &[16, 16, 16], 30, 2);
    // A lower job never starts while a higher one is active.
    refused(&table, &[16, 0], 30, 1);
}

#[test]
fn number_30_priority_of_active_jobs() {
    let body =
        [code::acquire(0), code::acquire(1), code::release(0), code::release(1), code::end()];
    let table = below_one(&body, &[1, 1]);
    // Held back while either lock is held: releasing one does not drop to the base.
    refused(&table, &[0, 16], 30, 1);
    refused(&table, &[0, 0, 16], 30, 2);
    refused(&table, &[0, 0, 0, 16], 30, 3);
    complete(&table, &[0, 0, 0, 0, 16, 0]);
    complete(&table, &[16, 0, 0, 0, 0, 0]);
    complete(&table, &[0, 0, 0, 0, 0, 16]);
    // The largest ceiling held counts, whichever lock it belongs to.
    for ceilings in [[1, 0], [7, 0]] {
        refused(&below_one(&body, &ceilings), &[0, 16], 30, 1);
        refused(&below_one(&body, &ceilings), &[0, 0, 16], 30, 2);
        complete(&below_one(&body, &ceilings), &[0, 0, 0, 16, 0, 0]);
    }
    complete(&below_one(&body, &[0, 1]), &[0, 16, 0, 0, 0, 0]);
    refused(&below_one(&body, &[0, 1]), &[0, 0, 16], 30, 2);
    refused(&below_one(&body, &[0, 1]), &[0, 0, 0, 16], 30, 3);
    // A ceiling of the lower task's own base holds nothing back; a higher ceiling does.
    complete(&below_one(&body, &[0, 0]), &[0, 16, 0, 0, 0, 0]);
    refused(&below_one(&body, &[0, 7]), &[0, 0, 16], 30, 2);
    complete(&below_one(&body, &[0, 7]), &[0, 16, 0, 0, 0, 0]);
}

/// By document 02, E3, the lock is held until it was released as often as it was taken.
#[test]
fn number_30_acquire_and_release_twice() {
    let body =
        [code::acquire(0), code::acquire(0), code::release(0), code::release(0), code::end()];
    let table = below_one(&body, &[1]);
    refused(&table, &[0, 16], 30, 1);
    refused(&table, &[0, 0, 16], 30, 2);
    refused(&table, &[0, 0, 0, 16], 30, 3);
    complete(&table, &[0, 0, 0, 0, 16, 0]);
    // End clears the counts: a job that ends with a lock holds nobody back.
    let table = below_one(&[code::acquire(0), code::end()], &[1]);
    refused(&table, &[0, 16], 30, 1);
    complete(&table, &[0, 0, 16]);
}

#[test]
fn number_31_short() {
    for length in 0..ORDER_OF_X.len() {
        refused(&table_x(), &ORDER_OF_X[..length], 31, length);
    }
    refused(&table_x(), &[16, 16, 16], 31, 3);
}

/// Before 33, 30 and 34, whatever the byte.
#[test]
fn number_32_extra() {
    for byte in 0..=255 {
        refused(&table_x(), &[&ORDER_OF_X[..], &[byte]].concat(), 32, 8);
        refused(&table_x(), &[&ORDER_OF_X[..], &[byte, byte]].concat(), 32, 8);
        // Without jobs any byte is extra.
        refused(&tasks(5, &[[1, 4, 5]], &[code::end()]), &[byte], 32, 0);
    }
}

#[test]
fn the_first_wrong_byte_is_named() {
    refused(&table_x(), &[0, 1, 255, 16, 16], 34, 1);
    refused(&table_x(), &[0, 255, 1, 16, 16], 33, 1);
    refused(&table_x(), &[0, 16, 0, 1, 255], 30, 2);
    refused(&table_x(), &[0, 0, 0, 0, 16, 16, 0], 30, 6);
}

#[test]
fn instructions_on_the_store() {
    // Wrapping sums and differences, both skips taken and not taken, an assertion that holds.
    let body = [
        code::set(0, 200),
        code::set(1, 100),
        code::add(0, 1),
        code::store(0, 0),
        code::subtract(0, 1),
        code::subtract(0, 1),
        code::store(1, 0),
        code::skip_if_less(0, 1, 1),
        code::store(2, 1),
        code::skip_if_less(1, 0, 1),
        code::store(3, 1),
        code::load(2, 7),
        code::skip_if_equal(2, 1, 1),
        code::store(4, 2),
        code::assert(1),
        code::end(),
    ];
    let mut table = tasks(1, &[[1, 1, 0]], &body);
    table.initial_store = [1, 2, 3, 4, 5, 6, 7, 77];
    let answer = replay(&table.write(), &[0; 15]);
    // 200 + 100 = 44; 44 - 100 - 100 = 100; 100 < 100 is false, so 2 and 3 are stored.
    let end_store = [44, 100, 100, 100, 77, 6, 7, 77];
    assert_eq!(answer.number, 31);
    let answer = replay(&table.write(), &[0; 16]);
    assert_eq!(answer, RunAnswer { end_store, ..RunAnswer::default() });
    // With variable 7 at 100 the last skip is taken: one step less.
    table.initial_store[7] = 100;
    let end_store = [44, 100, 100, 100, 5, 6, 7, 100];
    let answer = replay(&table.write(), &[0; 15]);
    assert_eq!(answer, RunAnswer { end_store, ..RunAnswer::default() });
}

#[test]
fn a_skip_if_less_is_taken_on_less_only() {
    let body = [code::set(1, 1), code::skip_if_less(0, 1, 1), code::store(0, 1), code::end()];
    let table = tasks(1, &[[1, 1, 0]], &body);
    assert_eq!(replay(&table.write(), &[0; 3]), RunAnswer::default());
    let body = [code::set(1, 1), code::skip_if_less(1, 0, 1), code::store(0, 1), code::end()];
    let answer = replay(&tasks(1, &[[1, 1, 0]], &body).write(), &[0; 4]);
    assert_eq!((answer.number, answer.end_store[0]), (0, 1));
}

#[test]
fn a_failed_assertion_is_noted_and_the_run_goes_on() {
    let body = [code::assert(0), code::set(0, 5), code::assert(0), code::store(0, 0), code::end()];
    let answer = replay(&tasks(3, &[[1, 1, 0]], &body).write(), &[0; 15]);
    let expected = RunAnswer {
        end_store: [5, 0, 0, 0, 0, 0, 0, 0],
        failed_jobs: 0b111,
        ..RunAnswer::default()
    };
    assert_eq!(answer, expected);
}
