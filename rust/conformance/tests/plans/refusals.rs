//! Numbers 40 to 45 and the order in which a plan is checked.

use conformance::cases::*;
use conformance::entries::pattern;
use generator::{code, TableDescription, TaskDescription};
use interpreter::*;

/// Asserts that check and conversion refuse a plan alike and leave the buffer untouched.
fn refused(table: &TableDescription, plan: &[u8], number: u8, place: usize) {
    let file = table.write();
    let expected = RunAnswer { number, place, ..RunAnswer::default() };
    assert_eq!(check_plan(&file, plan), expected, "{plan:?}");
    let mut buffer = pattern(600);
    let expected = ConversionAnswer { number, place, ..ConversionAnswer::default() };
    assert_eq!(plan_to_order(&file, plan, &mut buffer), expected, "{plan:?}");
    assert_eq!(buffer, pattern(600));
}

/// Asserts that a plan is legal.
fn legal(table: &TableDescription, plan: &[u8]) {
    assert_eq!(check_plan(&table.write(), plan).number, 0, "{plan:?}");
}

/// Three jobs with bodies of two instructions: 1 may preempt 0, and 2 may preempt 0 and 1. Job 0
/// and job 1 acquire a lock of these ceilings first, and keep it until they end.
fn three(ceilings: [u8; 2]) -> TableDescription {
    let mut table = TableDescription::new(
        3,
        vec![
            TaskDescription::new([3, 20, 0], &[code::acquire(0), code::end()]),
            TaskDescription::new([2, 10, 1], &[code::acquire(1), code::end()]),
            TaskDescription::new([1, 5, 2], &[code::set(0, 0), code::end()]),
        ],
    );
    table.ceilings = ceilings.to_vec();
    table
}

/// A plan of the three jobs with all guesses right, as nothing is stored.
fn three_plan(rounds: [[u8; 2]; 3]) -> Vec<u8> {
    plan(&[[0; 8]; 3], &[&rounds[0], &rounds[1], &rounds[2]])
}

#[test]
fn number_40_first_byte() {
    refused(&table_x(), &[], 40, 0);
    for first in [0, 1, 3, 255] {
        refused(&table_x(), &[first], 40, 0);
        refused(&table_x(), &edited(&plan_of_x(), &[(0, first)]), 40, 0);
    }
    let no_jobs = tasks(5, &[[1, 4, 5]], &[code::end()]);
    refused(&no_jobs, &[], 40, 0);
    refused(&no_jobs, &[1], 40, 0);
    refused(&no_jobs, &[0, 0], 40, 1);
    legal(&no_jobs, &[0]);
}

#[test]
fn number_40_bytes_run_out() {
    // Guesses, a round or a value missing: the first missing byte is at the length.
    let whole = plan_of_x();
    for length in 1..whole.len() {
        refused(&table_x(), &whole[..length], 40, length);
    }
}

#[test]
fn number_40_bytes_left_over() {
    for extra in 1..4 {
        refused(&table_x(), &[&plan_of_x()[..], &vec![0; extra]].concat(), 40, 33);
    }
}

#[test]
fn number_41_value() {
    // Job 0 of X begins at byte 17: no instruction of X is a Pick.
    for step in 0..8 {
        for value in [1, 15, 255] {
            refused(
                &table_x(),
                &edited(&plan_of_x(), &[(18 + 2 * step, value)]),
                41,
                18 + 2 * step,
            );
        }
    }
    let table = tasks(1, &[[1, 1, 0]], &[code::pick(0, 2), code::end()]);
    let with_value = |value| edited(&plan(&[[0; 8]], &[&[0, 0]]), &[(10, value)]);
    for value in 0..3 {
        legal(&table, &with_value(value));
    }
    refused(&table, &with_value(3), 41, 10);
    refused(&table, &with_value(255), 41, 10);
}

#[test]
fn number_42_round() {
    // At least k.
    for round in [2, 3, 255] {
        refused(&table_x(), &edited(&plan_of_x(), &[(25, round)]), 42, 25);
        refused(&table_x(), &edited(&plan_of_x(), &[(31, round)]), 42, 31);
    }
    // Below the job's previous step: job 0 goes 0 1 1 0 1.
    refused(&table_x(), &edited(&plan_of_x(), &[(23, 0)]), 42, 23);
    // A later job starts afresh: job 0 ends in round 1 and job 1 starts in round 0.
    legal(&table_x(), &plan_of_x());
}

#[test]
fn per_step_40_then_42_then_41() {
    let whole = plan_of_x();
    // A wrong round whose value is missing: 40.
    refused(&table_x(), &edited(&whole[..18], &[(17, 9)]), 40, 18);
    // A wrong round with a wrong value: 42.
    refused(&table_x(), &edited(&whole, &[(19, 9), (20, 9)]), 42, 19);
    // Step by step: an earlier step's 41 before a later step's 42 or 40, and the reverse.
    refused(&table_x(), &edited(&whole, &[(18, 9), (19, 9)]), 41, 18);
    refused(&table_x(), &edited(&whole[..19], &[(18, 9)]), 41, 18);
    refused(&table_x(), &edited(&whole, &[(19, 9), (22, 9)]), 42, 19);
    // Leftover bytes after all steps, and before the pairs.
    let long = [&whole[..], &[0]].concat();
    refused(&table_x(), &edited(&long, &[(32, 1)]), 41, 32);
    let guesses = [[0; 8], [1, 0, 0, 0, 0, 0, 0, 0]];
    let overlapping = plan(&guesses, &[&[0, 1, 1, 1, 1], &[1, 1, 1]]);
    refused(&table_x(), &overlapping, 43, 0);
    refused(&table_x(), &[&overlapping[..], &[0]].concat(), 40, 33);
}

#[test]
fn number_43_before() {
    // Two jobs of one task: job 0 before job 1.
    let table = tasks(2, &[[1, 1, 0]], &[code::set(0, 0), code::end()]);
    legal(&table, &plan(&[[0; 8]; 2], &[&[0, 0], &[1, 1]]));
    for rounds in [[0, 1, 1, 1], [0, 0, 0, 1], [1, 1, 0, 0], [0, 0, 0, 0], [1, 1, 1, 1]] {
        refused(&table, &plan(&[[0; 8]; 2], &[&rounds]), 43, 0);
    }
    // The higher job number comes before the lower one: task 1 arrives with task 0.
    let table = tasks(1, &[[1, 4, 0], [1, 4, 0]], &[code::end()]);
    legal(&table, &plan(&[[0; 8]; 2], &[&[1], &[0]]));
    refused(&table, &plan(&[[0; 8]; 2], &[&[0], &[1]]), 43, 0);
}

#[test]
fn number_43_may_preempt() {
    let table = three([0, 1]);
    // All three cases: after it, before it, nested.
    legal(&table, &three_plan([[0, 0], [1, 1], [2, 2]]));
    legal(&table, &three_plan([[2, 2], [1, 1], [0, 0]]));
    legal(&table, &three_plan([[0, 2], [0, 1], [0, 0]]));
    legal(&table, &three_plan([[0, 2], [1, 1], [0, 0]]));
    legal(&table, &three_plan([[1, 2], [1, 1], [0, 0]]));
    // Job 0 crosses job 1: it starts later, or ends no later.
    refused(&table, &three_plan([[1, 2], [0, 1], [0, 0]]), 43, 0);
    refused(&table, &three_plan([[0, 1], [0, 1], [0, 0]]), 43, 0);
    refused(&table, &three_plan([[0, 1], [1, 2], [0, 0]]), 43, 0);
    // Only the pair of jobs 1 and 2 is wrong.
    refused(&table, &three_plan([[0, 2], [0, 1], [1, 1]]), 43, 1);
    // The pair of jobs 0 and 1 is wrong as well: the lower number is named.
    refused(&table, &three_plan([[0, 1], [0, 1], [1, 1]]), 43, 0);
}

#[test]
fn number_43_step_in_a_closed_round() {
    // Jobs 1 and 2 of task 1 may both preempt job 0, which has four steps.
    let body = [code::set(0, 0), code::set(0, 0), code::set(0, 0), code::end()];
    let table = TableDescription::new(
        7,
        vec![
            TaskDescription::new([5, 20, 0], &body),
            TaskDescription::new([2, 4, 1], &[code::set(0, 0), code::end()]),
        ],
    );
    assert_eq!(read(&table.write()).jobs, 3);
    let rounds = |job_0: [u8; 4], job_1: [u8; 2]| plan(&[[0; 8]; 3], &[&job_0, &job_1, &[2, 2]]);
    // Job 1 starts and ends in round 0: job 0 may step in round 0 and ends in round 1.
    legal(&table, &rounds([0, 0, 0, 1], [0, 0]));
    legal(&table, &rounds([0, 1, 1, 1], [0, 0]));
    let nested = |job_0: [u8; 4], job_2: [u8; 2]| plan(&[[0; 8]; 3], &[&job_0, &[0, 0], &job_2]);
    legal(&table, &nested([0, 1, 1, 2], [1, 1]));
    // Job 2 from round 0 to 1 is not after job 1.
    refused(&table, &nested([0, 0, 0, 2], [0, 1]), 43, 1);
    // Without other jobs in between: job 1 starts in round 0 and ends in 1, job 0 steps in 1.
    let two_deep = TableDescription::new(
        3,
        vec![
            TaskDescription::new([3, 20, 0], &body),
            TaskDescription::new([2, 10, 1], &[code::set(0, 0), code::end()]),
            TaskDescription::new([1, 5, 2], &[code::end()]),
        ],
    );
    let deep = |job_0: [u8; 4]| plan(&[[0; 8]; 3], &[&job_0, &[0, 1], &[0]]);
    legal(&two_deep, &deep([0, 0, 0, 2]));
    legal(&two_deep, &deep([0, 2, 2, 2]));
    refused(&two_deep, &deep([0, 0, 1, 2]), 43, 0);
    refused(&two_deep, &deep([0, 1, 1, 2]), 43, 0);
}

#[test]
fn number_44_lock() {
    // Nested all: job 0 holds a lock when job 1 starts.
    let nested = three_plan([[0, 2], [0, 1], [0, 0]]);
    legal(&three([0, 1]), &nested);
    refused(&three([1, 1]), &nested, 44, 0);
    // A ceiling of 2 on job 1's lock: the pair of jobs 1 and 2.
    refused(&three([0, 2]), &nested, 44, 1);
    refused(&three([1, 2]), &nested, 44, 0);
    // Without nesting the ceilings do not matter.
    legal(&three([7, 7]), &three_plan([[0, 0], [1, 1], [2, 2]]));
    legal(&three([7, 7]), &three_plan([[2, 2], [1, 1], [0, 0]]));
}

#[test]
fn number_44_after_the_steps_up_to_the_start() {
    // Job 0 acquires and releases; job 1 starts in round 0, so only job 0's steps there count.
    let body = [code::acquire(0), code::release(0), code::end()];
    let mut table = TableDescription::new(
        4,
        vec![
            TaskDescription::new([2, 8, 0], &body),
            TaskDescription::new([1, 4, 1], &[code::end()]),
        ],
    );
    table.ceilings = vec![1];
    legal(&table, &plan(&[[0; 8]; 2], &[&[0, 0, 1], &[0]]));
    refused(&table, &plan(&[[0; 8]; 2], &[&[0, 1, 1], &[0]]), 44, 0);
    // Releasing one lock while another is held does not drop to the base.
    table.ceilings = vec![1, 1];
    let body = [code::acquire(0), code::acquire(1), code::release(0), code::end()];
    table.tasks[0].body = body.to_vec();
    refused(&table, &plan(&[[0; 8]; 2], &[&[0, 0, 0, 1], &[0]]), 44, 0);
    // The largest ceiling held counts: both, then lock 1 alone.
    table.ceilings = vec![1, 0];
    refused(&table, &plan(&[[0; 8]; 2], &[&[0, 0, 1, 1], &[0]]), 44, 0);
    legal(&table, &plan(&[[0; 8]; 2], &[&[0, 0, 0, 1], &[0]]));
    table.ceilings = vec![0, 1];
    legal(&table, &plan(&[[0; 8]; 2], &[&[0, 1, 1, 1], &[0]]));
    refused(&table, &plan(&[[0; 8]; 2], &[&[0, 0, 0, 1], &[0]]), 44, 0);
}

#[test]
fn number_43_over_all_pairs_before_44() {
    // Jobs 0 and 1 break 44 and jobs 1 and 2 break 43.
    refused(&three([1, 1]), &three_plan([[0, 2], [0, 1], [1, 1]]), 43, 1);
}

#[test]
fn number_45_guess() {
    let x = table_x();
    refused(&x, &edited(&plan_of_x(), &[(2, 1)]), 45, 0);
    refused(&x, &edited(&plan_of_x(), &[(8, 1)]), 45, 0);
    refused(&x, &edited(&plan_of_x(), &[(10, 1)]), 45, 1);
    refused(&x, &edited(&plan_of_x(), &[(9, 2)]), 45, 1);
    refused(&x, &edited(&plan_of_x(), &[(16, 1)]), 45, 1);
    // The lowest round is named.
    refused(&x, &edited(&plan_of_x(), &[(8, 1), (16, 2)]), 45, 0);
    // After 43 and 44.
    let wrong = plan(&[[5; 8], [6; 8]], &[&[0, 1, 1, 1, 1], &[1, 1, 1]]);
    refused(&x, &wrong, 43, 0);
    let locked = edited(&three_plan([[0, 2], [0, 1], [0, 0]]), &[(1, 9)]);
    refused(&three([1, 1]), &locked, 44, 0);
    refused(&three([0, 1]), &locked, 45, 0);
    // The store left in the last round is no guess.
    let table = tasks(1, &[[1, 1, 0]], &[code::set(0, 7), code::store(3, 0), code::end()]);
    let answer = check_plan(&table.write(), &plan(&[[0; 8]], &[&[0, 0, 0]]));
    let expected = RunAnswer { end_store: [0, 0, 0, 7, 0, 0, 0, 0], ..RunAnswer::default() };
    assert_eq!(answer, expected);
}

#[test]
fn a_wrong_guess_decides_how_many_steps_a_job_has() {
    // With guess 1 left at 0 the two loads agree and the assertion is skipped: one step less.
    let skipping = plan(&[[0; 8]; 2], &[&[0, 1, 1, 1], &[0, 0, 0]]);
    refused(&table_x(), &skipping, 45, 1);
    // So in P10 with that guess the fifth pair is read as job 1's first step, in round 1, and the
    // sixth falls back to round 0.
    refused(&table_x(), &edited(&plan_of_x(), &[(9, 0)]), 42, 27);
}
