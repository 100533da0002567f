//! The check program's sheet.

use conformance::cases::*;
use generator::{code, TableDescription, TaskDescription};
use interpreter::sheet;

#[test]
fn sheet_of_table_x() {
    let expected = "tasks 2 jobs 2\n\
        task 0 response 3 jobs 1\n\
        task 1 response 1 jobs 1\n\
        verdict fails 23\n\
        order 0 16 16 16 0 0 0 0\n\
        failed 0\n\
        job 0 rounds 0 1 1 1 1\n\
        job 1 rounds 0 0 0\n";
    assert_eq!(sheet(&table_x().write()), expected);
}

#[test]
fn sheet_that_holds() {
    // Each body is one End and either job may go first: the orders 0 16 and 16 0, four moves.
    let file = tasks(5, &[[2, 8, 0], [1, 4, 1]], &[code::end()]).write();
    let expected = "tasks 2 jobs 2\n\
        task 0 response 3 jobs 1\n\
        task 1 response 1 jobs 1\n\
        verdict holds 4\n";
    assert_eq!(sheet(&file), expected);
}

#[test]
fn sheet_without_jobs() {
    let file = tasks(5, &[[3, 8, 5]], &[code::end()]).write();
    assert_eq!(sheet(&file), "tasks 1 jobs 0\ntask 0 response 3 jobs 0\nverdict holds 0\n");
}

#[test]
fn sheet_with_a_file_refusal() {
    assert_eq!(sheet(&[]), "refused 1 0\n");
    assert_eq!(sheet(&edited(&table_x().write(), &[(7 * 16, 9)])), "refused 2 7\n");
    assert_eq!(sheet(&rates(&[(3, 8), (3, 4)]).write()), "refused 10 1\n");
    assert_eq!(sheet(&tasks(33, &[[1, 1, 0]], &[code::end()]).write()), "refused 11 0\n");
}

/// A table with one job whose five Picks of 16 values and End make
/// 16 + 16^2 + 16^3 + 16^4 + 2 × 16^5 moves.
fn many_picks(last: &[generator::InstructionDescription]) -> TableDescription {
    let mut body = vec![code::pick(0, 15); 5];
    body.extend(last);
    TableDescription::new(1, vec![TaskDescription::new([1, 1, 0], &body)])
}

#[test]
fn sheet_that_is_undecided() {
    let expected = "tasks 1 jobs 1\ntask 0 response 1 jobs 1\nrefused 21 0\n";
    assert_eq!(sheet(&many_picks(&[code::end()]).write()), expected);
}

#[test]
fn sheet_with_several_failed_jobs() {
    // The failing order is the first: values 0 0 0 0 0, and the one job fails.
    let expected = "tasks 1 jobs 1\ntask 0 response 1 jobs 1\nverdict fails 7\n\
        order 0 0 0 0 0 0 0\nfailed 0\njob 0 rounds 0 0 0 0 0 0 0\n";
    assert_eq!(sheet(&many_picks(&[code::assert(0), code::end()]).write()), expected);
    // Three jobs of one task run in turn; jobs 0 and 2 fail: variable 0 goes 0, 1, 0.
    let body = [
        code::load(0, 0),
        code::assert(0),
        code::set(1, 1),
        code::subtract(1, 0),
        code::store(0, 1),
        code::end(),
    ];
    let expected = "tasks 1 jobs 3\ntask 0 response 1 jobs 3\nverdict fails 18\n\
        order 0 0 0 0 0 0 0 0 0 0 0 0 0 0 0 0 0 0\nfailed 0 2\n\
        job 0 rounds 0 0 0 0 0 0\njob 1 rounds 1 1 1 1 1 1\njob 2 rounds 2 2 2 2 2 2\n";
    assert_eq!(sheet(&tasks(3, &[[1, 1, 0]], &body).write()), expected);
}
