//! The order in which the numbers are checked.

use conformance::cases::*;
use conformance::entries::{assert_file_refused, job_pattern, pattern};
use generator::{code, TableDescription, TaskDescription};
use interpreter::*;

/// Makes record `record` of a file one with this kind and nothing else changed.
fn kind(record: usize, kind: u8) -> (usize, u8) {
    (record * 16, kind)
}

#[test]
fn three_before_five() {
    // Eight tasks, the last one (record 15) leads on: outside, or to a record already reached.
    let file = rates(&[(1, 9); 8]).write();
    assert_file_refused(&edited(&file, &[(15 * 16 + 1, 17)]), 3, 15);
    assert_file_refused(&edited(&file, &[(15 * 16 + 1, 1)]), 3, 15);
    // Sixteen instructions, the last one (record 17) leads on.
    let file = tasks(1, &[[1, 1, 0]], &[code::end(); 16]).write();
    assert_file_refused(&edited(&file, &[(17 * 16 + 1, 18)]), 3, 17);
    assert_file_refused(&edited(&file, &[(17 * 16 + 1, 2)]), 3, 17);
    // Eight locks, the last one (record 10) leads on.
    let mut table = rates(&[(1, 9)]);
    table.ceilings = vec![0; 8];
    assert_file_refused(&edited(&table.write(), &[(10 * 16 + 1, 3)]), 3, 10);
}

#[test]
fn five_before_two_and_four() {
    // A ninth task, a seventeenth instruction, a ninth lock of a wrong kind and with a wrong field.
    let ninth = rates(&[(1, 9); 9]).write();
    assert_file_refused(&edited(&ninth, &[kind(17, 4), (17 * 16 + 3, 1)]), 5, 17);
    let seventeenth = tasks(1, &[[1, 1, 0]], &[code::end(); 17]).write();
    assert_file_refused(&edited(&seventeenth, &[kind(18, 2), (18 * 16 + 15, 1)]), 5, 18);
    let mut table = rates(&[(1, 9)]);
    table.ceilings = vec![8; 9];
    table.ceilings[..8].fill(0);
    assert_file_refused(&edited(&table.write(), &[kind(11, 0)]), 5, 11);
}

#[test]
fn two_before_four() {
    let file = table_x().write();
    for (record, offset) in [(0, 1), (1, 3), (2, 6), (7, 3)] {
        let edits = [kind(record, 9), (record * 16 + offset, 1)];
        assert_file_refused(&edited(&file, &edits), 2, record);
        assert_file_refused(&edited(&file, &edits[1..]), 4, record);
    }
}

#[test]
fn own_fields_before_following() {
    let file = table_x().write();
    // The header's 4 before its missing task; a task's 4 before its empty body.
    assert_file_refused(&edited(&file, &[(1, 1), (2, 0)]), 4, 0);
    assert_file_refused(&edited(&file, &[(16 + 3, 1), (16 + 2, 0)]), 4, 1);
    // An instruction's 4 before the chain index that it holds.
    assert_file_refused(&edited(&file, &[(2 * 16 + 1, 200), (2 * 16 + 6, 1)]), 4, 2);
}

#[test]
fn walk_of_records_in_its_order() {
    let mut table = table_x();
    table.ceilings = vec![1];
    let file = table.write();
    // Wrong records, latest in the walk first; each earlier one wins over all later ones.
    let edits = [
        ((11 * 16 + 2, 8), 4, 11),
        ((10 * 16 + 6, 1), 4, 10),
        (kind(8, 1), 2, 8),
        ((7 * 16 + 3, 1), 4, 7),
        // Task 0's next index is followed after its body.
        ((16 + 1, 200), 3, 1),
        ((6 * 16 + 1, 200), 3, 6),
        (kind(3, 2), 2, 3),
        ((2 * 16 + 2, 12), 4, 2),
        ((16 + 2, 0), 5, 1),
        ((16 + 4, 0), 4, 1),
        (kind(1, 3), 2, 1),
        ((2, 0), 5, 0),
        ((1, 1), 4, 0),
        (kind(0, 0), 2, 0),
    ];
    let mut file = file;
    for ((at, byte), number, place) in edits {
        file[at] = byte;
        assert_file_refused(&file, number, place);
    }
    // The locks come after all tasks, though the header holds their index.
    let outside = edited(&table.write(), &[(3, 200), (10 * 16 + 2, 12)]);
    assert_file_refused(&outside, 4, 10);
    file.push(0);
    assert_file_refused(&file, 1, 0);
}

/// A table that breaks 7, 8, 9, 10 and 11 at once, and mends them from the front one by one.
fn breaks(from: u8) -> TableDescription {
    let last = if from <= 7 { code::set(0, 0) } else { code::end() };
    let upper_period = if from <= 8 { 9 } else { 4 };
    let lock = if from <= 9 { 5 } else { 0 };
    let execution = if from <= 10 { 4 } else { 2 };
    let mut table = TableDescription::new(
        200,
        vec![
            TaskDescription::new([execution, 8, 0], &[code::acquire(lock), last]),
            TaskDescription::new([3, upper_period, 0], &[code::end()]),
        ],
    );
    table.ceilings = vec![1];
    table
}

#[test]
fn six_to_eleven_each_over_the_whole_table() {
    let mut stray = breaks(7).write();
    stray.extend([0; 16]);
    assert_file_refused(&stray, 6, 7);
    // An error in the walk comes before a stray.
    assert_file_refused(&edited(&stray, &[(6 * 16 + 2, 9)]), 4, 6);
    assert_file_refused(&breaks(7).write(), 7, 3);
    assert_file_refused(&breaks(8).write(), 8, 4);
    assert_file_refused(&breaks(9).write(), 9, 2);
    assert_file_refused(&breaks(10).write(), 10, 1);
    assert_file_refused(&breaks(11).write(), 11, 0);
    // 7 of a later task before 8 and 9 of an earlier one.
    let mut table = breaks(9);
    table.tasks[1].body = vec![code::set(0, 0)];
    assert_file_refused(&table.write(), 7, 5);
}

#[test]
fn room_after_the_file_and_before_the_bytes() {
    let file = table_x().write();
    let room = ConversionAnswer { number: 20, ..ConversionAnswer::default() };
    // Orders and plans that would earn 30 to 45 of their own.
    for bytes in [&[][..], &[255], &ORDER_OF_X, &plan_of_x()] {
        assert_eq!(order_to_plan(&file, bytes, &mut pattern(1280)), room);
        assert_eq!(plan_to_order(&file, bytes, &mut pattern(511)), room);
    }
    // 20 before 21.
    let walked = walk(&file, 0, &mut pattern(511));
    assert_eq!(walked, WalkAnswer { number: 20, ..WalkAnswer::default() });
    let listed = job_list(&file, &mut job_pattern(31));
    assert_eq!(listed, JobListAnswer { number: 20, ..JobListAnswer::default() });
}
