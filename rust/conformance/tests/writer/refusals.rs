//! Numbers 4, 5, 7 to 11 and 20 of a table in memory: each cause with its place by hand, through
//! the interpreter's writer and through the proved one.

use adqurim::raw;
use adqurim::{FILE_ROOM, TABLE_ROOM};
use conformance::cases::{full_table, rates, table_x, tasks};
use conformance::entries::pattern;
use generator::memory::{
    entry_at, holding_at, instruction_at, length_at, Memory, CEILINGS, LOCKS, TASKS,
};
use generator::{code, InstructionDescription, TableDescription};
use interpreter::WriteAnswer;

/// Asserts that both writers refuse a table with this number and place, whatever the buffer's size
/// if the number comes before 20, and leave the buffer.
fn assert_refused(memory: &Memory, number: u8, place: usize) {
    let with_room: &[usize] = if number == 20 { &[] } else { &[FILE_ROOM, FILE_ROOM + 80] };
    let sizes = [&[0, FILE_ROOM - 1], with_room].concat();
    for size in sizes {
        let mut buffer = pattern(size);
        let refused = WriteAnswer { number, place, length: 0 };
        assert_eq!(interpreter::write(memory, &mut buffer), refused);
        let answer = raw::write(memory, &mut buffer);
        assert_eq!((answer.number, answer.place, answer.length), (number.into(), place as u64, 0));
        assert!(buffer == pattern(size));
    }
}

/// Asserts that both writers write this file.
fn assert_written(memory: &Memory, file: &[u8]) {
    let mut buffer = pattern(FILE_ROOM);
    let answer = interpreter::write(memory, &mut buffer);
    assert_eq!(answer, WriteAnswer { number: 0, place: 0, length: file.len() });
    assert_eq!(buffer[..file.len()], *file);
    assert_eq!(raw::write(memory, &mut buffer).number, 0);
    assert_eq!(buffer[..file.len()], *file);
}

/// Table X in memory with two locks. As a file: task 0 is record 1, its body 2 to 6, task 1 is
/// record 7, its body 8 to 10, the locks are 11 and 12.
fn x_with_locks() -> Memory {
    let mut table = table_x();
    table.ceilings = vec![1, 0];
    assert_written(&table.memory(), &table.write());
    table.memory()
}

/// Asserts a refusal of table X with locks after some edits.
fn edits_refused(edits: &[(usize, u8)], number: u8, place: usize) {
    let mut memory = x_with_locks();
    edits.iter().for_each(|(at, byte)| memory[*at] = *byte);
    assert_refused(&memory, number, place);
}

/// A table of one task with this body, which would be record 1; the body starts at record 2.
fn one_body(body: &[InstructionDescription]) -> TableDescription {
    tasks(1, &[[1, 1, 0]], body)
}

#[test]
fn number_4_field() {
    edits_refused(&[(0, 0)], 4, 0);
    // C 0, C above P, P 0; of task 1 as well.
    edits_refused(&[(entry_at(0), 0)], 4, 1);
    edits_refused(&[(entry_at(0), 9)], 4, 1);
    edits_refused(&[(entry_at(1) + 4, 0)], 4, 7);
    edits_refused(&[(entry_at(1) + 3, 1)], 4, 7);
    // Operation 12, a register 4, an unused field, of the first, a middle and the last instruction.
    edits_refused(&[(instruction_at(0, 0), 12)], 4, 2);
    edits_refused(&[(instruction_at(0, 0) + 1, 4)], 4, 2);
    edits_refused(&[(instruction_at(0, 3) + 2, 1)], 4, 5);
    edits_refused(&[(instruction_at(1, 2) + 3, 1)], 4, 10);
    edits_refused(&[(instruction_at(1, 2), 255)], 4, 10);
    edits_refused(&[(CEILINGS, 8)], 4, 11);
    edits_refused(&[(CEILINGS + 1, 255)], 4, 12);
}

#[test]
fn number_5_count() {
    edits_refused(&[(TASKS, 0)], 5, 0);
    edits_refused(&[(length_at(0), 0)], 5, 1);
    edits_refused(&[(length_at(1), 0)], 5, 2 + 5);
    for many in [17, 18, 200, 255] {
        edits_refused(&[(length_at(0), many)], 5, 2 + 16);
        edits_refused(&[(length_at(1), many)], 5, 8 + 16);
    }
    for many in [9, 10, 200, 255] {
        edits_refused(&[(LOCKS, many)], 5, 11 + 8);
        let mut eight = rates(&[(1, 9); 8]).memory();
        eight[TASKS] = many;
        // Each task has two records.
        assert_refused(&eight, 5, 17);
        let mut full = full_table().memory();
        full[TASKS] = many;
        assert_refused(&full, 5, 1 + 8 * 17);
        full[TASKS] = 8;
        full[LOCKS] = many;
        assert_refused(&full, 5, 145);
    }
    assert_written(&full_table().memory(), &full_table().write());
}

/// One record at a time, in walk order; on one record 5 for one too many, then 4, then 5 for an
/// empty body.
#[test]
fn fields_and_counts_in_the_readers_order() {
    // The header's 4 before its 5, and both before any task.
    edits_refused(&[(0, 0), (TASKS, 0)], 4, 0);
    edits_refused(&[(TASKS, 0), (LOCKS, 9)], 5, 0);
    edits_refused(&[(0, 0), (entry_at(0), 0)], 4, 0);
    // A task's 4 before its empty body, a body before the next task, tasks before locks.
    edits_refused(&[(entry_at(0), 0), (length_at(0), 0)], 4, 1);
    edits_refused(&[(length_at(0), 0), (entry_at(1), 0)], 5, 1);
    edits_refused(&[(instruction_at(0, 4), 12), (entry_at(1), 0)], 4, 6);
    edits_refused(&[(length_at(0), 17), (entry_at(1), 0)], 5, 18);
    edits_refused(&[(length_at(0), 17), (instruction_at(0, 15), 12)], 4, 17);
    edits_refused(&[(LOCKS, 9), (instruction_at(1, 2), 12)], 4, 10);
    edits_refused(&[(LOCKS, 9), (CEILINGS + 7, 8)], 4, 18);
    edits_refused(&[(LOCKS, 9), (TASKS, 9)], 4, 11);
    // 4 and 5 of the locks before 7 to 11, which are over the whole table.
    edits_refused(&[(CEILINGS, 8), (instruction_at(0, 4), 3)], 4, 11);
    edits_refused(&[(LOCKS, 9), (entry_at(1) + 4, 9)], 5, 19);
    // A ninth task's 5 comes first: what stands in place of it is no task.
    let mut nine = rates(&[(1, 9); 8]).memory();
    (nine[TASKS], nine[LOCKS]) = (9, 9);
    assert_refused(&nine, 5, 17);
}

#[test]
fn numbers_7_to_11_over_the_whole_table() {
    // A last instruction that is not End, a skip beyond the last: the first in chain order.
    edits_refused(&[(instruction_at(0, 4), 3)], 7, 6);
    edits_refused(&[(instruction_at(0, 2) + 3, 2)], 7, 4);
    edits_refused(&[(instruction_at(1, 2), 3), (instruction_at(0, 2) + 3, 2)], 7, 4);
    edits_refused(&[(length_at(1), 2)], 7, 9);
    // A period above the previous task's, after 7 and before 9.
    edits_refused(&[(entry_at(1) + 4, 9)], 8, 7);
    edits_refused(&[(entry_at(1) + 4, 9), (instruction_at(1, 2), 3)], 7, 10);
    let missing_lock = [(instruction_at(0, 0), 9), (instruction_at(0, 0) + 1, 5)];
    edits_refused(&missing_lock, 9, 2);
    edits_refused(&[&missing_lock[..], &[(entry_at(1) + 4, 9)]].concat(), 8, 7);
    // Lock 2 is not in the table; lock 1 has ceiling 0, below base 1.
    let acquire = instruction_at(1, 0);
    edits_refused(&[(acquire, 9), (acquire + 1, 2), (acquire + 2, 0)], 9, 8);
    edits_refused(&[(acquire, 9), (acquire + 1, 1), (acquire + 2, 0)], 9, 8);
    edits_refused(&[(LOCKS, 0), (acquire, 10), (acquire + 2, 0)], 9, 8);
    // No response time: the lowest such task, which is record 1, or 3 where it is the middle one.
    assert_refused(&rates(&[(3, 8), (3, 4)]).memory(), 10, 1);
    assert_refused(&rates(&[(1, 1000), (4, 7), (2, 5)]).memory(), 10, 3);
    // 7, 8 and 9 before 10.
    let overloaded = [[3, 8, 0], [3, 4, 0]];
    assert_refused(&tasks(1, &overloaded, &[code::set(0, 0)]).memory(), 7, 2);
    assert_refused(&rates(&[(3, 4), (3, 8)]).memory(), 8, 3);
    assert_refused(&tasks(1, &overloaded, &[code::acquire(0), code::end()]).memory(), 9, 2);
    // 33 jobs, and 10 before 11.
    assert_refused(&tasks(33, &[[1, 1, 0]], &[code::end()]).memory(), 11, 0);
    assert_refused(&tasks(u32::MAX, &[[3, 8, 0], [3, 4, 0]], &[code::end()]).memory(), 10, 1);
}

#[test]
fn number_20_room() {
    for memory in [x_with_locks(), full_table().memory(), one_body(&[code::end()]).memory()] {
        assert_refused(&memory, 20, 0);
    }
}

/// What stands past the counts earns nothing: wrong times, operations and ceilings. Nor is a holding
/// time there written.
#[test]
fn past_the_counts() {
    let mut table = table_x();
    table.ceilings = vec![1, 0];
    let mut memory = table.memory();
    memory[14..16].fill(255);
    memory[CEILINGS + 2..entry_at(0)].fill(255);
    for task in 0..2 {
        memory[length_at(task) + 1..instruction_at(task, 0)].fill(255);
    }
    memory[instruction_at(0, 5)..entry_at(1)].fill(255);
    memory[instruction_at(1, 3)..holding_at(0)].fill(255);
    memory[holding_at(2)..TABLE_ROOM].fill(255);
    assert_written(&memory, &table.write());
    // With one count more, each of them is part of the table. Of the third task the times, which
    // are the widest, are in range.
    for (at, place) in [(TASKS, 12), (LOCKS, 13), (length_at(1), 11)] {
        let mut longer = memory;
        longer[at] += 1;
        assert_refused(&longer, 4, place);
    }
}
