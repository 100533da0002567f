//! Numbers 1 to 11: each cause, with its place, through every entry.

use conformance::cases::*;
use conformance::entries::assert_file_refused;
use generator::{code, InstructionDescription, TableDescription, TaskDescription};
use interpreter::read;

/// Table X with two locks: 13 records, the locks at 11 and 12.
fn x_with_locks() -> Vec<u8> {
    let mut table = table_x();
    table.ceilings = vec![1, 0];
    let file = table.write();
    assert_eq!((read(&file).number, file.len()), (0, 13 * 16));
    file
}

/// The byte at an offset of a record.
fn at(record: usize, offset: usize) -> usize {
    record * 16 + offset
}

/// Asserts a refusal of table X with locks after one edit.
fn edit_refused(record: usize, offset: usize, byte: u8, number: u8, place: usize) {
    assert_file_refused(&edited(&x_with_locks(), &[(at(record, offset), byte)]), number, place);
}

/// A table of one task with this body, which is record 1; the body starts at record 2.
fn one_body(body: &[InstructionDescription]) -> TableDescription {
    tasks(1, &[[1, 1, 0]], body)
}

#[test]
fn number_1_size() {
    let file = table_x().write();
    assert_file_refused(&[], 1, 0);
    for length in [1, 15, 17, 175] {
        assert_file_refused(&file[..length], 1, 0);
    }
    for length in [4097, 4112, 8192] {
        let mut long = file.clone();
        long.resize(length, 0);
        assert_file_refused(&long, 1, 0);
    }
    // 4,096 bytes are not too many: the records past the table are strays.
    let mut full = file.clone();
    full.resize(4096, 0);
    assert_file_refused(&full, 6, 11);
}

#[test]
fn number_2_kind() {
    for kind in [0, 2, 3, 4, 5, 255] {
        edit_refused(0, 0, kind, 2, 0);
    }
    for (record, right) in [(1, 2), (2, 4), (6, 4), (7, 2), (10, 4), (11, 3), (12, 3)] {
        for kind in [0, 1, 2, 3, 4, 5, 255] {
            if kind != right {
                edit_refused(record, 0, kind, 2, record);
            }
        }
    }
}

#[test]
fn number_3_chain() {
    // Outside the file, from each kind of holder.
    for outside in [13, 14, 255] {
        edit_refused(0, 2, outside, 3, 0);
        edit_refused(0, 3, outside, 3, 0);
        edit_refused(1, 1, outside, 3, 1);
        edit_refused(1, 2, outside, 3, 1);
        edit_refused(6, 1, outside, 3, 6);
        edit_refused(12, 1, outside, 3, 12);
    }
    // To a record already reached: itself, the holder, another body, another task, a lock.
    edit_refused(1, 2, 1, 3, 1);
    edit_refused(1, 1, 1, 3, 1);
    edit_refused(1, 1, 4, 3, 1);
    edit_refused(2, 1, 2, 3, 2);
    edit_refused(6, 1, 1, 3, 6);
    edit_refused(6, 1, 3, 3, 6);
    edit_refused(7, 2, 2, 3, 7);
    edit_refused(7, 1, 7, 3, 7);
    edit_refused(9, 1, 1, 3, 9);
    edit_refused(0, 3, 1, 3, 0);
    edit_refused(0, 3, 10, 3, 0);
    edit_refused(12, 1, 11, 3, 12);
    edit_refused(11, 1, 11, 3, 11);
    // Record 12 is the last one: an index to it is inside, so here the kind is what is wrong.
    edit_refused(0, 2, 12, 2, 12);
}

#[test]
fn number_4_field_of_header_task_and_lock() {
    for byte in [1, 5, 255] {
        edit_refused(0, 1, byte, 4, 0);
        edit_refused(1, 3, byte, 4, 1);
        edit_refused(7, 3, byte, 4, 7);
    }
    edit_refused(0, 4, 0, 4, 0);
    // W 256 has a low byte of zero and is in range: 32 + 64 jobs earn number 11.
    assert_file_refused(&edited(&x_with_locks(), &[(4, 0), (5, 1)]), 11, 0);
    edit_refused(1, 4, 0, 4, 1);
    edit_refused(1, 4, 9, 4, 1);
    edit_refused(7, 4, 5, 4, 7);
    edit_refused(7, 8, 0, 4, 7);
    assert_file_refused(&edited(&x_with_locks(), &[(at(7, 4), 0), (at(7, 8), 0)]), 4, 7);
    for record in [11, 12] {
        for ceiling in [8, 9, 255] {
            edit_refused(record, 2, ceiling, 4, record);
        }
        for offset in (3..4).chain(8..16) {
            edit_refused(record, offset, 1, 4, record);
        }
    }
}

/// The largest a, b and c of each operation; lock numbers are left to number 9. A Pick's c is also
/// at most its b (document 02, E7).
const LARGEST: [[u8; 3]; 12] = [
    [0, 0, 0],
    [3, 7, 0],
    [7, 3, 0],
    [3, 255, 0],
    [3, 3, 0],
    [3, 3, 0],
    [3, 3, 15],
    [3, 3, 15],
    [3, 15, 15],
    [255, 0, 0],
    [255, 0, 0],
    [3, 0, 0],
];

const PICK: u8 = 8;

/// Fields a, b and c on both sides of every limit.
fn fields() -> Vec<[u8; 3]> {
    let values = [0, 1, 2, 3, 4, 5, 7, 8, 9, 15, 16, 17, 128, 255];
    let mut all = Vec::new();
    for a in values {
        for b in values {
            all.extend(values.map(|c| [a, b, c]));
        }
    }
    all
}

#[test]
fn number_4_field_of_instructions() {
    let (mut fitting, mut refused) = (0, 0);
    for operation in 0..=255_u8 {
        for [a, b, c] in fields() {
            let tested = InstructionDescription { operation, a, b, c };
            let answer = read(&one_body(&[tested, code::end(), code::end()]).write());
            let largest = LARGEST.get(operation as usize);
            let within = largest.is_some_and(|most| a <= most[0] && b <= most[1] && c <= most[2]);
            let fits = within && (operation != PICK || c <= b);
            assert_eq!(answer.number != 4, fits, "{tested:?}");
            assert!(fits || answer.place == 2, "{tested:?}");
            fitting += u64::from(fits);
            refused += u64::from(!fits);
        }
    }
    assert!(fitting > 400 && refused > 600_000, "{fitting} {refused}");
}

#[test]
fn number_4_unused_bytes_of_instructions() {
    for record in [2, 6, 10] {
        for offset in 6..16 {
            edit_refused(record, offset, 1, 4, record);
            edit_refused(record, offset, 255, 4, record);
        }
    }
    edit_refused(2, 2, 12, 4, 2);
    edit_refused(6, 3, 1, 4, 6);
}

#[test]
fn number_5_count() {
    // No tasks, whatever else the file has.
    assert_file_refused(&TableDescription::new(1, vec![]).write(), 5, 0);
    edit_refused(0, 2, 0, 5, 0);
    // Empty bodies.
    edit_refused(1, 2, 0, 5, 1);
    edit_refused(7, 2, 0, 5, 7);
    // A ninth task: each task has two records, so it is record 17.
    assert_eq!(read(&rates(&[(1, 9); 8]).write()).number, 0);
    assert_file_refused(&rates(&[(1, 9); 9]).write(), 5, 17);
    // A seventeenth instruction: the body starts at record 2.
    assert_eq!(read(&one_body(&[code::end(); 16]).write()).number, 0);
    assert_file_refused(&one_body(&[code::end(); 17]).write(), 5, 18);
    // A ninth lock: the locks start at record 3.
    let mut table = one_body(&[code::end()]);
    table.ceilings = vec![7; 8];
    assert_eq!(read(&table.write()).number, 0);
    table.ceilings.push(0);
    assert_file_refused(&table.write(), 5, 11);
}

#[test]
fn number_6_stray() {
    let mut file = table_x().write();
    file.extend([0; 32]);
    assert_file_refused(&file, 6, 11);
    // A proper lock that no chain reaches is a stray as well.
    edit_refused(0, 3, 0, 6, 11);
    edit_refused(11, 1, 0, 6, 12);
    edit_refused(1, 1, 0, 6, 7);
    // The end of a body cut off: record 5 to 6 are never reached.
    edit_refused(4, 1, 0, 6, 5);
}

#[test]
fn number_7_body() {
    assert_file_refused(&one_body(&[code::set(0, 0)]).write(), 7, 2);
    assert_file_refused(&one_body(&[code::end(), code::set(0, 0)]).write(), 7, 3);
    // A skip may lead to the last instruction, not beyond it.
    for skip in [code::skip_if_equal, code::skip_if_less] {
        let body = |count| one_body(&[skip(0, 0, count), code::set(0, 0), code::end()]).write();
        assert_eq!((read(&body(0)).number, read(&body(1)).number), (0, 0));
        assert_file_refused(&body(2), 7, 2);
        assert_file_refused(&body(15), 7, 2);
        // The last instruction is a skip: not End.
        assert_file_refused(&one_body(&[code::end(), skip(0, 1, 0)]).write(), 7, 3);
    }
    // The first in chain order: within a body, then task by task.
    let bad = [code::end(), code::skip_if_less(0, 1, 1), code::set(0, 0)];
    assert_file_refused(&one_body(&bad).write(), 7, 3);
    let two = TableDescription::new(
        1,
        vec![
            TaskDescription::new([1, 3, 0], &[code::end(), code::set(0, 0)]),
            TaskDescription::new([1, 3, 0], &[code::skip_if_less(0, 1, 9), code::end()]),
        ],
    );
    assert_file_refused(&two.write(), 7, 3);
    // An End earlier is allowed.
    assert_eq!(read(&one_body(&[code::end(), code::set(0, 0), code::end()]).write()).number, 0);
}

#[test]
fn number_8_rate() {
    assert_eq!(read(&rates(&[(1, 9), (1, 9), (1, 8)]).write()).number, 0);
    assert_file_refused(&rates(&[(1, 8), (1, 9)]).write(), 8, 3);
    assert_file_refused(&rates(&[(1, 9), (1, 7), (1, 8), (1, 9)]).write(), 8, 5);
    // "the previous task's", not the largest so far.
    assert_file_refused(&rates(&[(1, 9), (1, 7), (1, 7), (1, 8)]).write(), 8, 7);
}

/// Two tasks of which the second has this body, and these locks. Its body starts at record 4.
fn second_body(body: &[InstructionDescription], ceilings: &[u8]) -> Vec<u8> {
    let mut table = TableDescription::new(
        1,
        vec![
            TaskDescription::new([1, 9, 0], &[code::end()]),
            TaskDescription::new([1, 9, 0], body),
        ],
    );
    table.ceilings = ceilings.to_vec();
    table.write()
}

#[test]
fn number_9_ceiling() {
    // A lock not in the table.
    assert_file_refused(&second_body(&[code::acquire(0), code::end()], &[]), 9, 4);
    assert_file_refused(&second_body(&[code::release(0), code::end()], &[]), 9, 4);
    assert_file_refused(&second_body(&[code::acquire(1), code::end()], &[7]), 9, 4);
    assert_file_refused(&second_body(&[code::release(1), code::end()], &[7]), 9, 4);
    assert_file_refused(&second_body(&[code::release(255), code::end()], &[7; 8]), 9, 4);
    // A ceiling below the base, for Acquire only. Base and ceiling may be equal.
    assert_file_refused(&second_body(&[code::acquire(0), code::end()], &[0]), 9, 4);
    assert_eq!(read(&second_body(&[code::acquire(0), code::end()], &[1])).number, 0);
    assert_eq!(read(&second_body(&[code::release(0), code::end()], &[0])).number, 0);
    // The first such instruction, also where it is never reached.
    let body = [code::release(0), code::end(), code::acquire(0), code::acquire(9), code::end()];
    assert_file_refused(&second_body(&body, &[0]), 9, 6);
    // Task by task: the lower task's instruction first.
    let both = TableDescription::new(
        1,
        vec![
            TaskDescription::new([1, 9, 0], &[code::end(), code::release(3), code::end()]),
            TaskDescription::new([1, 9, 0], &[code::acquire(3), code::end()]),
        ],
    );
    assert_file_refused(&both.write(), 9, 3);
}

#[test]
fn number_10_overload() {
    assert_file_refused(&rates(&[(3, 8), (3, 4)]).write(), 10, 1);
    assert_file_refused(&rates(&[(1, 4_294_967_295), (1, 1)]).write(), 10, 1);
    // R = P is fine.
    assert_eq!(read(&rates(&[(1, 2), (1, 2)]).write()).response_times[0], 2);
    // Only the middle task has no R within its period: 4 + 2 × ceil(R / 5) is 8.
    let middle = rates(&[(1, 1000), (4, 7), (2, 5)]);
    assert_file_refused(&middle.write(), 10, 3);
    // With a shorter lowest period both have none: the lowest is named.
    let both = rates(&[(1, 8), (4, 7), (2, 5)]);
    assert_file_refused(&both.write(), 10, 1);
}

#[test]
fn number_11_jobs() {
    let body = [code::end()];
    assert_file_refused(&tasks(33, &[[1, 1, 0]], &body).write(), 11, 0);
    assert_file_refused(&tasks(4_294_967_295, &[[1, 1, 0]], &body).write(), 11, 0);
    // The jobs of all tasks together: 16 + 16, then 17 + 16.
    assert_eq!(read(&tasks(32, &[[1, 2, 0], [1, 2, 1]], &body).write()).jobs, 32);
    assert_file_refused(&tasks(33, &[[1, 2, 0], [1, 2, 1]], &body).write(), 11, 0);
}
