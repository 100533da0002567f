//! The lowest value of a Pick (document 02, E7) in files, tables in memory and texts: every one that
//! there may be, and every other pair of bytes in its fields b and c. Each answer is that of both
//! the interpreter and the proved entries.

use super::by_hand::{one_job, picks, refusal, two_jobs, BEYOND, LARGEST, PICKS};
use crate::texts::refusals::{assert_converts, assert_refused as text_refused};
use adqurim::raw::{self, Job, ReadAnswer, WalkAnswer, WriteAnswer};
use adqurim::{FILE_ROOM, SHEET_ROOM, TABLE_ROOM, TEXT_ROOM};
use conformance::comparison::TO_MEMORY;
use conformance::entries::{assert_file_refused, pattern};
use conformance::proved::{expected_read, expected_text_to_file, expected_write};
use generator::code::*;
use generator::memory::instruction_at;
use generator::{InstructionDescription, Random, TableDescription};

/// The text of one job with these lines before its End; the first is line 3.
fn text_with(lines: &str) -> String {
    format!("window 1\nstart 0 0 0 0 0 0 0 0\ntask 1 1 0\n{lines}\nend\n")
}

/// "Field c of Pick becomes the lowest value", "The text always writes c": a file, its table in
/// memory and its text have it, and each becomes the others.
#[test]
fn files_tables_and_texts_carry_the_lowest_value() {
    for (lowest, highest) in picks() {
        for register in 0..4 {
            let pick = pick_between(register, lowest, highest);
            let table = one_job(&[set(0, 1), pick, end()]);
            let file = table.write();
            let record = [4, 4, 8, register, highest, lowest, 0, 0, 0, 0, 0, 0, 0, 0, 0, 0];
            assert_eq!(file[3 * 16..4 * 16], record);
            let line = format!("pick {register} {highest} {lowest}");
            assert_converts(&text_with(&format!("set 0 1\n{line}")), &file);
            TO_MEMORY.compare(&file, &pattern(TABLE_ROOM + BEYOND));
            let mut memory = [7; TABLE_ROOM];
            raw::table(&file, &mut memory);
            assert_eq!(memory, table.memory());
            assert_eq!(memory[instruction_at(0, 1)..][..4], [8, register, highest, lowest]);
            let mut written = pattern(FILE_ROOM + BEYOND);
            crate::writer::differential::compare(&memory, &written);
            raw::write(&memory, &mut written);
            assert_eq!(written[..file.len()], file);
        }
    }
}

/// Whether a Pick may have these fields.
fn may_pick(b: u8, c: u8) -> bool {
    c <= b && b <= LARGEST
}

/// How many pairs of bytes no Pick may have in its fields b and c.
const OTHER_PAIRS: usize = 256 * 256 - PICKS;

/// Visits every pair of bytes, and asserts that so many of them were said to be refused.
fn visit_all_pairs(mut is_refused: impl FnMut(u8, u8) -> bool) {
    let mut refused = 0;
    for b in 0..=255 {
        for c in 0..=255 {
            let found = is_refused(b, c);
            assert_eq!(found, !may_pick(b, c), "b {b} c {c}");
            refused += usize::from(found);
        }
    }
    assert_eq!(refused, OTHER_PAIRS);
}

/// "4 for c above b", and for b above 15 as before: at the record of the Pick.
#[test]
fn the_reader_refuses_every_other_pair() {
    let mut file = one_job(&[pick(0, 0), end()]).write();
    let refused = ReadAnswer { number: 4, place: 2, ..ReadAnswer::default() };
    let mut accepted = ReadAnswer { jobs: 1, ..ReadAnswer::default() };
    accepted.responses[0] = 1;
    visit_all_pairs(|b, c| {
        (file[2 * 16 + 4], file[2 * 16 + 5]) = (b, c);
        let answer = raw::read(&file);
        assert_eq!(expected_read(&file), answer, "b {b} c {c}");
        assert!([refused, accepted].contains(&answer), "b {b} c {c}: {answer:?}");
        answer == refused
    });
}

/// A file's buffer that is lent again and again.
struct Lent {
    blank: Vec<u8>,
    buffer: Vec<u8>,
}

impl Lent {
    fn new() -> Lent {
        Lent { blank: pattern(FILE_ROOM + BEYOND), buffer: pattern(FILE_ROOM + BEYOND) }
    }

    /// The answer of a call, which leaves this file at the buffer's front if it accepts, and every
    /// other byte as it was.
    fn call(&mut self, file: &[u8], write: impl FnOnce(&mut [u8]) -> WriteAnswer) -> WriteAnswer {
        let answer = write(&mut self.buffer);
        let length = answer.length as usize;
        assert!(self.buffer[..length] == file[..length], "{file:02x?}");
        assert!(self.buffer[length..] == self.blank[length..], "{file:02x?}");
        self.buffer[..length].copy_from_slice(&self.blank[..length]);
        answer
    }
}

/// 4 for a table in memory, whose Pick would have been record 2.
#[test]
fn the_writer_refuses_every_other_pair() {
    let table = one_job(&[pick(0, 0), end()]);
    let (mut memory, mut file, mut lent) = (table.memory(), table.write(), Lent::new());
    let refused = WriteAnswer { number: 4, place: 2, length: 0 };
    let written = WriteAnswer { number: 0, place: 0, length: file.len() as u64 };
    visit_all_pairs(|b, c| {
        let at = instruction_at(0, 0);
        (memory[at + 2], memory[at + 3]) = (b, c);
        (file[2 * 16 + 4], file[2 * 16 + 5]) = (b, c);
        let answer = lent.call(&file, |buffer| raw::write(&memory, buffer));
        let expected = lent.call(&file, |buffer| expected_write(&memory, buffer));
        assert_eq!(answer, expected, "b {b} c {c}");
        assert!([refused, written].contains(&answer), "b {b} c {c}: {answer:?}");
        answer == refused
    });
}

/// 4 for a text, whose Pick is line 3.
#[test]
fn the_conversion_of_a_text_refuses_every_other_pair() {
    let (mut file, mut lent) = (one_job(&[pick(0, 0), end()]).write(), Lent::new());
    let refused = WriteAnswer { number: 4, place: 3, length: 0 };
    let written = WriteAnswer { number: 0, place: 0, length: file.len() as u64 };
    visit_all_pairs(|b, c| {
        (file[2 * 16 + 4], file[2 * 16 + 5]) = (b, c);
        let text = text_with(&format!("pick 0 {b} {c}")).into_bytes();
        let answer = lent.call(&file, |buffer| raw::text_to_file(&text, buffer));
        let expected = lent.call(&file, |buffer| expected_text_to_file(&text, buffer));
        assert_eq!(answer, expected, "b {b} c {c}");
        assert!([refused, written].contains(&answer), "b {b} c {c}: {answer:?}");
        answer == refused
    });
}

/// Asserts that every proved entry that takes a file refuses it by 4 at this record, whatever else
/// it is given, and leaves what it is lent.
fn assert_proved_refuse(file: &[u8], place: u64) {
    let read = ReadAnswer { number: 4, place, ..ReadAnswer::default() };
    assert_eq!(raw::read(file), read);
    assert_eq!([raw::replay(file, &[0]), raw::check_plan(file, &[1])], [refusal(4, place); 2]);
    for size in [0, 511, 1_280, 1_281, TEXT_ROOM, TEXT_ROOM + BEYOND] {
        let mut buffer = pattern(size);
        let walked = WalkAnswer { number: 4, place, ..WalkAnswer::default() };
        assert_eq!(raw::walk(file, 0, &mut buffer), walked);
        assert_eq!(raw::order_to_plan(file, &[255], &mut buffer), refusal(4, place));
        assert_eq!(raw::plan_to_order(file, &[255], &mut buffer), refusal(4, place));
        let written = WriteAnswer { number: 4, place, length: 0 };
        assert_eq!(raw::table(file, &mut buffer), written);
        assert_eq!(raw::file_to_text(file, &mut buffer), written);
        assert!(buffer == pattern(size), "{file:02x?}");
    }
    for size in [0, 31, 40] {
        let mut list = vec![Job { task: 9, arrival: 8, latest: 7 }; size];
        let answer = raw::jobs(file, &mut list);
        assert_eq!((answer.number, answer.place, answer.jobs), (4, place, 0));
        assert_eq!(list, vec![Job { task: 9, arrival: 8, latest: 7 }; size]);
    }
    let sheet = crate::sheet::differential::compare(file, SHEET_ROOM);
    assert_eq!(sheet, format!("refused 4 {place}\n"));
}

/// Bytes on both sides of every limit of the fields b and c.
const NEAR: [u8; 14] = [0, 1, 2, 3, 7, 8, 14, 15, 16, 17, 127, 128, 254, 255];

/// A Pick of the second task, its records shuffled.
#[test]
fn every_entry_refuses_other_pairs() {
    let (mut random, mut refused) = (Random::new(1120), 0);
    for b in NEAR {
        for c in NEAR.into_iter().filter(|c| !may_pick(b, *c)) {
            let table = two_jobs(&[pick(0, 3), end()], &[set(0, 1), pick_between(0, c, b), end()]);
            let (file, places) = table.write_shuffled(&mut random);
            // After the header, the lower task with two instructions, the upper one and its first.
            assert_file_refused(&file, 4, places[6]);
            assert_proved_refuse(&file, places[6] as u64);
            refused += 1;
        }
    }
    assert_eq!(refused, NEAR.len() * NEAR.len() - 36);
}

/// Operations other than the skips and Pick, with their other fields zero.
const WITHOUT_C: [u8; 9] = [0, 1, 2, 3, 4, 5, 9, 10, 11];

/// c stays an unused field of all other operations, and a skip's is at most 15 whatever its b.
#[test]
fn other_operations_use_c_as_before() {
    let with = |operation, a, b, c| {
        let mut body = [end(); 16];
        body[0] = InstructionDescription { operation, a, b, c };
        TableDescription { ceilings: vec![7], ..one_job(&body) }
    };
    let earns = |table: TableDescription, number: u64| {
        let place = if number == 0 { 0 } else { 2 };
        let file = table.write();
        let read = raw::read(&file);
        assert_eq!((read.number, read.place), (number, place), "{file:02x?}");
        assert_eq!(expected_read(&file), read);
        let written = crate::writer::differential::compare(&table.memory(), &pattern(FILE_ROOM));
        assert_eq!((written.number, written.place), (number, place), "{file:02x?}");
    };
    for c in 0..=255 {
        for operation in WITHOUT_C {
            earns(with(operation, 0, 0, c), if c == 0 { 0 } else { 4 });
        }
        for operation in [6, 7] {
            let number = match c {
                0..=14 => 0,
                // In range, but beyond the last of 16 instructions.
                LARGEST => 7,
                _ => 4,
            };
            (0..4).for_each(|b| earns(with(operation, 0, b, c), number));
        }
    }
    // A Pick's register is in range whatever the values are.
    for register in 4..=255 {
        earns(with(8, register, 6, 3), 4);
    }
}

/// "The text always writes c, so an old text's `pick` line with two numbers earns 60."
#[test]
fn a_pick_line_has_three_numbers() {
    #[rustfmt::skip]
    let wrong = [
        "pick", "pick 0", "pick 0 3", "pick 0 3 0 0", "pick 0 3 0 0 0", "pick 0 3 ", "pick 0 3 0 ",
        "pick 0 3  0", "pick 0 3 00", "pick 0 3 01", "pick 0 3 -1", "pick 0 3 +1", "pick 0 3 x",
        "pick 0 3,0", "pick 0 15", "pick 0 16", "pick 4 3", "Pick 0 3 0", "picks 0 3 0",
        "pick 0 3..6",
    ];
    for line in wrong {
        text_refused(text_with(line), 60, 3);
        text_refused(text_with(&format!("set 0 1\n{line}")), 60, 4);
    }
    assert_converts(&text_with("pick 0 3 0"), &one_job(&[pick(0, 3), end()]).write());
    assert_converts(&text_with("pick 0 6 3"), &one_job(&[pick_between(0, 3, 6), end()]).write());
}

/// 60 before 61, by the first line at fault, and both before 4.
#[test]
fn the_numbers_of_a_pick_line() {
    let lines = [
        ("pick 0 3 256", 61),
        ("pick 0 256 0", 61),
        ("pick 256 3 0", 61),
        ("pick 0 3 4294967296", 61),
        ("pick 0 3 18446744073709551616", 61),
        ("pick 0 256 256", 61),
        ("pick 4 16 256", 61),
        ("pick 256 3", 60),
        ("pick 0 256", 60),
        ("pick 0 256 0 0", 60),
        ("pick 0 3 256 0", 60),
        ("pick 0 256 00", 60),
        ("pick 0 3 4", 4),
        ("pick 0 3 255", 4),
        ("pick 0 0 1", 4),
        ("pick 0 15 16", 4),
        ("pick 0 16 0", 4),
        ("pick 0 16 16", 4),
        ("pick 0 255 255", 4),
        ("pick 4 3 0", 4),
        ("pick 255 6 3", 4),
    ];
    for (line, number) in lines {
        text_refused(text_with(line), number, 3);
        text_refused(text_with(&format!("pick 0 6 3\n{line}")), number, 4);
        // A line of an old text after it, and before it.
        let first = if number == 4 { (60, 4) } else { (number, 3) };
        text_refused(text_with(&format!("{line}\npick 0 3")), first.0, first.1);
        text_refused(text_with(&format!("pick 0 3\n{line}")), 60, 3);
    }
}

/// "old files have c zero": their texts have it too, and come back.
#[test]
fn the_text_of_an_old_file_writes_zero() {
    for highest in 0..=LARGEST {
        let file = one_job(&[pick(0, highest), pick(3, highest), end()]).write();
        let lines = format!("pick 0 {highest} 0\npick 3 {highest} 0");
        assert_converts(&text_with(&lines), &file);
        // As it was written before, it is a text no longer.
        text_refused(text_with(&format!("pick 0 {highest}\npick 3 {highest}")), 60, 3);
    }
}
