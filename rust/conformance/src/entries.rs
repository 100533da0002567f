//! Lent memory with a pattern, and calls of every entry on one file.

use generator::Random;
use interpreter::memory::TABLE_ROOM;
use interpreter::*;
use std::ops::Range;

/// A buffer without zeros, so that each change by a zero fill shows.
pub fn pattern(length: usize) -> Vec<u8> {
    (0..length).map(|at| (at % 251 + 1) as u8).collect()
}

/// Words that no answer holds.
pub fn word_pattern(length: usize) -> Vec<u64> {
    (0..length as u64).map(|at| u64::MAX - 3 * at).collect()
}

/// A file amid other bytes, and where it is.
pub fn amid(random: &mut Random, file: &[u8]) -> (Vec<u8>, Range<usize>) {
    let (before, after) = (random.index(40), random.index(40));
    let mut bytes: Vec<u8> = (0..before + file.len() + after).map(|_| random.byte()).collect();
    let place = before..before + file.len();
    bytes[place.clone()].copy_from_slice(file);
    (bytes, place)
}

/// A job list with contents that no job has.
pub fn job_pattern(length: usize) -> Vec<JobRecord> {
    let record = |at: usize| JobRecord {
        task: TaskNumber(at as u8 + 100),
        arrival: u64::MAX - at as u64,
        latest_finish: at as u64,
    };
    (0..length).map(record).collect()
}

/// What a buffer that was `pattern(length)` holds after `bytes` were written and zero filled to
/// `room`.
pub fn filled(length: usize, room: usize, bytes: &[u8]) -> Vec<u8> {
    let mut expected = pattern(length);
    expected[..room].fill(0);
    expected[..bytes.len()].copy_from_slice(bytes);
    expected
}

/// Asserts that every entry refuses the file with this number and place, all other fields zero and
/// each lent buffer untouched, whatever else it is given.
pub fn assert_file_refused(file: &[u8], number: u8, place: usize) {
    let refused = RunAnswer { number, place, ..RunAnswer::default() };
    assert_eq!(read(file), ReadAnswer { number, place, ..ReadAnswer::default() });
    assert_eq!(replay(file, &[0]), refused);
    assert_eq!(check_plan(file, &[1]), refused);
    for length in [0, 31, 40] {
        let mut list = job_pattern(length);
        let answer = JobListAnswer { number, place, jobs: 0 };
        assert_eq!(job_list(file, &mut list), answer);
        assert_eq!(list, job_pattern(length));
    }
    for length in [0, 511, 1280, 1500] {
        let mut buffer = pattern(length);
        let conversion = ConversionAnswer { number, place, ..ConversionAnswer::default() };
        let walked = WalkAnswer { number, place, ..WalkAnswer::default() };
        assert_eq!(walk(file, 0, &mut buffer), walked);
        assert_eq!(order_to_plan(file, &[255], &mut buffer), conversion);
        assert_eq!(plan_to_order(file, &[255], &mut buffer), conversion);
        assert_eq!(table(file, &mut buffer), WriteAnswer { number, place, length: 0 });
        assert_eq!(buffer, pattern(length));
    }
    assert_eq!(sheet(file), format!("refused {number} {place}\n"));
}

/// Calls every entry on a file and checks that they agree on whether the file is refused. Returns
/// the reader's number.
pub fn call_all(file: &[u8], allowance: u64) -> u8 {
    let answer = read(file);
    if answer.number != 0 {
        assert!((1..=11).contains(&answer.number));
        assert_file_refused(file, answer.number, answer.place);
        return answer.number;
    }
    let mut list = job_pattern(40);
    assert_eq!(job_list(file, &mut list), JobListAnswer { number: 0, place: 0, jobs: answer.jobs });
    assert_eq!(list[answer.jobs..], job_pattern(40)[answer.jobs..]);
    let mut buffer = pattern(600);
    let walked = walk(file, allowance, &mut buffer);
    assert_eq!(buffer[512..], pattern(600)[512..]);
    assert_eq!(walked.verdict == Verdict::None, walked.number == 21);
    call_writer(file);
    if walked.verdict == Verdict::Fails {
        call_conversions(file, &walked, &buffer[..walked.length]);
    }
    0
}

/// An accepted file goes through memory: it is written as long as it was, and is the same table.
fn call_writer(file: &[u8]) {
    let mut memory = [1; TABLE_ROOM];
    let filled = WriteAnswer { number: 0, place: 0, length: TABLE_ROOM };
    assert_eq!(table(file, &mut memory), filled);
    let mut buffer = pattern(2_400);
    let written = WriteAnswer { number: 0, place: 0, length: file.len() };
    assert_eq!(write(&memory, &mut buffer), written);
    assert_eq!(buffer[file.len()..], pattern(2_400)[file.len()..]);
    let mut back = [2; TABLE_ROOM];
    assert_eq!(table(&buffer[..file.len()], &mut back), filled);
    assert_eq!(back, memory);
}

/// A failing order goes through replay and both conversions with the same ending.
fn call_conversions(file: &[u8], walked: &WalkAnswer, order: &[u8]) {
    let (end_store, failed_jobs) = (walked.end_store, walked.failed_jobs);
    assert_ne!(failed_jobs, 0);
    let run = RunAnswer { end_store, failed_jobs, ..RunAnswer::default() };
    assert_eq!(replay(file, order), run);
    let mut plan = pattern(1300);
    let there = order_to_plan(file, order, &mut plan);
    assert_eq!((there.number, there.end_store, there.failed_jobs), (0, end_store, failed_jobs));
    assert_eq!(plan, filled(1300, 1281, &plan[..there.length]));
    assert_eq!(check_plan(file, &plan[..there.length]), run);
    let mut back = pattern(600);
    let answer = plan_to_order(file, &plan[..there.length], &mut back);
    let length = order.len();
    assert_eq!(answer, ConversionAnswer { number: 0, place: 0, length, end_store, failed_jobs });
    assert_eq!(back, filled(600, 512, order));
}
