//! The proved job list's entry, called through its C interface, against the interpreter's job list:
//! the answer, every record of the lent list, and the lent words.

use adqurim::raw::{jobs, jobs_words, JobsAnswer, JOBS_WORDS};
use adqurim::{Job, JOB_LIST_ROOM};
use conformance::cases::{full_table, table_x, tasks};
use conformance::entries::{amid, job_pattern, word_pattern};
use conformance::families::*;
use conformance::proved::{expected_jobs, job_of};
use generator::files::{damaged, random_bytes, random_records};
use generator::hostile::hostile_files;
use generator::{code, random_nest, random_race, Random};
use std::mem::{offset_of, size_of};

/// The seeds differ, so that no family repeats the tables of another.
const FAMILIES: [Family; 6] = [
    Family { name: "small tables", seed: 740, tables: 1_000, make: small },
    Family { name: "races", seed: 741, tables: 300, make: random_race },
    Family { name: "nests", seed: 742, tables: 300, make: random_nest },
    Family { name: "tables of any size", seed: 743, tables: 2_000, make: any },
    Family { name: "many jobs", seed: 744, tables: 2_000, make: crowded },
    Family { name: "the largest table", seed: 745, tables: 20, make: largest },
];

/// The longest list that is lent.
const MOST_RECORDS: usize = 40;

/// A list with contents that no job has.
fn list(size: usize) -> Vec<Job> {
    job_pattern(size).iter().map(job_of).collect()
}

/// Asserts that both sides give one answer and leave one list of this size: the jobs at its front,
/// and every other record as it was.
pub(crate) fn compare(file: &[u8], size: usize) -> JobsAnswer {
    let (mut lent, mut left) = (list(size), list(size));
    let expected = expected_jobs(file, &mut left);
    let case = || format!("{size} records lent: {file:02x?}");
    assert_eq!(jobs(file, &mut lent), expected, "{}", case());
    assert_eq!(lent, left, "{}", case());
    let written = expected.jobs as usize;
    assert_eq!(lent[written..], list(size)[written..], "{}", case());
    expected
}

#[test]
fn a_record_is_laid_out_as_in_c() {
    assert_eq!((size_of::<Job>(), align_of::<Job>()), (24, 8));
    let offsets = [offset_of!(Job, task), offset_of!(Job, arrival), offset_of!(Job, latest)];
    assert_eq!(offsets, [0, 8, 16]);
    // Every field of two records differs from the others, and a sum is beyond 32 bits.
    let times = [[1, 4_000_000_000, 1_000_000_000], [2_000_000_000, 3_000_000_000, 500_000_000]];
    let file = tasks(u32::MAX, &times, &[code::end()]).write();
    let found = adqurim::jobs(&file).expect("the table is accepted");
    assert_eq!(found.len(), 3);
    assert_eq!(found[2], Job { task: 1, arrival: 3_500_000_000, latest: 5_500_000_000 });
}

#[test]
fn jobs_of_the_samples_and_of_table_x() {
    let files = make_samples::all().into_iter().map(|sample| sample.file());
    for file in files.chain([table_x().write()]) {
        compare(&file, JOB_LIST_ROOM);
    }
    let first = Job { task: 0, arrival: 0, latest: 3 };
    let second = Job { task: 1, arrival: 1, latest: 2 };
    assert_eq!(adqurim::jobs(&table_x().write()), Ok(vec![first, second]));
}

#[test]
fn jobs_of_random_tables() {
    let mut met = [0; JOB_LIST_ROOM + 1];
    for family in FAMILIES {
        let mut random = Random::new(family.seed);
        for _ in 0..family.tables {
            let file = (family.make)(&mut random).write_shuffled(&mut random).0;
            let answer = compare(&file, JOB_LIST_ROOM);
            met[answer.jobs as usize] += 1;
            compare(&file, random.index(MOST_RECORDS + 1));
        }
        println!("{}: {met:?}", family.name);
    }
    let often = |count: &i32| *count >= 5;
    assert!(met[..=25].iter().all(often) && met[JOB_LIST_ROOM] >= 20, "{met:?}");
}

#[test]
fn files_that_are_refused() {
    for (at, file) in refused_files().iter().enumerate() {
        for size in 0..=MOST_RECORDS {
            assert_eq!(compare(file, size).number, at as u64 + 1);
        }
    }
    let mut random = Random::new(746);
    let mut files = hostile_files(&mut random);
    for _ in 0..1_000 {
        let file = small(&mut random).write();
        files.extend([damaged(&mut random, &file), random_bytes(&mut random)]);
        files.push(random_records(&mut random));
    }
    for file in files {
        compare(&file, JOB_LIST_ROOM);
        compare(&file, JOB_LIST_ROOM - 1);
    }
}

#[test]
fn lists_of_every_size() {
    let none = tasks(5, &[[3, 8, 5]], &[code::end()]);
    for (table, many) in [(table_x(), 2), (full_table(), 32), (none, 0)] {
        for size in 0..=MOST_RECORDS {
            let answer = compare(&table.write(), size);
            let expected = if size < JOB_LIST_ROOM { (20, 0, 0) } else { (0, 0, many) };
            assert_eq!((answer.number, answer.place, answer.jobs), expected, "{size}");
        }
    }
}

/// Lends some records of a larger list, some words of a larger list, and the file amid other bytes.
/// Only the three words and the jobs' records change, and none without room for the words.
fn compare_lent(random: &mut Random, file: &[u8], size: usize, length: usize) {
    let (files, at) = amid(random, file);
    let unchanged = files.clone();
    let (mut lent, mut words) = (list(size + 16), word_pattern(length + 16));
    let (mut left, mut expected) = (lent.clone(), words.clone());
    let room = jobs_words(&files[at], &mut lent[8..][..size], &mut words[8..][..length]);
    assert_eq!(room, length >= JOBS_WORDS);
    if room {
        let answer = expected_jobs(file, &mut left[8..][..size]);
        expected[8..][..JOBS_WORDS].copy_from_slice(&<[u64; JOBS_WORDS]>::from(answer));
    }
    assert_eq!((lent, words, files), (left, expected, unchanged), "{size} {length}");
}

#[test]
fn lent_lists_and_answers_of_many_lengths() {
    let mut random = Random::new(747);
    let (x, full) = (table_x().write(), full_table().write());
    for file in [&x[..], &x[..17], &[], &full] {
        for length in 0..2 * JOBS_WORDS {
            for size in [0, 1, JOB_LIST_ROOM - 1, JOB_LIST_ROOM, JOB_LIST_ROOM + 1, MOST_RECORDS] {
                compare_lent(&mut random, file, size, length);
            }
        }
    }
}
