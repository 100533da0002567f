//! The proved writer, called through its C interface, against the interpreter's: the answer, every
//! byte of the lent buffer, and the lent words.

use adqurim::raw::{write, write_words, WriteAnswer, WRITE_WORDS};
use adqurim::{FILE_ROOM, TABLE_ROOM};
use conformance::cases::{full_table, table_x};
use conformance::entries::{amid, pattern, word_pattern};
use conformance::proved::expected_write;
use conformance::tally::Tally;
use generator::memory::*;
use generator::{random_table, Random, Sizes};
use std::collections::BTreeSet;
use std::time::Instant;

/// A family of tables in memory: its seed, how many there are, and how one is made.
struct Family {
    name: &'static str,
    seed: u64,
    tables: usize,
    make: fn(&mut Random) -> Memory,
}

/// The seeds differ, so that no family repeats the tables of another.
const FAMILIES: [Family; 10] = [
    Family { name: "good tables", seed: 800, tables: 30_000, make: good },
    Family { name: "wrong counts", seed: 801, tables: 30_000, make: miscounted },
    Family { name: "parts without room", seed: 802, tables: 10_000, make: overfull },
    Family { name: "single bytes", seed: 803, tables: 40_000, make: one_byte },
    Family { name: "wrong instructions", seed: 804, tables: 40_000, make: wrong_instruction },
    Family { name: "wrong times", seed: 805, tables: 30_000, make: wrong_times },
    Family { name: "busy processors", seed: 806, tables: 6_000, make: busy },
    Family { name: "many jobs", seed: 807, tables: 10_000, make: many_jobs },
    Family { name: "random bytes", seed: 808, tables: 20_000, make: random_bytes },
    Family { name: "litter alone", seed: 809, tables: 2_000, make: litter_alone },
];

/// The numbers that the writer gives, acceptance among them.
const NUMBERS: [u64; 9] = [0, 4, 5, 7, 8, 9, 10, 11, 20];
/// The longest buffer that is lent.
const LONGEST: usize = 2_500;

/// Zeros but for litter, which is all of it: no tasks.
fn litter_alone(random: &mut Random) -> Memory {
    let mut memory = [0; TABLE_ROOM];
    memory[random.index(4)] = random.between(0, 1) as u8;
    litter(random, &mut memory);
    memory
}

/// Asserts that both sides give one answer and leave one buffer: the file at its front, and every
/// other byte as it was.
pub(crate) fn compare(memory: &Memory, blank: &[u8]) -> WriteAnswer {
    let (mut file, mut left) = (blank.to_vec(), blank.to_vec());
    let expected = expected_write(memory, &mut left);
    let case = || format!("{} bytes lent: {memory:02x?}", blank.len());
    assert_eq!(write(memory, &mut file), expected, "{}", case());
    assert!(file == left, "the files differ, {}", case());
    let length = expected.length as usize;
    assert!(file[length..] == blank[length..], "bytes past the file, {}", case());
    expected
}

/// A size of a buffer, mostly with room.
fn some_size(random: &mut Random) -> usize {
    match random.between(0, 9) {
        0 => random.index(FILE_ROOM),
        1 => FILE_ROOM,
        _ => random.between(FILE_ROOM as u64, LONGEST as u64) as usize,
    }
}

#[test]
fn tables_good_and_bad() {
    let (begin, blank) = (Instant::now(), pattern(LONGEST));
    let (mut tally, mut lengths) = (Tally::default(), BTreeSet::new());
    for Family { name, seed, tables, make } in FAMILIES {
        let mut random = Random::new(seed);
        for _ in 0..tables {
            let memory = make(&mut random);
            let answer = compare(&memory, &blank[..some_size(&mut random)]);
            tally.note(answer.number, answer.place);
            lengths.insert(answer.length);
        }
        println!("{name}: {} {:?}", tally.shown(), begin.elapsed());
    }
    println!("{} tables, files of {} lengths", tally.all(), lengths.len());
    assert!(tally.all() >= 200_000);
    assert_eq!(tally.numbers(), NUMBERS);
    assert!(NUMBERS.iter().all(|number| tally.times(*number) >= 500), "{}", tally.shown());
    // A place is far from fixed where it names a record, and 0 where it does not.
    let places = |numbers: &[u64], at: fn(usize) -> bool| {
        assert!(numbers.iter().all(|number| at(tally.places(*number))), "{}", tally.shown());
    };
    places(&[4, 5, 7], |places| places >= 100);
    places(&[8, 9, 10], |places| places >= 60);
    places(&[0, 11, 20], |places| places == 1);
    assert!(lengths.len() > 100);
}

/// Every count from 0 to 255 of each kind, over good parts and over litter.
#[test]
fn every_count_of_each_kind() {
    let mut random = Random::new(810);
    let blank = pattern(LONGEST);
    let sizes = Sizes { tasks: (3, 8), locks: (1, 8), ..Sizes::ANY };
    for _ in 0..12 {
        let table = random_table(&mut random, &sizes);
        let task = random.index(table.tasks.len());
        for at in [TASKS, LOCKS, length_at(task)] {
            for count in 0..=255 {
                let mut memory = table.memory();
                memory[at] = count;
                compare(&memory, &blank);
                let mut littered = table.memory();
                litter(&mut random, &mut littered);
                littered[at] = count;
                compare(&littered, &blank);
            }
        }
    }
}

/// Every byte of table X and of the largest table in memory changed to a few values.
#[test]
fn every_single_byte() {
    let blank = pattern(FILE_ROOM);
    let mut tally = Tally::default();
    for memory in [table_x().memory(), full_table().memory()] {
        for at in 0..TABLE_ROOM {
            for change in [1, 2, 3, 7, 8, 16, 127, 128, 254, 255] {
                let mut changed = memory;
                changed[at] = changed[at].wrapping_add(change);
                let answer = compare(&changed, &blank);
                tally.note(answer.number, answer.place);
            }
        }
    }
    println!("{}", tally.shown());
    assert!(NUMBERS[..8].iter().all(|number| tally.times(*number) > 0), "{}", tally.shown());
}

/// What stands past the counts and in unused bytes changes neither answer nor file.
#[test]
fn litter_changes_nothing() {
    let mut random = Random::new(811);
    let blank = pattern(LONGEST);
    let (mut accepted, mut refused) = (0, 0);
    for round in 0..4_000 {
        let memory = if round % 2 == 0 { good(&mut random) } else { miscounted(&mut random) };
        let mut littered = memory;
        litter(&mut random, &mut littered);
        let (mut file, mut other) = (blank.clone(), blank.clone());
        let answer = write(&memory, &mut file);
        assert_eq!(write(&littered, &mut other), answer, "{memory:02x?}");
        assert!(file == other && memory != littered, "{memory:02x?}");
        accepted += u32::from(answer.number == 0);
        refused += u32::from(answer.number != 0);
    }
    assert!(accepted >= 500 && refused >= 500, "{accepted} {refused}");
}

/// Buffers of every size around the room, and longer ones, for a short file, the longest, and a
/// table that is refused, which comes before 20.
#[test]
fn buffers_of_every_size() {
    let mut refused = table_x().memory();
    refused[0] = 0;
    let tables = [(table_x().memory(), 0, 176), (full_table().memory(), 0, 2_320), (refused, 4, 0)];
    let sizes = (0..20).chain(150..200).chain(2_250..2_400).chain([3_000, 4_096, 10_000]);
    for size in sizes {
        for (memory, number, length) in tables {
            let answer = compare(&memory, &pattern(size));
            let room = number != 0 || size >= FILE_ROOM;
            let expected = if room { (number, 0, length) } else { (20, 0, 0) };
            assert_eq!((answer.number, answer.place, answer.length), expected, "{size}");
        }
    }
}

/// Lends part of a larger buffer, some words of a larger list, and the table amid other bytes. Only
/// the three words and the file's bytes change, and none without room for the words or with part
/// of a table.
fn compare_lent(random: &mut Random, table: &[u8], size: usize, length: usize) {
    let (tables, at) = amid(random, table);
    let unchanged = tables.clone();
    let (mut file, mut words) = (pattern(size + 16), word_pattern(length + 16));
    let (mut left, mut expected) = (file.clone(), words.clone());
    let room = write_words(&tables[at], &mut file[8..][..size], &mut words[8..][..length]);
    let whole = table.first_chunk::<TABLE_ROOM>().filter(|_| length >= WRITE_WORDS);
    assert_eq!(room, whole.is_some(), "{} {size} {length}", table.len());
    if let Some(memory) = whole {
        let answer = expected_write(memory, &mut left[8..][..size]);
        expected[8..][..WRITE_WORDS].copy_from_slice(&<[u64; WRITE_WORDS]>::from(answer));
    }
    let same = file == left && words == expected && tables == unchanged;
    assert!(same, "{} {size} {length}", table.len());
}

#[test]
fn lent_tables_and_answers_of_many_lengths() {
    let mut random = Random::new(812);
    let sizes = [0, 1, FILE_ROOM - 1, FILE_ROOM, FILE_ROOM + 1, 2 * FILE_ROOM];
    for memory in [table_x().memory(), full_table().memory(), miscounted(&mut random)] {
        let longer: Vec<u8> = [&memory[..], &pattern(100)].concat();
        let tables = (0..4).chain(TABLE_ROOM - 40..TABLE_ROOM + 40);
        for table in tables.map(|length| &longer[..length]) {
            for length in 0..=2 * WRITE_WORDS {
                let size = sizes[random.index(sizes.len())];
                compare_lent(&mut random, table, size, length);
            }
        }
        for length in 0..=2 * WRITE_WORDS {
            sizes.iter().for_each(|size| compare_lent(&mut random, &memory, *size, length));
        }
    }
}
