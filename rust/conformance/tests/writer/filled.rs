//! The proved entry that fills a table in memory from a file, called through its C interface,
//! against the interpreter: the answer, every byte of the lent memory, and the lent words.

use adqurim::raw::{table, WriteAnswer, TABLE_WORDS};
use adqurim::TABLE_ROOM;
use conformance::cases::{edited, full_table, table_x};
use conformance::comparison::TO_MEMORY;
use conformance::entries::pattern;
use conformance::families::*;
use generator::files::{damaged, random_bytes, random_records};
use generator::hostile::hostile_files;
use generator::{random_nest, random_race, Random};

/// The seeds differ, so that no family repeats the tables of another.
const FAMILIES: [Family; 8] = [
    Family { name: "small tables", seed: 820, tables: 4_000, make: small },
    Family { name: "long bodies", seed: 821, tables: 2_000, make: long },
    Family { name: "races", seed: 822, tables: 2_000, make: random_race },
    Family { name: "nests", seed: 823, tables: 2_000, make: random_nest },
    Family { name: "nests of four", seed: 824, tables: 1_000, make: nest_of_four },
    Family { name: "tables of any size", seed: 825, tables: 8_000, make: any },
    Family { name: "many jobs", seed: 826, tables: 4_000, make: crowded },
    Family { name: "the largest table", seed: 827, tables: 200, make: largest_with_assertions },
];

/// Asserts that both sides give one answer and leave one memory of this size.
pub(crate) fn compare(file: &[u8], size: usize) -> WriteAnswer {
    TO_MEMORY.compare(file, &pattern(size))
}

#[test]
fn tables_of_random_files() {
    let mut numbers = [0; 21];
    for family in FAMILIES {
        let mut random = Random::new(family.seed);
        for _ in 0..family.tables {
            let described = (family.make)(&mut random);
            let file = described.write_shuffled(&mut random).0;
            let size = TABLE_ROOM + random.index(60);
            let answer = compare(&file, size);
            // The description is a third opinion on what stands in memory.
            let mut memory = pattern(size);
            if table(&file, &mut memory).number == 0 {
                assert!(memory[..TABLE_ROOM] == described.memory(), "{file:02x?}");
            }
            numbers[answer.number as usize] += 1;
            numbers[compare(&file, random.index(TABLE_ROOM)).number as usize] += 1;
        }
        println!("{}: {numbers:?}", family.name);
    }
    assert!([0, 10, 20].iter().all(|number| numbers[*number] >= 1_000), "{numbers:?}");
}

#[test]
fn files_that_are_refused() {
    for (at, file) in refused_files().iter().enumerate() {
        for size in [0, 1, TABLE_ROOM - 1, TABLE_ROOM, TABLE_ROOM + 1] {
            assert_eq!(compare(file, size).number, at as u64 + 1);
        }
    }
    let mut random = Random::new(828);
    let mut files = hostile_files(&mut random);
    for _ in 0..6_000 {
        let file = any(&mut random).write_shuffled(&mut random).0;
        files.extend([damaged(&mut random, &file), random_records(&mut random)]);
    }
    files.extend((0..1_000).map(|_| random_bytes(&mut random)));
    let x = table_x().write();
    files.extend((0..x.len() * 16).map(|at| edited(&x, &[(at / 16, 17 * (at % 16) as u8)])));
    let mut numbers = [0; 21];
    for file in files {
        numbers[compare(&file, TABLE_ROOM + random.index(3)).number as usize] += 1;
        numbers[compare(&file, TABLE_ROOM - 1).number as usize] += 1;
    }
    println!("{numbers:?}");
    assert!((0..=11).chain([20]).all(|number| numbers[number] >= 20), "{numbers:?}");
}

#[test]
fn memory_of_every_size() {
    let x = table_x().write();
    for file in [&x[..], &full_table().write()] {
        for size in 0..=TABLE_ROOM + 60 {
            let answer = compare(file, size);
            let expected = if size < TABLE_ROOM { (20, 0, 0) } else { (0, 0, TABLE_ROOM as u64) };
            assert_eq!((answer.number, answer.place, answer.length), expected, "{size}");
        }
    }
}

#[test]
fn lent_memory_and_answers_of_many_lengths() {
    let mut random = Random::new(829);
    let (x, full) = (table_x().write(), full_table().write());
    for file in [&x[..], &x[..17], &[], &full] {
        for length in 0..=2 * TABLE_WORDS {
            for size in (0..3).chain(TABLE_ROOM - 3..TABLE_ROOM + 3).chain([2 * TABLE_ROOM]) {
                TO_MEMORY.compare_lent(&mut random, file, size, length);
            }
        }
    }
}
