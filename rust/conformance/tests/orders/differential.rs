//! The proved replay, called through its C interface, against the interpreter: every field of the
//! answer on many files and orders, and the lent words.

use adqurim::raw::{replay_words, RunAnswer, REPLAY_WORDS};
use conformance::cases::{accepted, edited, rates, table_x, tables_with_picks, tasks, ORDER_OF_X};
use conformance::comparison::compare_replay;
use conformance::entries::word_pattern;
use conformance::families::{any, crowded, largest_with_assertions, long, small, Family};
use conformance::orders::{random_order, random_steps, variants};
use conformance::proved::expected_replay;
use generator::files::{damaged, random_bytes, random_records};
use generator::{code, random_nest, random_race, random_table, Random, Sizes};
use interpreter::timing::accept;
use std::time::Instant;

/// The seeds differ, so that no family repeats the tables of another.
const FAMILIES: [Family; 7] = [
    Family { name: "small tables", seed: 300, tables: 2_000, make: small },
    Family { name: "long bodies", seed: 301, tables: 2_000, make: long },
    Family { name: "races", seed: 302, tables: 2_000, make: random_race },
    Family { name: "nests", seed: 303, tables: 2_000, make: random_nest },
    Family { name: "tables of any size", seed: 304, tables: 3_000, make: any },
    Family { name: "many jobs", seed: 305, tables: 3_000, make: crowded },
    Family { name: "the largest table", seed: 306, tables: 100, make: largest_with_assertions },
];

/// What the orders came to.
#[derive(Debug)]
struct Tally {
    /// How often each number came up; index 0 counts acceptances.
    counts: [u64; 35],
    /// Accepted orders with a failed job, and with one above job 7.
    failing: u64,
    failing_late: u64,
    longest: usize,
}

impl Tally {
    fn new() -> Tally {
        Tally { counts: [0; 35], failing: 0, failing_late: 0, longest: 0 }
    }

    fn orders(&self) -> u64 {
        self.counts.iter().sum()
    }

    /// Asserts that both replays give one answer, and counts it.
    fn compare(&mut self, name: &str, file: &[u8], order: &[u8]) -> RunAnswer {
        let expected = compare_replay(name, file, order);
        self.counts[expected.number as usize] += 1;
        self.failing += u64::from(expected.failed_jobs.contains(&1));
        self.failing_late += u64::from(expected.failed_jobs[8..].contains(&1));
        if expected.number == 0 {
            self.longest = self.longest.max(order.len());
        }
        expected
    }
}

/// Compares two complete orders of each table of a family, and their variants. A table that is
/// refused gets random bytes.
fn compare_family(tally: &mut Tally, family: &Family) {
    let mut random = Random::new(family.seed);
    for _ in 0..family.tables {
        let table = (family.make)(&mut random);
        let count = table.tasks.len();
        let file = table.write_shuffled(&mut random).0;
        let Ok(accepted) = accept(&file) else {
            let steps = random_steps(&mut random, count, 20);
            tally.compare(family.name, &file, &steps);
            continue;
        };
        for _ in 0..2 {
            let order = random_order(&mut random, &accepted);
            assert_eq!(tally.compare(family.name, &file, &order).number, 0);
            for variant in variants(&mut random, &order, &accepted) {
                tally.compare(family.name, &file, &variant);
            }
        }
    }
}

/// A file that is mostly refused: a damaged table, one that breaks a rule, or no table at all.
fn refused_file(random: &mut Random, round: usize) -> Vec<u8> {
    let mut table = random_table(random, &Sizes::SMALL);
    let file = table.write();
    match round % 8 {
        0..=2 => return damaged(random, &file),
        3 => return random_bytes(random),
        4 => return random_records(random),
        5 => return file[..16 * random.index(file.len() / 16)].to_vec(),
        _ => {}
    }
    let task = &mut table.tasks[0];
    match random.index(8) {
        0 => task.body.resize(17, code::end()),
        1 => task.body.push(code::set(0, 0)),
        2 => task.body[0] = code::skip_if_less(0, 1, 15),
        3 => task.period = 1,
        4 => task.body[0] = code::acquire(9),
        5 => return [&file[..], &[0; 16]].concat(),
        6 => return rates(&[(3, 8), (3, 4)]).write(),
        _ => return tasks(33, &[[1, 1, 0]], &[code::end()]).write(),
    }
    table.write()
}

/// Files that are mostly refused, with random bytes as an order.
fn compare_refused(tally: &mut Tally) {
    let mut random = Random::new(307);
    for round in 0..6_000 {
        let file = refused_file(&mut random, round);
        let steps = random_steps(&mut random, 3, 20);
        tally.compare("refused files", &file, &steps);
    }
}

/// Table X's order with each of its bytes changed to each value, and each beginning of it. P8 and
/// P9 of document 01 are among them, with the answers that it gives.
fn compare_x(tally: &mut Tally) {
    let file = table_x().write();
    for at in 0..ORDER_OF_X.len() {
        tally.compare("table X", &file, &ORDER_OF_X[..at]);
        for byte in 0..=255 {
            tally.compare("table X", &file, &edited(&ORDER_OF_X, &[(at, byte)]));
        }
    }
    let mut ends = RunAnswer::default();
    (ends.end_store[0], ends.failed_jobs[0]) = (1, 1);
    assert_eq!(tally.compare("P8", &file, &ORDER_OF_X), ends);
    let refused = RunAnswer { number: 30, place: 3, ..RunAnswer::default() };
    assert_eq!(tally.compare("P9", &file, &[0, 16, 16, 0]), refused);
}

/// Each byte behind each beginning of complete orders.
fn compare_every_byte(tally: &mut Tally) {
    let mut random = Random::new(309);
    for table in tables_with_picks() {
        let file = table.write();
        for _ in 0..3 {
            let order = random_order(&mut random, &accepted(&file));
            for length in 0..=order.len() {
                for byte in 0..=255 {
                    let order = [&order[..length], &[byte]].concat();
                    let answer = tally.compare("every byte", &file, &order);
                    assert!(answer.number == 32 || byte < 128 || answer.number == 33);
                }
            }
        }
    }
}

#[test]
fn every_field_of_the_answer() {
    let mut tally = Tally::new();
    compare_x(&mut tally);
    compare_every_byte(&mut tally);
    compare_refused(&mut tally);
    for family in FAMILIES {
        let (begin, before) = (Instant::now(), tally.orders());
        compare_family(&mut tally, &family);
        println!("{}: {} orders, {:?}", family.name, tally.orders() - before, begin.elapsed());
    }
    println!("{} orders: {tally:?}", tally.orders());
    assert!(tally.orders() >= 100_000);
    assert!([0, 30, 31, 32, 33, 34].iter().all(|number| tally.counts[*number] >= 5_000));
    assert!((1..=11).all(|number| tally.counts[number] >= 10));
    assert!(tally.failing >= 1_000 && tally.failing_late >= 1_000 && tally.longest == 512);
}

/// Lends some words of a larger list, and a file and an order amid other bytes. Only the 43 words
/// change, and none without room.
fn compare_lent(random: &mut Random, file: &[u8], order: &[u8], length: usize) {
    let (before, after) = (random.index(40), random.index(40));
    let mut bytes: Vec<u8> = (0..before).map(|_| random.byte()).collect();
    bytes.extend([file, order].concat());
    bytes.extend((0..after).map(|_| random.byte()));
    let unchanged = bytes.clone();
    let (lent_file, rest) = bytes[before..].split_at(file.len());
    let mut words = word_pattern(length + 16);
    let mut expected = words.clone();
    let room = length >= REPLAY_WORDS;
    if room {
        let answer: [u64; REPLAY_WORDS] = expected_replay(file, order).into();
        expected[8..8 + REPLAY_WORDS].copy_from_slice(&answer);
    }
    let lent = &mut words[8..8 + length];
    assert_eq!(replay_words(lent_file, &rest[..order.len()], lent), room);
    assert_eq!(words, expected, "{length} words: {file:02x?} {order:?}");
    assert_eq!(bytes, unchanged);
}

#[test]
fn lent_words() {
    let mut random = Random::new(308);
    let mut counts = [0_u64; 35];
    for round in 0..1_000 {
        let table = if round % 2 == 0 { long(&mut random) } else { random_race(&mut random) };
        let mut file = table.write();
        let mut orders = vec![random_steps(&mut random, 3, 20)];
        match accept(&file) {
            Ok(accepted) => {
                let order = random_order(&mut random, &accepted);
                orders.extend(variants(&mut random, &order, &accepted));
                orders.push(order);
            }
            Err(_) => file = refused_file(&mut random, round),
        }
        for order in orders {
            counts[expected_replay(&file, &order).number as usize] += 1;
            for length in [0, 1, 11, 42, 43, 44, 80] {
                compare_lent(&mut random, &file, &order, length);
            }
        }
    }
    println!("{counts:?}");
    assert!([0, 30, 31, 32, 33, 34].iter().all(|number| counts[*number] >= 100));
    assert!(counts[1..=11].iter().sum::<u64>() >= 100);
}
