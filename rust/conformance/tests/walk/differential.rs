//! The proved walk, called through its C interface, against the interpreter: every field of the
//! answer and every byte of the order buffer on many tables and allowances, and the lent words.

use adqurim::raw::{walk, walk_words, Verdict, WalkAnswer, WALK_WORDS};
use conformance::cases::{table_x, tasks, ORDER_OF_X};
use conformance::comparison::assert_walk;
use conformance::entries::{amid, filled, pattern, word_pattern};
use conformance::families::{
    any, free_position, largest, long, nest, nest_of_four, refused_files, small, Family,
};
use conformance::proved::expected_walk;
use generator::files::{damaged, random_bytes, random_records};
use generator::{code, random_nest, random_race, random_table, Random, Sizes, TableDescription};
use std::time::Instant;

/// The lengths of the order buffers, the longest first: some with bytes beyond the 512, and one
/// too short.
const LENGTHS: [usize; 4] = [4096, 513, 512, 511];

/// An allowance that suffices for most tables. A larger tree stays undecided.
const LARGE: u64 = 30_000;

/// The seeds differ, so that no family repeats the tables of another. Only tables that are accepted
/// count.
const FAMILIES: [Family; 10] = [
    Family { name: "small tables", seed: 400, tables: 900, make: small },
    Family { name: "long bodies", seed: 401, tables: 900, make: long },
    Family { name: "races", seed: 402, tables: 900, make: random_race },
    Family { name: "nests", seed: 403, tables: 900, make: random_nest },
    Family { name: "nests of four", seed: 404, tables: 400, make: nest_of_four },
    Family { name: "nested races", seed: 405, tables: 400, make: nested_race },
    Family { name: "rich tables", seed: 406, tables: 700, make: rich },
    Family { name: "many jobs", seed: 407, tables: 200, make: crowded },
    Family { name: "tables of any size", seed: 408, tables: 200, make: any },
    Family { name: "the largest table", seed: 409, tables: 20, make: largest_that_fails },
];

/// Several tasks with locks, Picks and assertions, and a few jobs each.
fn rich(random: &mut Random) -> TableDescription {
    let sizes = Sizes {
        tasks: (3, 6),
        jobs: (3, 7),
        body: (2, 6),
        locks: (1, 4),
        most_pick: 2,
        variables: 3,
        longest_period: 20,
    };
    random_table(random, &sizes)
}

/// Many jobs in the window, most of them one after the other.
fn crowded(random: &mut Random) -> TableDescription {
    let sizes = Sizes { tasks: (2, 8), jobs: (8, 32), most_pick: 1, ..Sizes::ANY };
    random_table(random, &sizes)
}

/// A race whose jobs nest, so that a failing order comes after many that hold.
fn nested_race(random: &mut Random) -> TableDescription {
    let mut table = random_race(random);
    if random.chance(1, 2) {
        // One writer less that task 0 can see.
        table.tasks[1].body[1] = code::store(1, 0);
    }
    nest(&mut table);
    table
}

/// The largest table with an assertion that fails, so that its first order of 512 steps does.
fn largest_that_fails(random: &mut Random) -> TableDescription {
    let mut table = largest(random);
    let task = random.index(8);
    let assertion = code::assert(random.index(4) as u8);
    table.tasks[task].body[free_position(random)] = assertion;
    table
}

/// What the walks came to.
#[derive(Debug, Default)]
struct Tally {
    /// Files by what a large allowance comes to.
    holds: u64,
    fails: u64,
    undecided: u64,
    refused: u64,
    /// Failing tables with another complete order before the failing one, and with a failed job
    /// above 0.
    fails_later: u64,
    fails_above: u64,
    /// The length of the longest failing order.
    longest: u64,
    /// How often the walks, with every allowance and buffer, came to each.
    walks_hold: u64,
    walks_fail: u64,
    walks_undecided: u64,
    without_room: u64,
    /// The moves of all decided walks.
    moves: u64,
}

impl Tally {
    /// Tables that were accepted.
    fn tables(&self) -> u64 {
        self.holds + self.fails + self.undecided
    }

    /// Asserts that both walks give one answer and leave one buffer, for each length. The
    /// interpreter walks with the longest buffer; a shorter one with room holds its beginning.
    fn compare(&mut self, name: &str, file: &[u8], allowance: u64) -> WalkAnswer {
        let mut longest = pattern(LENGTHS[0]);
        let answer = expected_walk(file, allowance, &mut longest);
        let written = if [0, 21].contains(&answer.number) { 512 } else { 0 };
        assert_eq!(longest[written..], pattern(LENGTHS[0])[written..]);
        for length in LENGTHS {
            let (mut expected, mut left) = (answer, longest[..length].to_vec());
            if length < 512 {
                left = pattern(length);
                expected = expected_walk(file, allowance, &mut left);
                assert_eq!(left, pattern(length));
                assert_eq!(expected.number, if written == 512 { 20 } else { answer.number });
            }
            assert_walk(name, file, allowance, &expected, &left);
            self.count(&expected);
        }
        answer
    }

    /// Counts what a walk came to.
    fn count(&mut self, answer: &WalkAnswer) {
        match (answer.number, answer.verdict) {
            (0, Verdict::Holds) => self.walks_hold += 1,
            (0, Verdict::Fails) => self.walks_fail += 1,
            (20, Verdict::None) => self.without_room += 1,
            (21, Verdict::None) => self.walks_undecided += 1,
            (1..=11, Verdict::None) => {}
            other => panic!("{other:?} is no answer of a walk"),
        }
        self.moves += answer.count;
    }

    /// Compares a file's walks at allowances around its count. Returns the number that a large
    /// allowance gives.
    fn compare_file(&mut self, name: &str, file: &[u8]) -> u64 {
        let answer = self.compare(name, file, LARGE);
        match (answer.number, answer.verdict) {
            (0, Verdict::Holds) => self.holds += 1,
            (0, _) => self.fails += 1,
            (21, _) => self.undecided += 1,
            _ => self.refused += 1,
        }
        self.longest = self.longest.max(answer.length);
        self.fails_later += u64::from(0 < answer.length && answer.length < answer.count);
        self.fails_above += u64::from(answer.failed_jobs[1..].contains(&1));
        for allowance in [0, 1] {
            self.compare(name, file, allowance);
        }
        if answer.number == 0 {
            let count = answer.count;
            assert_eq!(self.compare(name, file, count), answer);
            assert_eq!(self.compare(name, file, u64::MAX), answer);
            if count > 0 {
                assert_eq!(self.compare(name, file, count - 1).number, 21);
            }
        }
        answer.number
    }
}

/// Compares the tables of a family, their records shuffled, until enough were accepted.
fn compare_family(tally: &mut Tally, family: &Family) {
    let mut random = Random::new(family.seed);
    let enough = tally.tables() + family.tables as u64;
    while tally.tables() < enough {
        let table = (family.make)(&mut random);
        tally.compare_file(family.name, &table.write_shuffled(&mut random).0);
    }
}

/// A file that is mostly refused: a damaged table, or no table at all.
fn damaged_file(random: &mut Random, round: usize) -> Vec<u8> {
    let file = small(random).write();
    match round % 4 {
        0 => random_bytes(random),
        1 => random_records(random),
        _ => damaged(random, &file),
    }
}

/// Files that are refused, one for each number, and many that mostly are.
fn compare_refused(tally: &mut Tally) {
    for (at, file) in refused_files().iter().enumerate() {
        assert_eq!(tally.compare_file("refused files", file), at as u64 + 1);
    }
    let mut random = Random::new(410);
    for round in 0..1_000 {
        tally.compare_file("damaged files", &damaged_file(&mut random, round));
    }
}

#[test]
fn every_field_and_every_byte() {
    let mut tally = Tally::default();
    for family in FAMILIES {
        let (begin, tables, moves) = (Instant::now(), tally.tables(), tally.moves);
        compare_family(&mut tally, &family);
        let (tables, moves) = (tally.tables() - tables, tally.moves - moves);
        println!("{}: {tables} tables, {moves} moves, {:?}", family.name, begin.elapsed());
    }
    assert!(tally.tables() >= 5_000);
    compare_refused(&mut tally);
    println!("{} tables: {tally:?}", tally.tables());
    assert!(tally.holds >= 200 && tally.fails >= 200 && tally.walks_undecided >= 200);
    assert!(tally.walks_hold >= 200 && tally.walks_fail >= 200 && tally.without_room >= 200);
    assert!(tally.refused >= 500 && tally.undecided >= 20);
    assert!(tally.fails_later >= 200 && tally.fails_above >= 200 && tally.longest == 512);
}

/// P12 and P13 of document 01, with the answers that it gives.
#[test]
fn p12_and_p13() {
    let file = tasks(5, &[[1, 4, 5]], &[code::end()]).write();
    let mut buffer = pattern(600);
    let holds = WalkAnswer { verdict: Verdict::Holds, ..WalkAnswer::default() };
    assert_eq!(walk(&file, 0, &mut buffer), holds);
    assert_eq!(buffer, filled(600, 512, &[]));

    let file = table_x().write();
    let mut fails = WalkAnswer { verdict: Verdict::Fails, ..WalkAnswer::default() };
    (fails.count, fails.length) = (23, ORDER_OF_X.len() as u64);
    (fails.end_store[0], fails.failed_jobs[0]) = (1, 1);
    let mut buffer = pattern(600);
    assert_eq!(walk(&file, 23, &mut buffer), fails);
    assert_eq!(buffer, filled(600, 512, &ORDER_OF_X));
    let mut buffer = pattern(600);
    let undecided = WalkAnswer { number: 21, ..WalkAnswer::default() };
    assert_eq!(walk(&file, 22, &mut buffer), undecided);
    assert_eq!(buffer, filled(600, 512, &[]));
}

/// Lends some words of a larger list, some bytes of a larger buffer, and a file amid other bytes.
/// Only the 45 words and the first 512 bytes change, and none without room for the words.
fn compare_lent(random: &mut Random, file: &[u8], allowance: u64, (bytes, words): (usize, usize)) {
    let (around, place) = amid(random, file);
    let unchanged = around.clone();
    let (mut buffer, mut answer) = (pattern(bytes + 16), word_pattern(words + 16));
    let (mut expected_buffer, mut expected) = (buffer.clone(), answer.clone());
    let room = words >= WALK_WORDS;
    if room {
        let lent = &mut expected_buffer[8..8 + bytes];
        let filled: [u64; WALK_WORDS] = expected_walk(file, allowance, lent).into();
        expected[8..8 + WALK_WORDS].copy_from_slice(&filled);
    }
    let lent = (&mut buffer[8..8 + bytes], &mut answer[8..8 + words]);
    assert_eq!(walk_words(&around[place], allowance, lent.0, lent.1), room);
    assert_eq!(answer, expected, "{bytes} bytes, {words} words: {file:02x?}");
    assert_eq!(buffer, expected_buffer, "{bytes} bytes, {words} words: {file:02x?}");
    assert_eq!(around, unchanged);
}

#[test]
fn lent_words() {
    let mut random = Random::new(411);
    let mut counts = [0_u64; 22];
    for round in 0..400 {
        let file = match round % 4 {
            0 => damaged_file(&mut random, round / 4),
            1 => long(&mut random).write(),
            _ => random_race(&mut random).write(),
        };
        for allowance in [0, 15, LARGE] {
            for bytes in [0, 511, 512, 600] {
                let answer = expected_walk(&file, allowance, &mut pattern(bytes));
                counts[answer.number as usize] += 1;
                for words in [0, 1, 43, 44, 45, 46, 80] {
                    compare_lent(&mut random, &file, allowance, (bytes, words));
                }
            }
        }
    }
    println!("{counts:?}");
    assert!([0, 20, 21].iter().all(|number| counts[*number] >= 200));
    assert!(counts[1..=11].iter().sum::<u64>() >= 200);
}
