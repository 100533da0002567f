//! The proved reader, called through its C interface, against the interpreter: every field of the
//! answer on many files, and the lent words.

use adqurim::raw::{read, read_words, ReadAnswer, READ_WORDS};
use conformance::cases::{edited, rates, table_x, tasks};
use conformance::entries::{amid, word_pattern};
use conformance::proved::expected_read;
use generator::files::{damaged, random_bytes, random_records};
use generator::hostile::{hostile_files, nearly_full, tasks_of, WIDEST};
use generator::{code, random_nest, random_race, random_table, Random, Sizes, TableDescription};
use interpreter::file::{read_table, Task};
use interpreter::timing::{blocking, right_side};
use std::time::Instant;

/// A family of files: its seed, how many there are, and how the n-th is made.
struct Family {
    name: &'static str,
    seed: u64,
    files: usize,
    make: fn(&mut Random, usize) -> Vec<u8>,
}

/// The seeds differ, so that no family repeats the tables of another.
const FAMILIES: [Family; 14] = [
    Family { name: "tables", seed: 100, files: 50_000, make: table_file },
    Family { name: "shuffled tables", seed: 101, files: 40_000, make: shuffled_file },
    Family { name: "damaged tables", seed: 102, files: 60_000, make: damaged_file },
    Family { name: "damaged shuffled tables", seed: 103, files: 30_000, make: damaged_shuffle },
    Family { name: "tables that break a rule", seed: 104, files: 30_000, make: broken_file },
    Family { name: "tables with wrong indices", seed: 115, files: 40_000, make: misled_file },
    Family { name: "random times", seed: 105, files: 40_000, make: times_file },
    Family { name: "random windows", seed: 106, files: 20_000, make: window_file },
    Family { name: "random bytes", seed: 107, files: 10_000, make: bytes_file },
    Family { name: "random records", seed: 108, files: 30_000, make: records_file },
    Family { name: "bytes of each length", seed: 109, files: 4_201, make: bytes_of_length },
    Family { name: "tables of each length", seed: 110, files: 4_201, make: table_of_length },
    Family { name: "single bytes of table X", seed: 111, files: 176 * 256, make: byte_of_x },
    Family { name: "nearly full tables", seed: 112, files: 1_000, make: nearly_full_file },
];

/// What a family came to.
#[derive(Debug, Default)]
struct Tally {
    /// How often each number came up; index 0 counts acceptances.
    counts: [u64; 12],
    /// Files left out since their climb is long.
    left_out: u64,
}

/// A random table of small, long or any size, or one of the two special shapes.
fn any_table(random: &mut Random, round: usize) -> TableDescription {
    match round % 8 {
        0 => random_table(random, &Sizes::SMALL),
        1 => random_table(random, &Sizes::LONG),
        2 => random_race(random),
        3 => random_nest(random),
        _ => random_table(random, &Sizes::ANY),
    }
}

/// The table in walk order, shuffled, and each of these with one to three damaged bytes.
fn table_file(random: &mut Random, round: usize) -> Vec<u8> {
    any_table(random, round).write()
}

fn shuffled_file(random: &mut Random, round: usize) -> Vec<u8> {
    any_table(random, round).write_shuffled(random).0
}

fn damaged_file(random: &mut Random, round: usize) -> Vec<u8> {
    let file = table_file(random, round);
    damaged(random, &file)
}

fn damaged_shuffle(random: &mut Random, round: usize) -> Vec<u8> {
    let file = shuffled_file(random, round);
    damaged(random, &file)
}

/// A table of any size, shuffled, that was changed in one way which a rule of the file forbids or
/// nearly forbids.
fn broken_file(random: &mut Random, round: usize) -> Vec<u8> {
    let mut table = random_table(random, &Sizes::ANY);
    let task = random.index(table.tasks.len());
    let body = &mut table.tasks[task].body;
    let at = random.index(body.len());
    match round % 10 {
        0 => body[at].operation = random.between(0, 12) as u8,
        1 => body[at].c = random.between(0, 17) as u8,
        2 => body.truncate(at),
        3 => body.resize(random.between(15, 18) as usize, code::end()),
        4 => body[at] = code::skip_if_less(0, 1, random.between(0, 16) as u8),
        5 => body[at] = code::acquire(random.between(0, 9) as u8),
        6 => body[at] = code::release(random.between(0, 9) as u8),
        7 => table.tasks[task].period += random.between(0, 9) as u32,
        8 => table.tasks.resize(random.between(7, 10) as usize, table.tasks[task].clone()),
        _ => table.ceilings.resize(random.between(0, 10) as usize, random.between(5, 8) as u8),
    }
    table.write_shuffled(random).0
}

/// A shuffled table with one to three of its indices led elsewhere, mostly within the file.
fn misled_file(random: &mut Random, round: usize) -> Vec<u8> {
    let mut file = shuffled_file(random, round);
    let records = file.len() / 16;
    for _ in 0..random.between(1, 3) {
        let record = random.index(records);
        let byte = match file[record * 16] {
            1 => random.between(2, 3) as usize,
            2 => random.between(1, 2) as usize,
            _ => 1,
        };
        let outside = random.chance(1, 20);
        file[record * 16 + byte] =
            if outside { random.byte() } else { random.index(records) as u8 };
    }
    file
}

/// One to eight tasks with periods of up to 2, 4, ... 2^31 and a load from light to above full.
fn times_file(random: &mut Random, _: usize) -> Vec<u8> {
    let longest = 1 << random.between(1, 31);
    let count = random.between(1, 8);
    let mut periods: Vec<u64> = (0..count).map(|_| random.between(1, longest)).collect();
    periods.sort_unstable_by(|a, b| b.cmp(a));
    let share = random.between(1, 2 * count);
    let execution = |random: &mut Random, p: u64| random.between(1, (p / share).max(1));
    let times: Vec<(u32, u32)> =
        periods.iter().map(|p| (execution(random, *p) as u32, *p as u32)).collect();
    rates(&times).write()
}

/// Windows and arrivals around 32 jobs.
fn window_file(random: &mut Random, _: usize) -> Vec<u8> {
    let count = random.between(1, 8);
    let period = 1 << random.between(3, 31);
    let window = (period * random.between(1, 40 / count)).min(u32::MAX.into()) as u32;
    let window = window.saturating_add(random.between(0, 9) as u32);
    let near = [0, 1, window - 1, window, period as u32 - 1];
    let times: Vec<[u32; 3]> =
        (0..count).map(|_| [1, period as u32, near[random.index(5)]]).collect();
    tasks(window, &times, &[code::end()]).write()
}

fn bytes_file(random: &mut Random, _: usize) -> Vec<u8> {
    random_bytes(random)
}

fn records_file(random: &mut Random, _: usize) -> Vec<u8> {
    random_records(random)
}

fn nearly_full_file(random: &mut Random, _: usize) -> Vec<u8> {
    nearly_full(random).write()
}

/// As many bytes as the round says, 0 to 4,200: random ones, or a header and then zeros.
fn bytes_of_length(random: &mut Random, round: usize) -> Vec<u8> {
    if random.chance(1, 2) {
        return (0..round).map(|_| random.byte()).collect();
    }
    let mut file = vec![1, 0, 1, 0, 1, 0, 0, 0];
    file.resize(round, 0);
    file
}

/// A table cut off, or with zeros at its end, to as many bytes as the round says.
fn table_of_length(random: &mut Random, round: usize) -> Vec<u8> {
    let mut file = random_table(random, &Sizes::ANY).write();
    file.resize(round, 0);
    file
}

/// Every byte of table X changed to every value.
fn byte_of_x(_: &mut Random, round: usize) -> Vec<u8> {
    edited(&table_x().write(), &[(round / 256, (round % 256) as u8)])
}

/// The most steps of a climb to a response time that the test waits for. From a rounded share
/// a hostile table takes hundreds of millions of them.
const MOST_STEPS: u64 = 5_000_000;

/// Whether some task's response time is a long climb away from (C + B) / (1 − U), where U is the
/// share of the time that the tasks above it take.
fn climbs_long(file: &[u8]) -> bool {
    let Ok(table) = read_table(file) else { return false };
    (0..table.tasks.len())
        .any(|number| climb_is_long(blocking(&table, number), &table.tasks[number..]))
}

/// The same for the first of these tasks, whose B this is. Shares are in parts of 2^32.
fn climb_is_long(blocking: u64, tasks: &[Task]) -> bool {
    let (task, above) = (&tasks[0], &tasks[1..]);
    let used: u64 = above.iter().map(|task| (task.execution << 32) / task.period).sum();
    let Some(free @ 1..) = (1_u64 << 32).checked_sub(used) else { return false };
    let own = task.execution + blocking;
    let mut time = u64::try_from((u128::from(own) << 32).div_ceil(free.into())).unwrap_or(u64::MAX);
    for _ in 0..MOST_STEPS {
        if time > task.period {
            return false;
        }
        let next = right_side(own, above, time);
        if next == time {
            return false;
        }
        time = next;
    }
    true
}

/// Asserts that both readers give one answer.
fn compare(name: &str, round: usize, file: &[u8]) -> ReadAnswer {
    let expected = expected_read(file);
    assert_eq!(read(file), expected, "{name}, file {round}: {file:02x?}");
    expected
}

/// Compares a family's files, those with a long climb left out.
fn compare_family(name: &str, files: impl Iterator<Item = Vec<u8>>) -> Tally {
    let begin = Instant::now();
    let mut tally = Tally::default();
    for (round, file) in files.enumerate() {
        if climbs_long(&file) {
            tally.left_out += 1;
            continue;
        }
        tally.counts[compare(name, round, &file).number as usize] += 1;
    }
    println!("{name}: {tally:?} {:?}", begin.elapsed());
    tally
}

#[test]
fn every_field_of_the_answer() {
    let begin = Instant::now();
    let mut tallies: Vec<Tally> = Vec::new();
    for Family { name, seed, files, make } in FAMILIES {
        let mut random = Random::new(seed);
        tallies.push(compare_family(name, (0..files).map(|round| make(&mut random, round))));
    }
    let hostile = hostile_files(&mut Random::new(113));
    tallies.push(compare_family("hostile files", hostile.into_iter()));
    let counts: [u64; 12] =
        std::array::from_fn(|number| tallies.iter().map(|tally| tally.counts[number]).sum());
    let left_out: u64 = tallies.iter().map(|tally| tally.left_out).sum();
    let files: u64 = counts.iter().sum();
    println!("{files} files, {left_out} left out, by number {counts:?}, {:?}", begin.elapsed());
    assert!(files >= 200_000 && left_out < 10);
    assert!(counts.iter().all(|count| *count >= 100));
}

/// C and P of tasks that leave 1 of each 3,263,442 free: each P is 1 more than the product of the
/// shorter ones.
const SYLVESTER: [(u32, u32); 5] = [(1, 1807), (1, 43), (1, 7), (1, 3), (1, 2)];

/// A few fixed climbs that take the proved entry up to a second.
#[test]
fn long_climbs() {
    for (round, period) in [3_300_000, 3_400_000, 3_500_000, 10_000_000].into_iter().enumerate() {
        let times = [&[(1, WIDEST), (1, period)], &SYLVESTER[..]].concat();
        assert_eq!(compare("one task more", round, &tasks_of(&times).write()).number, 0);
    }
    for (round, scale) in [10, 100, 1000, 1316].into_iter().enumerate() {
        let scaled = SYLVESTER.map(|(c, p)| (c * scale, p * scale));
        let times = [&[(1, WIDEST)], &scaled[..]].concat();
        compare("scaled times", round, &tasks_of(&times).write());
    }
}

/// The files that the other tests leave out: hundreds of millions of steps each from a rounded
/// share, few from an exact one.
#[test]
fn longest_climbs() {
    let mut files = hostile_files(&mut Random::new(113));
    let mut random = Random::new(112);
    files.extend((0..1_000).map(|round| nearly_full_file(&mut random, round)));
    files.push(tasks_of(&[&[(1, WIDEST)], &[(1, 7); 7][..]].concat()).write());
    for (round, file) in files.iter().enumerate().filter(|(_, file)| climbs_long(file)) {
        let begin = Instant::now();
        let answer = compare("longest climbs", round, file);
        println!("file {round}: {answer:?} {:?}", begin.elapsed());
    }
}

/// Lends some words of a larger list, and a file amid other bytes. Only the eleven words change,
/// and none without room.
pub(crate) fn compare_lent(random: &mut Random, file: &[u8], length: usize) {
    let (bytes, place) = amid(random, file);
    let mut words = word_pattern(length + 16);
    let mut expected = words.clone();
    let room = length >= READ_WORDS;
    if room {
        let answer: [u64; READ_WORDS] = expected_read(file).into();
        expected[8..8 + READ_WORDS].copy_from_slice(&answer);
    }
    let lent = &mut words[8..8 + length];
    assert_eq!(read_words(&bytes[place.clone()], lent), room);
    assert_eq!(words, expected, "{length} words: {file:02x?}");
    assert_eq!(bytes[place], *file);
}

#[test]
fn lent_words() {
    let mut random = Random::new(114);
    let mut counts = [0_u64; 12];
    for round in 0..6_000 {
        let file = match round % 4 {
            0 => damaged_file(&mut random, round / 4),
            1 => broken_file(&mut random, round / 4),
            2 => window_file(&mut random, round / 4),
            _ => table_of_length(&mut random, round / 4 * 4 % 4_204),
        };
        if climbs_long(&file) {
            continue;
        }
        counts[expected_read(&file).number as usize] += 1;
        for length in [0, 1, 10, 11, 12, 40] {
            compare_lent(&mut random, &file, length);
        }
    }
    println!("{counts:?}");
    assert!(counts.iter().all(|count| *count >= 10));
}
