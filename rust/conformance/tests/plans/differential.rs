//! The proved plan check, called through its C interface, against the interpreter: every field of
//! the answer on many files and plans, and the lent words.

use adqurim::raw::{check_plan_words, RunAnswer, CHECK_PLAN_WORDS};
use conformance::cases::{accepted, edited, plan_of_x, table_x, tasks};
use conformance::comparison::compare_check_plan;
use conformance::entries::{amid, word_pattern};
use conformance::families::*;
use conformance::plans::{random_bytes, random_plan, some_plans};
use conformance::proved::expected_check_plan;
use generator::{code, random_nest, random_race, Random};
use interpreter::timing::accept;
use std::collections::BTreeMap;
use std::time::Instant;

/// The seeds differ, so that no family repeats the tables of another.
const FAMILIES: [Family; 8] = [
    Family { name: "small tables", seed: 600, tables: 2_000, make: small },
    Family { name: "long bodies", seed: 601, tables: 2_000, make: long },
    Family { name: "races", seed: 602, tables: 2_000, make: random_race },
    Family { name: "nests", seed: 603, tables: 2_000, make: random_nest },
    Family { name: "nests of four", seed: 604, tables: 2_000, make: nest_of_four },
    Family { name: "tables of any size", seed: 605, tables: 1_000, make: any },
    Family { name: "many jobs", seed: 606, tables: 1_000, make: crowded },
    Family { name: "the largest table", seed: 607, tables: 60, make: largest_with_assertions },
];

/// Each number of a plan's author comes up at least so often.
const EACH_NUMBER: u64 = 1_000;

/// The lengths of random bytes: up to some more than the longest plan has.
const RANDOM_LENGTHS: std::ops::RangeInclusive<usize> = 0..=1_400;

/// What the plans came to.
struct Tally {
    /// How often each number came up; index 0 counts acceptances.
    counts: [u64; 46],
    /// How often each number came up at each place, for the numbers of a plan's author.
    places: BTreeMap<(u64, u64), u64>,
    /// How often each number came up for plans made in each way.
    made: BTreeMap<(&'static str, u64), u64>,
    /// Accepted plans with a failed job, and with one above job 7.
    failing: u64,
    failing_late: u64,
    longest: usize,
}

impl Tally {
    fn new() -> Tally {
        let (places, made) = (BTreeMap::new(), BTreeMap::new());
        Tally { counts: [0; 46], places, made, failing: 0, failing_late: 0, longest: 0 }
    }

    fn plans(&self) -> u64 {
        self.counts.iter().sum()
    }

    /// At how many places a number came up.
    fn places_of(&self, number: u64) -> usize {
        self.places.range((number, 0)..(number + 1, 0)).count()
    }

    /// How often plans made in this way earned this number.
    fn made_with(&self, way: &'static str, number: u64) -> u64 {
        self.made.get(&(way, number)).copied().unwrap_or_default()
    }

    /// Asserts that both checks give one answer, and counts it.
    fn compare(&mut self, way: &'static str, file: &[u8], plan: &[u8]) -> RunAnswer {
        let expected = compare_check_plan(way, file, plan);
        self.counts[expected.number as usize] += 1;
        *self.made.entry((way, expected.number)).or_default() += 1;
        if expected.number >= 40 {
            *self.places.entry((expected.number, expected.place)).or_default() += 1;
        }
        self.failing += u64::from(expected.failed_jobs.contains(&1));
        self.failing_late += u64::from(expected.failed_jobs[8..].contains(&1));
        if expected.number == 0 {
            self.longest = self.longest.max(plan.len());
        }
        expected
    }
}

/// Compares some plans of each table of a family. A table that is refused gets the plan of X.
fn compare_family(tally: &mut Tally, family: &Family) {
    let mut random = Random::new(family.seed);
    for _ in 0..family.tables {
        let file = (family.make)(&mut random).write_shuffled(&mut random).0;
        let Ok(accepted) = accept(&file) else {
            tally.compare("refused file", &file, &plan_of_x());
            continue;
        };
        for (way, plan) in some_plans(&mut random, &accepted) {
            tally.compare(way, &file, &plan);
        }
    }
}

/// A plan cut at every offset, and with a byte put in, taken out or changed at every offset.
fn compare_at_every_offset(tally: &mut Tally, random: &mut Random, file: &[u8], plan: &[u8]) {
    for at in 0..plan.len() {
        let byte = random.between(0, 3) as u8;
        tally.compare("cut at every offset", file, &plan[..at]);
        let longer = [&plan[..at], &[byte], &plan[at..]].concat();
        tally.compare("lengthened at every offset", file, &longer);
        let shorter = [&plan[..at], &plan[at + 1..]].concat();
        tally.compare("shortened at every offset", file, &shorter);
        let change = edited(plan, &[(at, plan[at].wrapping_add(byte + 1))]);
        tally.compare("changed at every offset", file, &change);
    }
    tally.compare("lengthened at every offset", file, &[plan, &[0]].concat());
}

/// Every offset of a plan of X, of some small tables, and of the largest table.
fn compare_offsets(tally: &mut Tally) {
    let mut random = Random::new(608);
    compare_at_every_offset(tally, &mut random, &table_x().write(), &plan_of_x());
    for (make, tables) in [(nest_of_four as fn(&mut Random) -> _, 100), (random_race, 100)] {
        for _ in 0..tables {
            let file = make(&mut random).write();
            if let Ok(accepted) = accept(&file) {
                let plan = random_plan(&mut random, &accepted);
                compare_at_every_offset(tally, &mut random, &file, &plan);
            }
        }
    }
    let file = largest_with_assertions(&mut random).write();
    let plan = random_plan(&mut random, &accepted(&file));
    compare_at_every_offset(tally, &mut random, &file, &plan);
}

/// Random bytes of every length, on table X, a small table, one without jobs and the largest.
fn compare_random(tally: &mut Tally) {
    let mut random = Random::new(609);
    let none = tasks(5, &[[1, 4, 5]], &[code::end()]).write();
    let files = [table_x().write(), random_nest(&mut random).write(), none];
    let large = largest(&mut random).write();
    for length in RANDOM_LENGTHS {
        for file in files.iter().chain([&large]) {
            let k = accepted(file).jobs.len();
            for (way, bytes) in random_bytes(&mut random, k, length) {
                tally.compare(way, file, &bytes);
            }
        }
    }
}

/// Plan P10 with each byte changed to each value. P10 and P11 of document 01 are among them, with
/// the answers that it gives, and the plan of P12.
fn compare_x(tally: &mut Tally) {
    let file = table_x().write();
    for at in 0..plan_of_x().len() {
        for byte in 0..=255 {
            tally.compare("table X", &file, &edited(&plan_of_x(), &[(at, byte)]));
        }
    }
    let mut ends = RunAnswer::default();
    (ends.end_store[0], ends.failed_jobs[0]) = (1, 1);
    assert_eq!(tally.compare("P10", &file, &plan_of_x()), ends);
    let refused = RunAnswer { number: 43, place: 0, ..RunAnswer::default() };
    let later = edited(&plan_of_x(), &[(27, 1), (29, 1), (31, 1)]);
    assert_eq!(tally.compare("P11", &file, &later), refused);
    let none = tasks(5, &[[1, 4, 5]], &[code::end()]).write();
    assert_eq!(tally.compare("P12", &none, &[0]), RunAnswer::default());
}

/// A file for each of the numbers 1 to 11, with plans that are right for X, cut, or empty.
fn compare_refused(tally: &mut Tally) {
    for (at, file) in refused_files().iter().enumerate() {
        for plan in [&plan_of_x()[..], &[2], &[]] {
            assert_eq!(tally.compare("refused file", file, plan).number, at as u64 + 1);
        }
    }
}

#[test]
fn every_field_of_the_answer() {
    let mut tally = Tally::new();
    compare_x(&mut tally);
    compare_refused(&mut tally);
    compare_offsets(&mut tally);
    compare_random(&mut tally);
    for family in FAMILIES {
        let (begin, before) = (Instant::now(), tally.plans());
        compare_family(&mut tally, &family);
        println!("{}: {} plans, {:?}", family.name, tally.plans() - before, begin.elapsed());
    }
    println!("{} plans: {:?} {:?}", tally.plans(), tally.counts, tally.made);
    assert!(tally.plans() >= 200_000);
    assert!((1..=11).all(|number| tally.counts[number] >= 3));
    let often = |number: &usize| tally.counts[*number] >= EACH_NUMBER;
    assert!([0, 40, 41, 42, 43, 44, 45].iter().all(often), "{:?}", tally.counts);
    assert!(tally.failing >= 1_000 && tally.failing_late >= 500 && tally.longest == 1_281);
    assert_places_vary(&tally);
    assert_ways_lead_far(&tally);
}

/// Each number comes up at several offsets, jobs or rounds, and not only at the first.
fn assert_places_vary(tally: &Tally) {
    let least = [(40, 500), (41, 500), (42, 500), (43, 16), (44, 8), (45, 16)];
    for (number, places) in least {
        let found = tally.places_of(number);
        println!("number {number} at {found} places");
        assert!(found >= places, "number {number} at {found} places");
    }
    for (number, place) in [(43, 1), (44, 1), (45, 0), (45, 1), (45, 2)] {
        let found = tally.places[&(number, place)];
        assert!(found >= 100, "number {number} at place {place} {found} times");
    }
}

/// What was made for a rule meets that rule often.
fn assert_ways_lead_far(tally: &Tally) {
    let least = [
        ("legal", 0, 10_000),
        ("drawn", 0, 1_000),
        ("drawn", 43, 1_000),
        ("exchanged", 43, 1_000),
        ("exchanged", 45, 1_000),
        ("moved in", 43, 1_000),
        ("over locks", 44, 1_000),
        ("over locks, one byte", 44, 500),
        ("one guess", 45, 10_000),
        ("two guesses", 45, 10_000),
        ("one pair", 41, 1_000),
        ("one pair", 42, 1_000),
        ("cut at every offset", 40, 5_000),
        ("lengthened", 40, 10_000),
        ("mostly zeros", 40, 1_000),
    ];
    for (way, number, times) in least {
        let found = tally.made_with(way, number);
        assert!(found >= times, "{way}: number {number} {found} times");
    }
}

/// Lends some words of a larger list, and a file and a plan amid other bytes. Only the 43 words
/// change, and none without room.
fn compare_lent(random: &mut Random, file: &[u8], plan: &[u8], length: usize) {
    let (files, file_at) = amid(random, file);
    let (plans, plan_at) = amid(random, plan);
    let unchanged = (files.clone(), plans.clone());
    let mut words = word_pattern(length + 16);
    let mut expected = words.clone();
    let room = length >= CHECK_PLAN_WORDS;
    if room {
        let answer: [u64; CHECK_PLAN_WORDS] = expected_check_plan(file, plan).into();
        expected[8..8 + CHECK_PLAN_WORDS].copy_from_slice(&answer);
    }
    let lent = &mut words[8..8 + length];
    assert_eq!(check_plan_words(&files[file_at], &plans[plan_at], lent), room);
    assert_eq!(words, expected, "{length} words: {file:02x?} {plan:?}");
    assert_eq!((files, plans), unchanged);
}

#[test]
fn lent_words() {
    let mut random = Random::new(610);
    let mut counts = [0_u64; 46];
    for round in 0..300 {
        let table = if round % 2 == 0 { nest_of_four(&mut random) } else { long(&mut random) };
        let file = table.write();
        let mut plans = vec![("refused file", plan_of_x())];
        plans.extend(accept(&file).into_iter().flat_map(|it| some_plans(&mut random, &it)));
        for (_, plan) in plans {
            counts[expected_check_plan(&file, &plan).number as usize] += 1;
            for length in [0, 1, 11, 42, 43, 44, 80] {
                compare_lent(&mut random, &file, &plan, length);
            }
        }
    }
    for file in refused_files().iter().chain([&table_x().write()]) {
        for length in 0..=60 {
            compare_lent(&mut random, file, &plan_of_x(), length);
        }
    }
    println!("{counts:?}");
    assert!([0, 40, 41, 42, 43, 44, 45].iter().all(|number| counts[*number] >= 20));
}
