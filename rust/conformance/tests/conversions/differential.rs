//! The proved conversions, called through their C interface, against the interpreter: every field
//! of the answer and every byte of the lent buffer, and the lent words.

use adqurim::raw::CONVERSION_WORDS;
use adqurim::{ORDER_ROOM, PLAN_ROOM};
use conformance::cases::{accepted, plan_of_x, table_x, ORDER_OF_X};
use conformance::comparison::{Conversion, TO_ORDER, TO_PLAN};
use conformance::entries::{amid, pattern, word_pattern};
use conformance::families::*;
use conformance::orders::{random_order, variants};
use conformance::plans::{random_plan, some_plans};
use generator::{random_nest, random_race, Random};
use interpreter::timing::{accept, Accepted};
use std::time::Instant;

/// The seeds differ, so that no family repeats the tables of another.
const FAMILIES: [Family; 8] = [
    Family { name: "small tables", seed: 620, tables: 500, make: small },
    Family { name: "long bodies", seed: 621, tables: 500, make: long },
    Family { name: "races", seed: 622, tables: 500, make: random_race },
    Family { name: "nests", seed: 623, tables: 500, make: random_nest },
    Family { name: "nests of four", seed: 624, tables: 500, make: nest_of_four },
    Family { name: "tables of any size", seed: 625, tables: 400, make: any },
    Family { name: "many jobs", seed: 626, tables: 400, make: crowded },
    Family { name: "the largest table", seed: 627, tables: 30, make: largest_with_assertions },
];

/// How often a conversion came to each number; index 0 counts acceptances.
struct Tally {
    conversion: Conversion,
    counts: [u64; 46],
    failing: u64,
    longest: u64,
}

impl Tally {
    fn new(conversion: Conversion) -> Tally {
        Tally { conversion, counts: [0; 46], failing: 0, longest: 0 }
    }

    /// Compares with a buffer of just the room, whose number it returns, and with one of another
    /// size.
    fn compare(&mut self, random: &mut Random, file: &[u8], bytes: &[u8]) -> u64 {
        let room = self.conversion.room;
        let others = [0, 1, room - 1, room - 1, room + 1, room + 100, 4096];
        let sizes = [room, others[random.index(others.len())]];
        let answers = sizes.map(|size| self.conversion.compare(file, bytes, size));
        for answer in answers {
            self.counts[answer.number as usize] += 1;
            self.failing += u64::from(answer.failed_jobs.contains(&1));
            self.longest = self.longest.max(answer.length);
        }
        answers[0].number
    }
}

/// Compares what `make` gives for each table of each family. A table that is refused gets bytes
/// that are right for table X.
fn compare_families(tally: &mut Tally, make: fn(&mut Random, &Accepted) -> Vec<Vec<u8>>) {
    for family in FAMILIES {
        let (begin, before) = (Instant::now(), tally.counts.iter().sum::<u64>());
        let mut random = Random::new(family.seed);
        for _ in 0..family.tables {
            let file = (family.make)(&mut random).write_shuffled(&mut random).0;
            let made = accept(&file).map(|accepted| make(&mut random, &accepted));
            for bytes in made.unwrap_or_else(|_| vec![ORDER_OF_X.to_vec(), plan_of_x()]) {
                tally.compare(&mut random, &file, &bytes);
            }
        }
        let made = tally.counts.iter().sum::<u64>() - before;
        println!("{}: {made} conversions, {:?}", family.name, begin.elapsed());
    }
    println!("{:?} failing {} longest {}", tally.counts, tally.failing, tally.longest);
}

/// A file for each of the numbers 1 to 11, whatever is lent: the file's number comes first.
fn compare_refused(tally: &mut Tally) {
    let mut random = Random::new(628);
    for (at, file) in refused_files().iter().enumerate() {
        for bytes in [&ORDER_OF_X[..], &plan_of_x(), &[], &[255; 600]] {
            assert_eq!(tally.compare(&mut random, file, bytes), at as u64 + 1);
            for size in [0, 511, 512, 1_280, 1_281, 2_000] {
                let answer = tally.conversion.compare(file, bytes, size);
                assert_eq!(answer.number, at as u64 + 1);
            }
        }
    }
}

/// Two complete orders and their variants.
fn some_orders(random: &mut Random, accepted: &Accepted) -> Vec<Vec<u8>> {
    let mut made = Vec::new();
    for _ in 0..2 {
        let order = random_order(random, accepted);
        made.extend(variants(random, &order, accepted));
        made.push(order);
    }
    made
}

/// Some plans without the way each was made.
fn plans_alone(random: &mut Random, accepted: &Accepted) -> Vec<Vec<u8>> {
    some_plans(random, accepted).into_iter().map(|(_, plan)| plan).collect()
}

#[test]
fn orders_become_plans() {
    let mut tally = Tally::new(TO_PLAN);
    compare_refused(&mut tally);
    compare_families(&mut tally, some_orders);
    assert!([0, 20, 30, 31, 32, 33, 34].iter().all(|number| tally.counts[*number] >= 1_000));
    assert!((1..=11).all(|number| tally.counts[number] >= 4));
    assert!(tally.failing >= 1_000 && tally.longest == PLAN_ROOM as u64);
}

#[test]
fn plans_become_orders() {
    let mut tally = Tally::new(TO_ORDER);
    compare_refused(&mut tally);
    compare_families(&mut tally, plans_alone);
    let met = [0, 20, 40, 41, 42, 43, 44, 45];
    assert!(met.iter().all(|number| tally.counts[*number] >= 1_000), "{:?}", tally.counts);
    assert!((1..=11).all(|number| tally.counts[number] >= 4));
    assert!(tally.failing >= 1_000 && tally.longest == ORDER_ROOM as u64);
}

/// Every size of a buffer from 0 to beyond the room, for bytes that are accepted and for bytes that
/// are refused: number 20 comes first, then the bytes' own number.
fn compare_sizes(conversion: &Conversion, file: &[u8], bytes: &[u8]) {
    let cut = &bytes[..bytes.len() - 1];
    let refused = conversion.compare(file, cut, conversion.room);
    assert!([31, 40].contains(&refused.number));
    for size in 0..conversion.room + 120 {
        let room = size >= conversion.room;
        let answer = conversion.compare(file, bytes, size);
        assert_eq!((answer.number, answer.place), (if room { 0 } else { 20 }, 0));
        let answer = conversion.compare(file, cut, size);
        assert_eq!(answer.number, if room { refused.number } else { 20 });
    }
}

#[test]
fn buffers_of_every_size() {
    compare_sizes(&TO_PLAN, &table_x().write(), &ORDER_OF_X);
    compare_sizes(&TO_ORDER, &table_x().write(), &plan_of_x());
    let mut random = Random::new(629);
    let file = largest_with_assertions(&mut random).write();
    let order = random_order(&mut random, &accepted(&file));
    let plan = random_plan(&mut random, &accepted(&file));
    assert_eq!((order.len(), plan.len()), (ORDER_ROOM, PLAN_ROOM));
    compare_sizes(&TO_PLAN, &file, &order);
    compare_sizes(&TO_ORDER, &file, &plan);
}

/// Bytes that go on behind a complete order or a legal plan are refused where these end, and bytes
/// beyond any order's or plan's length make no difference to what is refused before them.
fn compare_longer(conversion: &Conversion, file: &[u8], bytes: &[u8], number: u64) {
    let mut random = Random::new(630);
    let size = conversion.room + 40;
    for more in (1..40).chain([512, 1_281, 4_096]) {
        let behind: Vec<u8> = (0..more).map(|_| random.between(0, 1) as u8).collect();
        let answer = conversion.compare(file, &[bytes, &behind].concat(), size);
        assert_eq!((answer.number, answer.place), (number, bytes.len() as u64));
        let before = [&[255], &bytes[1..], &behind].concat();
        assert_eq!(conversion.compare(file, &before, size).place, 0);
    }
}

#[test]
fn orders_and_plans_that_are_too_long() {
    let mut random = Random::new(631);
    for _ in 0..10 {
        let file = largest_with_assertions(&mut random).write();
        let order = random_order(&mut random, &accepted(&file));
        let plan = random_plan(&mut random, &accepted(&file));
        assert_eq!((order.len(), plan.len()), (ORDER_ROOM, PLAN_ROOM));
        compare_longer(&TO_PLAN, &file, &order, 32);
        compare_longer(&TO_ORDER, &file, &plan, 40);
    }
    compare_longer(&TO_PLAN, &table_x().write(), &ORDER_OF_X, 32);
    compare_longer(&TO_ORDER, &table_x().write(), &plan_of_x(), 40);
}

/// Lends some bytes of a larger buffer, some words of a larger list, and both inputs amid other
/// bytes. Only the 43 words and the bytes of the room change, and none without room for the words.
fn compare_lent(
    random: &mut Random,
    conversion: &Conversion,
    (file, bytes): (&[u8], &[u8]),
    (size, length): (usize, usize),
) {
    let (files, file_at) = amid(random, file);
    let (orders, order_at) = amid(random, bytes);
    let unchanged = (files.clone(), orders.clone());
    let (mut buffer, mut words) = (pattern(size + 16), word_pattern(length + 16));
    let (mut left, mut expected) = (buffer.clone(), words.clone());
    let room = length >= CONVERSION_WORDS;
    if room {
        let answer = (conversion.expected)(file, bytes, &mut left[8..8 + size]);
        let answer: [u64; CONVERSION_WORDS] = answer.into();
        expected[8..8 + CONVERSION_WORDS].copy_from_slice(&answer);
    }
    let lent = (&mut buffer[8..8 + size], &mut words[8..8 + length]);
    let (file, bytes) = (&files[file_at], &orders[order_at]);
    assert_eq!((conversion.words)(file, bytes, lent.0, lent.1), room);
    assert_eq!(words, expected, "{size} bytes, {length} words: {file:02x?} {bytes:?}");
    assert!(buffer == left, "{size} bytes, {length} words: {file:02x?} {bytes:?}");
    assert_eq!((files, orders), unchanged);
}

/// Lends every pair of some sizes. Returns the number that a buffer with room gives.
fn compare_sizes_lent(
    random: &mut Random,
    conversion: &Conversion,
    file: &[u8],
    bytes: &[u8],
) -> u64 {
    let room = conversion.room;
    for size in [0, room - 1, room, room + 19] {
        for length in [0, 1, 42, 43, 44, 80] {
            compare_lent(random, conversion, (file, bytes), (size, length));
        }
    }
    (conversion.expected)(file, bytes, &mut pattern(room)).number
}

#[test]
fn lent_words() {
    let mut random = Random::new(632);
    let mut counts = [0_u64; 46];
    let mut files = refused_files();
    files.extend((0..60).map(|_| nest_of_four(&mut random).write()));
    files.extend((0..60).map(|_| random_race(&mut random).write()));
    for file in files {
        let (mut orders, mut plans) = (vec![ORDER_OF_X.to_vec()], vec![plan_of_x()]);
        if let Ok(accepted) = accept(&file) {
            orders.extend(some_orders(&mut random, &accepted));
            plans.extend(plans_alone(&mut random, &accepted));
        }
        for (conversion, all) in [(TO_PLAN, orders), (TO_ORDER, plans)] {
            for bytes in all {
                let number = compare_sizes_lent(&mut random, &conversion, &file, &bytes);
                counts[number as usize] += 1;
            }
        }
    }
    let x = table_x().write();
    for length in 0..=60 {
        compare_lent(&mut random, &TO_PLAN, (&x, &ORDER_OF_X), (PLAN_ROOM, length));
        compare_lent(&mut random, &TO_ORDER, (&x, &plan_of_x()), (ORDER_ROOM, length));
    }
    println!("{counts:?}");
    let met = [0, 30, 31, 32, 33, 34, 40, 41, 42, 43, 44, 45];
    assert!(met.iter().all(|number| counts[*number] >= 20));
    assert!((1..=11).all(|number| counts[number] >= 2));
}
