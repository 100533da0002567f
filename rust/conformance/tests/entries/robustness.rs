//! Damaged, random and hostile files: no panic, fast, and all entries agree.

use conformance::cases::table_x;
use conformance::entries::call_all;
use generator::files::{damaged, random_bytes, random_records};
use generator::hostile::hostile_files;
use generator::{random_table, Random, Sizes};
use interpreter::{check_plan, order_to_plan, plan_to_order, replay};
use std::time::{Duration, Instant};

/// How often each number of the reader came up, and how long all of it took.
fn call_each(files: impl Iterator<Item = Vec<u8>>) -> [u64; 12] {
    let begin = Instant::now();
    let mut seen = [0; 12];
    for file in files {
        seen[call_all(&file, 300) as usize] += 1;
    }
    let taken = begin.elapsed();
    println!("{seen:?} {taken:?}");
    assert!(taken < Duration::from_secs(30));
    seen
}

#[test]
fn damaged_files() {
    let mut random = Random::new(40);
    let seen = call_each((0..30_000).map(|round| {
        let sizes = if round % 2 == 0 { Sizes::SMALL } else { Sizes::ANY };
        let file = random_table(&mut random, &sizes).write();
        damaged(&mut random, &file)
    }));
    let reached = [0, 2, 3, 4, 5, 6, 7, 8, 9, 10, 11];
    assert!(reached.iter().all(|number| seen[*number] >= 10));
}

/// Every byte of table X changed to every value.
#[test]
fn every_single_byte_of_table_x() {
    let file = table_x().write();
    let seen = call_each((0..file.len()).flat_map(|at| {
        (0..=255).map(move |byte| conformance::cases::edited(&table_x().write(), &[(at, byte)]))
    }));
    assert_eq!(seen.iter().sum::<u64>(), 176 * 256);
    assert!([0, 2, 3, 4, 5, 6, 7, 8, 9, 10, 11].iter().all(|number| seen[*number] > 0));
}

#[test]
fn random_files() {
    let mut random = Random::new(41);
    let seen = call_each((0..4_000).map(|_| random_bytes(&mut random)));
    assert!(seen[1] > 1_000 && seen[2] > 1_000);
    let seen = call_each((0..8_000).map(|_| random_records(&mut random)));
    assert!([2, 3, 4, 5].iter().all(|number| seen[*number] > 10));
}

#[test]
fn hostile() {
    let mut random = Random::new(42);
    let seen = call_each(hostile_files(&mut random).into_iter());
    assert!([0, 2, 3, 5, 10, 11].iter().all(|number| seen[*number] > 0));
}

/// Random orders and plans for accepted tables: refused or accepted, never a panic, and each
/// conversion refuses as the check does.
#[test]
fn random_orders_and_plans() {
    let mut random = Random::new(43);
    let mut seen = [0_u64; 46];
    for round in 0..20_000 {
        let file = match round % 4 {
            0 => table_x().write(),
            _ => random_table(&mut random, &Sizes::SMALL).write(),
        };
        let length = random.between(0, 60) as usize;
        let step = |_| 16 * random.index(3) as u8 + u8::from(random.chance(1, 20));
        let order: Vec<u8> = (0..length).map(step).collect();
        let k = interpreter::read(&file).jobs as u64;
        let mut plan: Vec<u8> = (0..length).map(|_| random.between(0, 1) as u8).collect();
        plan.insert(0, if random.chance(9, 10) { k as u8 } else { random.byte() });
        let (mut order_buffer, mut plan_buffer) = ([1; 512], [1; 1281]);
        let replayed = replay(&file, &order);
        let converted = order_to_plan(&file, &order, &mut plan_buffer);
        assert_eq!((replayed.number, replayed.place), (converted.number, converted.place));
        let checked = check_plan(&file, &plan);
        let returned = plan_to_order(&file, &plan, &mut order_buffer);
        assert_eq!((checked.number, checked.place), (returned.number, returned.place));
        seen[replayed.number as usize] += 1;
        seen[checked.number as usize] += 1;
    }
    println!("{seen:?}");
    assert!([30, 31, 32, 33, 34, 40, 41, 42].iter().all(|number| seen[*number] > 20));
}
