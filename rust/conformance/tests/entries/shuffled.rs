//! The same table with its records in another order gives the same answers, apart from places.

use conformance::cases::edited;
use conformance::entries::{filled, job_pattern, pattern};
use generator::{random_table, Random, Sizes, TableDescription};
use interpreter::*;

/// Every answer of a file that names no record.
fn answers(file: &[u8]) -> (ReadAnswer, WalkAnswer, Vec<u8>, Vec<JobRecord>, String) {
    let mut buffer = pattern(520);
    let walked = walk(file, 2_000, &mut buffer);
    let mut list = job_pattern(32);
    job_list(file, &mut list);
    // The sheet walks with its own allowance; only decided tables are small enough for a test.
    let text = if walked.number == 0 { sheet(file) } else { String::new() };
    (read(file), walked, buffer, list, text)
}

/// Orders and plans, right and damaged, are answered alike.
fn compare_bytes(random: &mut Random, file: &[u8], other: &[u8], order: &[u8]) {
    let mut plan = pattern(1290);
    let length = order_to_plan(file, order, &mut plan).length;
    let mut other_plan = pattern(1290);
    assert_eq!(order_to_plan(other, order, &mut other_plan).length, length);
    assert_eq!(plan, other_plan);
    for _ in 0..4 {
        let bytes = edited(order, &[(random.index(order.len()), random.byte())]);
        assert_eq!(replay(file, &bytes), replay(other, &bytes));
        let bytes = edited(&plan[..length], &[(random.index(length), random.byte() % 4)]);
        assert_eq!(check_plan(file, &bytes), check_plan(other, &bytes));
        let (mut one, mut two) = (pattern(520), pattern(520));
        let answer = plan_to_order(file, &bytes, &mut one);
        assert_eq!(answer, plan_to_order(other, &bytes, &mut two));
        assert_eq!(one, two);
        assert_eq!(answer.number == 0, one != pattern(520));
    }
}

/// One table and one shuffle of it. Returns whether the walk found a failing order.
fn compare(random: &mut Random, table: &TableDescription) -> (u8, bool) {
    let file = table.write();
    let (other, places) = table.write_shuffled(random);
    let (here, there) = (answers(&file), answers(&other));
    let number = here.0.number;
    if number != 0 && number != 11 {
        // A file refusal: the place is where the record went.
        assert_eq!(there.0.number, number);
        assert_eq!(there.0.place, places[here.0.place]);
        return (number, false);
    }
    assert_eq!(here, there);
    let failing = here.1.verdict == Verdict::Fails;
    if failing {
        let order = &here.2[..here.1.length];
        assert_eq!(here.2, filled(520, 512, order));
        compare_bytes(random, &file, &other, order);
    }
    (number, failing)
}

/// Compares many tables. Returns how many were accepted, refused, and found failing.
fn compare_many(seed: u64, sizes: &Sizes, tables: u64) -> [u64; 3] {
    let mut random = Random::new(seed);
    let (mut fine, mut refused, mut failing) = (0, 0, 0);
    for _ in 0..tables {
        let table = random_table(&mut random, sizes);
        let (number, fails) = compare(&mut random, &table);
        fine += u64::from(number == 0);
        refused += u64::from(number != 0);
        failing += u64::from(fails);
    }
    println!("{fine} {refused} {failing}");
    [fine, refused, failing]
}

#[test]
fn shuffled_small_tables() {
    let [fine, refused, failing] = compare_many(30, &Sizes::SMALL, 2_000);
    assert!(fine > 800 && refused > 100 && failing > 200);
}

#[test]
fn shuffled_tables_of_any_size() {
    let [fine, refused, failing] = compare_many(31, &Sizes::ANY, 1_000);
    assert!(fine > 100 && refused > 100 && failing > 100);
}

/// Tables that break one rule each: the refusal follows its record to its new place. Number 6 and
/// number 3 name a lowest record or a holder of an index and are left out.
#[test]
fn shuffled_refusals_follow_their_record() {
    let mut random = Random::new(32);
    let mut seen = [0_u64; 12];
    for _ in 0..4_000 {
        let mut table = random_table(&mut random, &Sizes::ANY);
        let task = random.index(table.tasks.len());
        let position = random.index(table.tasks[task].body.len());
        match random.between(0, 4) {
            0 => table.tasks[task].body[position].operation = 12,
            1 => table.tasks[task].execution = 0,
            2 => table.tasks[task].body.truncate(position),
            3 => table.tasks[task].period = table.tasks[task].period.wrapping_add(9),
            _ => table.ceilings.truncate(1),
        }
        seen[compare(&mut random, &table).0 as usize] += 1;
    }
    println!("{seen:?}");
    assert!([4, 5, 7, 8, 9, 10].iter().all(|number| seen[*number] > 20));
}
