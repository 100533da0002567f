//! The walk against the full listing of complete orders.

use conformance::cases::accepted;
use conformance::entries::{filled, pattern};
use conformance::listing::{orders, Orders};
use generator::{random_race, random_table, Random, Sizes, TableDescription};
use interpreter::*;

/// The walk's answer and order as the listing gives them: the first failing order in ascending
/// byte order, and the distinct beginnings of all orders up to there, each a move.
fn by_listing(listed: &Orders) -> (WalkAnswer, Vec<u8>) {
    let mut count = 0;
    let mut last: &[u8] = &[];
    for (order, ending) in &listed.complete {
        let shared = last.iter().zip(order).take_while(|(a, b)| a == b).count();
        count += (order.len() - shared) as u64;
        last = order;
        if ending.failed_jobs != 0 {
            let answer = WalkAnswer {
                verdict: Verdict::Fails,
                count,
                length: order.len(),
                end_store: ending.store,
                failed_jobs: ending.failed_jobs,
                ..WalkAnswer::default()
            };
            return (answer, order.clone());
        }
    }
    assert_eq!(count, listed.moves);
    (WalkAnswer { verdict: Verdict::Holds, count, ..WalkAnswer::default() }, Vec::new())
}

/// The walk at allowances around its count.
fn check_walk(file: &[u8], listed: &Orders) -> WalkAnswer {
    let (expected, order) = by_listing(listed);
    let count = expected.count;
    let undecided = WalkAnswer { number: 21, ..WalkAnswer::default() };
    for allowance in [0, count.saturating_sub(1), count, count + 1, 1_000_000, u64::MAX] {
        let mut buffer = pattern(600);
        let answer = walk(file, allowance, &mut buffer);
        if allowance < count {
            assert_eq!(answer, undecided);
            assert_eq!(buffer, filled(600, 512, &[]));
        } else {
            assert_eq!(answer, expected);
            assert_eq!(buffer, filled(600, 512, &order));
        }
    }
    expected
}

/// What the walks of some tables came to.
#[derive(Debug, Default)]
struct Totals {
    tables: u64,
    holds: u64,
    fails: u64,
    /// Walks that pass complete orders before the failing one.
    fails_later: u64,
}

/// Walks random tables until `tables` of them had at most `most` orders.
fn check_tables(
    (tables, most): (u64, usize),
    mut table: impl FnMut() -> TableDescription,
) -> Totals {
    let mut totals = Totals::default();
    while totals.tables < tables {
        let file = table().write();
        if read(&file).number != 0 {
            continue;
        }
        let Some(listed) = orders(&accepted(&file), most) else { continue };
        let answer = check_walk(&file, &listed);
        totals.tables += 1;
        totals.holds += u64::from(answer.verdict == Verdict::Holds);
        totals.fails += u64::from(answer.verdict == Verdict::Fails);
        totals.fails_later += u64::from(answer.length > 0 && answer.count > answer.length as u64);
    }
    println!("{totals:?}");
    totals
}

#[test]
fn walks_of_small_tables() {
    let mut random = Random::new(20);
    let totals = check_tables((1_500, 2_000), || random_table(&mut random, &Sizes::SMALL));
    assert!(totals.holds >= 700 && totals.fails >= 300);
}

#[test]
fn walks_of_longer_bodies() {
    let mut random = Random::new(21);
    let totals = check_tables((1_000, 1_000), || random_table(&mut random, &Sizes::LONG));
    assert!(totals.holds >= 300 && totals.fails >= 300);
}

#[test]
fn walks_that_fail_late() {
    let mut random = Random::new(23);
    let totals = check_tables((800, 2_000), || random_race(&mut random));
    assert!(totals.holds >= 200 && totals.fails_later >= 100);
}

#[test]
fn walks_of_tables_of_any_size() {
    let mut random = Random::new(22);
    let sizes = Sizes { most_pick: 3, ..Sizes::ANY };
    let totals = check_tables((60, 100), || random_table(&mut random, &sizes));
    assert!(totals.holds >= 10 && totals.fails >= 10);
}
