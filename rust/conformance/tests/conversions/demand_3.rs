//! Demand 3 by brute force: every complete order and every legal plan of many small tables.

use conformance::cases::accepted;
use conformance::entries::{filled, pattern};
use conformance::listing::{orders, plans, Orders, Plans};
use generator::{
    random_long_hold, random_nest, random_nested_locks, random_race, random_table, Random, Sizes,
    TableDescription,
};
use interpreter::order::Ending;
use interpreter::timing::Accepted;
use interpreter::{check_plan, order_to_plan, plan_to_order, read, replay};
use interpreter::{conversion, order, plan};
use interpreter::{ConversionAnswer, RunAnswer};

/// What the tables tried had, so that the test cannot be empty.
#[derive(Debug, Default)]
struct Totals {
    tables: u64,
    may_preempt: u64,
    preempting: u64,
    preempting_two: u64,
    under_lock: u64,
    held_back: u64,
    picking: u64,
    skipping: u64,
    failing: u64,
    both_verdicts: u64,
    refused_44: u64,
    orders: u64,
    most_orders: u64,
}

impl Totals {
    /// Adds one table's listing.
    fn note(&mut self, accepted: &Accepted, listed: &Orders, planned: &Plans) {
        let pairs =
            || accepted.job_numbers().flat_map(|x| accepted.job_numbers().map(move |y| (x, y)));
        let failing = listed.complete.values().filter(|ending| ending.failed_jobs != 0).count();
        let count = listed.complete.len();
        self.tables += 1;
        self.may_preempt += u64::from(pairs().any(|(x, y)| accepted.may_preempt(y, x)));
        self.preempting += u64::from(listed.preemptions > 0);
        self.preempting_two += u64::from(listed.preemptions_of_two > 0);
        self.under_lock += u64::from(listed.preemptions_under_lock > 0);
        self.held_back += u64::from(listed.held_back > 0);
        self.picking += u64::from(listed.picked > 0);
        self.skipping += u64::from(listed.skipped > 0);
        self.failing += u64::from(failing > 0);
        self.both_verdicts += u64::from(failing > 0 && failing < count);
        self.refused_44 += u64::from(planned.refused_44 > 0);
        self.orders += count as u64;
        self.most_orders = self.most_orders.max(count as u64);
    }
}

/// Each order becomes a legal plan with the same ending and comes back byte for byte.
fn check_orders(accepted: &Accepted, listed: &Orders, planned: &Plans) {
    for (bytes, ending) in &listed.complete {
        assert_eq!(order::replay(accepted, bytes), Ok(*ending));
        let (plan, after) = conversion::order_to_plan(accepted, bytes).expect("a complete order");
        assert_eq!(after, *ending);
        assert_eq!(plan::check(accepted, &plan).map(|(_, ending)| ending), Ok(*ending));
        assert_eq!(planned.legal.get(&plan), Some(ending));
        assert_eq!(conversion::plan_to_order(accepted, &plan), Ok((bytes.clone(), *ending)));
    }
}

/// Each plan becomes a complete order with the same ending and comes back byte for byte.
fn check_plans(accepted: &Accepted, listed: &Orders, planned: &Plans) {
    for (bytes, ending) in &planned.legal {
        let (order, after) = conversion::plan_to_order(accepted, bytes).expect("a legal plan");
        assert_eq!(after, *ending);
        assert_eq!(order::replay(accepted, &order), Ok(*ending));
        assert_eq!(listed.complete.get(&order), Some(ending));
        assert_eq!(conversion::order_to_plan(accepted, &order), Ok((bytes.clone(), *ending)));
    }
}

/// The same for one order through the entries, with lent buffers.
fn check_entries(file: &[u8], order: &[u8], ending: &Ending) {
    let Ending { store: end_store, failed_jobs } = *ending;
    let run = RunAnswer { number: 0, place: 0, end_store, failed_jobs };
    assert_eq!(replay(file, order), run);
    let (mut plan, mut back) = (pattern(1290), pattern(520));
    let there = order_to_plan(file, order, &mut plan);
    let length = there.length;
    assert_eq!(there, ConversionAnswer { number: 0, place: 0, length, end_store, failed_jobs });
    assert_eq!(plan, filled(1290, 1281, &plan[..length]));
    assert_eq!(check_plan(file, &plan[..length]), run);
    let returned = plan_to_order(file, &plan[..length], &mut back);
    assert_eq!(returned, ConversionAnswer { length: order.len(), ..there });
    assert_eq!(back, filled(520, 512, order));
}

/// One table, if it is accepted and small enough.
fn try_table(file: &[u8], totals: &mut Totals) {
    if read(file).number != 0 {
        return;
    }
    let table = accepted(file);
    let Some(listed) = orders(&table, 2_000) else { return };
    let Some(planned) = plans(&table, 40_000) else { return };
    totals.note(&table, &listed, &planned);
    assert_eq!(listed.dead_ends, 0);
    assert_eq!(listed.complete.len(), planned.legal.len());
    check_orders(&table, &listed, &planned);
    check_plans(&table, &listed, &planned);
    let (order, ending) = listed.complete.last_key_value().expect("each table has an order");
    check_entries(file, order, ending);
}

/// Tries random tables until `tables` of them were small enough.
fn try_tables(tables: u64, mut table: impl FnMut() -> TableDescription) -> Totals {
    let mut totals = Totals::default();
    while totals.tables < tables {
        try_table(&table().write(), &mut totals);
    }
    println!("{totals:?}");
    totals
}

#[test]
fn every_order_and_every_plan_of_small_tables() {
    let mut random = Random::new(3);
    let totals = try_tables(1_000, || random_table(&mut random, &Sizes::SMALL));
    assert!(totals.may_preempt >= 400, "{totals:?}");
    assert!(totals.preempting >= 350, "{totals:?}");
    assert!(totals.under_lock >= 30, "{totals:?}");
    assert!(totals.held_back >= 60, "{totals:?}");
    assert!(totals.refused_44 >= 60, "{totals:?}");
    assert!(totals.picking >= 150, "{totals:?}");
    assert!(totals.skipping >= 50, "{totals:?}");
    assert!(totals.failing >= 180, "{totals:?}");
    assert!(totals.both_verdicts >= 10, "{totals:?}");
    assert!(totals.most_orders >= 100, "{totals:?}");
}

#[test]
fn every_order_and_every_plan_of_longer_bodies() {
    let mut random = Random::new(4);
    let totals = try_tables(600, || random_table(&mut random, &Sizes::LONG));
    assert!(totals.may_preempt >= 200, "{totals:?}");
    assert!(totals.preempting >= 200, "{totals:?}");
    assert!(totals.under_lock >= 25, "{totals:?}");
    assert!(totals.held_back >= 45, "{totals:?}");
    assert!(totals.refused_44 >= 45, "{totals:?}");
    assert!(totals.picking >= 150, "{totals:?}");
    assert!(totals.skipping >= 80, "{totals:?}");
    assert!(totals.failing >= 200, "{totals:?}");
    assert!(totals.both_verdicts >= 25, "{totals:?}");
    assert!(totals.most_orders >= 80, "{totals:?}");
}

#[test]
fn every_order_and_every_plan_of_races() {
    let mut random = Random::new(5);
    let totals = try_tables(400, || random_race(&mut random));
    assert!(totals.preempting >= 150, "{totals:?}");
    assert!(totals.under_lock >= 15, "{totals:?}");
    assert!(totals.held_back >= 25, "{totals:?}");
    assert!(totals.both_verdicts >= 80, "{totals:?}");
}

#[test]
fn every_order_and_every_plan_of_jobs_two_deep() {
    let mut random = Random::new(6);
    let totals = try_tables(400, || random_nest(&mut random));
    assert!(totals.preempting_two >= 250, "{totals:?}");
    assert!(totals.under_lock >= 60, "{totals:?}");
    assert!(totals.held_back >= 60, "{totals:?}");
    assert!(totals.refused_44 >= 60, "{totals:?}");
    assert!(totals.both_verdicts >= 10, "{totals:?}");
}

/// Document 02, E3: "demand 3 stands over" the lock counts.
#[test]
fn every_order_and_every_plan_of_nested_locks() {
    let mut random = Random::new(7);
    let totals = try_tables(400, || random_nested_locks(&mut random));
    assert!(totals.preempting >= 250, "{totals:?}");
    assert!(totals.under_lock >= 30, "{totals:?}");
    assert!(totals.held_back >= 300, "{totals:?}");
    assert!(totals.refused_44 >= 300, "{totals:?}");
    assert!(totals.both_verdicts >= 100, "{totals:?}");
}

/// Document 02, E4: a wait decides which job may preempt which.
#[test]
fn every_order_and_every_plan_of_long_holds() {
    let mut random = Random::new(8);
    let totals = try_tables(300, || random_long_hold(&mut random));
    assert!(totals.preempting >= 100, "{totals:?}");
    assert!(totals.both_verdicts >= 30, "{totals:?}");
}
