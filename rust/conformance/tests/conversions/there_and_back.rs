//! Demand 3 through the C interface: what the conversions turn round comes back byte for byte with
//! the same ending, and all orders and all plans of many small tables end alike.

use adqurim::raw::{check_plan, order_to_plan, plan_to_order, replay, RunAnswer};
use adqurim::{ORDER_ROOM, PLAN_ROOM};
use conformance::entries::{filled, pattern};
use conformance::families::*;
use conformance::listing::{each_plan, orders};
use conformance::orders::random_order;
use conformance::plans::{drawn_plan, random_plan};
use generator::{
    random_lifted_picks, random_long_hold, random_nest, random_nested_locks, random_race, Random,
    TableDescription,
};
use interpreter::timing::{accept, Accepted};
use std::collections::{BTreeMap, BTreeSet};

/// Bytes lent beyond the room.
const BEYOND: usize = 9;

/// How many orders and how many plans go there and back at least.
const MANY: u64 = 50_000;

/// Converts with a buffer that has bytes beyond the room. Returns the answer and what was written;
/// the rest of the room is zero.
fn convert(
    conversion: fn(&[u8], &[u8], &mut [u8]) -> RunAnswer,
    room: usize,
    file: &[u8],
    bytes: &[u8],
) -> (RunAnswer, Vec<u8>) {
    let mut buffer = pattern(room + BEYOND);
    let answer = conversion(file, bytes, &mut buffer);
    assert_eq!(answer.number, 0, "{file:02x?} {bytes:?}");
    let written = buffer[..answer.length as usize].to_vec();
    assert!(buffer == filled(room + BEYOND, room, &written), "{file:02x?} {bytes:?}");
    (answer, written)
}

/// A complete order's plan, which is legal, ends as the order does, and becomes the order again.
pub(crate) fn order_there_and_back(file: &[u8], order: &[u8]) -> (RunAnswer, Vec<u8>) {
    let run = replay(file, order);
    let (there, plan) = convert(order_to_plan, PLAN_ROOM, file, order);
    assert_eq!(there, RunAnswer { length: plan.len() as u64, ..run });
    assert_eq!(check_plan(file, &plan), run, "{file:02x?} {order:?}");
    let (back, returned) = convert(plan_to_order, ORDER_ROOM, file, &plan);
    assert_eq!(back, RunAnswer { length: order.len() as u64, ..run });
    assert_eq!(returned, order, "{file:02x?}");
    (run, plan)
}

/// A legal plan's order, which is complete, ends as the plan does, and becomes the plan again.
pub(crate) fn plan_there_and_back(file: &[u8], plan: &[u8]) -> (RunAnswer, Vec<u8>) {
    let run = check_plan(file, plan);
    let (there, order) = convert(plan_to_order, ORDER_ROOM, file, plan);
    assert_eq!(there, RunAnswer { length: order.len() as u64, ..run });
    assert_eq!(replay(file, &order), run, "{file:02x?} {plan:?}");
    let (back, returned) = convert(order_to_plan, PLAN_ROOM, file, &order);
    assert_eq!(back, RunAnswer { length: plan.len() as u64, ..run });
    assert_eq!(returned, plan, "{file:02x?}");
    (run, order)
}

type Make = fn(&mut Random) -> TableDescription;

/// Families of tables with few steps, and with many, which come less often as they take longer.
const FEW_STEPS: [Make; 7] =
    [small, long, random_race, random_nest, nest_of_four, random_nested_locks, random_long_hold];
const MANY_STEPS: [Make; 3] = [any, crowded, largest_with_assertions];

/// Visits accepted tables of the families in turn until the visits have counted enough.
fn visit_families(
    seed: u64,
    enough: u64,
    mut visit: impl FnMut(&mut Random, &[u8], &Accepted) -> u64,
) {
    let mut random = Random::new(seed);
    let (mut counted, mut round) = (0, 0);
    while counted < enough {
        let make = match round % 8 {
            0 => MANY_STEPS[round / 8 % MANY_STEPS.len()],
            _ => FEW_STEPS[round % FEW_STEPS.len()],
        };
        let file = make(&mut random).write_shuffled(&mut random).0;
        if let Ok(accepted) = accept(&file) {
            counted += visit(&mut random, &file, &accepted);
        }
        round += 1;
    }
}

/// What went there and back.
#[derive(Debug, Default)]
struct Totals {
    there_and_back: u64,
    failing: u64,
    longest: usize,
}

impl Totals {
    fn note(&mut self, run: &RunAnswer, bytes: &[u8]) {
        self.there_and_back += 1;
        self.failing += u64::from(run.failed_jobs.contains(&1));
        self.longest = self.longest.max(bytes.len());
    }
}

#[test]
fn many_orders() {
    let mut totals = Totals::default();
    visit_families(640, MANY, |random, file, accepted| {
        for _ in 0..4 {
            let order = random_order(random, accepted);
            totals.note(&order_there_and_back(file, &order).0, &order);
        }
        4
    });
    println!("{totals:?}");
    assert!(totals.there_and_back >= MANY && totals.failing >= 5_000);
    assert_eq!(totals.longest, ORDER_ROOM);
}

/// Plans of orders, and drawn plans that are legal.
#[test]
fn many_plans() {
    let (mut totals, mut drawn) = (Totals::default(), 0);
    visit_families(641, MANY, |random, file, accepted| {
        let mut plans = vec![random_plan(random, accepted), random_plan(random, accepted)];
        let few = if accepted.jobs.len() < 6 { 8 } else { 0 };
        let more = (0..few).map(|_| drawn_plan(random, accepted));
        plans.extend(more.filter(|plan| check_plan(file, plan).number == 0));
        drawn += plans.len() - 2;
        for plan in &plans {
            totals.note(&plan_there_and_back(file, plan).0, plan);
        }
        plans.len() as u64
    });
    println!("{totals:?} {drawn} drawn");
    assert!(totals.there_and_back >= MANY && totals.failing >= 5_000 && drawn >= 10_000);
    assert_eq!(totals.longest, PLAN_ROOM);
}

/// How many tables of each of the five families are listed whole: over 2,500 in all. And how many
/// with Picks above zero.
const TABLES: u64 = 550;
const LIFTED: u64 = 80;

/// The most orders and the most round assignments of such a table.
const MOST_ORDERS: usize = 1_000;
const MOST_PLANS: usize = 3_000;

/// What the tables listed whole had, so that the test cannot be empty.
#[derive(Debug, Default)]
struct Listed {
    tables: u64,
    orders: u64,
    refused_43: u64,
    refused_44: u64,
    several_endings: u64,
    most_orders: usize,
}

/// The legal plans among all assignments, by the proved check; none if there are too many.
fn legal_plans(file: &[u8], table: &Accepted, listed: &mut Listed) -> Option<BTreeSet<Vec<u8>>> {
    let mut legal = BTreeSet::new();
    let all = each_plan(table, MOST_PLANS, |plan| match check_plan(file, &plan).number {
        0 => drop(legal.insert(plan)),
        43 => listed.refused_43 += 1,
        44 => listed.refused_44 += 1,
        number => panic!("a plan with right guesses is refused by {number}: {file:02x?} {plan:?}"),
    });
    all.then_some(legal)
}

/// Every order of a table becomes a plan of it and every plan an order, one to one, and the endings
/// of all orders are those of all plans.
fn list_table(file: &[u8], table: &Accepted, listed: &mut Listed) {
    let Some(orders) = orders(table, MOST_ORDERS) else { return };
    let Some(plans) = legal_plans(file, table, listed) else { return };
    let ending = |run: RunAnswer| (run.end_store, run.failed_jobs);
    let mut endings = [BTreeSet::new(), BTreeSet::new()];
    let mut plan_of = BTreeMap::new();
    for order in orders.complete.keys() {
        let (run, plan) = order_there_and_back(file, order);
        endings[0].insert(ending(run));
        plan_of.insert(plan, order);
    }
    for plan in &plans {
        let (run, order) = plan_there_and_back(file, plan);
        endings[1].insert(ending(run));
        assert_eq!(plan_of.remove(plan), Some(&order), "{file:02x?}");
    }
    assert!(plan_of.is_empty(), "an order's plan is not legal: {file:02x?} {plan_of:?}");
    assert_eq!(endings[0], endings[1], "{file:02x?}");
    listed.tables += 1;
    listed.orders += orders.complete.len() as u64;
    listed.several_endings += u64::from(endings[0].len() > 1);
    listed.most_orders = listed.most_orders.max(orders.complete.len());
}

/// Lists tables of a family whole until there are enough.
fn list_tables(seed: u64, make: Make, enough: u64) -> Listed {
    let mut random = Random::new(seed);
    let mut listed = Listed::default();
    while listed.tables < enough {
        let file = make(&mut random).write_shuffled(&mut random).0;
        if let Ok(table) = accept(&file) {
            list_table(&file, &table, &mut listed);
        }
    }
    println!("{listed:?}");
    listed
}

/// Lists families by their seeds. Of each, at least so many tables have orders that end apart.
fn list_families(families: &[(u64, Make, u64)]) {
    for (seed, make, endings) in families {
        let listed = list_tables(*seed, *make, TABLES);
        assert!(listed.orders >= 2_000 && listed.most_orders >= 40, "{listed:?}");
        assert!(listed.refused_43 >= 10_000 && listed.refused_44 >= 100, "{listed:?}");
        assert!(listed.several_endings >= *endings, "{listed:?}");
    }
}

#[test]
fn all_orders_and_plans_of_small_tables_and_races() {
    list_families(&[(642, small, 40), (643, random_race, 100)]);
}

#[test]
fn all_orders_and_plans_of_long_bodies_and_nests() {
    list_families(&[(644, long, 100), (645, random_nest, 80)]);
}

#[test]
fn all_orders_and_plans_of_nested_locks() {
    list_families(&[(646, random_nested_locks, 100)]);
}

/// Document 02, E7: demand 3 stands over the values that Picks offer now.
#[test]
fn all_orders_and_plans_of_lifted_picks() {
    let listed = list_tables(647, random_lifted_picks, LIFTED);
    assert!(listed.orders >= 1_000 && listed.most_orders >= 40, "{listed:?}");
    assert!(listed.refused_43 >= 5_000 && listed.refused_44 >= 100, "{listed:?}");
    assert!(listed.several_endings >= 40, "{listed:?}");
}
