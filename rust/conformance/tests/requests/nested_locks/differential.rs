//! Locks that nest (document 02, E3): the proved entries, called through their C interface, against
//! the interpreter, on tables whose jobs take locks that they hold. The rule before E3, by which an
//! inner Release frees the lock, is tried beside it, so that each test would notice it.

use adqurim::raw::{Verdict, WalkAnswer};
use conformance::cases::accepted;
use conformance::comparison::{
    assert_walk, compare_check_plan, compare_replay, Conversion, TO_ORDER, TO_PLAN,
};
use conformance::entries::pattern;
use conformance::families::Family;
use conformance::lock_use::{lock_use, WAYS};
use conformance::orders::{changed as changed_order, late_order, variants};
use conformance::plans::{changed as changed_plan, drawn_plan, unlocked};
use conformance::proved::expected_walk;
use generator::{random_deep_locks, random_nested_locks, Random};
use interpreter::conversion::order_to_plan;
use interpreter::order::{Ending, State};
use interpreter::walk::{moves, Outcome};
use interpreter::Accepted;
use std::time::Instant;

/// The seeds differ, so that no family repeats the tables of another.
const REPLAYED: [Family; 2] = [
    Family { name: "nested locks", seed: 900, tables: 14_000, make: random_nested_locks },
    Family { name: "deep locks", seed: 901, tables: 300, make: random_deep_locks },
];
const WALKED: [Family; 1] =
    [Family { name: "nested locks", seed: 902, tables: 12_000, make: random_nested_locks }];
const WALKED_IN_PART: [Family; 1] =
    [Family { name: "deep locks", seed: 903, tables: 50, make: random_deep_locks }];
const CHECKED: [Family; 2] = [
    Family { name: "nested locks", seed: 904, tables: 12_000, make: random_nested_locks },
    Family { name: "deep locks", seed: 905, tables: 300, make: random_deep_locks },
];
const CONVERTED_ORDERS: [Family; 2] = [
    Family { name: "nested locks", seed: 906, tables: 6_000, make: random_nested_locks },
    Family { name: "deep locks", seed: 907, tables: 200, make: random_deep_locks },
];
const CONVERTED_PLANS: [Family; 2] = [
    Family { name: "nested locks", seed: 908, tables: 6_000, make: random_nested_locks },
    Family { name: "deep locks", seed: 909, tables: 200, make: random_deep_locks },
];

/// All tables together.
const TABLES: usize = 50_000;

/// How often each number came up; index 0 counts acceptances.
type Counts = [u64; 46];

/// Visits the tables of some families, their records shuffled. All are accepted.
fn visit(families: &[Family], mut visit: impl FnMut(&mut Random, &[u8], &Accepted)) {
    for family in families {
        let (begin, mut random) = (Instant::now(), Random::new(family.seed));
        for _ in 0..family.tables {
            let file = (family.make)(&mut random).write_shuffled(&mut random).0;
            visit(&mut random, &file, &accepted(&file));
        }
        println!("{} {}: {:?}", family.tables, family.name, begin.elapsed());
    }
}

#[test]
fn there_are_enough_tables() {
    let lists: [&[Family]; 5] = [&REPLAYED, &WALKED, &CHECKED, &CONVERTED_ORDERS, &CONVERTED_PLANS];
    assert!(lists.concat().iter().map(|family| family.tables).sum::<usize>() >= TABLES);
}

/// The rule before E3: a lock is held or not, however often it was taken.
fn forget_counts(state: &mut State) {
    for local in state.locals.iter_mut().flatten() {
        local.held = local.held.map(|count| count.min(1));
    }
}

/// A complete order, and one by the rule before E3.
fn complete_order(random: &mut Random, accepted: &Accepted) -> Vec<u8> {
    late_order(random, accepted, |_| {})
}

fn set_rule_order(random: &mut Random, accepted: &Accepted) -> Vec<u8> {
    late_order(random, accepted, forget_counts)
}

/// The plan of the latter. Where an inner Release let a job start, it is wrong by a lock alone.
fn set_rule_plan(random: &mut Random, accepted: &Accepted) -> Vec<u8> {
    let order = set_rule_order(random, accepted);
    let planned = order_to_plan(&unlocked(accepted), &order);
    planned.expect("without ceilings the order is complete").0
}

/// Asserts that each of these numbers came up so often.
fn assert_often(counts: &Counts, least: &[(usize, u64)]) {
    println!("{counts:?}");
    for (number, times) in least {
        assert!(counts[*number] >= *times, "number {number}: {} times", counts[*number]);
    }
}

/// How many jobs used their locks in each of the ways.
#[derive(Default)]
struct Census([u64; WAYS.len()]);

impl Census {
    fn note(&mut self, accepted: &Accepted, order: &[u8]) {
        for job in lock_use(accepted, order) {
            for (count, (_, did_so)) in self.0.iter_mut().zip(WAYS) {
                *count += u64::from(did_so(&job));
            }
        }
    }

    /// Asserts that each way came up so often.
    fn assert_each(&self, least: u64) {
        for (count, (name, _)) in self.0.iter().zip(WAYS) {
            println!("{name}: {count}");
            assert!(*count >= least, "{name}: {count}");
        }
    }
}

/// A complete order, one by the rule before E3, both with a byte changed, and something else that
/// is near to the first.
fn some_orders(random: &mut Random, accepted: &Accepted) -> Vec<Vec<u8>> {
    let tasks = accepted.table.tasks.len();
    let orders = [complete_order(random, accepted), set_rule_order(random, accepted)];
    let mut near = variants(random, &orders[0], accepted);
    let mut made = vec![near.swap_remove(random.index(near.len()))];
    made.extend(orders.each_ref().map(|order| changed_order(random, order, tasks)));
    made.extend(orders);
    made
}

#[test]
fn replays() {
    let (mut counts, mut by_set_rule, mut census) = ([0; 46], [0; 46], Census::default());
    visit(&REPLAYED, |random, file, accepted| {
        for order in some_orders(random, accepted) {
            let number = compare_replay("some orders", file, &order).number;
            counts[number as usize] += 1;
        }
        let order = complete_order(random, accepted);
        assert_eq!(compare_replay("complete", file, &order).number, 0);
        census.note(accepted, &order);
        let order = set_rule_order(random, accepted);
        by_set_rule[compare_replay("set rule", file, &order).number as usize] += 1;
    });
    assert_often(&counts, &[(0, 20_000), (30, 10_000), (31, 2_000), (32, 1_000)]);
    assert_often(&counts, &[(33, 3_000), (34, 3_000)]);
    // What E3 changes of an order: a start that an inner Release allowed is no step.
    assert_often(&by_set_rule, &[(0, 5_000), (30, 2_000)]);
    assert_eq!(by_set_rule[0] + by_set_rule[30], by_set_rule.iter().sum());
    census.assert_each(400);
}

/// The sizes of order buffers that have room, the first two with bytes beyond it, and one that has
/// none.
const SIZES: [usize; 3] = [600, 513, 512];
const TOO_SHORT: usize = 511;

/// More moves than a table of nested locks has. A tree of deep locks has more.
const LARGE: u64 = 20_000;

/// What the walks came to, and what the rule before E3 would have had.
#[derive(Debug, Default)]
struct Walks {
    holds: u64,
    fails: u64,
    undecided: u64,
    without_room: u64,
    /// Tables that hold and would have failed, and tables that fail with another order.
    would_fail: u64,
    other_order: u64,
    other_ending: u64,
    /// Tables that hold both ways, with fewer orders now.
    fewer_moves: u64,
}

impl Walks {
    /// Asserts that both walks give one answer and leave one buffer, and counts it.
    fn compare(&mut self, file: &[u8], allowance: u64, size: usize) -> (WalkAnswer, Vec<u8>) {
        let mut left = pattern(size);
        let answer = expected_walk(file, allowance, &mut left);
        assert_walk("nested locks", file, allowance, &answer, &left);
        match (answer.number, answer.verdict) {
            (20, _) => self.without_room += 1,
            (21, _) => self.undecided += 1,
            (_, Verdict::Holds) => self.holds += 1,
            (_, Verdict::Fails) => self.fails += 1,
            other => panic!("{other:?} is no answer of a walk of an accepted table"),
        }
        left.truncate(answer.length as usize);
        (answer, left)
    }

    /// Counts how a decided walk differs from that by the rule before E3.
    fn note_set_rule(&mut self, answer: &WalkAnswer, order: &[u8], accepted: &Accepted) {
        match set_rule_walk(accepted) {
            Outcome::Fails { order: other, ending, .. } if answer.verdict == Verdict::Fails => {
                self.other_order += u64::from(other != order);
                let end_store = ending.store.map(u64::from);
                self.other_ending += u64::from(end_store != answer.end_store);
            }
            Outcome::Fails { .. } => self.would_fail += 1,
            Outcome::Holds { count } => {
                // A count keeps back all that a flag did.
                assert_eq!(answer.verdict, Verdict::Holds);
                self.fewer_moves += u64::from(answer.count < count);
            }
            Outcome::Undecided => unreachable!("it has no allowance"),
        }
    }
}

/// The walk of a table by the rule before E3.
fn set_rule_walk(accepted: &Accepted) -> Outcome {
    let (mut count, mut order) = (0, Vec::new());
    match set_rule_visit(accepted, &State::first(accepted), &mut count, &mut order) {
        Some(ending) => Outcome::Fails { count, order, ending },
        None => Outcome::Holds { count },
    }
}

/// The tree from a state on: the ending of the first order that fails, whose bytes are left.
fn set_rule_visit(
    accepted: &Accepted,
    state: &State,
    count: &mut u64,
    order: &mut Vec<u8>,
) -> Option<Ending> {
    if state.all_ended() {
        return Some(state.ending()).filter(|ending| ending.failed_jobs != 0);
    }
    for byte in moves(accepted, state) {
        let mut next = state.clone();
        next.step(accepted, byte).expect("a listed move is an allowed step");
        forget_counts(&mut next);
        *count += 1;
        order.push(byte);
        let failing = set_rule_visit(accepted, &next, count, order);
        if failing.is_some() {
            return failing;
        }
        order.pop();
    }
    None
}

#[test]
fn walks() {
    let mut walks = Walks::default();
    visit(&WALKED, |random, file, accepted| {
        let (answer, order) = walks.compare(file, LARGE, SIZES[random.index(SIZES.len())]);
        assert_eq!(answer.number, 0);
        walks.note_set_rule(&answer, &order, accepted);
        if random.chance(1, 4) {
            assert_eq!(walks.compare(file, answer.count, SIZES[0]), (answer, order));
            assert_eq!(walks.compare(file, answer.count - 1, SIZES[0]).0.number, 21);
            assert_eq!(walks.compare(file, LARGE, TOO_SHORT).0.number, 20);
        }
    });
    visit(&WALKED_IN_PART, |_, file, _| drop(walks.compare(file, LARGE, SIZES[0])));
    println!("{walks:?}");
    assert!(walks.holds >= 8_000 && walks.fails >= 3_000, "{walks:?}");
    assert!(walks.undecided >= 2_000 && walks.without_room >= 2_000, "{walks:?}");
    assert!(walks.would_fail >= 1_000 && walks.fewer_moves >= 3_000, "{walks:?}");
    assert!(walks.other_order >= 80 && walks.other_ending >= 25, "{walks:?}");
}

/// A legal plan, one by the rule before E3 and one with rounds drawn at random; the first with a
/// round or a value changed, the second with any byte changed.
fn some_plans(random: &mut Random, accepted: &Accepted) -> Vec<Vec<u8>> {
    let planned = order_to_plan(accepted, &complete_order(random, accepted));
    let legal = planned.expect("the order is complete").0;
    let by_set_rule = set_rule_plan(random, accepted);
    let steps = 1 + 8 * accepted.jobs.len()..legal.len();
    vec![
        changed_plan(random, &legal, steps),
        changed_plan(random, &by_set_rule, 0..by_set_rule.len()),
        drawn_plan(random, accepted),
        legal,
        by_set_rule,
    ]
}

#[test]
fn plan_checks() {
    let (mut counts, mut by_set_rule) = ([0; 46], [0; 46]);
    visit(&CHECKED, |random, file, accepted| {
        for plan in some_plans(random, accepted) {
            let number = compare_check_plan("some plans", file, &plan).number;
            counts[number as usize] += 1;
        }
        let plan = set_rule_plan(random, accepted);
        by_set_rule[compare_check_plan("set rule", file, &plan).number as usize] += 1;
    });
    assert_often(&counts, &[(0, 20_000), (43, 5_000), (44, 4_000)]);
    assert_often(&counts, &[(40, 300), (41, 5_000), (42, 5_000), (45, 2_000)]);
    // What E3 changes of a plan: the lock clause fails where an inner Release let a job start.
    assert_often(&by_set_rule, &[(0, 5_000), (44, 1_500)]);
    assert_eq!(by_set_rule[0] + by_set_rule[44], by_set_rule.iter().sum());
}

/// Compares a conversion of what is made for each table, with bytes beyond the buffer's room.
fn convert(
    conversion: &Conversion,
    families: &[Family],
    make: fn(&mut Random, &Accepted) -> Vec<Vec<u8>>,
) -> Counts {
    let mut counts = [0; 46];
    visit(families, |random, file, accepted| {
        for bytes in make(random, accepted) {
            let size = conversion.room + random.index(40);
            counts[conversion.compare(file, &bytes, size).number as usize] += 1;
        }
    });
    counts
}

#[test]
fn orders_become_plans() {
    let counts = convert(&TO_PLAN, &CONVERTED_ORDERS, some_orders);
    assert_often(&counts, &[(0, 10_000), (30, 5_000), (31, 1_000), (32, 500)]);
    assert_often(&counts, &[(33, 1_000), (34, 1_000)]);
}

#[test]
fn plans_become_orders() {
    let counts = convert(&TO_ORDER, &CONVERTED_PLANS, some_plans);
    assert_often(&counts, &[(0, 10_000), (43, 2_000), (44, 2_000)]);
    assert_often(&counts, &[(40, 100), (41, 2_000), (42, 2_000), (45, 1_000)]);
}
