//! Tables with holding times (document 02, E4): the proved walk, replay, plan check, conversions
//! and sheet, called through their C interface, against the interpreter, on tables in which it
//! depends on a wait which job may preempt which. The same table without holding times is tried
//! beside it.

use super::reads::{IN_MEMORY, LISTED, WRITTEN};
use adqurim::raw::{Verdict, WalkAnswer};
use adqurim::SHEET_ROOM;
use conformance::cases::accepted;
use conformance::comparison::{
    assert_walk, compare_check_plan, compare_replay, Conversion, TO_ORDER, TO_PLAN,
};
use conformance::entries::pattern;
use conformance::families::Family;
use conformance::orders::{changed as changed_order, late_order, random_order, variants};
use conformance::plans::{changed as changed_plan, drawn_plan};
use conformance::proved::expected_walk;
use conformance::waits::{loosened, without_holding};
use generator::{random_holding, random_long_hold, Random};
use interpreter::conversion::order_to_plan;
use interpreter::timing::accept;
use interpreter::Accepted;
use std::time::Instant;

/// The seeds differ, so that no family repeats the tables of another. Only tables that are accepted
/// count.
const WALKED: [Family; 2] = [
    Family { name: "long holds", seed: 970, tables: 20_000, make: random_long_hold },
    Family { name: "holding times", seed: 971, tables: 1_000, make: random_holding },
];
const REPLAYED: [Family; 2] = [
    Family { name: "long holds", seed: 972, tables: 15_000, make: random_long_hold },
    Family { name: "holding times", seed: 973, tables: 2_000, make: random_holding },
];
const CHECKED: [Family; 2] = [
    Family { name: "long holds", seed: 974, tables: 15_000, make: random_long_hold },
    Family { name: "holding times", seed: 975, tables: 1_000, make: random_holding },
];
const CONVERTED: [Family; 2] = [
    Family { name: "long holds", seed: 976, tables: 10_000, make: random_long_hold },
    Family { name: "holding times", seed: 977, tables: 1_000, make: random_holding },
];
const PRINTED: [Family; 1] =
    [Family { name: "long holds", seed: 978, tables: 4_000, make: random_long_hold }];

/// All tables together, those that the reader alone reads not counted.
const TABLES: usize = 150_000;

/// How often each number came up; index 0 counts acceptances.
type Counts = [u64; 46];

/// An accepted table with its holding times, and the same without them, which is accepted too.
struct Pair {
    file: Vec<u8>,
    accepted: Accepted,
    file_before: Vec<u8>,
    accepted_before: Accepted,
}

/// Visits the accepted tables of some families, their records shuffled.
fn visit(families: &[Family], mut visit: impl FnMut(&mut Random, &Pair)) {
    for family in families {
        let (begin, mut random) = (Instant::now(), Random::new(family.seed));
        let mut count = 0;
        for _ in 0..family.tables {
            let table = (family.make)(&mut random);
            let file = table.write_shuffled(&mut random).0;
            let Ok(now) = accept(&file) else { continue };
            let file_before = without_holding(&table).write_shuffled(&mut random).0;
            let accepted_before = accepted(&file_before);
            visit(&mut random, &Pair { file, accepted: now, file_before, accepted_before });
            count += 1;
        }
        println!("{count} of {} {}: {:?}", family.tables, family.name, begin.elapsed());
    }
}

#[test]
fn there_are_enough_tables() {
    let runs: [&[Family]; 6] = [&WALKED, &REPLAYED, &CHECKED, &CONVERTED, &CONVERTED, &PRINTED];
    let others: [&[Family]; 3] = [&LISTED, &IN_MEMORY, &WRITTEN];
    let families = [runs.concat(), others.concat()].concat();
    assert!(families.iter().map(|family| family.tables).sum::<usize>() >= TABLES);
}

/// Asserts that each of these numbers came up so often.
fn assert_often(counts: &Counts, least: &[(usize, u64)]) {
    println!("{counts:?}");
    for (number, times) in least {
        assert!(counts[*number] >= *times, "number {number}: {} times", counts[*number]);
    }
}

/// More moves than a long hold has. Other trees may have more.
const LARGE: u64 = 5_000;

/// What the walks came to, and what they would have without holding times.
#[derive(Debug, Default)]
struct Walks {
    holds: u64,
    fails: u64,
    undecided: u64,
    /// Decided tables with a pair of jobs that only now may preempt.
    loosened: u64,
    /// Those that fail and would have held; that hold both ways, with more moves now; that fail
    /// both ways, with another order now.
    fails_now: u64,
    more_moves: u64,
    other_order: u64,
    /// Decided tables without such a pair, whose walks are the same.
    same: u64,
}

/// The interpreter's walk, which the proved one has to give too, and the failing order.
fn walked(file: &[u8], size: usize) -> (WalkAnswer, Vec<u8>) {
    let mut left = pattern(size);
    let answer = expected_walk(file, LARGE, &mut left);
    assert_walk("holding times", file, LARGE, &answer, &left);
    left.truncate(answer.length as usize);
    (answer, left)
}

impl Walks {
    fn compare(&mut self, random: &mut Random, pair: &Pair) {
        let (answer, order) = walked(&pair.file, 512 + random.index(30));
        match answer.verdict {
            Verdict::None => self.undecided += 1,
            Verdict::Holds => self.holds += 1,
            Verdict::Fails => self.fails += 1,
        }
        let (before, order_before) = walked(&pair.file_before, 512);
        if [answer.number, before.number] != [0, 0] {
            return;
        }
        if loosened(&pair.accepted_before, &pair.accepted) == 0 {
            self.same += 1;
            assert_eq!((answer, order), (before, order_before));
            return;
        }
        self.loosened += 1;
        match (before.verdict, answer.verdict) {
            (Verdict::Holds, Verdict::Fails) => self.fails_now += 1,
            (Verdict::Holds, _) => self.more_moves += u64::from(answer.count > before.count),
            // What was an order is one still, so a table that failed fails.
            (_, verdict) => {
                assert_eq!(verdict, Verdict::Fails);
                self.other_order += u64::from(order != order_before);
            }
        }
    }
}

#[test]
fn walks() {
    let mut walks = Walks::default();
    visit(&WALKED, |random, pair| walks.compare(random, pair));
    println!("{walks:?}");
    assert!(walks.holds >= 5_000 && walks.fails >= 3_000, "{walks:?}");
    assert!(walks.loosened >= 5_000 && walks.same >= 5_000, "{walks:?}");
    assert!(walks.fails_now >= 1_500 && walks.more_moves >= 1_000, "{walks:?}");
    assert!(walks.other_order >= 1 && walks.undecided >= 20, "{walks:?}");
}

/// Complete orders, the second with late starts, and two that are near to them.
fn some_orders(random: &mut Random, accepted: &Accepted) -> Vec<Vec<u8>> {
    let orders = [random_order(random, accepted), late_order(random, accepted, |_| {})];
    let mut near = variants(random, &orders[0], accepted);
    let mut made = vec![near.swap_remove(random.index(near.len()))];
    if !orders[1].is_empty() {
        made.push(changed_order(random, &orders[1], accepted.table.tasks.len()));
    }
    made.extend(orders);
    made
}

#[test]
fn replays() {
    let (mut counts, mut before, mut now) = ([0; 46], [0; 46], [0; 46]);
    visit(&REPLAYED, |random, pair| {
        for order in some_orders(random, &pair.accepted) {
            let number = compare_replay("some orders", &pair.file, &order).number;
            counts[number as usize] += 1;
        }
        // An order of the table without holding times, and one that may need a wait.
        let order = random_order(random, &pair.accepted_before);
        now[compare_replay("was an order", &pair.file, &order).number as usize] += 1;
        let order = late_order(random, &pair.accepted, |_| {});
        before[compare_replay("is an order", &pair.file_before, &order).number as usize] += 1;
    });
    assert_often(
        &counts,
        &[(0, 15_000), (30, 3_000), (31, 1_000), (32, 500), (33, 500), (34, 500)],
    );
    // What was an order is one still; what is one needed a wait often.
    assert_eq!(now[0], now.iter().sum());
    assert_often(&before, &[(0, 5_000), (30, 1_000)]);
    assert_eq!(before[0] + before[30], before.iter().sum());
}

/// The plan of a complete order.
fn plan_of(random: &mut Random, accepted: &Accepted) -> Vec<u8> {
    let order = late_order(random, accepted, |_| {});
    order_to_plan(accepted, &order).expect("the order is complete").0
}

/// Plans of complete orders, one with a byte changed, and one with rounds drawn at random.
fn some_plans(random: &mut Random, accepted: &Accepted) -> Vec<Vec<u8>> {
    let (plan, other) = (plan_of(random, accepted), plan_of(random, accepted));
    let mut made = vec![changed_plan(random, &other, 0..other.len()), plan, other];
    if !accepted.jobs.is_empty() {
        made.push(drawn_plan(random, accepted));
    }
    made
}

#[test]
fn plan_checks() {
    let (mut counts, mut before) = ([0; 46], [0; 46]);
    visit(&CHECKED, |random, pair| {
        for plan in some_plans(random, &pair.accepted) {
            let number = compare_check_plan("some plans", &pair.file, &plan).number;
            counts[number as usize] += 1;
        }
        let plan = plan_of(random, &pair.accepted);
        before[compare_check_plan("is legal", &pair.file_before, &plan).number as usize] += 1;
    });
    assert_often(
        &counts,
        &[(0, 15_000), (40, 100), (41, 500), (42, 500), (43, 3_000), (45, 1_000)],
    );
    assert_often(&counts, &[(44, 100)]);
    // A legal plan that needed a wait breaks the round rules without it.
    assert_often(&before, &[(0, 5_000), (43, 1_000)]);
    assert_eq!(before[0] + before[43], before.iter().sum());
}

/// Compares a conversion of what is made for each table, with bytes beyond the buffer's room; of
/// the table without holding times too.
fn convert(
    conversion: &Conversion,
    make: fn(&mut Random, &Accepted) -> Vec<Vec<u8>>,
) -> [Counts; 2] {
    let [mut counts, mut before] = [[0; 46]; 2];
    visit(&CONVERTED, |random, pair| {
        for bytes in make(random, &pair.accepted) {
            let size = conversion.room + random.index(40);
            counts[conversion.compare(&pair.file, &bytes, size).number as usize] += 1;
            before[conversion.compare(&pair.file_before, &bytes, size).number as usize] += 1;
        }
    });
    [counts, before]
}

#[test]
fn orders_become_plans() {
    let [counts, before] = convert(&TO_PLAN, some_orders);
    assert_often(&counts, &[(0, 10_000), (30, 2_000), (31, 500), (32, 300), (33, 300), (34, 300)]);
    assert!(before[30] > counts[30] + 500, "{before:?}");
}

#[test]
fn plans_become_orders() {
    let [counts, before] = convert(&TO_ORDER, some_plans);
    assert_often(&counts, &[(0, 10_000), (41, 300), (42, 300), (43, 2_000), (45, 500)]);
    assert!(before[43] > counts[43] + 500, "{before:?}");
}

#[test]
fn sheets() {
    let mut changed = 0;
    visit(&PRINTED, |random, pair| {
        let size = SHEET_ROOM + random.index(3);
        let [now, before] = [&pair.file, &pair.file_before]
            .map(|file| crate::sheet::differential::compare(file, size));
        changed += u64::from(now != before);
    });
    println!("{changed} changed");
    assert!(changed >= 1_000, "{changed}");
}
