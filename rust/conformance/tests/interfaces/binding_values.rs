//! The values that the binding gives, against the interpreter: an accepted answer in types of its
//! own, a refusal by its number and place.

use adqurim::{check_plan, order_to_plan, plan_to_order, read, replay, walk};
use adqurim::{Ending, JobNumber, Ordered, Planned, Refusal, Timing, Verdict};
use conformance::cases::{accepted, edited, plan_of_x, table_x, tasks, ORDER_OF_X};
use conformance::families::{any, long, refused_files, small, Family};
use conformance::lifting::instruction_at;
use conformance::orders::{random_order, random_steps, variants};
use conformance::plans::some_plans;
use generator::{code, random_lifted_picks, random_nest, random_race, Random};
use interpreter::machine::values_on_offer;
use interpreter::timing::accept;

/// The seeds differ, so that no family repeats the tables of another.
const FAMILIES: [Family; 6] = [
    Family { name: "small tables", seed: 500, tables: 200, make: small },
    Family { name: "long bodies", seed: 501, tables: 200, make: long },
    Family { name: "races", seed: 502, tables: 200, make: random_race },
    Family { name: "nests", seed: 503, tables: 200, make: random_nest },
    Family { name: "tables of any size", seed: 504, tables: 200, make: any },
    Family { name: "Picks from any value", seed: 506, tables: 200, make: random_lifted_picks },
];

const ALLOWANCE: u64 = 10_000;

fn refusal(number: u8, place: usize) -> Refusal {
    Refusal { number: number.into(), place: place as u64 }
}

/// The jobs of a set in which bit j is job j.
fn jobs(set: u32) -> Vec<JobNumber> {
    (0..32).filter(|job| set >> job & 1 == 1).map(JobNumber).collect()
}

/// What the reader must give; the number of tasks is the table's own.
fn expected_read(file: &[u8]) -> Result<Timing, Refusal> {
    let accepted = accept(file).map_err(|refused| refusal(refused.number, refused.place))?;
    assert_eq!(accepted.response_times.len(), accepted.table.tasks.len());
    Ok(Timing { response_times: accepted.response_times, jobs: accepted.jobs.len() })
}

/// The ending of a replay or a plan check of the interpreter.
fn ending(answer: interpreter::RunAnswer) -> Result<Ending, Refusal> {
    match answer.number {
        0 => Ok(Ending { end_store: answer.end_store, failed_jobs: jobs(answer.failed_jobs) }),
        number => Err(refusal(number, answer.place)),
    }
}

fn expected_replay(file: &[u8], order: &[u8]) -> Result<Ending, Refusal> {
    ending(interpreter::replay(file, order))
}

/// A complete order's plan and its ending; the interpreter replays it for the latter.
fn expected_planned(file: &[u8], order: &[u8]) -> Result<Planned, Refusal> {
    let ending = expected_replay(file, order)?;
    let mut buffer = [0; 1281];
    let length = interpreter::order_to_plan(file, order, &mut buffer).length;
    Ok(Planned { plan: buffer[..length].to_vec(), ending })
}

/// A legal plan's order and its ending; the interpreter checks it for the latter.
fn expected_ordered(file: &[u8], plan: &[u8]) -> Result<Ordered, Refusal> {
    let ending = ending(interpreter::check_plan(file, plan))?;
    let mut buffer = [0; 512];
    let length = interpreter::plan_to_order(file, plan, &mut buffer).length;
    Ok(Ordered { order: buffer[..length].to_vec(), ending })
}

fn expected_walk(file: &[u8], allowance: u64) -> Result<Verdict, Refusal> {
    let mut buffer = [0; 512];
    let answer = interpreter::walk(file, allowance, &mut buffer);
    let count = answer.count;
    match answer.verdict {
        interpreter::Verdict::None => Err(refusal(answer.number, answer.place)),
        interpreter::Verdict::Holds => Ok(Verdict::Holds { count }),
        interpreter::Verdict::Fails => {
            let order = buffer[..answer.length].to_vec();
            let failed_jobs = jobs(answer.failed_jobs);
            let ending = Ending { end_store: answer.end_store, failed_jobs };
            Ok(Verdict::Fails { count, order, ending })
        }
    }
}

/// How often each came up.
#[derive(Debug, Default)]
struct Tally {
    read: u64,
    replayed: u64,
    planned: u64,
    ordered: u64,
    plans_refused: u64,
    holds: u64,
    fails: u64,
    refused: u64,
}

impl Tally {
    fn compare(&mut self, file: &[u8], orders: &[Vec<u8>]) {
        let timing = read(file);
        assert_eq!(timing, expected_read(file), "{file:02x?}");
        self.read += u64::from(timing.is_ok());
        for order in orders {
            let ending = replay(file, order);
            assert_eq!(ending, expected_replay(file, order), "{file:02x?} {order:?}");
            self.replayed += u64::from(ending.is_ok());
            self.refused += u64::from(ending.is_err());
            let planned = order_to_plan(file, order);
            assert_eq!(planned, expected_planned(file, order), "{file:02x?} {order:?}");
            self.planned += u64::from(planned.is_ok());
        }
        for allowance in [5, ALLOWANCE] {
            let verdict = walk(file, allowance);
            assert_eq!(verdict, expected_walk(file, allowance), "{file:02x?}");
            match verdict {
                Ok(Verdict::Holds { .. }) => self.holds += 1,
                Ok(Verdict::Fails { .. }) => self.fails += 1,
                Err(_) => self.refused += 1,
            }
        }
    }

    fn compare_plans(&mut self, file: &[u8], plans: &[Vec<u8>]) {
        for plan in plans {
            let checked = check_plan(file, plan);
            let expected = ending(interpreter::check_plan(file, plan));
            assert_eq!(checked, expected, "{file:02x?} {plan:?}");
            let ordered = plan_to_order(file, plan);
            assert_eq!(ordered, expected_ordered(file, plan), "{file:02x?} {plan:?}");
            self.ordered += u64::from(ordered.is_ok());
            self.plans_refused += u64::from(ordered.is_err());
        }
    }
}

/// Some orders of a file: a complete one and its variants if it is accepted, random bytes if not.
fn some_orders(random: &mut Random, file: &[u8]) -> Vec<Vec<u8>> {
    match accept(file) {
        Err(_) => vec![random_steps(random, 3, 20)],
        Ok(accepted) => {
            let order = random_order(random, &accepted);
            let mut orders = variants(random, &order, &accepted);
            orders.push(order);
            orders
        }
    }
}

/// Some plans of a file, or the plan of table X if it is refused.
fn plans_of(random: &mut Random, file: &[u8]) -> Vec<Vec<u8>> {
    match accept(file) {
        Err(_) => vec![plan_of_x()],
        Ok(accepted) => some_plans(random, &accepted).into_iter().map(|(_, plan)| plan).collect(),
    }
}

#[test]
fn values_are_the_interpreters() {
    let mut tally = Tally::default();
    for file in refused_files() {
        tally.compare(&file, &[vec![0]]);
        tally.compare_plans(&file, &[plan_of_x()]);
    }
    for family in FAMILIES {
        let mut random = Random::new(family.seed);
        for _ in 0..family.tables {
            let table = (family.make)(&mut random);
            let file = table.write_shuffled(&mut random).0;
            let orders = some_orders(&mut random, &file);
            tally.compare(&file, &orders);
            tally.compare_plans(&file, &plans_of(&mut random, &file));
        }
        println!("{}: {tally:?}", family.name);
    }
    assert!(tally.read >= 500 && tally.replayed >= 500 && tally.refused >= 500);
    assert!(tally.holds >= 200 && tally.fails >= 200);
    assert!(tally.planned >= 500 && tally.ordered >= 500 && tally.plans_refused >= 500);
}

/// Tries every value at each step of an order. Returns how many were refused.
fn compare_offers(file: &[u8], order: &[u8]) -> u64 {
    let mut refused = 0;
    for place in 0..order.len() {
        let offered = values_on_offer(instruction_at(&accepted(file), order, place));
        for value in (0..16).filter(|value| !offered.contains(value)) {
            let order = edited(order, &[(place, order[place] / 16 * 16 + value)]);
            let refusal = replay(file, &order).expect_err("the value is not on offer");
            assert_eq!(refusal, Refusal { number: 34, place: place as u64 });
            assert_eq!(refusal.on_offer(file, &order), Some(offered.clone()), "{file:02x?}");
            refused += 1;
        }
    }
    refused
}

/// Tries values at each step of the order's plan, whose values are at every second byte behind the
/// guesses. Returns how many were refused.
fn compare_plan_offers(file: &[u8], order: &[u8]) -> u64 {
    let plan = order_to_plan(file, order).expect("the order is complete").plan;
    let guesses = 1 + 8 * usize::from(plan[0]);
    let is_wrong = |plan: &[u8], place: usize| {
        let answer = interpreter::check_plan(file, plan);
        (answer.number, answer.place) == (41, place)
    };
    let mut refused = 0;
    for place in (guesses + 1..plan.len()).step_by(2) {
        let with = |value: u8| edited(&plan, &[(place, value)]);
        let (wrong, right): (Vec<u8>, Vec<u8>) =
            (0..=u8::MAX).partition(|value| is_wrong(&with(*value), place));
        let offered = right[0]..=right[right.len() - 1];
        for value in [wrong[0], wrong[wrong.len() / 2], u8::MAX] {
            let refusal = check_plan(file, &with(value)).expect_err("the value is not allowed");
            assert_eq!(refusal, Refusal { number: 41, place: place as u64 });
            assert_eq!(refusal.on_offer(file, &with(value)), Some(offered.clone()), "{file:02x?}");
            refused += 1;
        }
    }
    refused
}

/// Picks of every range: three jobs, of which the upper ones may come in between.
#[test]
fn values_on_offer_are_the_interpreters() {
    let mut random = Random::new(505);
    let mut refused = [0; 2];
    for highest in 0..16 {
        for lowest in 0..=highest {
            let body = [code::set(0, 1), code::pick_between(1, lowest, highest), code::end()];
            let file = tasks(6, &[[2, 20, 0], [2, 20, 1], [2, 20, 2]], &body).write();
            let order = random_order(&mut random, &accepted(&file));
            refused[0] += compare_offers(&file, &order);
            refused[1] += compare_plan_offers(&file, &order);
        }
    }
    assert!(refused.iter().all(|times| *times >= 1_000), "{refused:?}");
}

/// Table X with the values of document 01.
#[test]
fn table_x_in_values() {
    let file = table_x().write();
    assert_eq!(read(&file), Ok(Timing { response_times: vec![3, 1], jobs: 2 }));
    let ending = Ending { end_store: [1, 0, 0, 0, 0, 0, 0, 0], failed_jobs: vec![JobNumber(0)] };
    assert_eq!(replay(&file, &ORDER_OF_X), Ok(ending.clone()));
    let wrong = [(&[0, 16, 16, 0][..], 30, 3), (&[0, 33], 33, 1), (&[0, 17], 34, 1)];
    for (order, number, place) in wrong {
        assert_eq!(replay(&file, order), Err(Refusal { number, place }));
        assert_eq!(order_to_plan(&file, order), Err(Refusal { number, place }));
    }
    let planned = Planned { plan: plan_of_x(), ending: ending.clone() };
    assert_eq!(order_to_plan(&file, &ORDER_OF_X), Ok(planned));
    assert_eq!(check_plan(&file, &plan_of_x()), Ok(ending.clone()));
    let later = edited(&plan_of_x(), &[(27, 1), (29, 1), (31, 1)]);
    assert_eq!(check_plan(&file, &later), Err(Refusal { number: 43, place: 0 }));
    let ordered = Ordered { order: ORDER_OF_X.to_vec(), ending: ending.clone() };
    assert_eq!(plan_to_order(&file, &plan_of_x()), Ok(ordered));
    let fails = Verdict::Fails { count: 23, order: ORDER_OF_X.to_vec(), ending };
    assert_eq!(walk(&file, 23), Ok(fails));
    assert_eq!(walk(&file, 22), Err(Refusal { number: 21, place: 0 }));
}

/// A table of eight tasks has eight response times, one without jobs an empty order and the plan 0.
#[test]
fn most_tasks_and_no_jobs() {
    let eight = tasks(1, &[[1, 100, 0]; 8], &[code::end()]).write();
    let response_times = (1..=8).rev().collect();
    assert_eq!(read(&eight), Ok(Timing { response_times, jobs: 8 }));
    let none = tasks(5, &[[1, 4, 5]], &[code::end()]).write();
    assert_eq!(read(&none), Ok(Timing { response_times: vec![1], jobs: 0 }));
    let ending = Ending { end_store: [0; 8], failed_jobs: vec![] };
    assert_eq!(replay(&none, &[]), Ok(ending.clone()));
    assert_eq!(check_plan(&none, &[0]), Ok(ending.clone()));
    assert_eq!(order_to_plan(&none, &[]), Ok(Planned { plan: vec![0], ending: ending.clone() }));
    assert_eq!(plan_to_order(&none, &[0]), Ok(Ordered { order: vec![], ending }));
    assert_eq!(walk(&none, 0), Ok(Verdict::Holds { count: 0 }));
}
