//! Picks that need not start at zero (document 02, E7), by hand: every lowest and highest value that
//! a Pick may have, in orders, plans and walks. Each answer is that of both the interpreter and the
//! proved entries.

use crate::conversions::there_and_back::{order_there_and_back, plan_there_and_back};
use adqurim::raw::{RunAnswer, Verdict, WalkAnswer};
use adqurim::{PLAN_ROOM, SHEET_ROOM};
use conformance::cases::tasks;
use conformance::comparison::{assert_walk, compare_check_plan, compare_replay, TO_ORDER, TO_PLAN};
use conformance::entries::{filled, pattern};
use conformance::proved::expected_walk;
use generator::code::*;
use generator::{InstructionDescription, TableDescription, TaskDescription};

/// The largest value of a Pick.
pub(crate) const LARGEST: u8 = 15;

/// How many Picks there are, their register aside, and how many values they offer together.
pub(crate) const PICKS: usize = 136;
const VALUES: usize = 816;

/// Bytes lent beyond the room.
pub(crate) const BEYOND: usize = 9;

/// The lowest and the highest value of each Pick that there may be: "c ≤ b ≤ 15".
pub(crate) fn picks() -> impl Iterator<Item = (u8, u8)> {
    (0..=LARGEST).flat_map(|highest| (0..=highest).map(move |lowest| (lowest, highest)))
}

#[test]
fn how_many_picks_and_values_there_are() {
    assert_eq!(picks().count(), PICKS);
    let values = picks().map(|(lowest, highest)| usize::from(highest - lowest) + 1);
    assert_eq!(values.sum::<usize>(), VALUES);
}

/// One job with this body, whose instructions are records from 2 on and lines from 3 on.
pub(crate) fn one_job(body: &[InstructionDescription]) -> TableDescription {
    tasks(1, &[[1, 1, 0]], body)
}

/// Two jobs, the upper of which may preempt the lower.
pub(crate) fn two_jobs(
    lower: &[InstructionDescription],
    upper: &[InstructionDescription],
) -> TableDescription {
    let tasks = [TaskDescription::new([2, 8, 0], lower), TaskDescription::new([1, 4, 1], upper)];
    TableDescription::new(4, tasks.into())
}

/// A table in which a job picks a value and stores it to variable 0.
struct Setting {
    table: fn(InstructionDescription) -> TableDescription,
    /// The order with a value, and the step that picks it.
    order: fn(u8) -> Vec<u8>,
    step: u64,
    /// The plan with a value, and the offset of that value.
    plan: fn(u8) -> Vec<u8>,
    offset: u64,
}

/// The Pick comes first in the only job, later in it, or starts a job amid another.
const SETTINGS: [Setting; 3] = [
    Setting {
        table: |pick| one_job(&[pick, store(0, 0), end()]),
        order: |value| vec![value, 0, 0],
        step: 0,
        plan: |value| plan(&[[0; 8]], &[[0, value], [0, 0], [0, 0]]),
        offset: 10,
    },
    Setting {
        table: |pick| one_job(&[set(0, 9), pick, store(0, 0), end()]),
        order: |value| vec![0, value, 0, 0],
        step: 1,
        plan: |value| plan(&[[0; 8]], &[[0, 0], [0, value], [0, 0], [0, 0]]),
        offset: 12,
    },
    Setting {
        table: |pick| two_jobs(&[set(0, 9), end()], &[pick, store(0, 0), end()]),
        order: |value| vec![0, 16 + value, 16, 16, 0],
        step: 1,
        plan: |value| {
            let guesses = [[0; 8], [value, 0, 0, 0, 0, 0, 0, 0]];
            plan(&guesses, &[[0, 0], [1, 0], [0, value], [0, 0], [0, 0]])
        },
        offset: 22,
    },
];

/// A plan's bytes from its guesses and the round and value of each step.
fn plan(guesses: &[[u8; 8]], steps: &[[u8; 2]]) -> Vec<u8> {
    [vec![guesses.len() as u8], guesses.concat(), steps.concat()].concat()
}

/// What an order or a plan ends with that stored this value.
fn stored(value: u8) -> RunAnswer {
    let mut ending = RunAnswer::default();
    ending.end_store[0] = value.into();
    ending
}

pub(crate) fn refusal(number: u64, place: u64) -> RunAnswer {
    RunAnswer { number, place, ..RunAnswer::default() }
}

/// Visits the file of each setting with each Pick, and its lowest and highest value.
fn visit(mut visit: impl FnMut(&Setting, &[u8], (u8, u8))) {
    for setting in &SETTINGS {
        for (lowest, highest) in picks() {
            let file = (setting.table)(pick_between(0, lowest, highest)).write();
            visit(setting, &file, (lowest, highest));
        }
    }
}

/// "34 and 41 speak of the new range": of the 16 values that a step has room for.
#[test]
fn an_order_takes_the_values_on_offer_and_no_others() {
    let mut taken = 0;
    visit(|setting, file, (lowest, highest)| {
        for value in 0..=LARGEST {
            let order = (setting.order)(value);
            let on_offer = lowest <= value && value <= highest;
            let expected = if on_offer { stored(value) } else { refusal(34, setting.step) };
            assert_eq!(compare_replay("by hand", file, &order), expected, "{lowest} {highest}");
            let converted = TO_PLAN.compare(file, &order, PLAN_ROOM + BEYOND);
            assert_eq!(RunAnswer { length: 0, ..converted }, expected, "{lowest} {highest}");
            taken += usize::from(on_offer);
        }
    });
    assert_eq!(taken, SETTINGS.len() * VALUES);
}

/// The same of all values that a plan has room for. Those far from what is on offer are not converted.
#[test]
fn a_plan_takes_the_values_on_offer_and_no_others() {
    let mut taken = 0;
    visit(|setting, file, (lowest, highest)| {
        for value in 0..=255 {
            let plan = (setting.plan)(value);
            let on_offer = lowest <= value && value <= highest;
            let expected = if on_offer { stored(value) } else { refusal(41, setting.offset) };
            assert_eq!(compare_check_plan("by hand", file, &plan), expected, "{lowest} {highest}");
            if value <= LARGEST + 2 || value == 255 {
                let converted = TO_ORDER.compare(file, &plan, TO_ORDER.room + BEYOND);
                assert_eq!(RunAnswer { length: 0, ..converted }, expected, "{lowest} {highest}");
            }
            taken += usize::from(on_offer);
        }
    });
    assert_eq!(taken, SETTINGS.len() * VALUES);
}

#[test]
fn an_order_with_each_value_on_offer_becomes_its_plan_and_comes_back() {
    visit(|setting, file, (lowest, highest)| {
        for value in lowest..=highest {
            let (order, plan) = ((setting.order)(value), (setting.plan)(value));
            assert_eq!(order_there_and_back(file, &order), (stored(value), plan.clone()));
            assert_eq!(plan_there_and_back(file, &plan), (stored(value), order));
        }
    });
}

/// The step's other slips come before a value that is not on offer, and 32 before all.
#[test]
fn a_value_is_looked_at_only_when_the_job_has_its_turn() {
    let lower = [set(0, 9), pick_between(0, 3, 6), end()];
    let file = two_jobs(&lower, &[pick_between(0, 3, 6), end()]).write();
    for value in 0..=LARGEST {
        let on_offer = (3..=6).contains(&value);
        let earns = |steps: &[u8], number: u64| {
            let place = steps.len() as u64 - 1;
            let answer = compare_replay("by hand", &file, steps);
            assert_eq!(answer, refusal(number, place), "{steps:?}");
        };
        // Task 2 is not in the table; job 0 waits for job 1 and then has its turn.
        earns(&[32 + value], 33);
        earns(&[0, 19, value], 30);
        earns(&[0, 3, 0, 19, 16, value], 32);
        if !on_offer {
            earns(&[0, 19, 16, value], 34);
            earns(&[0, 16 + value], 34);
            earns(&[16 + value], 34);
        }
        // A round that is wrong comes before the value, a missing value before both.
        let with = |round| plan(&[[0; 8]; 2], &[[0, 0], [round, value], [1, 0], [0, 3], [0, 0]]);
        let of_value = refusal(41, 20);
        let wrong_round = refusal(42, 19);
        assert_eq!(compare_check_plan("by hand", &file, &with(2)), wrong_round);
        let checked = compare_check_plan("by hand", &file, &with(1));
        assert_eq!(checked, if on_offer { RunAnswer::default() } else { of_value });
        assert_eq!(compare_check_plan("by hand", &file, &with(2)[..20]), refusal(40, 20));
    }
}

/// Asserts that both walks come to this answer and this order, and need as many moves as it counts.
fn walk_comes_to(file: &[u8], expected: &WalkAnswer, order: &[u8]) {
    let left = filled(512 + BEYOND, 512, order);
    let undecided = WalkAnswer { number: 21, ..WalkAnswer::default() };
    let zeros = filled(512 + BEYOND, 512, &[]);
    let walks = [(expected.count, expected, left), (expected.count - 1, &undecided, zeros)];
    for (allowance, answer, left) in walks {
        let mut buffer = pattern(left.len());
        assert_eq!(expected_walk(file, allowance, &mut buffer), *answer, "{file:02x?}");
        assert_eq!(buffer, left, "{file:02x?}");
        assert_walk("by hand", file, allowance, answer, &left);
    }
}

fn holds(count: u64) -> WalkAnswer {
    WalkAnswer { verdict: Verdict::Holds, count, ..WalkAnswer::default() }
}

/// This job fails, and nothing was stored.
fn fails(count: u64, order: &[u8], job: usize) -> WalkAnswer {
    let (verdict, length) = (Verdict::Fails, order.len() as u64);
    let mut answer = WalkAnswer { verdict, count, length, ..WalkAnswer::default() };
    answer.failed_jobs[job] = 1;
    answer
}

/// A Pick and an End are two moves for each value, after a move before them or none. Of two jobs that
/// pick, with n values below and m above: the lower starts with each of n and goes on with its End or
/// a start of the upper, which is n × (1 + 1 + 2 m + 3 m) moves, or the upper starts and both end,
/// which is m × (1 + 1 + 2 n).
#[test]
fn a_walk_tries_each_value_on_offer() {
    for (lowest, highest) in picks() {
        let body = [pick_between(0, lowest, highest), end()];
        let values = u64::from(highest - lowest) + 1;
        walk_comes_to(&one_job(&body).write(), &holds(2 * values), &[]);
        let later = [&[set(0, 9)], &body[..]].concat();
        walk_comes_to(&one_job(&later).write(), &holds(1 + 2 * values), &[]);
        for (least, most) in [(0, 0), (0, 2), (3, 6), (15, 15)] {
            let other = [pick_between(0, least, most), end()];
            let others = u64::from(most - least) + 1;
            let moves = 2 * values + 2 * others + 7 * values * others;
            walk_comes_to(&two_jobs(&body, &other).write(), &holds(moves), &[]);
            walk_comes_to(&two_jobs(&other, &body).write(), &holds(moves), &[]);
        }
    }
}

/// A job that fails by its picked value and a limit: what comes after the Pick, with which values it
/// fails, and how many steps it has if it holds and if it fails.
struct Failing {
    rest: fn(u8) -> [InstructionDescription; 4],
    fails: fn(u8, u8) -> bool,
    steps: [usize; 2],
}

const FAILINGS: [Failing; 3] = [
    Failing {
        rest: |limit| [set(1, limit), skip_if_less(0, 1, 1), assert(2), end()],
        fails: |value, limit| value >= limit,
        steps: [4, 5],
    },
    Failing {
        rest: |limit| [set(1, limit), skip_if_less(1, 0, 1), assert(2), end()],
        fails: |value, limit| value <= limit,
        steps: [4, 5],
    },
    Failing {
        rest: |limit| [set(1, limit), subtract(0, 1), assert(0), end()],
        fails: |value, limit| value == limit,
        steps: [5, 5],
    },
];

/// What a job comes to that picks after so many other instructions, and whether it fails.
fn check_failing(failing: &Failing, (lowest, highest): (u8, u8), limit: u8, before: usize) -> bool {
    let Failing { rest, fails: is_failing, steps: [holding, failing] } = failing;
    let pick = [pick_between(0, lowest, highest)];
    let file = one_job(&[&vec![set(0, 9); before][..], &pick, &rest(limit)].concat()).write();
    let first = (lowest..=highest).find(|value| is_failing(*value, limit));
    let held = usize::from(first.unwrap_or(highest + 1) - lowest) * holding;
    match first {
        Some(value) => {
            let mut order = vec![0; before + failing];
            order[before] = value;
            let count = (before + held + failing) as u64;
            walk_comes_to(&file, &fails(count, &order, 0), &order);
        }
        None => walk_comes_to(&file, &holds((before + held) as u64), &[]),
    }
    first.is_some()
}

/// "The first failing order is over the new lists": the lowest value on offer that fails, after the
/// moves of those below it. The Pick comes first or later.
#[test]
fn the_first_failing_order_has_the_lowest_value_that_fails() {
    let mut failing = [0; 2];
    for pick in picks() {
        for limit in 0..=LARGEST + 1 {
            for (one, before) in FAILINGS.iter().flat_map(|one| [(one, 0), (one, 1)]) {
                failing[usize::from(check_failing(one, pick, limit, before))] += 1;
            }
        }
    }
    assert!(failing.iter().all(|times| *times >= 2_000), "{failing:?}");
}

/// The same at a start, after the lower job, whose step comes first: the upper fails with its highest
/// value alone.
#[test]
fn the_values_of_a_start_are_tried_from_the_lowest_on() {
    for (lowest, highest) in picks() {
        let pick = pick_between(0, lowest, highest);
        let upper = [pick, set(1, highest), subtract(0, 1), assert(0), end()];
        let values = u64::from(highest - lowest) + 1;
        let order = [0, 16 + highest, 16, 16, 16, 16];
        let file = two_jobs(&[end()], &upper).write();
        walk_comes_to(&file, &fails(1 + 5 * values, &order, 1), &order);
    }
}

/// "Lane sensors report 3 to 6, and modelling that costs three instructions": the Pick with a lowest
/// value leaves what those leave.
#[test]
fn a_pick_is_worth_the_three_instructions_that_it_saves() {
    for (lowest, highest) in picks() {
        let one = one_job(&[pick_between(0, lowest, highest), store(0, 0), end()]).write();
        let three = [pick(0, highest - lowest), set(1, lowest), add(0, 1), store(0, 0), end()];
        let three = one_job(&three).write();
        for value in lowest..=highest {
            let by_one = compare_replay("one", &one, &[value, 0, 0]);
            let by_three = compare_replay("three", &three, &[value - lowest, 0, 0, 0, 0]);
            assert_eq!([by_one, by_three], [stored(value); 2]);
        }
    }
}

/// A sensor that reports 3 to 6, in a job that fails from 5 on.
#[test]
fn the_sheet_of_a_lane_sensor() {
    let body = [pick_between(0, 3, 6), set(1, 5), skip_if_less(0, 1, 1), assert(2), end()];
    let expected = "tasks 1 jobs 1\ntask 0 response 1 jobs 1\nverdict fails 13\n\
        order 5 0 0 0 0\nfailed 0\njob 0 rounds 0 0 0 0 0\n";
    let sheet = crate::sheet::differential::compare(&one_job(&body).write(), SHEET_ROOM + BEYOND);
    assert_eq!(sheet, expected);
}
