//! The lock counts of document 02, E3, on tables by hand: after which steps of a job another may
//! start, in orders, plans and walks. Each answer is that of both the interpreter and the proved
//! entries.

use adqurim::raw::{RunAnswer, Verdict, WalkAnswer};
use conformance::cases::{plan, tasks};
use conformance::comparison::{
    assert_walk, compare_check_plan, compare_replay, Conversion, TO_ORDER, TO_PLAN,
};
use conformance::entries::{filled, pattern};
use conformance::proved::expected_walk;
use generator::code::*;
use generator::{InstructionDescription, TableDescription, TaskDescription};

/// The upper job's steps in an order. It fails if variable 0 is 0.
const LOOK: [u8; 3] = [16; 3];

/// More moves than any walk here makes.
const ALLOWANCE: u64 = 1_000;

/// Bytes lent beyond the room.
const BEYOND: usize = 9;

/// The lower job's steps with variable 0, which is 1 at first: to 0, and back to 1 from register 0.
fn breaks() -> InstructionDescription {
    store(0, 1)
}

fn mends() -> InstructionDescription {
    store(0, 0)
}

/// Two jobs, the upper of which may preempt the lower. The lower performs each instruction of its
/// body; the upper looks at variable 0.
struct Case<'a> {
    body: &'a [InstructionDescription],
    ceilings: &'a [u8],
    /// After how many steps of the lower job the upper may start, ascending.
    starts: &'a [usize],
    /// After how many of them it fails.
    fails: &'a [usize],
}

impl Case<'_> {
    fn file(&self) -> Vec<u8> {
        let upper = TaskDescription::new([1, 4, 1], &[load(0, 0), assert(0), end()]);
        let lower = TaskDescription::new([2, 8, 0], self.body);
        let mut table = TableDescription::new(4, vec![lower, upper]);
        table.ceilings = self.ceilings.to_vec();
        table.initial_store[0] = 1;
        table.write()
    }

    /// The order in which the upper job starts after so many steps of the lower.
    fn order(&self, moment: usize) -> Vec<u8> {
        [&vec![0; moment][..], &LOOK, &vec![0; self.body.len() - moment]].concat()
    }

    /// That order's plan: the upper job alone in round 0, nested there, or alone in round 1.
    fn plan(&self, moment: usize) -> Vec<u8> {
        let steps = self.body.len();
        let mut rounds = vec![0; moment];
        rounds.resize(steps, 1);
        let upper = if moment == steps { [1; 3] } else { [0; 3] };
        let stores = |step: &&InstructionDescription| [breaks(), mends()].contains(step);
        let stored = self.body[..moment].iter().rfind(stores);
        let left = u8::from(stored != Some(&breaks()));
        plan(&[store_of(1), store_of(left)], &[&rounds, &upper])
    }

    /// What that order and plan end with, if the upper job may start then.
    fn ending(&self, moment: usize) -> RunAnswer {
        let mut ending = RunAnswer::default();
        ending.end_store[0] = 1;
        ending.failed_jobs[1] = self.fails.contains(&moment).into();
        ending
    }

    fn check(&self) {
        for moment in 0..=self.body.len() {
            self.check_moment(moment);
            self.check_bytes(moment);
        }
        self.check_walk();
    }

    /// The order and the plan with a start at this moment: both are accepted and each becomes the
    /// other, or the start is no step (30) and the lock clause fails (44).
    fn check_moment(&self, moment: usize) {
        let (file, order, plan) = (self.file(), self.order(moment), self.plan(moment));
        let starts = self.starts.contains(&moment);
        let [replayed, checked] = match starts {
            true => [self.ending(moment); 2],
            false => [refusal(30, moment as u64), refusal(44, 0)],
        };
        assert_eq!(compare_replay("by hand", &file, &order), replayed, "after {moment} steps");
        assert_eq!(compare_check_plan("by hand", &file, &plan), checked, "after {moment} steps");
        converts(&TO_PLAN, &file, &order, (replayed, &plan));
        converts(&TO_ORDER, &file, &plan, (checked, &order));
    }

    /// Which bytes are steps at this moment: the others earn 33, 30 or 34.
    fn check_bytes(&self, moment: usize) {
        let ended = moment == self.body.len();
        let starts = self.starts.contains(&moment);
        let bytes = [
            (0, if ended { 30 } else { 31 }),
            (1, if ended { 30 } else { 34 }),
            (16, if starts { 31 } else { 30 }),
            (17, if starts { 34 } else { 30 }),
            (32, 33),
        ];
        for (byte, number) in bytes {
            let order = [&vec![0; moment][..], &[byte]].concat();
            let answer = compare_replay("by hand", &self.file(), &order);
            assert_eq!(answer.number, number, "byte {byte} after {moment} steps");
        }
    }

    /// The walk goes on with the lower job first, so it tries the latest start first. Each start
    /// adds the upper job's steps and those left to the lower.
    fn check_walk(&self) {
        let (file, steps) = (self.file(), self.body.len());
        let failing = self.fails.last().copied();
        let tried = self.starts.iter().filter(|moment| **moment >= failing.unwrap_or(0));
        let moves: usize = tried.map(|moment| LOOK.len() + steps - moment).sum();
        let mut answer = WalkAnswer { count: (steps + moves) as u64, ..WalkAnswer::default() };
        answer.verdict = Verdict::Holds;
        let order = failing.map_or(Vec::new(), |moment| self.order(moment));
        if failing.is_some() {
            (answer.verdict, answer.length) = (Verdict::Fails, order.len() as u64);
            (answer.end_store[0], answer.failed_jobs[1]) = (1, 1);
        }
        let left = filled(512 + BEYOND, 512, &order);
        let mut buffer = pattern(left.len());
        assert_eq!(expected_walk(&file, ALLOWANCE, &mut buffer), answer);
        assert_eq!(buffer, left);
        assert_walk("by hand", &file, ALLOWANCE, &answer, &left);
    }
}

/// A store whose variable 0 has this value.
fn store_of(value: u8) -> [u8; 8] {
    [value, 0, 0, 0, 0, 0, 0, 0]
}

fn refusal(number: u64, place: u64) -> RunAnswer {
    RunAnswer { number, place, ..RunAnswer::default() }
}

/// Asserts a conversion's answer and, unless it refuses, what it writes.
fn converts(
    conversion: &Conversion,
    file: &[u8],
    bytes: &[u8],
    (expected, written): (RunAnswer, &[u8]),
) {
    let size = conversion.room + BEYOND;
    let answer = conversion.compare(file, bytes, size);
    assert_eq!(RunAnswer { length: 0, ..answer }, expected);
    if expected.number == 0 {
        let mut buffer = pattern(size);
        (conversion.proved)(file, bytes, &mut buffer);
        assert_eq!(answer.length, written.len() as u64);
        assert_eq!(buffer, filled(size, conversion.room, written));
    }
}

/// "up by one at Acquire, down by one at Release": an inner Release does not free.
#[test]
fn released_less_often_than_taken() {
    let (take, free) = (acquire(0), release(0));
    let twice = [set(0, 1), take, breaks(), take, free, mends(), end()];
    Case { body: &twice, ceilings: &[1], starts: &[0, 1, 7], fails: &[] }.check();
    let once_of_three = [set(0, 1), take, take, take, breaks(), free, mends(), end()];
    Case { body: &once_of_three, ceilings: &[1], starts: &[0, 1, 8], fails: &[] }.check();
    let twice_of_three = [set(0, 1), take, take, take, breaks(), free, free, mends(), end()];
    Case { body: &twice_of_three, ceilings: &[7], starts: &[0, 1, 9], fails: &[] }.check();
}

/// "A ceiling applies while the count is above zero": the last Release frees.
#[test]
fn released_as_often_as_taken() {
    let (take, free) = (acquire(0), release(0));
    let helper = [set(0, 1), take, breaks(), take, free, mends(), free, end()];
    Case { body: &helper, ceilings: &[1], starts: &[0, 1, 7, 8], fails: &[] }.check();
    let helper_twice = [set(0, 1), take, take, free, breaks(), take, free, mends(), free, end()];
    Case { body: &helper_twice, ceilings: &[1], starts: &[0, 1, 9, 10], fails: &[] }.check();
    let thrice = [set(0, 1), take, take, take, breaks(), free, free, free, mends(), end()];
    Case { body: &thrice, ceilings: &[1], starts: &[0, 1, 8, 9, 10], fails: &[8] }.check();
    // A ceiling of the lower job's own base keeps nobody back, however often the lock is taken.
    let all: Vec<usize> = (0..=10).collect();
    Case { body: &thrice, ceilings: &[0], starts: &all, fails: &[5, 6, 7, 8] }.check();
}

/// "unchanged at zero": a Release too many is not owed by the next Acquire.
#[test]
fn released_at_zero() {
    let (take, free) = (acquire(0), release(0));
    let before = [set(0, 1), free, take, breaks(), mends(), free, end()];
    Case { body: &before, ceilings: &[1], starts: &[0, 1, 2, 6, 7], fails: &[] }.check();
    let once_more = [set(0, 1), take, free, free, breaks(), take, mends(), free, end()];
    Case { body: &once_more, ceilings: &[1], starts: &[0, 1, 3, 4, 5, 8, 9], fails: &[5] }.check();
    let more_often = [set(0, 1), take, take, free, free, free, take, breaks(), mends(), end()];
    Case { body: &more_often, ceilings: &[1], starts: &[0, 1, 5, 6, 10], fails: &[] }.check();
}

/// "cleared by End": it frees all at once.
#[test]
fn counts_left_at_end() {
    let take = acquire(0);
    let once = [set(0, 1), take, breaks(), mends(), end()];
    Case { body: &once, ceilings: &[1], starts: &[0, 1, 5], fails: &[] }.check();
    let twice = [set(0, 1), take, take, breaks(), mends(), end()];
    Case { body: &twice, ceilings: &[1], starts: &[0, 1, 6], fails: &[] }.check();
}

/// "a count per lock": two locks that nest, released in the order in which they were taken.
#[test]
fn two_locks() {
    let [take, take_other, free, free_other] = [acquire(0), acquire(1), release(0), release(1)];
    let body = [set(0, 1), take, take_other, breaks(), free, mends(), free_other, end()];
    Case { body: &body, ceilings: &[1, 1], starts: &[0, 1, 7, 8], fails: &[] }.check();
    Case { body: &body, ceilings: &[1, 0], starts: &[0, 1, 5, 6, 7, 8], fails: &[5] }.check();
    Case { body: &body, ceilings: &[0, 1], starts: &[0, 1, 2, 7, 8], fails: &[] }.check();
    // A helper's pair of the first lock inside, then the first lock is released for good.
    let body =
        [set(0, 1), take, take_other, take, free, breaks(), free, mends(), free_other, end()];
    Case { body: &body, ceilings: &[1, 1], starts: &[0, 1, 9, 10], fails: &[] }.check();
    Case { body: &body, ceilings: &[1, 0], starts: &[0, 1, 7, 8, 9, 10], fails: &[7] }.check();
}

/// As many as a body has room for.
#[test]
fn high_counts() {
    let steps = |steps: &[(usize, InstructionDescription)]| -> Vec<InstructionDescription> {
        steps.iter().flat_map(|(times, step)| vec![*step; *times]).collect()
    };
    let (take, free) = (acquire(0), release(0));
    let even = steps(&[(7, take), (7, free), (1, end())]);
    Case { body: &even, ceilings: &[1], starts: &[0, 14, 15], fails: &[] }.check();
    let one_left = steps(&[(8, take), (7, free), (1, end())]);
    Case { body: &one_left, ceilings: &[1], starts: &[0, 16], fails: &[] }.check();
    let all_left = steps(&[(15, take), (1, end())]);
    Case { body: &all_left, ceilings: &[1], starts: &[0, 16], fails: &[] }.check();
    let released_first = steps(&[(7, free), (8, take), (1, end())]);
    let starts = [0, 1, 2, 3, 4, 5, 6, 7, 16];
    Case { body: &released_first, ceilings: &[1], starts: &starts, fails: &[] }.check();
}

/// Asserts the number of an order and, unless it is refused, that its plan comes back to it.
fn order_earns(file: &[u8], order: &[u8], number: u64, place: u64) {
    let answer = compare_replay("by hand", file, order);
    assert_eq!((answer.number, answer.place), (number, place), "{order:?}");
    let mut plan = pattern(TO_PLAN.room);
    let converted = TO_PLAN.compare(file, order, TO_PLAN.room + BEYOND);
    assert_eq!((converted.number, converted.place), (number, place), "{order:?}");
    if number == 0 {
        (TO_PLAN.proved)(file, order, &mut plan);
        converts(&TO_ORDER, file, &plan[..converted.length as usize], (answer, order));
    }
}

/// Asserts the number of a plan of two jobs that store nothing, with these rounds and values.
fn plan_earns(file: &[u8], steps: &[[u8; 2]], number: u64) {
    let plan = [&[2][..], &[0; 16], &steps.concat()].concat();
    let answer = compare_check_plan("by hand", file, &plan);
    assert_eq!((answer.number, answer.place), (number, 0), "{steps:?}");
    assert_eq!(TO_ORDER.compare(file, &plan, TO_ORDER.room + BEYOND).number, number);
}

/// The lower job picks 0 and skips its second Acquire, or picks 1 and takes the lock twice.
#[test]
fn an_acquire_that_may_be_skipped() {
    let body = [acquire(0), pick(0, 1), skip_if_equal(0, 1, 1), acquire(0), release(0), end()];
    let mut table = tasks(4, &[[2, 8, 0], [1, 4, 1]], &[end()]);
    (table.tasks[0].body, table.ceilings) = (body.to_vec(), vec![1]);
    let file = table.write();
    order_earns(&file, &[0, 0, 0, 0, 16, 0], 0, 0);
    order_earns(&file, &[0, 0, 0, 16], 30, 3);
    plan_earns(&file, &[[0, 0], [0, 0], [0, 0], [0, 0], [1, 0], [0, 0]], 0);
    plan_earns(&file, &[[0, 0], [0, 0], [0, 0], [1, 0], [1, 0], [0, 0]], 44);
    order_earns(&file, &[0, 1, 0, 0, 0, 16], 30, 5);
    order_earns(&file, &[0, 1, 0, 0, 0, 0, 16], 0, 0);
    plan_earns(&file, &[[0, 0], [0, 1], [0, 0], [0, 0], [0, 0], [1, 0], [0, 0]], 44);
    plan_earns(&file, &[[0, 0], [0, 1], [0, 0], [0, 0], [0, 0], [0, 0], [1, 0]], 0);
}

/// The lower job picks 0 and skips its Release, or picks 1 and makes it.
#[test]
fn a_release_that_may_be_skipped() {
    let body = [acquire(0), pick(0, 1), skip_if_equal(0, 1, 1), release(0), end()];
    let mut table = tasks(4, &[[2, 8, 0], [1, 4, 1]], &[end()]);
    (table.tasks[0].body, table.ceilings) = (body.to_vec(), vec![1]);
    let file = table.write();
    order_earns(&file, &[0, 0, 0, 16], 30, 3);
    order_earns(&file, &[0, 0, 0, 0, 16], 0, 0);
    plan_earns(&file, &[[0, 0], [0, 0], [0, 0], [1, 0], [0, 0]], 44);
    order_earns(&file, &[0, 1, 0, 16], 30, 3);
    order_earns(&file, &[0, 1, 0, 0, 16, 0], 0, 0);
    plan_earns(&file, &[[0, 0], [0, 1], [0, 0], [0, 0], [1, 0], [0, 0]], 0);
    plan_earns(&file, &[[0, 0], [0, 1], [0, 0], [1, 0], [1, 0], [0, 0]], 44);
}

/// The second job of a task holds nothing of what its first job left at End.
#[test]
fn a_later_job_of_the_task_starts_at_zero() {
    let body = [set(0, 0), acquire(0), acquire(0), end()];
    let mut table = tasks(10, &[[2, 8, 0], [1, 8, 1]], &[end()]);
    (table.tasks[0].body, table.ceilings) = (body.to_vec(), vec![1]);
    let file = table.write();
    order_earns(&file, &[0, 0, 0, 0, 16, 0, 16, 0, 0, 0], 0, 0);
    order_earns(&file, &[0, 16, 0, 0, 0, 0, 16, 0, 0, 0], 0, 0);
    order_earns(&file, &[0, 0, 0, 0, 16, 0, 0, 16], 30, 7);
    // A Release gives back nothing of it either: one Acquire is enough to hold the lock.
    table.tasks[0].body = vec![release(0), acquire(0), set(0, 0), end()];
    let file = table.write();
    order_earns(&file, &[0, 0, 0, 0, 16, 0, 16, 0, 0, 0], 0, 0);
    order_earns(&file, &[0, 0, 0, 0, 16, 0, 0, 16], 30, 7);
}

/// Each job has counts of its own: what one took before another is not the other's.
#[test]
fn each_job_counts_for_itself() {
    let mut table = tasks(3, &[[3, 20, 0], [2, 10, 1], [1, 5, 2]], &[end()]);
    table.tasks[0].body = vec![set(0, 0), acquire(0), release(0), end()];
    table.tasks[1].body = vec![acquire(0), acquire(0), end()];
    table.ceilings = vec![2];
    let file = table.write();
    order_earns(&file, &[16, 32], 30, 1);
    order_earns(&file, &[16, 16, 32], 30, 2);
    order_earns(&file, &[16, 16, 16, 0, 0, 32], 30, 5);
    order_earns(&file, &[16, 16, 16, 0, 0, 0, 32, 0], 0, 0);
    order_earns(&file, &[0, 16, 16, 16, 0, 32], 30, 5);
    order_earns(&file, &[0, 16, 16, 16, 0, 0, 32, 0], 0, 0);
    order_earns(&file, &[0, 16, 16, 16, 32, 0, 0, 0], 0, 0);
    // A lower job that holds a lock of its own while an upper one takes another twice.
    table.tasks[0].body = vec![acquire(1), acquire(1), release(1), end()];
    table.ceilings = vec![2, 0];
    let file = table.write();
    order_earns(&file, &[0, 0, 16, 16, 32], 30, 4);
    order_earns(&file, &[0, 0, 16, 16, 16, 32, 0, 0], 0, 0);
    order_earns(&file, &[0, 0, 0, 16, 16, 16, 32, 0], 0, 0);
}
