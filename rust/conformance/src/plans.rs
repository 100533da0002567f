//! Plans of random orders, plans that are near to one, and plans with rounds drawn at random.

use crate::listing::{forced_plan, Choice};
use crate::orders::random_order;
use generator::Random;
use interpreter::machine::values_on_offer;
use interpreter::{conversion, plan, Accepted, JobNumber};

/// A plan and how it was made.
pub type Named = (&'static str, Vec<u8>);

/// The plan of a random complete order.
pub fn random_plan(random: &mut Random, accepted: &Accepted) -> Vec<u8> {
    let order = random_order(random, accepted);
    conversion::order_to_plan(accepted, &order).expect("the order is complete").0
}

/// The same table with ceilings that keep no job back.
pub fn unlocked(accepted: &Accepted) -> Accepted {
    let mut unlocked = accepted.clone();
    unlocked.table.ceilings.fill(0);
    unlocked
}

/// The plan of a random order that takes no notice of the locks. Where a job starts over a lock
/// that keeps it back, the plan is wrong by that lock alone.
pub fn unlocked_plan(random: &mut Random, accepted: &Accepted) -> Vec<u8> {
    random_plan(random, &unlocked(accepted))
}

/// A plan with random rounds, which never fall within a job, random values, and all guesses right.
/// Mostly no two jobs end in one round, as in every legal plan.
pub fn drawn_plan(random: &mut Random, accepted: &Accepted) -> Vec<u8> {
    let k = accepted.jobs.len();
    let mut ends: Vec<u8> = (0..k as u8).collect();
    random.shuffle(&mut ends);
    if random.chance(1, 8) {
        ends = ends.iter().map(|_| random.index(k) as u8).collect();
    }
    let jobs = accepted.job_numbers().zip(ends);
    let choices: Vec<Choice> =
        jobs.map(|(job, end)| drawn_choice(random, accepted, job, end)).collect();
    forced_plan(accepted, &choices.iter().collect::<Vec<_>>())
}

/// Random rounds up to the job's end, and random values.
fn drawn_choice(random: &mut Random, accepted: &Accepted, job: JobNumber, end: u8) -> Choice {
    let body = &accepted.task(job).body;
    let mut rounds = Vec::new();
    let mut values = Vec::new();
    for placed in body {
        let early = random.chance(1, 3);
        rounds.push(if early { random.between(0, end.into()) as u8 } else { end });
        let offer = values_on_offer(placed.instruction);
        values.push(random.between((*offer.start()).into(), (*offer.end()).into()) as u8);
    }
    rounds.sort_unstable();
    Choice { rounds, values }
}

/// A plan taken apart: its first byte with the guesses, and each job's pairs of round and value.
struct Parts {
    front: Vec<u8>,
    jobs: Vec<Vec<[u8; 2]>>,
}

impl Parts {
    /// The parts of a plan that earned none of 40 to 42.
    fn of(accepted: &Accepted, bytes: &[u8]) -> Parts {
        let run = plan::run(accepted, bytes).expect("the plan has its shape");
        let pairs = |steps: &Vec<plan::PlanStep>| -> Vec<[u8; 2]> {
            steps.iter().map(|step| [step.round.0 as u8, step.value]).collect()
        };
        let front = bytes[..1 + 8 * run.guesses.len()].to_vec();
        Parts { front, jobs: run.steps.iter().map(pairs).collect() }
    }

    fn bytes(&self) -> Vec<u8> {
        [&self.front[..], &self.jobs.concat().concat()].concat()
    }

    fn start(&self, job: JobNumber) -> u8 {
        self.jobs[job.0][0][0]
    }

    fn end(&self, job: JobNumber) -> u8 {
        self.jobs[job.0][self.jobs[job.0].len() - 1][0]
    }

    /// Whether job y is nested in job x and goes over more than one round.
    fn nests_over_rounds(&self, x: JobNumber, y: JobNumber) -> bool {
        let (start, end) = (self.start(y), self.end(y));
        self.start(x) <= start && start < end && end < self.end(x)
    }

    /// Gives job x these rounds, step by step; the last of them if it has more steps.
    fn set_rounds(&mut self, x: usize, rounds: &[[u8; 2]]) {
        for (at, pair) in self.jobs[x].iter_mut().enumerate() {
            pair[0] = rounds[at.min(rounds.len() - 1)][0];
        }
    }
}

/// Another byte, mostly one near to this one.
fn other_byte(random: &mut Random, byte: u8) -> u8 {
    let change = match random.between(0, 2) {
        0 => random.between(1, 2) as u8,
        1 => (random.between(1, 2) as u8).wrapping_neg(),
        _ => random.between(1, 255) as u8,
    };
    byte.wrapping_add(change)
}

/// The plan with one byte of this range changed.
pub fn changed(random: &mut Random, plan: &[u8], range: std::ops::Range<usize>) -> Vec<u8> {
    let mut bytes = plan.to_vec();
    let at = range.start + random.index(range.len());
    bytes[at] = other_byte(random, bytes[at]);
    bytes
}

/// The plan with one step's round and value drawn anew.
fn changed_pair(random: &mut Random, parts: &mut Parts) -> Vec<u8> {
    let k = parts.jobs.len();
    let job = random.index(k);
    let step = random.index(parts.jobs[job].len());
    let value = parts.jobs[job][step][1];
    let value = if random.chance(1, 2) { value } else { random.between(0, 3) as u8 };
    parts.jobs[job][step] = [random.between(0, k as u64) as u8, value];
    parts.bytes()
}

/// The plan with the rounds of two jobs exchanged.
fn exchanged(random: &mut Random, parts: &mut Parts) -> Vec<u8> {
    let x = random.index(parts.jobs.len());
    let y = (x + random.between(1, parts.jobs.len() as u64 - 1) as usize) % parts.jobs.len();
    let (of_x, of_y) = (parts.jobs[x].clone(), parts.jobs[y].clone());
    parts.set_rounds(x, &of_y);
    parts.set_rounds(y, &of_x);
    parts.bytes()
}

/// The plan with the lower job's first step after a nested job moved back into a round that the
/// nested job closes to it; none if no job nests over more than one round.
fn moved_in(random: &mut Random, accepted: &Accepted, parts: &mut Parts) -> Option<Vec<u8>> {
    let pairs = accepted.job_numbers().flat_map(|x| accepted.job_numbers().map(move |y| (x, y)));
    let nests = |(x, y): &(JobNumber, JobNumber)| {
        accepted.may_preempt(*y, *x) && parts.nests_over_rounds(*x, *y)
    };
    let nested: Vec<(JobNumber, JobNumber)> = pairs.filter(nests).collect();
    if nested.is_empty() {
        return None;
    }
    let (x, y) = nested[random.index(nested.len())];
    let (start, end) = (parts.start(y), parts.end(y));
    let step = parts.jobs[x.0].iter_mut().find(|pair| pair[0] > end)?;
    step[0] = random.between(u64::from(start) + 1, end.into()) as u8;
    Some(parts.bytes())
}

/// What is near to a legal plan: a byte, one or two guesses, or a pair changed, two jobs' rounds
/// exchanged, a lower job moved into a nested job's rounds, cut short, or longer.
pub fn variants(random: &mut Random, accepted: &Accepted, plan: &[u8]) -> Vec<Named> {
    let k = accepted.jobs.len();
    let parts = || Parts::of(accepted, plan);
    let more: Vec<u8> = (0..random.between(1, 3)).map(|_| random.between(0, 2) as u8).collect();
    let mut made = vec![
        ("one byte", changed(random, plan, 0..plan.len())),
        ("cut", plan[..random.index(plan.len())].to_vec()),
        ("lengthened", [plan, &more].concat()),
    ];
    if k > 0 {
        let pairs = 1 + 8 * k..plan.len();
        let guessed = changed(random, plan, 1..1 + 8 * k);
        made.push(("two guesses", changed(random, &guessed, 1..1 + 8 * k)));
        made.push(("one guess", guessed));
        made.push(("one round or value", changed(random, plan, pairs)));
        made.push(("one pair", changed_pair(random, &mut parts())));
    }
    if k > 1 {
        made.push(("exchanged", exchanged(random, &mut parts())));
        made.extend(moved_in(random, accepted, &mut parts()).map(|plan| ("moved in", plan)));
    }
    made
}

/// Some plans of a table: plans of orders and what is near to them, plans of orders without locks,
/// and drawn plans.
pub fn some_plans(random: &mut Random, accepted: &Accepted) -> Vec<Named> {
    let mut made = Vec::new();
    for _ in 0..2 {
        let plan = random_plan(random, accepted);
        made.extend(variants(random, accepted, &plan));
        made.push(("legal", plan));
        let unlocked = unlocked_plan(random, accepted);
        made.push(("over locks, one byte", changed(random, &unlocked, 0..unlocked.len())));
        made.push(("over locks", unlocked));
        if !accepted.jobs.is_empty() {
            made.push(("drawn", drawn_plan(random, accepted)));
        }
    }
    made
}

/// Bytes of this length that were not made as a plan: any bytes, any after the first byte k, or
/// mostly zeros after it.
pub fn random_bytes(random: &mut Random, k: usize, length: usize) -> Vec<Named> {
    let any: Vec<u8> = (0..length).map(|_| random.byte()).collect();
    let mut begun = any.clone();
    let likely = |_| if random.chance(9, 10) { 0 } else { random.between(0, 2) as u8 };
    let mut zeros: Vec<u8> = (0..length).map(likely).collect();
    for bytes in [&mut begun, &mut zeros] {
        bytes.iter_mut().take(1).for_each(|first| *first = k as u8);
    }
    vec![("any bytes", any), ("bytes after k", begun), ("mostly zeros", zeros)]
}
