//! Picks that need not start at zero (document 02, E7): the same table with other lowest values, the
//! Picks of an order and of a plan, both with a value just outside what is on offer, and what bodies
//! do with picked values.

use crate::orders::state_after;
use generator::lifted::{LARGEST, PICK};
use generator::{InstructionDescription, Random, TableDescription};
use interpreter::machine::{perform, values_on_offer, Instruction, Local, Store};
use interpreter::order::State;
use interpreter::{Accepted, JobNumber, TaskNumber};
use std::ops::RangeInclusive;

/// The same table whose Picks have other lowest values, made from their lowest and highest ones.
pub fn with_lowest(table: &TableDescription, make: fn(u8, u8) -> u8) -> TableDescription {
    let mut table = table.clone();
    let instructions = table.tasks.iter_mut().flat_map(|task| &mut task.body);
    for pick in instructions.filter(|one| one.operation == PICK) {
        pick.c = make(pick.c, pick.b);
    }
    table
}

/// A Pick that is performed: where its value stands, in an order or in a plan, and what is on offer.
#[derive(Debug, Clone, PartialEq, Eq)]
pub struct Performed {
    pub at: usize,
    pub offer: RangeInclusive<u8>,
}

/// An instruction as a Pick whose value stands there; none if it is another.
fn as_pick(instruction: Instruction, at: usize) -> Option<Performed> {
    let is_pick = matches!(instruction, Instruction::Pick { .. });
    is_pick.then(|| Performed { at, offer: values_on_offer(instruction) })
}

/// The instruction that a step of an order would perform, whose steps before it are allowed.
pub fn instruction_at(accepted: &Accepted, order: &[u8], step: usize) -> Instruction {
    next_instruction(accepted, &state_after(accepted, &order[..step]), order[step])
}

fn next_instruction(accepted: &Accepted, state: &State, byte: u8) -> Instruction {
    let job = state.turn(accepted, TaskNumber(byte / 16)).expect("a job of the task has its turn");
    state.next_instruction(accepted, job)
}

/// The Picks of a complete order.
pub fn picks_of_order(accepted: &Accepted, order: &[u8]) -> Vec<Performed> {
    let (mut state, mut picks) = (State::first(accepted), Vec::new());
    for (step, byte) in order.iter().enumerate() {
        picks.extend(as_pick(next_instruction(accepted, &state, *byte), step));
        state.step(accepted, *byte).expect("the order is complete");
    }
    picks
}

/// The instruction that each step of a plan performs, with the offset of the step's value. Steps from
/// the first whose round is none are left out, and what the plan lacks.
pub fn instructions_of_plan(accepted: &Accepted, plan: &[u8]) -> Vec<(usize, Instruction)> {
    let mut stores = guesses(accepted, plan);
    let mut found = Vec::new();
    let mut offset = 1 + 8 * stores.len();
    for job in accepted.job_numbers() {
        let mut local = Local::default();
        while !local.ended {
            let Some([round, value]) = plan.get(offset..).and_then(<[u8]>::first_chunk) else {
                return found;
            };
            let Some(store) = stores.get_mut(usize::from(*round)) else { return found };
            let instruction = next_of(accepted, job, &local);
            found.push((offset + 1, instruction));
            perform(&mut local, store, instruction, *value);
            offset += 2;
        }
    }
    found
}

/// A plan's guesses; none if it has not all of them.
fn guesses(accepted: &Accepted, plan: &[u8]) -> Vec<Store> {
    let bytes = plan.get(1..1 + 8 * accepted.jobs.len()).unwrap_or_default();
    bytes.chunks(8).map(|guess| guess.try_into().expect("a store has eight bytes")).collect()
}

fn next_of(accepted: &Accepted, job: JobNumber, local: &Local) -> Instruction {
    accepted.task(job).body[local.position].instruction
}

/// The Picks of a plan.
pub fn picks_of_plan(accepted: &Accepted, plan: &[u8]) -> Vec<Performed> {
    let steps = instructions_of_plan(accepted, plan).into_iter();
    steps.filter_map(|(at, instruction)| as_pick(instruction, at)).collect()
}

/// A value next to those on offer, one below or one above. An order has room for values up to 15.
fn beside(random: &mut Random, offer: &RangeInclusive<u8>, most: u8) -> Option<u8> {
    let below = offer.start().checked_sub(1);
    let above = Some(offer.end() + 1).filter(|value| *value <= most);
    match random.chance(1, 2) {
        true => below.or(above),
        false => above.or(below),
    }
}

/// The order with a value just outside what one of its Picks offers; none if it has no such Pick.
pub fn order_outside(random: &mut Random, accepted: &Accepted, order: &[u8]) -> Option<Vec<u8>> {
    let Performed { at, offer } = some(random, picks_of_order(accepted, order))?;
    let value = beside(random, &offer, LARGEST)?;
    let mut changed = order.to_vec();
    changed[at] = changed[at] / 16 * 16 + value;
    Some(changed)
}

/// The same of a legal plan, whose values may be any bytes.
pub fn plan_outside(random: &mut Random, accepted: &Accepted, plan: &[u8]) -> Option<Vec<u8>> {
    let Performed { at, offer } = some(random, picks_of_plan(accepted, plan))?;
    let mut changed = plan.to_vec();
    changed[at] = beside(random, &offer, u8::MAX)?;
    Some(changed)
}

/// One of some Picks.
pub fn some(random: &mut Random, mut picks: Vec<Performed>) -> Option<Performed> {
    match picks.len() {
        0 => None,
        many => Some(picks.swap_remove(random.index(many))),
    }
}

/// How often a value that is not on offer was below what a Pick offers, above it, or the value of
/// another instruction.
#[derive(Debug, Default)]
pub struct Sides {
    pub below: u64,
    pub above: u64,
    pub no_pick: u64,
}

impl Sides {
    pub fn note(&mut self, instruction: Instruction, value: u8) {
        let offer = values_on_offer(instruction);
        assert!(!offer.contains(&value), "{instruction:?} offers {value}");
        match instruction {
            Instruction::Pick { .. } if value < *offer.start() => self.below += 1,
            Instruction::Pick { .. } => self.above += 1,
            _ => self.no_pick += 1,
        }
    }
}

/// Operations that use a picked value, and those that begin and end what is done under a lock.
const STORE: u8 = 2;
const ADD: u8 = 4;
const SUBTRACT: u8 = 5;
const LESS: u8 = 6;
const EQUAL: u8 = 7;
const ACQUIRE: u8 = 9;
const RELEASE: u8 = 10;
const ASSERT: u8 = 11;

/// What a body may have: a name, and whether it has it.
pub type Sort = (&'static str, fn(&[InstructionDescription]) -> bool);

/// What the bodies of tables with Picks above zero should have, so that they are not all of one sort.
pub const SORTS: [Sort; 12] = [
    ("a Pick above zero at its start", |body| is_lifted(&body[0])),
    ("a Pick above zero later", |body| body[1..].iter().any(is_lifted)),
    ("a Pick from zero", |body| body.iter().any(|one| one.operation == PICK && one.c == 0)),
    ("a Pick of one value above zero", |body| lifted_as(body, |one| one.c == one.b)),
    ("a Pick of several values above zero", |body| lifted_as(body, |one| one.c < one.b)),
    ("a Pick of the largest value alone", |body| lifted_as(body, |one| one.c == LARGEST)),
    ("a Pick above zero under a lock", |body| picks_under_lock(body)),
    ("a picked value that is stored", |body| {
        uses(body, |one, value| is(one, STORE, [None, value]))
    }),
    ("a picked value that is added", |body| uses(body, |one, value| is(one, ADD, [None, value]))),
    ("a picked value that is taken from", |body| {
        uses(body, |one, value| is(one, SUBTRACT, [value, None]))
    }),
    ("a picked value that is compared", |body| {
        uses(body, |one, value| is(one, LESS, [value, None]) || is(one, EQUAL, [value, None]))
    }),
    ("a picked value that is asserted", |body| {
        uses(body, |one, value| is(one, ASSERT, [value, None]))
    }),
];

fn is_lifted(one: &InstructionDescription) -> bool {
    one.operation == PICK && one.c > 0
}

fn lifted_as(body: &[InstructionDescription], is_so: fn(&InstructionDescription) -> bool) -> bool {
    body.iter().filter(|one| is_lifted(one)).any(is_so)
}

/// Whether an instruction has this operation, and these fields a and b where they are given.
fn is(one: &InstructionDescription, operation: u8, [a, b]: [Option<u8>; 2]) -> bool {
    let fits = |given: Option<u8>, field| given.is_none_or(|given| given == field);
    one.operation == operation && fits(a, one.a) && fits(b, one.b)
}

/// Whether an instruction after a Pick above zero uses its register so.
fn uses(
    body: &[InstructionDescription],
    is_so: fn(&InstructionDescription, Option<u8>) -> bool,
) -> bool {
    let mut picks = body.iter().enumerate().filter(|(_, one)| is_lifted(one));
    picks.any(|(at, pick)| body[at..].iter().any(|one| is_so(one, Some(pick.a))))
}

/// Whether a Pick above zero comes after an Acquire and before the next Release.
fn picks_under_lock(body: &[InstructionDescription]) -> bool {
    let acquired = body.iter().skip_while(|one| one.operation != ACQUIRE);
    acquired.take_while(|one| one.operation != RELEASE).any(is_lifted)
}
