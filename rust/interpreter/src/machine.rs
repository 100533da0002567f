//! The section "Instructions", with the lock counts of document 02, E3, and its Picks of E7.

use crate::file::MOST_LOCKS;
use crate::numbers::TaskNumber;
use std::ops::RangeInclusive;

/// The shared variables 0 to 7. "Values are bytes."
pub type Store = [u8; 8];

/// One instruction with its fields, already in range (lock numbers aside, which number 9 checks).
#[derive(Debug, Clone, Copy, PartialEq, Eq)]
pub enum Instruction {
    End,
    Load { register: usize, variable: usize },
    Store { variable: usize, register: usize },
    Set { register: usize, number: u8 },
    Add { to: usize, from: usize },
    Subtract { to: usize, from: usize },
    SkipIfLess { left: usize, right: usize, count: usize },
    SkipIfEqual { left: usize, right: usize, count: usize },
    Pick { register: usize, lowest: u8, highest: u8 },
    Acquire { lock: usize },
    Release { lock: usize },
    Assert { register: usize },
}

/// "A job has registers 0 to 3": a register field in range.
fn register(field: u8) -> Option<usize> {
    (field < 4).then_some(field as usize)
}

/// "shared variables 0 to 7": a variable field in range.
fn variable(field: u8) -> Option<usize> {
    (field < 8).then_some(field as usize)
}

/// The list of operations, with "Unused fields are zero", "b at most 15" and "c is 0 to 15". 02, E7:
/// "Field c of Pick becomes the lowest value, c ≤ b ≤ 15", and "4 for c above b".
/// None is a value out of range or an unused field that is not zero (number 4).
pub fn decode(operation: u8, a: u8, b: u8, c: u8) -> Option<Instruction> {
    let uses_b = (1..=8).contains(&operation);
    let uses_c = (6..=8).contains(&operation);
    if (!uses_b && b != 0) || (!uses_c && c != 0) || c > 15 {
        return None;
    }
    let count = c as usize;
    Some(match operation {
        0 if a == 0 => Instruction::End,
        1 => Instruction::Load { register: register(a)?, variable: variable(b)? },
        2 => Instruction::Store { variable: variable(a)?, register: register(b)? },
        3 => Instruction::Set { register: register(a)?, number: b },
        4 => Instruction::Add { to: register(a)?, from: register(b)? },
        5 => Instruction::Subtract { to: register(a)?, from: register(b)? },
        6 => Instruction::SkipIfLess { left: register(a)?, right: register(b)?, count },
        7 => Instruction::SkipIfEqual { left: register(a)?, right: register(b)?, count },
        8 if c <= b && b <= 15 => {
            Instruction::Pick { register: register(a)?, lowest: c, highest: b }
        }
        9 => Instruction::Acquire { lock: a as usize },
        10 => Instruction::Release { lock: a as usize },
        11 => Instruction::Assert { register: register(a)? },
        _ => return None,
    })
}

/// The operation and the fields a, b and c of an instruction, "Unused fields are zero".
pub fn encode(instruction: Instruction) -> [u8; 4] {
    let byte = |field: usize| field as u8;
    match instruction {
        Instruction::End => [0, 0, 0, 0],
        Instruction::Load { register, variable } => [1, byte(register), byte(variable), 0],
        Instruction::Store { variable, register } => [2, byte(variable), byte(register), 0],
        Instruction::Set { register, number } => [3, byte(register), number, 0],
        Instruction::Add { to, from } => [4, byte(to), byte(from), 0],
        Instruction::Subtract { to, from } => [5, byte(to), byte(from), 0],
        Instruction::SkipIfLess { left, right, count } => [6, byte(left), byte(right), byte(count)],
        Instruction::SkipIfEqual { left, right, count } => {
            [7, byte(left), byte(right), byte(count)]
        }
        Instruction::Pick { register, lowest, highest } => [8, byte(register), highest, lowest],
        Instruction::Acquire { lock } => [9, byte(lock), 0, 0],
        Instruction::Release { lock } => [10, byte(lock), 0, 0],
        Instruction::Assert { register } => [11, byte(register), 0, 0],
    }
}

/// How many instructions a skip passes over; None for any other instruction.
pub fn skip_count(instruction: Instruction) -> Option<usize> {
    match instruction {
        Instruction::SkipIfLess { count, .. } | Instruction::SkipIfEqual { count, .. } => {
            Some(count)
        }
        _ => None,
    }
}

/// The values a step may carry: "the value being the Pick's choice, else 0". 02, E7: "so the choice
/// runs c to b".
pub fn values_on_offer(instruction: Instruction) -> RangeInclusive<u8> {
    match instruction {
        Instruction::Pick { lowest, highest, .. } => lowest..=highest,
        _ => 0..=0,
    }
}

/// 02, E3: "A job shall hold a count per lock". A body has at most 16 instructions and skips go
/// forward only, so each is performed at most once and a count cannot pass 16.
pub type LockCounts = [u8; MOST_LOCKS];

/// What one job keeps to itself while it runs.
/// "A job has registers 0 to 3, zero at its start, and holds no lock then."
#[derive(Debug, Clone, Copy, PartialEq, Eq, Default)]
pub struct Local {
    pub registers: [u8; 4],
    pub held: LockCounts,
    /// Position in the body of the instruction to be performed next.
    pub position: usize,
    /// "A failed assertion is noted against its job and the run goes on."
    pub failed: bool,
    /// True once its End is done.
    pub ended: bool,
}

/// One step of a job on a store. `value` is the Pick's choice and is not looked at otherwise.
pub fn perform(local: &mut Local, store: &mut Store, instruction: Instruction, value: u8) {
    local.position += 1;
    let registers = &mut local.registers;
    match instruction {
        // 02, E3: "and cleared by End."
        Instruction::End => {
            local.held = LockCounts::default();
            local.ended = true;
        }
        Instruction::Load { register, variable } => registers[register] = store[variable],
        Instruction::Store { variable, register } => store[variable] = registers[register],
        Instruction::Set { register, number } => registers[register] = number,
        // "Sums and differences are taken modulo 256."
        Instruction::Add { to, from } => {
            registers[to] = registers[to].wrapping_add(registers[from])
        }
        Instruction::Subtract { to, from } => {
            registers[to] = registers[to].wrapping_sub(registers[from])
        }
        Instruction::SkipIfLess { left, right, count } => {
            local.position += if registers[left] < registers[right] { count } else { 0 }
        }
        Instruction::SkipIfEqual { left, right, count } => {
            local.position += if registers[left] == registers[right] { count } else { 0 }
        }
        Instruction::Pick { register, .. } => registers[register] = value,
        // 02, E3: "up by one at Acquire, down by one at Release, unchanged at zero". So 01's "either
        // changes nothing if the set is already so" no longer stands for a second Acquire.
        Instruction::Acquire { lock } => local.held[lock] += 1,
        Instruction::Release { lock } if local.held[lock] > 0 => local.held[lock] -= 1,
        Instruction::Release { .. } => {}
        // "Assert, fails if register a is 0."
        Instruction::Assert { register } => local.failed |= registers[register] == 0,
    }
}

/// "A job's priority is the largest of its base and the ceilings it holds." 02, E3: "A ceiling
/// applies while the count is above zero."
pub fn priority(base: TaskNumber, held: &LockCounts, ceilings: &[u8]) -> u8 {
    let applying = ceilings.iter().zip(held).filter(|(_, count)| **count > 0);
    applying.map(|(ceiling, _)| *ceiling).fold(base.0, u8::max)
}
