//! How much stack the proved walk needs on a table whose order is as long as any.

use crate::walker::STEPS;
use adqurim::{raw, Rule};
use conformance::cases::tasks;
use generator::code;
use std::io::Result;
use std::process::{Command, Stdio};

/// The argument that tells a child to walk; the thread's stack in KiB comes after it.
const ARGUMENT: &str = "stack";
/// A stack's size is whole pages.
pub const PAGE_KIB: usize = 4;
/// The most that is tried.
const MOST_KIB: usize = 65_536;

/// A task with 32 jobs of 15 Picks and an End: the walk's first path has 512 moves, and of 480 of
/// them it has to come back for another.
fn deepest() -> Vec<u8> {
    let body = [&[code::pick(0, 1); 15][..], &[code::end()]].concat();
    tasks(32, &[[1, 1, 0]], &body).write()
}

/// Walks the deepest table in a thread with so much stack. An overflow ends the process.
fn walk_with(kib: usize) -> Result<()> {
    let walk = || {
        let answer = raw::walk(&deepest(), STEPS as u64, &mut [0; STEPS]);
        assert_eq!(answer.number, Rule::Undecided as u64);
    };
    let thread = std::thread::Builder::new().stack_size(kib * 1024).spawn(walk)?;
    thread.join().expect("both sides agree on the deepest table");
    Ok(())
}

/// What a child does, if this process is one.
pub fn answer_parent() -> Option<Result<()>> {
    let mut arguments = std::env::args().skip(1);
    let kib = arguments.next().filter(|name| name == ARGUMENT).and(arguments.next())?;
    Some(walk_with(kib.parse().expect("the parent gives a size")))
}

/// Whether the walk of the deepest table survives in a thread with so much stack.
fn survives(kib: usize) -> Result<bool> {
    let mut child = Command::new(std::env::current_exe()?);
    let status = child.args([ARGUMENT, &kib.to_string()]).stderr(Stdio::null()).status()?;
    Ok(status.success())
}

/// The least stack in KiB with which the walk survives, by halving; more than is tried is an error.
pub fn least_kib() -> Result<usize> {
    let (mut low, mut high) = (0, MOST_KIB / PAGE_KIB);
    assert!(survives(MOST_KIB)?, "the walk needs over {MOST_KIB} KiB");
    while low + 1 < high {
        let middle = low + (high - low) / 2;
        match survives(middle * PAGE_KIB)? {
            true => high = middle,
            false => low = middle,
        }
    }
    Ok(high * PAGE_KIB)
}
