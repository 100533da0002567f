//! In which ways the jobs of an order use their locks.

use interpreter::machine::{Instruction, LockCounts};
use interpreter::order::State;
use interpreter::{Accepted, TaskNumber};

/// An Acquire or a Release that a job performed, and how often the job held the lock before it.
#[derive(Debug, Clone, Copy, PartialEq, Eq)]
struct LockStep {
    acquires: bool,
    lock: usize,
    held: u8,
}

/// What one job did with its locks.
#[derive(Debug, Clone, Default)]
pub struct LockUse {
    steps: Vec<LockStep>,
    /// The counts before its End.
    left: LockCounts,
    skipped_acquire: bool,
    skipped_release: bool,
}

/// A way to use locks: its name, and whether a job did so.
pub type Way = (&'static str, fn(&LockUse) -> bool);

/// The ways that a table of locks that nest should have.
pub const WAYS: [Way; 13] = [
    ("taken twice, released once", |job| job.takes_and_leaves(2, 1)),
    ("taken three times, released once", |job| job.takes_and_leaves(3, 1)),
    ("taken three times, released twice", |job| job.takes_and_leaves(3, 2)),
    ("a pair inside a pair", LockUse::nests_a_pair),
    ("two locks, released in the other order", LockUse::crosses),
    ("released before any Acquire", |job| job.releases_none_held(false)),
    ("released once more than taken", |job| job.releases_none_held(true)),
    ("taken after a Release at zero", LockUse::takes_after_releasing_none),
    ("left at End", |job| job.leaves(1)),
    ("left at End, taken twice", |job| job.leaves(2)),
    ("an Acquire skipped", |job| job.skipped_acquire),
    ("a Release skipped", |job| job.skipped_release),
    ("taken eight times", |job| job.steps.iter().any(|step| step.acquires && step.held >= 7)),
];

impl LockUse {
    /// The steps with one lock.
    fn of_lock(&self, lock: usize) -> impl Iterator<Item = &LockStep> {
        self.steps.iter().filter(move |step| step.lock == lock)
    }

    /// Whether the steps of some lock are so.
    fn some_lock(&self, is_so: impl Fn(usize) -> bool) -> bool {
        (0..self.left.len()).any(is_so)
    }

    /// Whether it took a lock so often, released it so often, and kept the rest until its End.
    fn takes_and_leaves(&self, taken: usize, released: usize) -> bool {
        self.some_lock(|lock| {
            let acquires = self.of_lock(lock).filter(|step| step.acquires).count();
            let all = self.of_lock(lock).count();
            (acquires, all) == (taken, taken + released)
                && usize::from(self.left[lock]) == taken - released
        })
    }

    /// Whether it took a lock that it held, released it once while it held it twice, and later for
    /// good.
    fn nests_a_pair(&self) -> bool {
        self.some_lock(|lock| {
            let inner = self.of_lock(lock).position(|step| !step.acquires && step.held == 2);
            let mut after = self.of_lock(lock).skip(inner.map_or(usize::MAX, |at| at + 1));
            after.any(|step| !step.acquires && step.held == 1)
        })
    }

    /// Whether it took two locks and released the first while it held the second.
    fn crosses(&self) -> bool {
        let at = |lock, acquires| {
            let wanted = LockStep { acquires, lock, held: u8::from(!acquires) };
            self.steps.iter().position(|step| *step == wanted)
        };
        let pairs = || (0..self.left.len()).flat_map(|x| (0..self.left.len()).map(move |y| (x, y)));
        pairs().any(|(x, y)| match [at(x, true), at(y, true), at(x, false), at(y, false)] {
            [Some(a), Some(b), Some(c), Some(d)] => a < b && b < c && c < d,
            _ => false,
        })
    }

    /// Whether it released a lock that it did not hold, after it took it or without having.
    fn releases_none_held(&self, after_acquire: bool) -> bool {
        self.some_lock(|lock| {
            let mut taken = false;
            self.of_lock(lock).any(|step| {
                taken |= step.acquires;
                !step.acquires && step.held == 0 && taken == after_acquire
            })
        })
    }

    /// Whether it took a lock that it had released without holding it.
    fn takes_after_releasing_none(&self) -> bool {
        self.some_lock(|lock| {
            let mut released_none = false;
            self.of_lock(lock).any(|step| {
                released_none |= !step.acquires && step.held == 0;
                released_none && step.acquires
            })
        })
    }

    /// Whether it ended with a lock that it held at least so often.
    fn leaves(&self, count: u8) -> bool {
        self.left.iter().any(|left| *left >= count)
    }

    /// Notes an instruction that the job skipped.
    fn note_skipped(&mut self, instruction: Instruction) {
        self.skipped_acquire |= matches!(instruction, Instruction::Acquire { .. });
        self.skipped_release |= matches!(instruction, Instruction::Release { .. });
    }
}

/// What each job of a complete order did with its locks.
pub fn lock_use(accepted: &Accepted, order: &[u8]) -> Vec<LockUse> {
    let mut jobs = vec![LockUse::default(); accepted.jobs.len()];
    let mut state = State::first(accepted);
    for byte in order {
        let job = state.turn(accepted, TaskNumber(byte / 16)).expect("the order is complete");
        let before = state.locals[job.0].unwrap_or_default();
        let instruction = state.next_instruction(accepted, job);
        state.step(accepted, *byte).expect("the order is complete");
        let used = &mut jobs[job.0];
        let mut note = |acquires, lock: usize| {
            used.steps.push(LockStep { acquires, lock, held: before.held[lock] });
        };
        match instruction {
            Instruction::Acquire { lock } => note(true, lock),
            Instruction::Release { lock } => note(false, lock),
            Instruction::End => used.left = before.held,
            _ => {}
        }
        let position = state.locals[job.0].unwrap_or_default().position;
        let skipped = &accepted.task(job).body[before.position + 1..position];
        skipped.iter().for_each(|placed| used.note_skipped(placed.instruction));
    }
    jobs
}
