//! The walk of the section "Orders of steps", with number 21.

use crate::machine::values_on_offer;
use crate::numbers::{JobNumber, TaskNumber};
use crate::order::{Ending, State};
use crate::timing::Accepted;

/// What a walk comes to.
#[derive(Debug, Clone, PartialEq, Eq)]
pub enum Outcome {
    /// No complete order has a failed assertion; the count is all moves of the tree.
    Holds { count: u64 },
    /// The first complete order with a failed assertion; the count is the moves made up to there.
    Fails { count: u64, order: Vec<u8>, ending: Ending },
    /// Number 21: "the walk's count exceeds the allowance, and only then".
    Undecided,
}

/// Why a walk stops before its end.
enum Stop {
    Failing(Ending),
    Undecided,
}

/// The walk under way: the moves made and the bytes that lead to the present state.
struct Walk<'a> {
    accepted: &'a Accepted,
    allowance: u64,
    count: u64,
    path: Vec<u8>,
}

/// "It goes depth first and stops at the first complete order with a failed assertion."
pub fn walk(accepted: &Accepted, allowance: u64) -> Outcome {
    let mut walk = Walk { accepted, allowance, count: 0, path: Vec::new() };
    match walk.visit(&State::first(accepted)) {
        Ok(()) => Outcome::Holds { count: walk.count },
        Err(Stop::Undecided) => Outcome::Undecided,
        Err(Stop::Failing(ending)) => {
            Outcome::Fails { count: walk.count, order: walk.path, ending }
        }
    }
}

impl Walk<'_> {
    /// The tree from a state on. A state in which all jobs have ended has no moves.
    fn visit(&mut self, state: &State) -> Result<(), Stop> {
        if state.all_ended() {
            let ending = state.ending();
            return if ending.failed_jobs == 0 { Ok(()) } else { Err(Stop::Failing(ending)) };
        }
        moves(self.accepted, state).into_iter().try_for_each(|byte| self.try_move(state, byte))
    }

    /// One move: counted once, and not made if the count would pass the allowance.
    fn try_move(&mut self, state: &State, byte: u8) -> Result<(), Stop> {
        if self.count == self.allowance {
            return Err(Stop::Undecided);
        }
        let mut next = state.clone();
        next.step(self.accepted, byte).expect("a listed move is an allowed step");
        self.count += 1;
        self.path.push(byte);
        self.visit(&next)?;
        self.path.pop();
        Ok(())
    }
}

/// "at a state it tries the running job's step, then each start by ascending task, and Pick values
/// ascending." 02, E7: "The first failing order is over the new lists."
pub fn moves(accepted: &Accepted, state: &State) -> Vec<u8> {
    let running = state.active.last().copied();
    let mut candidates: Vec<JobNumber> = running.into_iter().collect();
    for task in (0..accepted.table.tasks.len()).map(|task| TaskNumber(task as u8)) {
        let of_task = accepted.job_numbers().filter(|job| accepted.base(*job) == task);
        candidates.extend(of_task.filter(|job| state.may_start(accepted, *job)));
    }
    let mut bytes = Vec::new();
    for job in candidates {
        let values = values_on_offer(state.next_instruction(accepted, job));
        bytes.extend(values.map(|value| 16 * accepted.base(job).0 + value));
    }
    bytes
}
