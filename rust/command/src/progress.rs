//! Walks that show that they are running.

use crate::Streams;
use adqurim::{Refusal, Rule, Verdict};
use std::time::Instant;

/// The allowance of the first try. A walk that needs fewer moves is too short to be watched.
const FIRST_TRY: u64 = 1 << 20;
/// How the allowance grows. The tries before the last make less than twice its moves together.
const GROWTH: u64 = 2;

/// The allowances to try, up to the one that is asked for and with it.
pub fn allowances(asked: u64) -> impl Iterator<Item = u64> {
    let grown = std::iter::successors(Some(FIRST_TRY), |tried| tried.checked_mul(GROWTH));
    grown.take_while(move |tried| *tried < asked).chain([asked])
}

/// The walk with this allowance. If someone watches, smaller allowances come first, and each that
/// leaves the walk undecided is told. The answer is the same: an allowance decides only whether
/// the walk is undecided.
pub fn walk(file: &[u8], asked: u64, streams: &mut Streams) -> Result<Verdict, Refusal> {
    if !streams.watched {
        return adqurim::walk(file, asked);
    }
    for allowance in allowances(asked) {
        let from = Instant::now();
        let answer = adqurim::walk(file, allowance);
        if allowance == asked || !undecided(&answer) {
            return answer;
        }
        let next = allowance.saturating_mul(GROWTH).min(asked);
        let rate = allowance as f64 / from.elapsed().as_secs_f64();
        let seconds = next as f64 / rate;
        // A walk goes on if its progress cannot be shown.
        let _ = writeln!(
            streams.errors,
            "adqurim: {allowance} moves made without a verdict, {rate:.0} a second; \
             now up to {next} moves, about {seconds:.0} s"
        );
    }
    unreachable!("the last allowance is the one that is asked for")
}

fn undecided(answer: &Result<Verdict, Refusal>) -> bool {
    matches!(answer, Err(refusal) if refusal.rule() == Some(Rule::Undecided))
}
