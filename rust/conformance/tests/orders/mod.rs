//! Orders and their replay.

mod differential;
mod refusals;
