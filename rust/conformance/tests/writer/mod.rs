//! Tables in memory and the writer (document 02, E2).

pub mod differential;
pub mod filled;
mod refusals;
mod rewritten;
