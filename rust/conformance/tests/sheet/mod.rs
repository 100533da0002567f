//! The sheet: its entry, the check program and the samples.

pub mod differential;
mod program;
mod samples;
mod sheets;
