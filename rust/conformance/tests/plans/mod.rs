//! Round plans and their check.

mod differential;
mod refusals;
