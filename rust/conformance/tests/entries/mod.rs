//! Every entry on the same files.

mod bench_cases;
mod check_order;
mod refusals;
mod robustness;
mod shuffled;
