//! Deterministic generators of task files for tests: tables with their own description and writer,
//! damaged files, random bytes and hostile files; and of tables in memory and of texts, good and
//! bad. Nothing here depends on an interpreter.

pub mod description;
pub mod files;
pub mod holding;
pub mod hostile;
pub mod kinds;
pub mod lifted;
pub mod memory;
pub mod nesting;
pub mod random;
pub mod tables;
pub mod texts;

pub use description::{code, InstructionDescription, TableDescription, TaskDescription};
pub use holding::{full_with_holding, late_by_holding, random_holding, random_long_hold};
pub use lifted::{random_lifted, random_lifted_picks};
pub use nesting::{random_deep_locks, random_nested_locks};
pub use random::Random;
pub use tables::{random_nest, random_race, random_table, Sizes};
