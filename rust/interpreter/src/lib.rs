//! An interpreter of document 01, as E1 to E5 and E7 of document 02 change it. It is written from
//! their texts alone and used as a second opinion in tests.
//!
//! One module renders one section of document 01; [`memory`] and [`writer`] render E2, [`grammar`]
//! and [`text`] E5, and [`claims`] what these two share. The entries, one for each thing a caller
//! may ask, are in [`entries`] and re-exported here. Inside the modules nothing is checked twice: a
//! value of type [`Accepted`] exists only for a table that earned no number.

pub mod claims;
pub mod conversion;
pub mod entries;
pub mod file;
pub mod grammar;
pub mod machine;
pub mod memory;
pub mod numbers;
pub mod order;
pub mod plan;
pub mod sheet;
pub mod text;
pub mod timing;
pub mod walk;
pub mod writer;

pub use entries::{
    check_plan, file_to_text, job_list, order_to_plan, plan_to_order, read, replay, table,
    text_to_file, walk, write, ConversionAnswer, JobListAnswer, ReadAnswer, RunAnswer, Verdict,
    WalkAnswer, WriteAnswer,
};
pub use numbers::{JobNumber, Refusal, RoundNumber, TaskNumber};
pub use sheet::sheet;
pub use timing::{Accepted, JobRecord};
