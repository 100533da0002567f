//! Texts of tables (document 02, E5).

mod differential;
mod messages;
pub mod refusals;
mod there_and_back;
