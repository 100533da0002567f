//! The conversions between orders and plans.

mod demand_3;
mod differential;
pub mod there_and_back;
