//! What the tests share: the paper's table X, families of tables, buffers with a pattern, calls of
//! every entry, listings of all orders and all plans that use neither the walk nor the conversions,
//! random orders and plans, in which ways an order's jobs use their locks, tables without their
//! holding times, tables with other lowest values of their Picks, what the proved entries must
//! answer, calls that compare it, and a tally of the numbers that came up.

pub mod cases;
pub mod comparison;
pub mod entries;
pub mod families;
pub mod lifting;
pub mod listing;
pub mod lock_use;
pub mod orders;
pub mod plans;
pub mod proved;
pub mod tally;
pub mod waits;
