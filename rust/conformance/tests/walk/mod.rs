//! The walk over all orders.

mod differential;
mod entry;
mod listing;
