//! Waiting for a lower task's lock (document 02, E4).

mod by_hand;
mod hostile;
mod reads;
mod runs;
pub mod without_holding;
