//! Picks that need not start at zero (document 02, E7).

mod by_hand;
mod fields;
mod runs;
mod without_lifting;
