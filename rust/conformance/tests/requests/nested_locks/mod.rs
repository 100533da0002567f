//! Locks that nest (document 02, E3).

mod counts;
mod differential;
