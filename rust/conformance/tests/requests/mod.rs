//! Change requests of document 02 that several entries meet at once. E1 is tested in `orders`, E2 in
//! `writer` and E5 in `texts`.

mod lifted_picks;
mod nested_locks;
mod rounding;
mod waits;
