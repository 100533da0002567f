//! The documents for readers: each name that they cite stands in the tree, no line is too long, and the picture of
//! the house is up to date.

mod house;
mod lines;
mod names;
mod spans;
mod tree;
