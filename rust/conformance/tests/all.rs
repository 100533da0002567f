//! All tests of this crate, in one program: it is built and linked once, and its tests run side by side.

mod conversions;
mod documents;
mod entries;
mod interfaces;
mod orders;
mod plans;
mod reader;
mod requests;
mod sheet;
mod texts;
mod walk;
mod writer;
