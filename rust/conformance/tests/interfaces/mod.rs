//! The interfaces of the library: the header for C and C++, the package for Rust, and lent buffers.

mod binding_values;
mod buffers;
mod c_programs;
mod header;
mod refusal_messages;
