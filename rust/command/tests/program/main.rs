//! All tests of the program, in one program of their own: it is built and linked once.

mod answers;
mod command;
