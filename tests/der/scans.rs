//! Tests of indefinite-length contents, from outside the library like a user's code.

mod bodies;
mod readers;
mod walks;
