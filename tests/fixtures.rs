//! What the tests of several crates share: readers and calls of them, octets that they read,
//! encodings of tags and lengths, and errors.

pub mod again;
pub mod bodies;
pub mod calls;
pub mod changes;
pub mod constants;
pub mod encodings;
pub mod errors;
pub mod readers;
