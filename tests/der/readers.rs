//! Tests of readers, and of the tags, lengths and headers that they read, from outside the library
//! like a user's code.

mod basic;
mod distinguished;
