//! Tests of decoding by traits, from outside the library like a user's code.

mod basic;
mod distinguished;
