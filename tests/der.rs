//! Tests of `der`, `der_core` and `der_base`, from outside the library like a user's code.

mod decoding;
mod readers;
mod scans;
mod strings;
mod writers;
