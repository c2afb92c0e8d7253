//! Tests of byte strings, texts and joined segments, from outside the library like a user's code.

mod elements;
mod readers;
mod segments;
mod cases;
