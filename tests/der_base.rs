//! Tests of the values of `der_base` and of their printed texts against examples from outside the
//! library, with which no clause compares them.

mod class;
mod error;
mod length;
mod names;
mod tag;
