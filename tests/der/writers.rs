//! Tests of writing and of orders by encodings, from outside the library like a user's code.

mod orders;
mod writing;
