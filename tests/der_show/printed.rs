//! What the program prints, in tests.
use crate::checks::{holds_at, same};
use der_show_lib::{Options, show_in_memory};
use std::alloc::Global;
use std::process::Abort;

/// What is printed for the octets. Aborts the test if the status is another one, or if there is an error.
pub fn is_shown(rt: &impl Abort, alloc: Global, octets: &[u8], status: u8) -> Vec<u8> {
    let finished = show_in_memory(alloc, Options::new(), "f", octets);
    same(rt, finished.status, status);
    same(rt, finished.errors.target.buffer.len(), 0);
    finished.out.target.buffer
}

fn find(printed: &[u8], text: &str) -> bool {
    printed.windows(text.len()).any(|part| part == text.as_bytes())
}

/// Aborts the test if the text is not part of what is printed.
pub fn has(rt: &impl Abort, printed: &Vec<u8>, text: &str) {
    holds_at(rt, format_args!("{text}"), find(printed.as_slice(), text));
}

/// Aborts the test if the text is part of what is printed.
pub fn lacks(rt: &impl Abort, printed: &Vec<u8>, text: &str) {
    holds_at(rt, format_args!("{text}"), !find(printed.as_slice(), text));
}
