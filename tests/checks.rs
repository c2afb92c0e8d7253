//! Assertions as functions. Those whose names end in `_at` also print the row that failed.
use std::fmt::{Debug, Display};
use std::process::Abort;

/// Aborts the test if the value is not the expected one.
pub fn same<T: PartialEq + Debug + Drop>(rt: &impl Abort, answer: T, expected: T) {
    assert_eq!(rt; answer, expected);
}

/// Aborts the test if the value is not the expected one, and prints the row.
pub fn same_at<K: Display + Drop, T: PartialEq + Debug + Drop>(
    rt: &impl Abort,
    row: K,
    answer: T,
    expected: T,
) {
    assert_eq!(rt; answer, expected, "at {row}");
}

/// Aborts the test if the octets are not the expected ones, which may be an array.
pub fn same_octets(rt: &impl Abort, answer: &[u8], expected: &[u8]) {
    assert_eq!(rt; answer, expected);
}

/// Aborts the test if the fact is false.
pub fn holds(rt: &impl Abort, fact: bool) {
    assert!(rt; fact);
}

/// Aborts the test if the fact is false, and prints the row.
pub fn holds_at<K: Display + Drop>(rt: &impl Abort, row: K, fact: bool) {
    assert!(rt; fact, "at {row}");
}
