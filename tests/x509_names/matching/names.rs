//! Names compared with each other and with the bases of subtrees. The expected answers are those of openssl.
use crate::checks::{holds_at, same_at};
use crate::x509_names::matching::openssl::{Case, SUBJECTS, SUBTREES};
use der::DecodeBytes;
use std::alloc::Global;
use x509::Name;
use x509_names::{is_name_within, names_match};

fn matches(alloc: Global, case: &Case) -> Option<bool> {
    let first = Name::from_der(alloc, case.0).ok()?;
    let second = Name::from_der(alloc, case.1).ok()?;
    Some(names_match(alloc, &first, &second))
}

fn is_within(alloc: Global, case: &Case) -> Option<bool> {
    let base = Name::from_der(alloc, case.0).ok()?;
    let name = Name::from_der(alloc, case.1).ok()?;
    Some(is_name_within(alloc, &base, &name))
}

#[test]
fn names_match_as_openssl_says(rt: HostRuntime) {
    for (row, case) in SUBJECTS.iter().enumerate() {
        match matches(rt.alloc(), case) {
            Some(answer) => same_at(&rt, row, answer, case.2),
            None => holds_at(&rt, row, false),
        }
    }
}

#[test]
fn names_are_within_subtrees_as_openssl_says(rt: HostRuntime) {
    for (row, case) in SUBTREES.iter().enumerate() {
        match is_within(rt.alloc(), case) {
            Some(answer) => same_at(&rt, row, answer, case.2),
            None => holds_at(&rt, row, false),
        }
    }
}
