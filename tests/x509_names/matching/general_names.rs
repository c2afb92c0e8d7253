//! General names compared with the bases of subtrees. The expected answers are those of openssl.
use crate::checks::{holds_at, same_at};
use crate::x509_names::matching::openssl::{BASES, Case};
use der::DecodeBytes;
use std::alloc::Global;
use x509::GeneralName;
use x509_names::is_within_base;

fn is_within(alloc: Global, case: &Case) -> Option<bool> {
    let base = GeneralName::from_der(alloc, case.0).ok()?;
    let name = GeneralName::from_der(alloc, case.1).ok()?;
    Some(is_within_base(alloc, &base, &name))
}

#[test]
fn names_are_within_bases_as_openssl_says(rt: HostRuntime) {
    for (row, case) in BASES.iter().enumerate() {
        match is_within(rt.alloc(), case) {
            Some(answer) => same_at(&rt, row, answer, case.2),
            None => holds_at(&rt, row, false),
        }
    }
}
