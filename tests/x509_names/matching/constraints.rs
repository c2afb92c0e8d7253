//! Names compared with a nameConstraints. The expected errors are those of openssl.
use crate::checks::{holds_at, same_at};
use crate::x509_names::matching::openssl::{CHAINS, Chain};
use der::DecodeBytes;
use std::alloc::Global;
use x509::{GeneralNames, NameConstraints};
use x509_names::{Verdict, names_verdict};

fn verdict_on(alloc: Global, chain: &Chain) -> Option<Verdict> {
    let constraints = NameConstraints::from_der(alloc, chain.0).ok()?;
    let names = GeneralNames::from_der(alloc, chain.1).ok()?;
    Some(names_verdict(alloc, &constraints, &names))
}

// The verdict that openssl gives by this error: outside of permitted subtrees, within an excluded one,
// a minimum or maximum, a form or a name that it does not compare.
fn verdict_of(error: u8) -> Option<Verdict> {
    match error {
        0 => Some(Verdict::Permitted),
        47 => Some(Verdict::Outside),
        48 => Some(Verdict::Excluded),
        49 | 51 | 53 => Some(Verdict::Unclear),
        _ => None,
    }
}

#[test]
fn names_are_permitted_as_openssl_says(rt: HostRuntime) {
    for (row, chain) in CHAINS.iter().enumerate() {
        match (verdict_on(rt.alloc(), chain), verdict_of(chain.2)) {
            (Some(answer), Some(wanted)) => same_at(&rt, row, answer, wanted),
            _ => holds_at(&rt, row, false),
        }
    }
}
