//! The rules of contents octets, against what others say of the same octets.
use super::rows::{GENERALIZED_TIMES, READ, REALS, STRINGS, UTC_TIMES};
use crate::checks::{holds_at, same_at};
use schema_rules::{broken_rule, size_of};
use ber::Universal;
use std::process::Abort;

// 0 for contents that are DER, 1 for those that are BER alone, and 2 for others.
fn class(universal: Universal, contents: &[u8]) -> u8 {
    match broken_rule(universal, contents) {
        None => 0,
        Some(rule) if rule.is_ber() => 1,
        Some(_) => 2,
    }
}

fn are_judged(rt: &impl Abort, universal: Universal, times: &[(&str, u8)]) {
    for (time, expected) in times {
        same_at(rt, *time, class(universal, time.as_bytes()), *expected);
    }
}

#[test]
fn times_as_openssl_reads_them(rt: HostRuntime) {
    are_judged(&rt, Universal::UtcTime, &UTC_TIMES);
    are_judged(&rt, Universal::GeneralizedTime, &GENERALIZED_TIMES);
}

#[test]
fn contents_that_openssl_reads(rt: HostRuntime) {
    for row in 0..READ.len() {
        let (universal, contents, is_read) = READ[row];
        holds_at(&rt, row, (class(universal, contents) < 2) == is_read);
    }
}

#[test]
fn strings_that_python_decodes(rt: HostRuntime) {
    for row in 0..STRINGS.len() {
        let (universal, contents, count) = STRINGS[row];
        match count {
            Some(count) => {
                same_at(&rt, row, class(universal, contents), 0);
                same_at(&rt, row, size_of(universal, contents), count);
            }
            None => same_at(&rt, row, class(universal, contents), 2),
        }
    }
}

#[test]
fn reals_that_pyasn1_encodes(rt: HostRuntime) {
    for row in 0..REALS.len() {
        same_at(&rt, row, class(Universal::Real, REALS[row].0), 0);
    }
}
