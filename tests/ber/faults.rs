//! Octets that begin with no header: each kind of fault, with its offset. `openssl asn1parse` refuses
//! those of `refused` too, except a number below 31 in two octets.
use crate::checks::same;
use ber::{Fault, FaultKind, Header, read_header};
use std::process::Abort;

fn fails(rt: &impl Abort, octets: &[u8], kind: FaultKind, offset: usize) {
    let expected: Result<Header, Fault> = Err(Fault { kind, offset });
    same(rt, read_header(octets), expected);
}

fn ends(rt: &impl Abort, octets: &[u8], needed: usize) {
    fails(rt, octets, FaultKind::Truncated { needed }, octets.len());
}

#[test]
fn refused(rt: HostRuntime) {
    fails(&rt, &[0x9F, 0x80, 0], FaultKind::TagNumberPadded, 1);
    fails(&rt, &[0x9F, 0x1E, 0], FaultKind::TagNumberTooSmall, 1);
    fails(
        &rt,
        &[0x5F, 0x90, 0x80, 0x80, 0x80, 0, 1, 0],
        FaultKind::TagNumberTooLarge,
        4,
    );
    fails(&rt, &[0x30, 0xFF, 5, 0], FaultKind::LengthReserved, 1);
    fails(
        &rt,
        &[4, 0x85, 1, 0, 0, 0, 0, 0xAA],
        FaultKind::LengthTooLarge,
        1,
    );
    fails(&rt, &[2, 0x80, 0, 0], FaultKind::PrimitiveIndefinite, 1);
    fails(
        &rt,
        &[0x9F, 0x81, 0x48, 0x80],
        FaultKind::PrimitiveIndefinite,
        3,
    );
}

#[test]
fn truncated(rt: HostRuntime) {
    ends(&rt, &[], 2);
    ends(&rt, &[0x30], 2);
    ends(&rt, &[0x9F], 3);
    ends(&rt, &[0x9F, 0x81], 4);
    ends(&rt, &[0x9F, 0x81, 0x48], 4);
    ends(&rt, &[0x30, 0x82], 4);
    ends(&rt, &[0x30, 0x82, 1], 4);
    ends(&rt, &[0x9F, 0x81, 0x48, 0xFE, 0], 130);
}
