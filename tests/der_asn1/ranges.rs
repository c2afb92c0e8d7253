//! INTEGERs with bounds.
use crate::checks::{holds, same_at};
use der::{Encode, Error, ErrorKind, Length, Tag};
use der_asn1::{Explicit, IntegerIn, lawful_from_der};
use std::alloc::Global;

// Version of RFC 5280, 4.1.2.1: v1(0), v2(1), v3(2).
type CertificateVersion = IntegerIn<0, 2>;

// The path length of RFC 5280, 4.2.1.9, without an upper bound but that of 64 bits.
type PathLength = IntegerIn<0, 18446744073709551615>;

// A lower bound that is not zero.
type Iterations = IntegerIn<1000, 2000>;

// The version in this element with the explicit tag [0], and whether it is written exactly as it was
// read.
fn version(alloc: Global, octets: &[u8]) -> Result<(u64, bool), Error> {
    let version: Explicit<CertificateVersion, 0> = lawful_from_der(alloc, octets)?;
    let written = version.to_der(alloc)?;
    Ok((version.0.get(), written.as_slice() == octets))
}

fn path_length(alloc: Global, octets: &[u8]) -> Result<(u64, bool), Error> {
    let length: PathLength = lawful_from_der(alloc, octets)?;
    let written = length.to_der(alloc)?;
    Ok((length.get(), written.as_slice() == octets))
}

fn iterations(alloc: Global, octets: &[u8]) -> Result<(u64, bool), Error> {
    let number: Iterations = lawful_from_der(alloc, octets)?;
    let written = number.to_der(alloc)?;
    Ok((number.get(), written.as_slice() == octets))
}

// The error for the contents, at the position after their last octet.
fn refused(end: u32) -> Result<(u64, bool), Error> {
    Err(ErrorKind::Value { tag: Tag::Integer }.at(Length::new(end)))
}

#[test]
fn versions_are_read_and_others_refused(rt: HostRuntime) {
    let rows: [(&[u8], Result<(u64, bool), Error>); 6] = [
        (&[0xA0, 3, 2, 1, 0], Ok((0, true))),
        (&[0xA0, 3, 2, 1, 1], Ok((1, true))),
        (&[0xA0, 3, 2, 1, 2], Ok((2, true))),
        (&[0xA0, 3, 2, 1, 3], refused(5)),
        (&[0xA0, 3, 2, 1, 0xFF], refused(5)),
        (&[0xA0, 4, 2, 2, 0, 2], refused(6)),
    ];
    for (row, (octets, expected)) in rows.into_iter().enumerate() {
        same_at(&rt, row, version(rt.alloc(), octets), expected);
    }
}

#[test]
fn both_bounds_are_included(rt: HostRuntime) {
    let rows: [(&[u8], Result<(u64, bool), Error>); 4] = [
        (&[2, 2, 0x03, 0xE8], Ok((1000, true))),
        (&[2, 2, 0x07, 0xD0], Ok((2000, true))),
        (&[2, 2, 0x03, 0xE7], refused(4)),
        (&[2, 2, 0x07, 0xD1], refused(4)),
    ];
    for (row, (octets, expected)) in rows.into_iter().enumerate() {
        same_at(&rt, row, iterations(rt.alloc(), octets), expected);
    }
    let most = [2, 9, 0, 0xFF, 0xFF, 0xFF, 0xFF, 0xFF, 0xFF, 0xFF, 0xFF];
    let expected = Ok((0xFFFF_FFFF_FFFF_FFFF, true));
    same_at(&rt, 4, path_length(rt.alloc(), &most), expected);
    let more = [2, 9, 1, 0, 0, 0, 0, 0, 0, 0, 0];
    same_at(&rt, 5, path_length(rt.alloc(), &more), refused(11));
}

// The octets of the INTEGER of this number of iterations, if it is within the bounds.
fn written(alloc: Global, number: u64) -> Result<Option<Vec<u8>>, Error> {
    match Iterations::new(number) {
        Some(number) => Ok(Some(number.to_der(alloc)?)),
        None => Ok(None),
    }
}

#[test]
fn numbers_are_constructed_within_the_bounds(rt: HostRuntime) {
    let rows: [(u64, Option<&[u8]>); 4] = [
        (999, None),
        (1000, Some(&[2, 2, 0x03, 0xE8])),
        (2000, Some(&[2, 2, 0x07, 0xD0])),
        (2001, None),
    ];
    for (row, (number, expected)) in rows.into_iter().enumerate() {
        match written(rt.alloc(), number) {
            Ok(Some(octets)) => same_at(&rt, row, Some(octets.as_slice()), expected),
            Ok(None) => same_at(&rt, row, None, expected),
            Err(error) => same_at(&rt, row, Some(error), None),
        }
    }
    holds(&rt, CertificateVersion::new(3).is_none());
}
