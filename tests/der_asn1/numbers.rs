//! INTEGERs as numbers.
use crate::checks::same_at;
use der::{Encode, Error, ErrorKind, Length, Tag};
use der_asn1::{IntRef, IntegerNumber, IntegerOf, lawful_from_der};
use std::alloc::Global;

// The number in this element, and whether it is written exactly as it was read.
fn number<N: IntegerNumber + Drop>(alloc: Global, octets: &[u8]) -> Result<(N, bool), Error> {
    let value: IntegerOf<N> = lawful_from_der(alloc, octets)?;
    let written = value.to_der(alloc)?;
    Ok((value.number, written.as_slice() == octets))
}

// The error for the contents, at the position after their last octet.
fn refused<N>(end: u32) -> Result<(N, bool), Error> {
    Err(ErrorKind::Value { tag: Tag::Integer }.at(Length::new(end)))
}

#[test]
fn numbers_of_8_bits_are_read_and_larger_or_negative_ones_refused(rt: HostRuntime) {
    let rows: [(&[u8], Result<(u8, bool), Error>); 8] = [
        (&[2, 1, 0], Ok((0, true))),
        (&[2, 1, 0x7F], Ok((127, true))),
        (&[2, 2, 0, 0x80], Ok((128, true))),
        (&[2, 2, 0, 0xFF], Ok((255, true))),
        (&[2, 2, 1, 0], refused(4)),
        (&[2, 1, 0x80], refused(3)),
        (&[2, 2, 0, 1], refused(4)),
        (&[2, 0], refused(2)),
    ];
    for (row, (octets, expected)) in rows.into_iter().enumerate() {
        same_at(&rt, row, number::<u8>(rt.alloc(), octets), expected);
    }
}

#[test]
fn numbers_of_32_bits_are_read_and_larger_or_negative_ones_refused(rt: HostRuntime) {
    let rows: [(&[u8], Result<(u32, bool), Error>); 4] = [
        (&[2, 3, 1, 0, 1], Ok((65537, true))),
        (&[2, 5, 0, 0xFF, 0xFF, 0xFF, 0xFF], Ok((0xFFFF_FFFF, true))),
        (&[2, 5, 1, 0, 0, 0, 0], refused(7)),
        (&[2, 1, 0xFF], refused(3)),
    ];
    for (row, (octets, expected)) in rows.into_iter().enumerate() {
        same_at(&rt, row, number::<u32>(rt.alloc(), octets), expected);
    }
}

#[test]
fn numbers_of_64_bits_are_read_and_larger_or_negative_ones_refused(rt: HostRuntime) {
    let most = [2, 9, 0, 0xFF, 0xFF, 0xFF, 0xFF, 0xFF, 0xFF, 0xFF, 0xFF];
    let more = [2, 9, 1, 0, 0, 0, 0, 0, 0, 0, 0];
    let rows: [(&[u8], Result<(u64, bool), Error>); 4] = [
        (&most, Ok((0xFFFF_FFFF_FFFF_FFFF, true))),
        (
            &[2, 8, 0x7F, 0, 0, 0, 0, 0, 0, 1],
            Ok((0x7F00_0000_0000_0001, true)),
        ),
        (&more, refused(11)),
        (&[2, 2, 0xFF, 0x7F], refused(4)),
    ];
    for (row, (octets, expected)) in rows.into_iter().enumerate() {
        same_at(&rt, row, number::<u64>(rt.alloc(), octets), expected);
    }
}

#[test]
fn signed_numbers_of_64_bits_are_read_and_larger_ones_refused(rt: HostRuntime) {
    let rows: [(&[u8], Result<(i64, bool), Error>); 9] = [
        (&[2, 1, 0], Ok((0, true))),
        (&[2, 1, 0xFF], Ok((-1, true))),
        (&[2, 1, 0x80], Ok((-128, true))),
        (&[2, 2, 0xFF, 0x7F], Ok((-129, true))),
        (&[2, 2, 0, 0x80], Ok((128, true))),
        (
            &[2, 8, 0x80, 0, 0, 0, 0, 0, 0, 0],
            Ok((-0x8000_0000_0000_0000, true)),
        ),
        (
            &[2, 8, 0x7F, 0xFF, 0xFF, 0xFF, 0xFF, 0xFF, 0xFF, 0xFF],
            Ok((0x7FFF_FFFF_FFFF_FFFF, true)),
        ),
        (&[2, 9, 0, 0x80, 0, 0, 0, 0, 0, 0, 0], refused(11)),
        (&[2, 2, 0xFF, 0x80], refused(4)),
    ];
    for (row, (octets, expected)) in rows.into_iter().enumerate() {
        same_at(&rt, row, number::<i64>(rt.alloc(), octets), expected);
    }
}

// The number of these contents, if they are those of an INTEGER.
fn reported<N: IntegerNumber>(contents: &[u8]) -> Option<N> {
    IntRef::new(contents)?.to_number()
}

#[test]
fn borrowed_integers_are_reported_as_numbers(rt: HostRuntime) {
    same_at(&rt, 0, reported::<u8>(&[0, 0xC8]), Some(200));
    same_at(&rt, 1, reported::<i64>(&[0xC8]), Some(-56));
    same_at(&rt, 2, reported::<u8>(&[0xC8]), None);
    same_at(&rt, 3, reported::<u8>(&[0, 5]), None);
}
