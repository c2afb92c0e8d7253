//! Other restricted character strings, and ENUMERATED.
use crate::checks::same_at;
use der::{Encode, Error, ErrorKind, Length, Tag};
use der_asn1::{
    BmpStringRef, EnumeratedRef, NumericStringRef, TeletexStringRef, VisibleStringRef,
    lawful_from_der,
};
use crate::fixtures::errors::unexpected;
use std::alloc::Global;

// The contents of this element, and whether it is written exactly as it was read.
fn visible<'a>(alloc: Global, octets: &'a [u8]) -> Result<(&'a [u8], bool), Error> {
    let value: VisibleStringRef<'a> = lawful_from_der(alloc, octets)?;
    let written = value.to_der(alloc)?;
    Ok((value.octets(), written.as_slice() == octets))
}

fn numeric<'a>(alloc: Global, octets: &'a [u8]) -> Result<(&'a [u8], bool), Error> {
    let value: NumericStringRef<'a> = lawful_from_der(alloc, octets)?;
    let written = value.to_der(alloc)?;
    Ok((value.octets(), written.as_slice() == octets))
}

fn bmp<'a>(alloc: Global, octets: &'a [u8]) -> Result<(&'a [u8], bool), Error> {
    let value: BmpStringRef<'a> = lawful_from_der(alloc, octets)?;
    let written = value.to_der(alloc)?;
    Ok((value.octets(), written.as_slice() == octets))
}

fn teletex<'a>(alloc: Global, octets: &'a [u8]) -> Result<(&'a [u8], bool), Error> {
    let value: TeletexStringRef<'a> = lawful_from_der(alloc, octets)?;
    let written = value.to_der(alloc)?;
    Ok((value.octets(), written.as_slice() == octets))
}

// The number in this element, if it is below 256.
fn enumerated(alloc: Global, octets: &[u8]) -> Result<Option<u8>, Error> {
    let value: EnumeratedRef<'_> = lawful_from_der(alloc, octets)?;
    Ok(value.to_number())
}

// The error for contents of this tag, at the position after their last octet.
fn refused(tag: Tag, end: u32) -> Result<(&'static [u8], bool), Error> {
    Err(ErrorKind::Value { tag }.at(Length::new(end)))
}

#[test]
fn visible_strings(rt: HostRuntime) {
    let rows: [(&[u8], Result<(&[u8], bool), Error>); 5] = [
        (&[26, 0], Ok((&[], true))),
        (b"\x1A\x03 *~", Ok((b" *~", true))),
        (b"\x1A\x02a\x1F", refused(Tag::VisibleString, 4)),
        (b"\x1A\x02a\x7F", refused(Tag::VisibleString, 4)),
        (b"\x1A\x02\xC3\xA9", refused(Tag::VisibleString, 4)),
    ];
    for (row, (octets, expected)) in rows.into_iter().enumerate() {
        same_at(&rt, row, visible(rt.alloc(), octets), expected);
    }
}

#[test]
fn numeric_strings(rt: HostRuntime) {
    let rows: [(&[u8], Result<(&[u8], bool), Error>); 5] = [
        (&[18, 0], Ok((&[], true))),
        (b"\x12\x04 019", Ok((b" 019", true))),
        (b"\x12\x02-1", refused(Tag::NumericString, 4)),
        (b"\x12\x01:", refused(Tag::NumericString, 3)),
        (b"\x12\x01/", refused(Tag::NumericString, 3)),
    ];
    for (row, (octets, expected)) in rows.into_iter().enumerate() {
        same_at(&rt, row, numeric(rt.alloc(), octets), expected);
    }
}

#[test]
fn bmp_strings(rt: HostRuntime) {
    let rows: [(&[u8], Result<(&[u8], bool), Error>); 7] = [
        (&[30, 0], Ok((&[], true))),
        (
            &[30, 4, 0, 0x41, 0x20, 0xAC],
            Ok((&[0, 0x41, 0x20, 0xAC], true)),
        ),
        (&[30, 2, 0xD7, 0xFF], Ok((&[0xD7, 0xFF], true))),
        (&[30, 2, 0x41, 0xD8], Ok((&[0x41, 0xD8], true))),
        (&[30, 3, 0, 0x41, 0x20], refused(Tag::BmpString, 5)),
        (&[30, 4, 0xD8, 0x3D, 0xDE, 0], refused(Tag::BmpString, 6)),
        (&[30, 2, 0xDF, 0xFF], refused(Tag::BmpString, 4)),
    ];
    for (row, (octets, expected)) in rows.into_iter().enumerate() {
        same_at(&rt, row, bmp(rt.alloc(), octets), expected);
    }
}

#[test]
fn teletex_strings(rt: HostRuntime) {
    same_at(
        &rt,
        0,
        teletex(rt.alloc(), b"\x14\x02a\xE9"),
        Ok((b"a\xE9", true)),
    );
    let other = unexpected(Tag::TeletexString, Tag::VisibleString);
    same_at(&rt, 1, teletex(rt.alloc(), b"\x1A\x01a"), Err(other));
}

#[test]
fn numbers_of_enumerated(rt: HostRuntime) {
    let spare = ErrorKind::Value {
        tag: Tag::Enumerated,
    };
    let rows: [(&[u8], Result<Option<u8>, Error>); 4] = [
        (&[10, 1, 3], Ok(Some(3))),
        (&[10, 1, 0xFF], Ok(None)),
        (&[10, 2, 1, 0], Ok(None)),
        (&[10, 2, 0, 3], Err(spare.at(Length::new(4)))),
    ];
    for (row, (octets, expected)) in rows.into_iter().enumerate() {
        same_at(&rt, row, enumerated(rt.alloc(), octets), expected);
    }
}
