//! Texts in UTF-8.
use crate::checks::same_at;
use der::{Encode, Error, ErrorKind, Length, Tag};
use der_asn1::{Utf8StringRef, lawful_from_der};
use std::alloc::Global;

// The text in this element, and whether it is written exactly as it was read.
fn text<'a>(alloc: Global, octets: &'a [u8]) -> Result<(&'a str, bool), Error> {
    let value: Utf8StringRef<'a> = lawful_from_der(alloc, octets)?;
    let written = value.to_der(alloc)?;
    Ok((value.as_str(), written.as_slice() == octets))
}

// The error for the contents, at the position after their last octet.
fn refused(end: u32) -> Result<(&'static str, bool), Error> {
    let tag = Tag::Utf8String;
    Err(ErrorKind::Value { tag }.at(Length::new(end)))
}

#[test]
fn texts_are_utf8(rt: HostRuntime) {
    let rows: [(&[u8], Result<(&str, bool), Error>); 6] = [
        (&[12, 0], Ok(("", true))),
        (&[12, 2, 0x41, 0x7A], Ok(("Az", true))),
        (&[12, 3, 0xE2, 0x82, 0xAC], Ok(("\u{20AC}", true))),
        (&[12, 2, 0xC0, 0x80], refused(4)),
        (&[12, 3, 0xED, 0xA0, 0x80], refused(5)),
        (&[12, 2, 0x41, 0xE2], refused(4)),
    ];
    for (row, (octets, expected)) in rows.into_iter().enumerate() {
        same_at(&rt, row, text(rt.alloc(), octets), expected);
    }
}
