//! Headers that are the whole input.
use super::*;
use crate::checks::{same, same_at, same_octets};
use crate::fixtures::errors::{incorrect, indefinite};

// Reads the octets as exactly one header.
fn header_of(alloc: Global, bytes: &[u8]) -> Result<Header, Error> {
    value_of(alloc, bytes)
}

#[test]
fn a_header_is_read_and_written(rt: HostRuntime) -> Result<(), Fail> {
    let octets = [0x30, 0x82, 0x01, 0x00];
    let header = header_of(rt.alloc(), &octets)?;
    same(&rt, header, Header::new(Tag::Sequence, Length::new(256)));
    same(&rt, len_of(&header), Ok(Length::new(4)));
    let der = der_of(rt.alloc(), &header)?;
    same_octets(&rt, der.as_slice(), &octets);
    Ok(())
}

#[test]
fn octets_that_are_not_wholly_a_header_are_refused(rt: HostRuntime) {
    let rows: [(&[u8], Error); 6] = [
        (&[], incomplete(1, 0, 0)),
        (&[0x30], incomplete(2, 1, 1)),
        (&[0x04, 0x81, 0x7F], incorrect(Tag::OctetString, 3)),
        (&[0x30, 0x80, 0x00, 0x00], indefinite(2)),
        (&[0x04, 0x01, 0x09], trailing(2, 1)),
        (&[0x30, 0x82, 0x01, 0x00, 0x05, 0x00], trailing(4, 2)),
    ];
    for (octets, error) in rows {
        same_at(&rt, error, header_of(rt.alloc(), octets), Err(error));
    }
}
