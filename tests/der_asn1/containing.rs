//! OCTET STRINGs and BIT STRINGs that contain an element.
use crate::checks::same_at;
use crate::fixtures::errors::{trailing, unexpected};
use crate::fixtures::readers::ber_reader;
use der::{Decode, Encode, Error, ErrorKind, Length, Tag};
use der_asn1::{BitStringOf, IntRef, OctetStringOf, lawful_from_der};
use spki::AlgorithmIdentifierRef;
use std::alloc::Global;

// The contents of an integer in an OCTET STRING, and whether it is written exactly as it was read.
fn octets_of<'a>(alloc: Global, octets: &'a [u8]) -> Result<(&'a [u8], bool), Error> {
    let value: OctetStringOf<IntRef<'a>> = lawful_from_der(alloc, octets)?;
    let written = value.to_der(alloc)?;
    Ok((value.0.octets(), written.as_slice() == octets))
}

// The contents of an integer in a BIT STRING, and whether it is written exactly as it was read.
fn bits_of<'a>(alloc: Global, octets: &'a [u8]) -> Result<(&'a [u8], bool), Error> {
    let value: BitStringOf<IntRef<'a>> = lawful_from_der(alloc, octets)?;
    let written = value.to_der(alloc)?;
    Ok((value.0.octets(), written.as_slice() == octets))
}

#[test]
fn an_octet_string_contains_one_element(rt: HostRuntime) {
    let rows: [(&[u8], Result<(&[u8], bool), Error>); 5] = [
        (&[4, 3, 2, 1, 5], Ok((&[5], true))),
        (&[4, 4, 2, 1, 5, 0], Err(trailing(5, 1))),
        (&[4, 2, 5, 0], Err(unexpected(Tag::Integer, Tag::Null))),
        (&[2, 1, 5], Err(unexpected(Tag::OctetString, Tag::Integer))),
        (
            &[4, 4, 2, 2, 0, 5],
            Err(ErrorKind::Value { tag: Tag::Integer }.at(Length::new(6))),
        ),
    ];
    for (row, (octets, expected)) in rows.into_iter().enumerate() {
        same_at(&rt, row, octets_of(rt.alloc(), octets), expected);
    }
}

#[test]
fn a_bit_string_contains_one_element_and_no_unused_bits(rt: HostRuntime) {
    let unused = ErrorKind::Value { tag: Tag::BitString };
    let rows: [(&[u8], Result<(&[u8], bool), Error>); 4] = [
        (&[3, 4, 0, 2, 1, 5], Ok((&[5], true))),
        (&[3, 4, 1, 2, 1, 4], Err(unused.at(Length::new(3)))),
        (&[3, 5, 0, 2, 1, 5, 0], Err(trailing(6, 1))),
        (&[3, 3, 0, 5, 0], Err(unexpected(Tag::Integer, Tag::Null))),
    ];
    for (row, (octets, expected)) in rows.into_iter().enumerate() {
        same_at(&rt, row, bits_of(rt.alloc(), octets), expected);
    }
}

// The object identifier of an algorithm in an OCTET STRING under BER.
fn algorithm_of<'a>(alloc: Global, octets: &'a [u8]) -> Result<&'a [u8], Error> {
    let mut reader = ber_reader(octets)?;
    let value: OctetStringOf<AlgorithmIdentifierRef<'a>> =
        OctetStringOf::decode(alloc, &mut reader)?;
    Ok(value.0.oid.octets())
}

#[test]
fn the_element_may_have_an_indefinite_length_under_ber(rt: HostRuntime) {
    let octets = [4, 7, 0x30, 0x80, 6, 1, 42, 0, 0];
    same_at(&rt, 0, algorithm_of(rt.alloc(), &octets), Ok(&[42]));
}
