//! Contents in the form of X.690, and contents that are not.
use crate::checks::same_at;
use der::{DecodeBytes, Error, ErrorKind, Length, Tag};
use der_asn1::{
    BitStringRef, BooleanRef, Ia5StringRef, IntRef, Null, ObjectIdentifierRef, OctetStringRef,
    PrintableStringRef, lawful_from_der,
};
use std::alloc::Global;

// The contents of this element.
fn integer<'a>(alloc: Global, octets: &'a [u8]) -> Result<&'a [u8], Error> {
    let value: IntRef<'a> = lawful_from_der(alloc, octets)?;
    Ok(value.octets())
}

fn bit_string<'a>(alloc: Global, octets: &'a [u8]) -> Result<&'a [u8], Error> {
    let value: BitStringRef<'a> = lawful_from_der(alloc, octets)?;
    Ok(value.octets())
}

fn object_identifier<'a>(alloc: Global, octets: &'a [u8]) -> Result<&'a [u8], Error> {
    let value: ObjectIdentifierRef<'a> = lawful_from_der(alloc, octets)?;
    Ok(value.octets())
}

fn null<'a>(alloc: Global, octets: &'a [u8]) -> Result<&'a [u8], Error> {
    let value: Null<'a> = lawful_from_der(alloc, octets)?;
    Ok(value.octets())
}

fn octet_string<'a>(alloc: Global, octets: &'a [u8]) -> Result<&'a [u8], Error> {
    let value: OctetStringRef<'a> = lawful_from_der(alloc, octets)?;
    Ok(value.octets())
}

fn boolean(alloc: Global, octets: &[u8]) -> Result<bool, Error> {
    let value: BooleanRef<'_> = lawful_from_der(alloc, octets)?;
    Ok(value.is_true())
}

fn ia5_string<'a>(alloc: Global, octets: &'a [u8]) -> Result<&'a [u8], Error> {
    let value: Ia5StringRef<'a> = lawful_from_der(alloc, octets)?;
    Ok(value.octets())
}

fn printable_string<'a>(alloc: Global, octets: &'a [u8]) -> Result<&'a [u8], Error> {
    let value: PrintableStringRef<'a> = lawful_from_der(alloc, octets)?;
    Ok(value.octets())
}

// The contents of an integer under BER.
fn integer_of_ber<'a>(alloc: Global, octets: &'a [u8]) -> Result<&'a [u8], Error> {
    let value: IntRef<'a> = IntRef::from_ber(alloc, octets)?;
    Ok(value.octets())
}

// The error for contents of this tag, at the position after their last octet.
fn refused(tag: Tag, end: u32) -> Result<&'static [u8], Error> {
    Err(ErrorKind::Value { tag }.at(Length::new(end)))
}

#[test]
fn integers_that_are_not_the_shortest_are_refused_under_both_rules(rt: HostRuntime) {
    let rows: [(&[u8], Result<&[u8], Error>); 9] = [
        (&[2, 1, 0], Ok(&[0])),
        (&[2, 1, 0x80], Ok(&[0x80])),
        (&[2, 2, 0, 0x80], Ok(&[0, 0x80])),
        (&[2, 2, 0xFF, 0x7F], Ok(&[0xFF, 0x7F])),
        (&[2, 3, 1, 0, 0], Ok(&[1, 0, 0])),
        (&[2, 0], refused(Tag::Integer, 2)),
        (&[2, 2, 0, 0x7F], refused(Tag::Integer, 4)),
        (&[2, 2, 0xFF, 0x80], refused(Tag::Integer, 4)),
        (&[2, 3, 0, 0, 1], refused(Tag::Integer, 5)),
    ];
    for (row, (octets, expected)) in rows.into_iter().enumerate() {
        same_at(&rt, row, integer(rt.alloc(), octets), expected);
        same_at(&rt, row, integer_of_ber(rt.alloc(), octets), expected);
    }
}

#[test]
fn bit_strings_with_wrong_unused_bits_are_refused(rt: HostRuntime) {
    let rows: [(&[u8], Result<&[u8], Error>); 8] = [
        (&[3, 1, 0], Ok(&[0])),
        (&[3, 2, 3, 0x08], Ok(&[3, 0x08])),
        (&[3, 3, 7, 0xFF, 0x80], Ok(&[7, 0xFF, 0x80])),
        (&[3, 0], refused(Tag::BitString, 2)),
        (&[3, 1, 1], refused(Tag::BitString, 3)),
        (&[3, 2, 4, 0x08], refused(Tag::BitString, 4)),
        (&[3, 2, 8, 0], refused(Tag::BitString, 4)),
        (&[3, 3, 1, 0, 1], refused(Tag::BitString, 5)),
    ];
    for (row, (octets, expected)) in rows.into_iter().enumerate() {
        same_at(&rt, row, bit_string(rt.alloc(), octets), expected);
    }
}

#[test]
fn object_identifiers_that_are_cut_or_padded_are_refused(rt: HostRuntime) {
    let rows: [(&[u8], Result<&[u8], Error>); 6] = [
        (&[6, 1, 0x2A], Ok(&[0x2A])),
        (&[6, 3, 0x2A, 0x86, 0x48], Ok(&[0x2A, 0x86, 0x48])),
        (&[6, 3, 0x81, 0x80, 0], Ok(&[0x81, 0x80, 0])),
        (&[6, 0], refused(Tag::ObjectIdentifier, 2)),
        (&[6, 2, 0x2A, 0x86], refused(Tag::ObjectIdentifier, 4)),
        (&[6, 3, 0x2A, 0x80, 1], refused(Tag::ObjectIdentifier, 5)),
    ];
    for (row, (octets, expected)) in rows.into_iter().enumerate() {
        same_at(&rt, row, object_identifier(rt.alloc(), octets), expected);
    }
}

#[test]
fn a_null_is_empty_and_an_octet_string_has_any_octets(rt: HostRuntime) {
    same_at(&rt, 0, null(rt.alloc(), &[5, 0]), Ok(&[]));
    same_at(&rt, 1, null(rt.alloc(), &[5, 1, 0]), refused(Tag::Null, 3));
    same_at(&rt, 2, octet_string(rt.alloc(), &[4, 0]), Ok(&[]));
    same_at(
        &rt,
        3,
        octet_string(rt.alloc(), &[4, 2, 0xFF, 0]),
        Ok(&[0xFF, 0]),
    );
}

#[test]
fn a_boolean_is_one_octet_of_all_zeros_or_all_ones(rt: HostRuntime) {
    let refused = |end: u32| -> Result<bool, Error> {
        Err(ErrorKind::Value { tag: Tag::Boolean }.at(Length::new(end)))
    };
    let rows: [(&[u8], Result<bool, Error>); 5] = [
        (&[1, 1, 0], Ok(false)),
        (&[1, 1, 0xFF], Ok(true)),
        (&[1, 1, 1], refused(3)),
        (&[1, 0], refused(2)),
        (&[1, 2, 0xFF, 0xFF], refused(4)),
    ];
    for (row, (octets, expected)) in rows.into_iter().enumerate() {
        same_at(&rt, row, boolean(rt.alloc(), octets), expected);
    }
}

#[test]
fn texts_with_octets_outside_their_alphabet_are_refused(rt: HostRuntime) {
    let rows: [(&[u8], Result<&[u8], Error>); 4] = [
        (&[22, 0], Ok(&[])),
        (&[22, 3, 0, 0x40, 0x7F], Ok(&[0, 0x40, 0x7F])),
        (&[22, 2, 0x41, 0x80], refused(Tag::Ia5String, 4)),
        (&[22, 2, 0xFF, 0x41], refused(Tag::Ia5String, 4)),
    ];
    for (row, (octets, expected)) in rows.into_iter().enumerate() {
        same_at(&rt, row, ia5_string(rt.alloc(), octets), expected);
    }
    let rows: [(&[u8], Result<&[u8], Error>); 6] = [
        (&[19, 0], Ok(&[])),
        (b"\x13\x0CAZaz09 '()+,", Ok(b"AZaz09 '()+,")),
        (b"\x13\x06-./:=?", Ok(b"-./:=?")),
        (b"\x13\x01*", refused(Tag::PrintableString, 3)),
        (b"\x13\x02a@", refused(Tag::PrintableString, 4)),
        (b"\x13\x02_a", refused(Tag::PrintableString, 4)),
    ];
    for (row, (octets, expected)) in rows.into_iter().enumerate() {
        same_at(&rt, row, printable_string(rt.alloc(), octets), expected);
    }
}
