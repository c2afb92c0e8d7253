//! OCTET STRINGs in segments (X.690 8.7.3), which these types refuse: an octet string in one piece
//! is read, and written as it was read.
use crate::checks::same_at;
use crate::fixtures::errors::{unexpected, unknown};
use der::{DecodeBytes, Encode, Error, ErrorKind, Length, Tag};
use der_asn1::{AnyRef, ExplicitAny, Implicit, Null, OctetStringOf, OctetStringRef, SequenceOf};
use std::alloc::Global;

// The octets AA BB in one segment, with a definite and with an indefinite length.
static SEGMENTED: [u8; 6] = [0x24, 4, 4, 2, 0xAA, 0xBB];
static INDEFINITE: [u8; 8] = [0x24, 0x80, 4, 2, 0xAA, 0xBB, 0, 0];

// The error of an OCTET STRING in segments, at the last octet of its header.
fn in_segments(position: u32) -> Error {
    let kind = ErrorKind::Noncanonical { tag: Tag::OctetString };
    kind.at(Length::new(position))
}

// Whether the value is written as these octets.
fn is_written<T: Encode>(alloc: Global, value: &T, octets: &[u8]) -> Result<bool, Error> {
    let written = value.to_der(alloc)?;
    Ok(written.as_slice() == octets)
}

fn string<'a>(alloc: Global, octets: &'a [u8]) -> Result<bool, Error> {
    let value: OctetStringRef<'a> = OctetStringRef::from_ber(alloc, octets)?;
    is_written(alloc, &value, octets)
}

fn any<'a>(alloc: Global, octets: &'a [u8]) -> Result<bool, Error> {
    let value: AnyRef<'a> = AnyRef::from_ber(alloc, octets)?;
    is_written(alloc, &value, octets)
}

fn null(alloc: Global, octets: &[u8]) -> Result<bool, Error> {
    let value: OctetStringOf<Null<'_>> = OctetStringOf::from_ber(alloc, octets)?;
    is_written(alloc, &value, octets)
}

fn implicit<'a>(alloc: Global, octets: &'a [u8]) -> Result<bool, Error> {
    let value: Implicit<OctetStringRef<'a>, 0> = Implicit::from_ber(alloc, octets)?;
    is_written(alloc, &value, octets)
}

fn explicit_any<'a>(alloc: Global, octets: &'a [u8]) -> Result<bool, Error> {
    let value: ExplicitAny<'a, 0> = ExplicitAny::from_ber(alloc, octets)?;
    is_written(alloc, &value, octets)
}

fn list<'a>(alloc: Global, octets: &'a [u8]) -> Result<bool, Error> {
    let value: SequenceOf<'a, OctetStringRef<'a>> = SequenceOf::from_ber(alloc, octets)?;
    is_written(alloc, &value, octets)
}

#[test]
fn an_octet_string_is_in_one_piece(rt: HostRuntime) {
    let alloc = rt.alloc();
    same_at(&rt, 0, string(alloc, &[4, 2, 0xAA, 0xBB]), Ok(true));
    same_at(&rt, 1, string(alloc, &SEGMENTED), Err(in_segments(1)));
    same_at(&rt, 2, string(alloc, &INDEFINITE), Err(in_segments(1)));
    // a header of three octets, before a segment of 128 octets, and no segments at all
    let mut long = [0; 134];
    long[..6].copy_from_slice(&[0x24, 0x81, 0x83, 4, 0x81, 0x80]);
    same_at(&rt, 3, string(alloc, &long), Err(in_segments(2)));
    same_at(&rt, 4, string(alloc, &[0x24, 0]), Err(in_segments(1)));
    let read: Result<OctetStringRef<'_>, Error> = OctetStringRef::from_der(alloc, &SEGMENTED);
    same_at(&rt, 5, read.map(|_| ()), Err(unknown(0x24, 1)));
}

// X.690 8.7.3.2: each segment is an OCTET STRING, so 24 02 05 00 is no encoding at all.
#[test]
fn a_contained_element_is_in_one_piece(rt: HostRuntime) {
    let alloc = rt.alloc();
    same_at(&rt, 0, null(alloc, &[4, 2, 5, 0]), Ok(true));
    same_at(&rt, 1, null(alloc, &[0x24, 2, 5, 0]), Err(in_segments(1)));
    same_at(&rt, 2, null(alloc, &[0x24, 4, 4, 2, 5, 0]), Err(in_segments(1)));
}

#[test]
fn an_element_of_any_tag_is_written_as_it_was_read(rt: HostRuntime) {
    let alloc = rt.alloc();
    same_at(&rt, 0, any(alloc, &[4, 2, 0xAA, 0xBB]), Ok(true));
    same_at(&rt, 1, any(alloc, &SEGMENTED), Err(in_segments(1)));
    same_at(&rt, 2, any(alloc, &INDEFINITE), Err(in_segments(1)));
    // a tag that has the constructed bit
    same_at(&rt, 3, any(alloc, &[0xA0, 4, 4, 2, 0xAA, 0xBB]), Ok(true));
    same_at(&rt, 4, any(alloc, &[0x30, 4, 4, 2, 0xAA, 0xBB]), Ok(true));
    // inside another element, whose header has two octets
    same_at(&rt, 5, explicit_any(alloc, &[0xA0, 4, 4, 2, 0xAA, 0xBB]), Ok(true));
    let inside = [0xA0, 6, 0x24, 4, 4, 2, 0xAA, 0xBB];
    same_at(&rt, 6, explicit_any(alloc, &inside), Err(in_segments(3)));
}

#[test]
fn fields_and_items_are_in_one_piece(rt: HostRuntime) {
    let alloc = rt.alloc();
    // items are DER under BER too, and the positions of their errors are those in the list
    let items = [0x30, 8, 4, 0, 0x24, 4, 4, 2, 0xAA, 0xBB];
    same_at(&rt, 0, list(alloc, &items), Err(unknown(0x24, 3)));
    same_at(&rt, 1, list(alloc, &[0x30, 6, 4, 0, 4, 2, 0xAA, 0xBB]), Ok(true));
    // the IMPLICIT tag of segments has the constructed bit (X.690 8.14.3)
    same_at(&rt, 2, implicit(alloc, &[0x80, 2, 0xAA, 0xBB]), Ok(true));
    let tagged = |constructed| Tag::ContextSpecific {
        constructed,
        number: der::TagNumber(0),
    };
    let segments = [0xA0, 4, 4, 2, 0xAA, 0xBB];
    let expected = unexpected(tagged(false), tagged(true));
    same_at(&rt, 3, implicit(alloc, &segments), Err(expected));
}
