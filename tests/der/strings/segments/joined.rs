//! Elements whose octets may be in segments.
use super::cuts::Passed;
use super::*;
use crate::checks::{same, same_at};
use crate::der::strings::elements::{joined_of_ber, joined_of_der, joined_to_der};
use der::example::JoinedOctets;
use std::process::Abort;

// The result of an element, and the place of the reader then.
pub(super) fn decoding<R: Reader>(
    rt: &impl Abort,
    alloc: Global,
    mut reader: R,
    answer: Result<&[u8], Error>,
    place: (u32, bool),
) {
    let (position, failed) = place;
    let end = u32::from(reader.input_len());
    let read = JoinedOctets::decode(alloc, &mut reader);
    same_at(rt, end, octets_of(&read), answer);
    same_at(rt, end, place_of(&reader), (position, end, failed));
}

fn octets_of(read: &Result<JoinedOctets, Error>) -> Result<&[u8], Error> {
    match read {
        Ok(joined) => Ok(joined.octets.as_slice()),
        Err(error) => Err(*error),
    }
}

// Under the Basic Encoding Rules, with every call that decodes.
fn under_ber(
    rt: &impl Abort,
    alloc: Global,
    octets: &[u8],
    answer: Result<&[u8], Error>,
    place: (u32, bool),
) -> Result<(), Error> {
    decoding(rt, alloc, ber_reader(octets)?, answer, place);
    decoding(rt, alloc, ber_not_borrowed(octets)?, answer, place);
    wholly_under_ber(rt, alloc, octets, answer);
    Ok(())
}

// All of the octets, as one element under those rules.
fn wholly_under_ber(rt: &impl Abort, alloc: Global, octets: &[u8], answer: Result<&[u8], Error>) {
    let whole = joined_of_ber(alloc, octets);
    same_at(rt, octets.len(), octets_of(&whole), answer);
}

// Under the Distinguished Encoding Rules, with every call that decodes.
fn under_der(
    rt: &impl Abort,
    alloc: Global,
    octets: &[u8],
    answer: Result<&[u8], Error>,
    place: (u32, bool),
) -> Result<(), Error> {
    decoding(rt, alloc, der_reader(octets)?, answer, place);
    decoding(rt, alloc, der_not_borrowed(octets)?, answer, place);
    wholly_under_der(rt, alloc, octets, answer);
    Ok(())
}

// All of the octets, as one element under those rules.
fn wholly_under_der(rt: &impl Abort, alloc: Global, octets: &[u8], answer: Result<&[u8], Error>) {
    let whole = joined_of_der(alloc, octets);
    same_at(rt, octets.len(), octets_of(&whole), answer);
}

#[test]
fn primitive_octets_are_accepted_unchanged(rt: HostRuntime) -> Result<(), Fail> {
    let rows: [(&[u8], &[u8], u32); 3] = [
        (&[0x04, 0x00], &[], 2u32),
        (&[0x04, 0x02, 0xAA, 0xBB], &[0xAA, 0xBB], 4),
        (&[0x04, 0x02, 0x04, 0x00], &[0x04, 0x00], 4),
    ];
    for (octets, read, end) in rows {
        under_ber(&rt, rt.alloc(), octets, Ok(read), (end, false))?;
        under_der(&rt, rt.alloc(), octets, Ok(read), (end, false))?;
    }
    Ok(())
}

/// Elements in segments, possibly nested, with their joined octets, and the contents in them that a
/// scan skips at once.
pub(super) const ELEMENTS: [(&[u8], &[u8], &[Passed]); 12] = [
    (&[0x24, 0x00], &[], &[]),
    (&[0x24, 0x80, 0x00, 0x00], &[], &[]),
    (&[0x24, 0x04, 0x04, 0x02, 0xAA, 0xBB], &[0xAA, 0xBB], &[]),
    (
        &[
            0x24, 0x80, 0x04, 0x02, 0xAA, 0xBB, 0x04, 0x01, 0xCC, 0x00, 0x00,
        ],
        &[0xAA, 0xBB, 0xCC],
        &[(4, 2)],
    ),
    (
        &[
            0x24, 0x80, 0x04, 0x02, 0xAA, 0xBB, 0x04, 0x00, 0x04, 0x01, 0xCC, 0x00, 0x00,
        ],
        &[0xAA, 0xBB, 0xCC],
        &[(4, 2)],
    ),
    (
        &[0x24, 0x80, 0x04, 0x02, 0x00, 0x00, 0x00, 0x00],
        &[0x00, 0x00],
        &[(4, 2)],
    ),
    (&[0x24, 0x80, 0x24, 0x80, 0x00, 0x00, 0x00, 0x00], &[], &[]),
    (
        &[
            0x24, 0x80, 0x24, 0x80, 0x04, 0x01, 0xAA, 0x00, 0x00, 0x04, 0x01, 0xBB, 0x00, 0x00,
        ],
        &[0xAA, 0xBB],
        &[],
    ),
    (
        &[0x24, 0x80, 0x24, 0x03, 0x04, 0x01, 0xAA, 0x00, 0x00],
        &[0xAA],
        &[(4, 3)],
    ),
    (
        &[0x24, 0x80, 0x24, 0x04, 0x04, 0x02, 0xAA, 0xBB, 0x00, 0x00],
        &[0xAA, 0xBB],
        &[(4, 4)],
    ),
    (
        &[
            0x24, 0x0D, 0x24, 0x80, 0x04, 0x01, 0xBB, 0x24, 0x00, 0x00, 0x00, 0x04, 0x02, 0x00,
            0x00,
        ],
        &[0xBB, 0x00, 0x00],
        &[],
    ),
    (
        &[
            0x24, 0x80, 0x04, 0x02, 0xAA, 0xBB, 0x24, 0x80, 0x24, 0x05, 0x04, 0x03, 0x00, 0x00,
            0xCC, 0x00, 0x00, 0x00, 0x00,
        ],
        &[0xAA, 0xBB, 0x00, 0x00, 0xCC],
        &[(4, 2), (10, 5)],
    ),
];

#[test]
fn segments_are_joined_to_one_string(rt: HostRuntime) -> Result<(), Fail> {
    for (octets, read, _) in ELEMENTS {
        let end = count_of(octets)?;
        under_ber(&rt, rt.alloc(), octets, Ok(read), (end, false))?;
    }
    Ok(())
}

#[test]
fn wrong_segments_are_refused_under_ber(rt: HostRuntime) -> Result<(), Fail> {
    let rows: [(&[u8], Error, (u32, bool)); 10] = [
        (
            &[0x24, 0x80, 0x05, 0x00, 0x00, 0x00],
            unexpected(Tag::OctetString, Tag::Null),
            (4, false),
        ),
        (
            &[0x24, 0x02, 0x05, 0x00],
            unexpected(Tag::OctetString, Tag::Null),
            (4, false),
        ),
        (
            &[0x24, 0x04, 0x24, 0x02, 0x30, 0x00],
            unexpected(Tag::OctetString, Tag::Sequence),
            (6, false),
        ),
        (
            &[0x24, 0x02, 0xAA, 0xBB],
            incorrect(TagNumber::new(10).context_specific(true), 4),
            (4, true),
        ),
        (
            &[0x24, 0x04, 0x24, 0x03, 0x04, 0x00],
            incomplete(7, 6, 6),
            (4, false),
        ),
        (
            &[0x24, 0x04, 0x24, 0x02, 0x04, 0x01],
            incomplete(7, 6, 6),
            (6, true),
        ),
        (
            &[0x24, 0x05, 0x24, 0x80, 0x04, 0x01, 0xAA],
            incomplete(8, 7, 7),
            (4, false),
        ),
        (
            &[
                0x24, 0x09, 0x24, 0x80, 0x24, 0x02, 0x04, 0x00, 0x00, 0x00, 0x00,
            ],
            unknown(0x00, 11),
            (11, true),
        ),
        (
            &[0x24, 0x80, 0x04, 0x05, 0xAA, 0x00, 0x00],
            incomplete(9, 7, 4),
            (2, false),
        ),
        (
            &[0x24, 0x80, 0x04, 0x01, 0xAA],
            incomplete(6, 5, 5),
            (2, false),
        ),
    ];
    for (octets, error, place) in rows {
        under_ber(&rt, rt.alloc(), octets, Err(error), place)?;
    }
    Ok(())
}

#[test]
fn der_refuses_segments_and_what_is_no_octet_string(rt: HostRuntime) -> Result<(), Fail> {
    let rows: [(&[u8], Error, (u32, bool)); 5] = [
        (&[0x24, 0x80, 0x00, 0x00], unknown(0x24, 1), (1, true)),
        (&[0x24, 0x02, 0xAA, 0xBB], unknown(0x24, 1), (1, true)),
        (&[0x04, 0x80, 0x00, 0x00], indefinite(2), (2, true)),
        (&[0x04, 0x02, 0xAA], incomplete(4, 3, 3), (2, false)),
        (
            &[0x0C, 0x00],
            unexpected(Tag::OctetString, Tag::Utf8String),
            (2, false),
        ),
    ];
    for (octets, error, place) in rows {
        under_der(&rt, rt.alloc(), octets, Err(error), place)?;
    }
    Ok(())
}

// What was joined is written as one element.
#[test]
fn joined_segments_are_written_as_one_element(rt: HostRuntime) -> Result<(), Fail> {
    let segments = [
        0x24, 0x80, 0x04, 0x02, 0xAA, 0xBB, 0x04, 0x01, 0xCC, 0x00, 0x00,
    ];
    let joined = joined_of_ber(rt.alloc(), &segments)?;
    let written = joined_to_der(rt.alloc(), &joined)?;
    let whole = [0x04, 0x03, 0xAA, 0xBB, 0xCC];
    same(&rt, written.as_slice(), whole.as_slice());
    let again = joined_of_der(rt.alloc(), written.as_slice())?;
    same(&rt, again.octets, joined.octets);
    Ok(())
}
