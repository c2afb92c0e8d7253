//! A SEQUENCE of two fields, in which each length may have either form.
use super::*;
use crate::checks::{same, same_at, same_octets};
use der::Encode;
use example_calls::algorithm_identifier::AlgorithmIdentifier;
use example_calls::my_octets::MyOctets;

fn identifier_of(alloc: Global, octets: &[u8]) -> Result<AlgorithmIdentifier<'_>, Error> {
    AlgorithmIdentifier::from_ber(alloc, octets)
}

// Four encodings of one value, of which only the first is DER.
#[test]
fn each_spelling_of_an_identifier_is_read_and_written_as_der(rt: HostRuntime) -> Result<(), Fail> {
    let der: &[u8] = &[0x30, 0x06, 0x04, 0x01, 0x2A, 0x04, 0x01, 0x09];
    let spellings: [&[u8]; 4] = [
        der,
        &[0x30, 0x06, 0x24, 0x01, 0x2A, 0x24, 0x01, 0x09],
        &[0x30, 0x80, 0x04, 0x01, 0x2A, 0x04, 0x01, 0x09, 0x00, 0x00],
        &[0x30, 0x80, 0x24, 0x01, 0x2A, 0x04, 0x01, 0x09, 0x00, 0x00],
    ];
    for octets in spellings {
        let identifier = identifier_of(rt.alloc(), octets)?;
        same_octets(&rt, identifier.algorithm.octets, &[0x2A]);
        same(&rt, identifier.month.month(), 9);
        let written = identifier.to_der(rt.alloc())?;
        same_octets(&rt, written.as_slice(), der);
    }
    Ok(())
}

#[test]
fn an_identifier_is_decoded_among_other_elements(rt: HostRuntime) -> Result<(), Fail> {
    let octets = [
        0x30, 0x80, 0x04, 0x00, 0x04, 0x01, 0x0B, 0x00, 0x00, 0x04, 0x01, 0x02,
    ];
    let mut reader = ber_reader(&octets)?;
    let identifier: AlgorithmIdentifier<'_> = reader.decode(rt.alloc())?;
    same_octets(&rt, identifier.algorithm.octets, &[]);
    same(&rt, identifier.month.month(), 11);
    same(&rt, reader.place(), (9, 12, false));
    same(&rt, next_month(rt.alloc(), &mut reader), Ok(2));
    same(&rt, finished(reader), Ok(()));
    Ok(())
}

// The segments of a string are borrowed unchanged, without the end-of-contents octets after them.
#[test]
fn segments_are_borrowed_unchanged_without_the_eoc(rt: HostRuntime) -> Result<(), Fail> {
    let rows: [(&[u8], &[u8]); 2] = [
        (
            &[0x24, 0x80, 0x04, 0x02, 0xAA, 0xBB, 0x04, 0x00, 0x00, 0x00],
            &[0x04, 0x02, 0xAA, 0xBB, 0x04, 0x00],
        ),
        (&[0x24, 0x80, 0x00, 0x00], &[]),
    ];
    for (octets, segments) in rows {
        let borrowed = MyOctets::from_ber(rt.alloc(), octets)?;
        same_octets(&rt, borrowed.octets, segments);
    }
    Ok(())
}

#[test]
fn missing_fields_spare_octets_and_other_tags_are_refused(rt: HostRuntime) {
    let rows: [(&[u8], Error); 5] = [
        (
            // a field is missing
            &[0x30, 0x80, 0x04, 0x01, 0x2A, 0x00, 0x00],
            incomplete(6, 5, 5),
        ),
        (
            // octets are left inside
            &[
                0x30, 0x80, 0x04, 0x01, 0x2A, 0x04, 0x01, 0x09, 0x05, 0x00, 0x00, 0x00,
            ],
            trailing(8, 2),
        ),
        (
            // octets are left after it
            &[
                0x30, 0x80, 0x04, 0x01, 0x2A, 0x04, 0x01, 0x09, 0x00, 0x00, 0x00,
            ],
            trailing(10, 1),
        ),
        (
            // the end-of-contents octets are missing
            &[0x30, 0x80, 0x04, 0x01, 0x2A, 0x04, 0x01, 0x09],
            incomplete(9, 8, 8),
        ),
        (
            // a field has another tag
            &[0x30, 0x80, 0x04, 0x01, 0x2A, 0x02, 0x01, 0x09, 0x00, 0x00],
            unexpected(Tag::OctetString, Tag::Integer),
        ),
    ];
    for (octets, error) in rows {
        let refused = identifier_of(rt.alloc(), octets).err();
        same_at(&rt, error, refused, Some(error));
    }
}

#[test]
fn der_refuses_the_spellings_of_ber(rt: HostRuntime) {
    let rows: [(&[u8], Error); 2] = [
        (
            &[0x30, 0x80, 0x04, 0x01, 0x2A, 0x04, 0x01, 0x09, 0x00, 0x00],
            indefinite(2),
        ),
        (
            &[0x30, 0x06, 0x24, 0x01, 0x2A, 0x04, 0x01, 0x09],
            unknown(0x24, 3),
        ),
    ];
    for (octets, error) in rows {
        let refused = AlgorithmIdentifier::from_der(rt.alloc(), octets).err();
        same_at(&rt, error, refused, Some(error));
    }
}

#[test]
fn without_slices_octets_are_rejected_and_a_month_is_read(rt: HostRuntime) -> Result<(), Fail> {
    let mut reader = ber_not_borrowed(&[0x24, 0x80, 0x04, 0x00, 0x00, 0x00])?;
    let refused = MyOctets::decode(rt.alloc(), &mut reader).err();
    same(&rt, refused, Some(ErrorKind::Reader.at(Length::new(2))));
    same(&rt, reader.place(), (2, 6, false));
    let mut reader = ber_not_borrowed(&[0x24, 0x01, 0x09])?;
    let month = MyByteMonth::decode(rt.alloc(), &mut reader)?;
    same(&rt, month.month(), 9);
    same(&rt, reader.place(), (3, 3, false));
    Ok(())
}
