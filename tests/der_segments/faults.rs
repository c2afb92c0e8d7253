//! Elements that are refused.
use super::*;
use crate::checks::{same, same_at};
use crate::fixtures::errors::{incomplete, incorrect, indefinite, unexpected, unknown};
use der::{Decode, ErrorKind, Reader, SliceReader, Tag};

// The error under the Basic Encoding Rules.
fn refusal(alloc: Global, octets: &[u8]) -> Option<Error> {
    of_ber(alloc, octets).err()
}

#[test]
fn segments_with_another_tag_are_refused(rt: HostRuntime) {
    let null = unexpected(Tag::OctetString, Tag::Null);
    let bits = unexpected(Tag::OctetString, Tag::BitString);
    let rows: [(&[u8], Error); 5] = [
        (&[0x24, 5, 0x04, 1, 0xAA, 0x05, 0], null),
        (&[0x24, 0x80, 0x05, 0, 0, 0], null),
        (&[0x24, 0x80, 0x04, 0, 0x03, 2, 0, 0xAA, 0, 0], bits),
        (&[0x24, 4, 0x24, 2, 0x05, 0], null),
        (&[0x05, 0], null),
    ];
    for (row, (octets, error)) in rows.into_iter().enumerate() {
        same_at(&rt, row, refusal(rt.alloc(), octets), Some(error));
    }
}

#[test]
fn segments_end_inside_their_string(rt: HostRuntime) {
    let rows: [(&[u8], Error); 6] = [
        (&[0x24, 3, 0x04, 2, 0xAA, 0xBB], incomplete(6, 5, 4)),
        (&[0x24, 3, 0x24, 2, 0x04, 0], incomplete(6, 5, 5)),
        (&[0x24, 4, 0x24, 2, 0x04, 1], incomplete(7, 6, 6)),
        (&[0x24, 1, 0x04], incomplete(4, 3, 3)),
        (&[0x24, 4, 0x04, 0x81, 1, 0xAA], incorrect(Tag::OctetString, 5)),
        (&[0x24, 4, 0x04, 0x80, 0, 0], indefinite(4)),
    ];
    for (row, (octets, error)) in rows.into_iter().enumerate() {
        same_at(&rt, row, refusal(rt.alloc(), octets), Some(error));
    }
}

#[test]
fn der_refuses_segments(rt: HostRuntime) {
    same(&rt, of_der(rt.alloc(), &DEFINITE).err(), Some(unknown(0x24, 1)));
    same(&rt, of_der(rt.alloc(), &INDEFINITE).err(), Some(unknown(0x24, 1)));
}

#[test]
fn a_reader_stays_where_a_segment_is_refused(rt: HostRuntime) -> Result<(), Error> {
    let octets: [u8; 7] = [0x24, 5, 0x04, 1, 0xAA, 0x05, 0];
    let mut reader = SliceReader::new_with_encoding_rules(&octets, der::EncodingRules::Ber)?;
    let read = Segmented::decode(rt.alloc(), &mut reader);
    same(&rt, read.err().map(|e| e.kind()), Some(ErrorKind::TagUnexpected {
        expected: Some(Tag::OctetString),
        actual: Tag::Null,
    }));
    same(&rt, u32::from(reader.position()), 7);
    same(&rt, u32::from(reader.input_len()), 7);
    same(&rt, reader.is_failed(), false);
    Ok(())
}
