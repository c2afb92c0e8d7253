//! A SEQUENCE with another inside it.
use super::*;
use crate::checks::{same, same_at, same_octets};
use example_calls::key_info::{KeyInfo, key_info_der, key_info_from_der};

// Reads the octets as exactly one key.
fn key_of(alloc: Global, bytes: &[u8]) -> Result<KeyInfo<'_>, Error> {
    key_info_from_der(alloc, bytes)
}

// The octets of the key that the reader decodes.
fn next_key<'a>(alloc: Global, reader: &mut SliceReader<'a>) -> Result<&'a [u8], Error> {
    let info: KeyInfo<'a> = next_of(alloc, reader)?;
    Ok(info.key.octets)
}

fn buffered<'b>(info: &KeyInfo<'_>, buf: &'b mut [u8]) -> Result<&'b [u8], Error> {
    info.encode_to_slice(buf)
}

// The error of reading the octets.
fn refusal(alloc: Global, bytes: &[u8]) -> Option<Error> {
    key_of(alloc, bytes).err()
}

#[test]
fn a_key_is_read_and_written(rt: HostRuntime) -> Result<(), Fail> {
    let octets = [
        0x30, 0x0B, 0x30, 0x06, 0x04, 0x01, 0x2A, 0x04, 0x01, 0x09, 0x04, 0x01, 0xFF,
    ];
    let info = key_of(rt.alloc(), &octets)?;
    same_octets(&rt, info.algorithm.algorithm.octets, &[0x2A]);
    same(&rt, month_number(&info.algorithm.month), 9);
    same_octets(&rt, info.key.octets, &[0xFF]);
    let der = key_info_der(rt.alloc(), &info)?;
    same_octets(&rt, der.as_slice(), &octets);
    same(&rt, len_of(&info), Ok(Length::new(13)));
    let mut buf = [0; 13];
    same_octets(&rt, buffered(&info, &mut buf)?, &octets);
    Ok(())
}

#[test]
fn a_reader_decodes_a_key_and_leaves_the_rest(rt: HostRuntime) -> Result<(), Fail> {
    let octets = [
        0x30, 0x0B, 0x30, 0x06, 0x04, 0x01, 0x2A, 0x04, 0x01, 0x09, 0x04, 0x01, 0xFF, 0x05,
    ];
    let mut reader = der_reader(&octets)?;
    same_octets(&rt, next_key(rt.alloc(), &mut reader)?, &[0xFF]);
    same(&rt, reader.place(), (13, 14, false));
    Ok(())
}

#[test]
fn a_key_without_a_part_is_refused(rt: HostRuntime) {
    let rows: [(&[u8], Error); 4] = [
        (&[0x30, 0x00], incomplete(3, 2, 2)),
        (
            // no field of the identifier
            &[0x30, 0x02, 0x30, 0x00],
            incomplete(5, 4, 4),
        ),
        (
            // no month
            &[0x30, 0x08, 0x30, 0x03, 0x04, 0x01, 0x2A, 0x04, 0x01, 0xFF],
            incomplete(8, 7, 7),
        ),
        (
            // no key
            &[0x30, 0x08, 0x30, 0x06, 0x04, 0x01, 0x2A, 0x04, 0x01, 0x09],
            incomplete(11, 10, 10),
        ),
    ];
    for (octets, error) in rows {
        same_at(&rt, error, refusal(rt.alloc(), octets), Some(error));
    }
}

#[test]
fn a_key_with_another_tag_is_refused(rt: HostRuntime) {
    let alloc = rt.alloc();
    let identifier = [
        0x30, 0x0B, 0x31, 0x06, 0x04, 0x01, 0x2A, 0x04, 0x01, 0x09, 0x04, 0x01, 0xFF,
    ];
    let refused = unexpected(Tag::Sequence, Tag::Set);
    same(&rt, refusal(alloc, &identifier), Some(refused));
    let last = [
        0x30, 0x0B, 0x30, 0x06, 0x04, 0x01, 0x2A, 0x04, 0x01, 0x09, 0x03, 0x01, 0xFF,
    ];
    let refused = unexpected(Tag::OctetString, Tag::BitString);
    same(&rt, refusal(alloc, &last), Some(refused));
}

#[test]
fn a_key_with_octets_left_or_missing_is_refused(rt: HostRuntime) {
    let rows: [(&[u8], Error); 5] = [
        (
            // in the inner sequence
            &[
                0x30, 0x0D, 0x30, 0x08, 0x04, 0x01, 0x2A, 0x04, 0x01, 0x09, 0x05, 0x00, 0x04, 0x01,
                0xFF,
            ],
            trailing(10, 2),
        ),
        (
            // in the outer one
            &[
                0x30, 0x0D, 0x30, 0x06, 0x04, 0x01, 0x2A, 0x04, 0x01, 0x09, 0x04, 0x01, 0xFF, 0x05,
                0x00,
            ],
            trailing(13, 2),
        ),
        (
            // after it
            &[
                0x30, 0x0B, 0x30, 0x06, 0x04, 0x01, 0x2A, 0x04, 0x01, 0x09, 0x04, 0x01, 0xFF, 0x00,
            ],
            trailing(13, 1),
        ),
        (
            // the inner sequence ends far after the outer one
            &[
                0x30, 0x0B, 0x30, 0x14, 0x04, 0x01, 0x2A, 0x04, 0x01, 0x09, 0x04, 0x01, 0xFF,
            ],
            incomplete(14, 13, 13),
        ),
        (
            // its last octet is after the outer one
            &[
                0x30, 0x07, 0x30, 0x06, 0x04, 0x01, 0x2A, 0x04, 0x01, 0x09, 0x04, 0x01, 0xFF,
            ],
            incomplete(10, 9, 9),
        ),
    ];
    for (octets, error) in rows {
        same_at(&rt, error, refusal(rt.alloc(), octets), Some(error));
    }
}

#[test]
fn an_inner_sequence_past_the_end_leaves_the_reader(rt: HostRuntime) -> Result<(), Fail> {
    let octets = [
        0x30, 0x07, 0x30, 0x06, 0x04, 0x01, 0x2A, 0x04, 0x01, 0x09, 0x04, 0x01, 0xFF,
    ];
    let mut reader = der_reader(&octets)?;
    let refused = refusal_by::<SliceReader, KeyInfo>(rt.alloc(), &mut reader);
    same(&rt, refused, Some(incomplete(10, 9, 9)));
    same(&rt, reader.place(), (4, 13, false));
    Ok(())
}
