//! Octet `0x24`: the identifier of a segmented OCTET STRING, which only the Basic Encoding Rules
//! have.
use super::*;
use crate::checks::{same, same_at, same_octets};
use der::{Encode, TagPeek};

fn tag_under_ber(alloc: Global, octets: &[u8]) -> Result<Tag, Error> {
    Tag::from_ber(alloc, octets)
}

fn tag_under_der(alloc: Global, octets: &[u8]) -> Result<Tag, Error> {
    Tag::from_der(alloc, octets)
}

#[test]
fn octet_24_is_read_as_a_constructed_octet_string(rt: HostRuntime) -> Result<(), Fail> {
    let mut reader = ber_reader(&[0x24, 0x01, 0x09])?;
    let header = next_header(&mut reader)?;
    same(&rt, header.tag(), Tag::OctetString);
    same(&rt, header.is_constructed(), true);
    same(&rt, header.length(), Length::ONE);
    same(&rt, reader.place(), (2, 3, false));
    let mut not_borrowed = ber_not_borrowed(&[0x24, 0x01, 0x09])?;
    same(&rt, decode_header(&mut not_borrowed), Ok(header));
    same(&rt, not_borrowed.place(), (2, 3, false));
    Ok(())
}

// The constructed bit distinguishes two headers that are otherwise equal.
#[test]
fn the_constructed_bit_distinguishes_two_headers(rt: HostRuntime) -> Result<(), Fail> {
    let primitive = header_of(rt.alloc(), &[0x04, 0x00])?;
    same(&rt, primitive, Header::new(Tag::OctetString, Length::ZERO));
    let constructed = header_of(rt.alloc(), &[0x24, 0x00])?;
    same(&rt, constructed == primitive, false);
    same(&rt, constructed.is_constructed(), true);
    Ok(())
}

#[test]
fn the_header_of_segments_has_the_length_of_their_body(rt: HostRuntime) -> Result<(), Fail> {
    let octets = [0x24, 0x80, 0x04, 0x01, 0xAA, 0x04, 0x00, 0x00, 0x00];
    let mut reader = ber_reader(&octets)?;
    let segments = Header::new(Tag::OctetString, Length::new_indefinite(7));
    same(&rt, next_header(&mut reader), Ok(segments));
    same(&rt, reader.place(), (2, 9, false));
    Ok(())
}

#[test]
fn octet_24_is_a_tag_under_ber_alone(rt: HostRuntime) -> Result<(), Fail> {
    let alloc = rt.alloc();
    same(&rt, tag_under_ber(alloc, &[0x24]), Ok(Tag::OctetString));
    same(&rt, tag_under_ber(alloc, &[0x04]), Ok(Tag::OctetString));
    same(&rt, tag_under_der(alloc, &[0x24]), Err(unknown(0x24, 1)));
    same(
        &rt,
        tag_under_ber(alloc, &[0x24, 0x00]),
        Err(trailing(1, 1)),
    );
    let mut reader = ber_reader(&[0x24, 0x04])?;
    let constructed = Tag::decode_with_constructed_bit(&mut reader);
    same(&rt, constructed, Ok((Tag::OctetString, true)));
    let primitive = Tag::decode_with_constructed_bit(&mut reader);
    same(&rt, primitive, Ok((Tag::OctetString, false)));
    Ok(())
}

// What was read from it is written without the constructed bit and with a definite length.
#[test]
fn constructed_bit_and_indefinite_form_are_not_written(rt: HostRuntime) -> Result<(), Fail> {
    let tag = tag_under_ber(rt.alloc(), &[0x24])?;
    same_octets(&rt, tag.to_der(rt.alloc())?.as_slice(), &[0x04]);
    let mut reader = ber_reader(&[0x24, 0x80, 0x00, 0x00])?;
    let rows: [(Header, &[u8]); 2] = [
        (header_of(rt.alloc(), &[0x24, 0x01])?, &[0x04, 0x01]),
        (next_header(&mut reader)?, &[0x04, 0x02]),
    ];
    for (header, der) in rows {
        same_octets(&rt, header.to_der(rt.alloc())?.as_slice(), der);
    }
    Ok(())
}

// Every other octet is read as the same tag as under the Distinguished Encoding Rules.
#[test]
fn all_octets_but_24_are_read_alike_under_both_rules(rt: HostRuntime) {
    let alloc = rt.alloc();
    let refused = [
        0x00, 0x07, 0x08, 0x0B, 0x0E, 0x0F, 0x10, 0x11, 0x20, 0x21, 0x22, 0x23, 0x25, 0x26, 0x2C,
        0x32, 0x33, 0x36, 0x3A, 0x3E, 0x3F,
    ];
    for octet in refused {
        let error = unknown(octet, 1);
        same_at(&rt, error, tag_under_ber(alloc, &[octet]), Err(error));
        same_at(&rt, error, tag_under_der(alloc, &[octet]), Err(error));
    }
    let invalid = invalid_number(1);
    same(&rt, tag_under_ber(alloc, &[0x1F]), Err(invalid));
    same(&rt, tag_under_der(alloc, &[0x1F]), Err(invalid));
    for octet in 0..=255u8 {
        if octet != 0x24 {
            let under_der = tag_under_der(alloc, &[octet]);
            same_at(&rt, octet, tag_under_ber(alloc, &[octet]), under_der);
        }
    }
}

#[test]
fn octet_24_is_refused_under_der_and_the_reader_fails(rt: HostRuntime) -> Result<(), Fail> {
    let mut reader = der_reader(&[0x24, 0x01, 0x09])?;
    same(&rt, next_header(&mut reader), Err(unknown(0x24, 1)));
    same(&rt, reader.place(), (1, 3, true));
    Ok(())
}
