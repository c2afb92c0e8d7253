//! Peeks under the Basic Encoding Rules, which leave the reader unchanged.
use super::*;
use crate::checks::{holds, same, same_octets};
use der::{Class, TagNumber, TagPeek};
use std::process::Abort;

fn next_tag(reader: &SliceReader<'_>) -> Result<Tag, Error> {
    Tag::peek(reader)
}

fn peeked_header(reader: &SliceReader<'_>) -> Result<Header, Error> {
    Header::peek(reader)
}

// Whether the next tag is the universal one of this number.
fn is_next(reader: &mut SliceReader<'_>, number: u32) -> Result<bool, Error> {
    Tag::peek_matches(reader, Class::Universal, TagNumber(number))
}

fn octets_left<'a>(reader: &SliceReader<'a>) -> Result<&'a [u8], Error> {
    reader.remaining()
}

fn sees_segments<R: Reader>(rt: &impl Abort, mut reader: R) {
    let four = TagNumber(4);
    let universal = Class::Universal;
    same(rt, Tag::peek(&reader), Ok(Tag::OctetString));
    same(rt, reader.peek_tag(), Ok(Tag::OctetString));
    same(
        rt,
        Tag::peek_matches(&mut reader, universal, four),
        Ok(true),
    );
    let private = Class::Private;
    same(rt, Tag::peek_matches(&mut reader, private, four), Ok(false));
    let sixteen = TagNumber(16);
    same(
        rt,
        Tag::peek_matches(&mut reader, universal, sixteen),
        Ok(false),
    );
    same(rt, reader.peek_byte(), Some(0x24));
    same(rt, place_of(&reader), (0, 4, false));
}

#[test]
fn a_peek_sees_segments_under_ber_and_the_reader_stays(rt: HostRuntime) -> Result<(), Fail> {
    let octets = [0x24, 0x80, 0x00, 0x00];
    sees_segments(&rt, ber_reader(&octets)?);
    sees_segments(&rt, ber_not_borrowed(&octets)?);
    let reader = ber_reader(&octets)?;
    let segments = Header::new(Tag::OctetString, Length::new_indefinite(2));
    same(&rt, peeked_header(&reader), Ok(segments));
    same_octets(&rt, octets_left(&reader)?, &octets);
    let constructed = peek_header(&ber_reader(&[0x24, 0x01])?)?;
    same(&rt, constructed.tag(), Tag::OctetString);
    holds(&rt, constructed.is_constructed());
    Ok(())
}

#[test]
fn a_peek_refuses_segments_under_der_and_the_reader_stays(rt: HostRuntime) -> Result<(), Fail> {
    let octets = [0x24, 0x80, 0x00, 0x00];
    let mut reader = der_reader(&octets)?;
    let refused = unknown(0x24, 1);
    same(&rt, next_tag(&reader), Err(refused));
    same(&rt, peeked_header(&reader), Err(refused));
    same(&rt, is_next(&mut reader, 4), Err(refused));
    same_octets(&rt, octets_left(&reader)?, &octets);
    same(&rt, reader.place(), (0, 4, false));
    Ok(())
}

// Only the tag is checked, whatever follows it.
#[test]
fn a_tag_is_peeked_although_what_follows_it_is_rejected(rt: HostRuntime) -> Result<(), Fail> {
    let mut reader = ber_reader(&[0x24, 0x80, 0x3F, 0x00])?;
    same(&rt, next_tag(&reader), Ok(Tag::OctetString));
    same(&rt, is_next(&mut reader, 4), Ok(true));
    same(&rt, peek_header(&reader), Err(unknown(0x3F, 3)));
    same(&rt, reader.place(), (0, 4, false));
    Ok(())
}

#[test]
fn an_unknown_next_tag_is_rejected_and_the_end_matches_none(rt: HostRuntime) -> Result<(), Fail> {
    let mut reader = ber_reader(&[0x2C, 0x00])?;
    same(&rt, next_tag(&reader), Err(unknown(0x2C, 1)));
    same(&rt, is_next(&mut reader, 12), Err(unknown(0x2C, 1)));
    same(&rt, reader.place(), (0, 2, false));
    let mut nothing = ber_reader(&[])?;
    same(&rt, is_next(&mut nothing, 4), Ok(false));
    same(&rt, nothing.peek_tag(), Err(incomplete(1, 0, 0)));
    Ok(())
}

#[test]
fn a_primitive_header_with_octet_80_is_rejected_when_peeked(rt: HostRuntime) -> Result<(), Fail> {
    let reader = ber_reader(&[0x04, 0x80, 0x00, 0x00])?;
    same(&rt, peeked_header(&reader), Err(indefinite(2)));
    same(&rt, reader.place(), (0, 4, false));
    Ok(())
}

// Indefinite-length contents are borrowed after their header, and so is what is left after a header
// that failed.
#[test]
fn what_follows_a_header_is_borrowed_even_if_it_is_rejected(rt: HostRuntime) -> Result<(), Fail> {
    let mut reader = ber_reader(&[0x30, 0x80, 0x05, 0x00, 0x00, 0x00])?;
    let sequence = Header::new(Tag::Sequence, Length::new_indefinite(4));
    same(&rt, next_header(&mut reader), Ok(sequence));
    let body = [0x05, 0x00, 0x00, 0x00];
    same_octets(&rt, octets_left(&reader)?, &body);
    same_octets(&rt, reader.read_slice(sequence.length())?, &body);
    let mut refused = ber_reader(&[0x30, 0x80, 0x3F, 0x00])?;
    same(&rt, next_header(&mut refused), Err(unknown(0x3F, 3)));
    same_octets(&rt, octets_left(&refused)?, &[0x3F, 0x00]);
    same(&rt, refused.peek_byte(), Some(0x3F));
    Ok(())
}
