//! Peeks and decoding of a reader that returns no slices.
use super::*;
use crate::checks::{holds, same};
use der::{Class, TagPeek};
use crate::fixtures::errors::unknown;

#[test]
fn a_reader_that_cannot_read_slices_peeks_a_header(rt: HostRuntime) -> Result<(), Fail> {
    let octets = [0x30, 0x00];
    let reader = der_not_borrowed(&octets)?;
    let sequence = Header::new(Tag::Sequence, Length::ZERO);
    same(&rt, Header::peek(&reader), Ok(sequence));
    same(&rt, reader.peek_header(), Ok(sequence));
    same(&rt, reader.place(), (0, 2, false));
    Ok(())
}

#[test]
fn a_reader_that_cannot_read_slices_peeks_octets(rt: HostRuntime) -> Result<(), Fail> {
    let octets = [0x30, 0x00];
    let reader = der_not_borrowed(&octets)?;
    let mut buffer = [0u8; 2];
    same(&rt, reader.peek_into(&mut buffer), Ok(()));
    same(&rt, buffer, [0x30, 0x00]);
    same(&rt, reader.place(), (0, 2, false));
    Ok(())
}

#[test]
fn a_reader_that_cannot_read_slices_peeks_and_matches_a_tag(rt: HostRuntime) -> Result<(), Fail> {
    let octets = [0xA1, 0x00];
    let mut reader = der_not_borrowed(&octets)?;
    let one = TagNumber(1);
    same(&rt, Tag::peek(&reader), Ok(one.context_specific(true)));
    same(
        &rt,
        Tag::peek_matches(&mut reader, Class::ContextSpecific, one),
        Ok(true),
    );
    same(&rt, reader.place(), (0, 2, false));
    Ok(())
}

#[test]
fn a_reader_that_cannot_read_slices_decodes_a_tag_with_its_bit(rt: HostRuntime) -> Result<(), Fail> {
    let octets = [0x30];
    let mut reader = der_not_borrowed(&octets)?;
    same(
        &rt,
        Tag::decode_with_constructed_bit(&mut reader),
        Ok((Tag::Sequence, true)),
    );
    same(&rt, reader.place(), (1, 1, false));
    Ok(())
}

#[test]
fn a_reader_that_cannot_read_slices_decodes_a_header(rt: HostRuntime) -> Result<(), Fail> {
    let octets = [0x04, 0x01];
    let mut reader = der_not_borrowed(&octets)?;
    let header = Header::new(Tag::OctetString, Length::ONE);
    same(&rt, Header::decode(rt.alloc(), &mut reader), Ok(header));
    holds(&rt, reader.is_finished());
    Ok(())
}

#[test]
fn a_reader_that_cannot_read_slices_decodes_a_length(rt: HostRuntime) -> Result<(), Fail> {
    let octets = [0x81, 0x80];
    let mut reader = der_not_borrowed(&octets)?;
    same(
        &rt,
        Length::decode(rt.alloc(), &mut reader),
        Ok(Length::new(128)),
    );
    holds(&rt, reader.is_finished());
    Ok(())
}

#[test]
fn a_rejected_value_fails_a_reader_that_cannot_read_slices(rt: HostRuntime) -> Result<(), Fail> {
    let mut reader = der_not_borrowed(&[0x3F, 0x05])?;
    let refused = Err(unknown(0x3F, 1));
    same(&rt, not_borrowed_tag(rt.alloc(), &mut reader), refused);
    same(&rt, reader.place(), (1, 2, true));
    let failed = Err(ErrorKind::Failed.at(Length::ONE));
    same(&rt, not_borrowed_tag(rt.alloc(), &mut reader), failed);
    Ok(())
}
