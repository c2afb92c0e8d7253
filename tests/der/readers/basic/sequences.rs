//! Indefinite-length contents that are read by a function, and the end-of-contents octets after
//! them.

use super::*;
use crate::checks::{same, same_at, same_octets};
use der::{close_value, read_value};

fn read_header<R: Reader>(reader: &mut R) -> Result<Header, Error>
{
    decode_header(reader)
}

fn read_none<R: Reader>(reader: &mut R) -> Result<(), Error>
{
    let _ = reader.position();
    Ok(())
}

fn read_inner(reader: &mut SliceReader<'_>) -> Result<Header, Error>
{
    reader.sequence(read_header)
}

fn header_within(reader: &mut SliceReader<'_>) -> Result<Header, Error> {
    read_inner(reader)
}

fn nothing_within(reader: &mut SliceReader<'_>) -> Result<(), Error> {
    reader.sequence(read_none)
}

// The header in a sequence that is in a sequence.
fn header_two_within(reader: &mut SliceReader<'_>) -> Result<Header, Error> {
    reader.sequence(read_inner)
}

// The header that the function for the contents gets, and their octets.
fn read_octets<'a>(
    reader: &mut SliceReader<'a>,
    header: Header,
) -> Result<(Header, &'a [u8]), Error>
{
    Ok((header, reader.read_slice(header.length())?))
}

fn contents_after<'a>(
    reader: &mut SliceReader<'a>,
    header: Header,
) -> Result<(Header, &'a [u8]), Error> {
    read_value(reader, header, read_octets)
}

fn null() -> Header {
    Header::new(Tag::Null, Length::ZERO)
}

#[test]
fn a_sequence_is_read_with_its_eoc(rt: HostRuntime) -> Result<(), Fail> {
    let octets = [0x30, 0x80, 0x05, 0x00, 0x00, 0x00, 0x02];
    let mut reader = ber_reader(&octets)?;
    same(&rt, header_within(&mut reader), Ok(null()));
    same(&rt, reader.place(), (6, 7, false));
    let mut not_borrowed = ber_not_borrowed(&octets)?;
    same(&rt, not_borrowed.sequence(read_header), Ok(null()));
    same(&rt, not_borrowed.place(), (6, 7, false));
    Ok(())
}

#[test]
fn an_empty_sequence_is_read_as_nothing_and_not_as_a_header(rt: HostRuntime) -> Result<(), Fail> {
    let octets = [0x30, 0x80, 0x00, 0x00];
    let mut reader = ber_reader(&octets)?;
    same(&rt, nothing_within(&mut reader), Ok(()));
    same(&rt, reader.place(), (4, 4, false));
    let mut reader = ber_reader(&octets)?;
    same(&rt, header_within(&mut reader), Err(incomplete(3, 2, 2)));
    same(&rt, reader.place(), (2, 4, true));
    Ok(())
}

#[test]
fn no_eoc_is_read_after_a_definite_sequence(rt: HostRuntime) -> Result<(), Fail> {
    let mut reader = ber_reader(&[0x30, 0x02, 0x05, 0x00, 0x00, 0x00])?;
    same(&rt, header_within(&mut reader), Ok(null()));
    same(&rt, reader.place(), (4, 6, false));
    Ok(())
}

#[test]
fn a_sequence_in_a_sequence_is_read_whatever_their_forms(rt: HostRuntime) -> Result<(), Fail> {
    let rows: [(&[u8], u32); 3] = [
        (
            &[0x30, 0x80, 0x30, 0x80, 0x05, 0x00, 0x00, 0x00, 0x00, 0x00],
            10,
        ),
        (
            // the outer one has a definite length
            &[0x30, 0x06, 0x30, 0x80, 0x05, 0x00, 0x00, 0x00],
            8,
        ),
        (
            // the inner one has
            &[0x30, 0x80, 0x30, 0x02, 0x05, 0x00, 0x00, 0x00],
            8,
        ),
    ];
    for (octets, end) in rows {
        let mut reader = ber_reader(octets)?;
        same_at(&rt, end, header_two_within(&mut reader), Ok(null()));
        same_at(&rt, end, reader.place(), (end, end, false));
    }
    Ok(())
}

// The end of a SEQUENCE of definite length ends the indefinite-length contents in it.
#[test]
fn a_body_that_is_cut_by_its_sequence_is_refused(rt: HostRuntime) -> Result<(), Fail> {
    let octets = [0x30, 0x05, 0x30, 0x80, 0x05, 0x00, 0x00, 0x00];
    let mut reader = ber_reader(&octets)?;
    same(
        &rt,
        header_two_within(&mut reader),
        Err(incomplete(8, 7, 7)),
    );
    same(&rt, reader.place(), (4, 8, false));
    Ok(())
}

#[test]
fn octets_left_in_a_sequence_are_refused_as_trailing(rt: HostRuntime) -> Result<(), Fail> {
    let octets = [0x30, 0x80, 0x05, 0x00, 0x02, 0x01, 0x2A, 0x00, 0x00];
    let mut reader = ber_reader(&octets)?;
    same(&rt, header_within(&mut reader), Err(trailing(4, 3)));
    same(&rt, reader.place(), (4, 9, true));
    let mut not_borrowed = ber_not_borrowed(&octets)?;
    same(&rt, not_borrowed.sequence(read_none), Err(trailing(2, 5)));
    same(&rt, not_borrowed.place(), (2, 9, true));
    Ok(())
}

#[test]
fn what_is_no_sequence_is_rejected_after_its_header(rt: HostRuntime) -> Result<(), Fail> {
    let rows: [(&[u8], Error, bool); 3] = [
        (
            &[0x31, 0x80, 0x00, 0x00],
            unexpected(Tag::Sequence, Tag::Set),
            false,
        ),
        (&[0x04, 0x80, 0x00, 0x00], indefinite(2), true),
        (&[0x30, 0x80, 0x05, 0x00], incomplete(5, 4, 4), false),
    ];
    for (octets, error, failed) in rows {
        let mut reader = ber_reader(octets)?;
        same_at(&rt, error, nothing_within(&mut reader), Err(error));
        same_at(&rt, error, reader.place(), (2, 4, failed));
    }
    Ok(())
}

// The function for the contents gets the header with their own length, which is indefinite if that
// of the header was.
#[test]
fn contents_get_a_flagged_header_with_their_own_length(rt: HostRuntime) -> Result<(), Fail> {
    let octets = [0x24, 0x80, 0x04, 0x01, 0x09, 0x00, 0x00, 0x05];
    let mut reader = ber_reader(&octets)?;
    let header = next_header(&mut reader)?;
    let string = Header::new(Tag::OctetString, Length::new_indefinite(5));
    same(&rt, header, string);
    let (inner, contents) = contents_after(&mut reader, header)?;
    same(&rt, inner, string.with_length(Length::new_indefinite(3)));
    same_octets(&rt, contents, &[0x04, 0x01, 0x09]);
    same(&rt, reader.place(), (7, 8, false));
    Ok(())
}

#[test]
fn contents_of_definite_length_get_their_header_unchanged(rt: HostRuntime) -> Result<(), Fail> {
    let octets = [0x24, 0x02, 0x04, 0x00, 0x00, 0x00];
    let mut reader = ber_reader(&octets)?;
    let header = next_header(&mut reader)?;
    let (inner, contents) = contents_after(&mut reader, header)?;
    same(&rt, inner, header);
    same_octets(&rt, contents, &[0x04, 0x00]);
    same(&rt, reader.place(), (4, 6, false));
    Ok(())
}

// A header that the caller makes may give more octets than a scan would: then there are no
// end-of-contents octets at its end.
#[test]
fn contents_without_their_eoc_are_rejected(rt: HostRuntime) -> Result<(), Fail> {
    let mut reader = ber_reader(&[0x05, 0x00, 0x00, 0x01])?;
    let header = Header::new(Tag::OctetString, Length::new_indefinite(4));
    let refused = contents_after(&mut reader, header).err();
    same(&rt, refused, Some(indefinite(4)));
    same(&rt, reader.place(), (4, 4, true));
    let mut reader = ber_reader(&[0x05, 0x00, 0x00])?;
    let refused = contents_after(&mut reader, header).err();
    same(&rt, refused, Some(incomplete(4, 3, 3)));
    same(&rt, reader.place(), (3, 3, true));
    Ok(())
}

#[test]
fn closed_contents_pass_their_eoc(rt: HostRuntime) -> Result<(), Fail> {
    let mut reader = ber_reader(&[0x30, 0x80, 0x05, 0x00, 0x00, 0x00])?;
    let header = decode_header(&mut reader)?;
    let length = header.length().sans_eoc();
    let outer = reader.enter_nested(length)?;
    let answer = decode_header(&mut reader);
    same(&rt, reader.place(), (4, 4, false));
    let closed = close_value(&mut reader, length, outer, answer);
    same(&rt, closed, Ok(null()));
    same(&rt, reader.place(), (6, 6, false));
    Ok(())
}
