//! Indefinite-length contents inside parts: a scan goes up to the end of the part, and counts its
//! own levels.

use super::*;
use crate::checks::{same, same_at};
use crate::der::scans::readers::next_element;
use der::close_value;
use std::process::Abort;

fn read_header<R: Reader>(reader: &mut R) -> Result<Header, Error>
{
    decode_header(reader)
}

fn cut_by_a_part<R: Reader>(rt: &impl Abort, mut reader: R) {
    let refused = reader.read_nested(Length::new(4), read_header);
    same(rt, refused, Err(incomplete(5, 4, 4)));
    same(rt, place_of(&reader), (2, 6, false));
}

#[test]
fn a_body_that_its_part_cuts_is_refused(rt: HostRuntime) -> Result<(), Fail> {
    let octets = [0x30, 0x80, 0x04, 0x00, 0x00, 0x00];
    cut_by_a_part(&rt, ber_reader(&octets)?);
    cut_by_a_part(&rt, ber_not_borrowed(&octets)?);
    Ok(())
}

// A part that holds the contents, and one that truncates them.
#[test]
fn a_body_is_scanned_up_to_the_end_of_its_part(rt: HostRuntime) -> Result<(), Fail> {
    let rows: [(&[u8], u32, Error, bool); 2] = [
        (
            &[0x30, 0x80, 0x04, 0x00, 0x00, 0x00, 0x05, 0x00],
            6,
            trailing(2, 4),
            true,
        ),
        (
            &[0x30, 0x80, 0x04, 0x02, 0x00, 0x00, 0x00, 0x00],
            5,
            incomplete(6, 5, 4),
            false,
        ),
    ];
    for (octets, part, error, failed) in rows {
        let mut reader = ber_reader(octets)?;
        let refused = reader.read_nested(Length::new(part), read_header);
        same_at(&rt, error, refused, Err(error));
        same_at(&rt, error, reader.place(), (2, 8, failed));
    }
    Ok(())
}

#[test]
fn an_element_is_rejected_where_a_part_truncates_it_and_then_borrowed(rt: HostRuntime) -> Result<(), Fail> {
    let mut reader = ber_reader(&[0x30, 0x80, 0x00, 0x00])?;
    let outer = reader.enter_nested(Length::new(3))?;
    same(&rt, reader.tlv_bytes().err(), Some(incomplete(4, 3, 3)));
    same(&rt, reader.place(), (0, 3, false));
    reader.leave_nested(outer);
    let whole = [0x30, 0x80, 0x00, 0x00];
    same(&rt, next_element(&mut reader)?, whole.as_slice());
    Ok(())
}

// The reader inside this number of parts of these octets.
fn inside(octets: &[u8; 4], parts: u8) -> Result<SliceReader<'_>, Error> {
    let mut reader = ber_reader(octets)?;
    for _ in 0..parts {
        reader.enter_nested(Length::new(4))?;
    }
    Ok(reader)
}

// A header needs no level of nesting, its contents need one.
#[test]
fn a_sequence_is_entered_inside_63_parts_and_not_inside_64(rt: HostRuntime) -> Result<(), Fail> {
    let octets = [0x30, 0x80, 0x00, 0x00];
    let mut reader = inside(&octets, 63)?;
    same(&rt, reader.sequence(read_none), Ok(()));
    same(&rt, reader.place(), (4, 4, false));
    let mut reader = inside(&octets, 64)?;
    let empty = Header::new(Tag::Sequence, Length::new_indefinite(2));
    same(&rt, reader.peek_header(), Ok(empty));
    same(&rt, reader.sequence(read_none), Err(too_deep(2)));
    same(&rt, reader.place(), (2, 4, true));
    Ok(())
}

fn read_none<R: Reader>(reader: &mut R) -> Result<(), Error>
{
    let _ = reader.position();
    Ok(())
}

// The header inside `levels` elements, each of them read with its contents and its end-of-contents
// octets.
fn innermost<R: Reader>(reader: &mut R, levels: u8) -> Result<Header, Error>
{
    let header = decode_header(reader)?;
    if levels == 0 {
        return Ok(header);
    }
    let length = header.length().sans_eoc();
    let outer = reader.enter_nested(length)?;
    let answer = innermost(reader, levels - 1);
    close_value(reader, length, outer, answer)
}

fn reads_innermost<R: Reader>(rt: &impl Abort, mut reader: R) {
    let null = Header::new(Tag::Null, Length::ZERO);
    same(rt, innermost(&mut reader, 64), Ok(null));
    same(rt, place_of(&reader), (258, 258, false));
}

#[test]
fn bodies_are_entered_64_levels_deep(rt: HostRuntime) -> Result<(), Fail> {
    let octets = around_null(rt.alloc(), 64)?;
    reads_innermost(&rt, ber_reader(octets.as_slice())?);
    reads_innermost(&rt, ber_not_borrowed(octets.as_slice())?);
    Ok(())
}

// Inside one more part the header is still read, but not the contents of the 64th element.
#[test]
fn inside_a_part_the_64th_body_is_not_entered(rt: HostRuntime) -> Result<(), Fail> {
    let octets = around_null(rt.alloc(), 64)?;
    let mut reader = ber_reader(octets.as_slice())?;
    let outer = reader.enter_nested(Length::new(258))?;
    let whole = Header::new(Tag::Sequence, Length::new_indefinite(256));
    same(&rt, reader.peek_header(), Ok(whole));
    same(&rt, innermost(&mut reader, 64), Err(too_deep(128)));
    same(&rt, reader.place(), (128, 258, true));
    reader.leave_nested(outer);
    Ok(())
}

#[test]
fn a_scan_refuses_65_bodies_before_one_is_entered(rt: HostRuntime) -> Result<(), Fail> {
    let octets = around_null(rt.alloc(), 65)?;
    let mut reader = ber_reader(octets.as_slice())?;
    same(&rt, innermost(&mut reader, 65), Err(too_deep(130)));
    same(&rt, reader.place(), (2, 262, false));
    Ok(())
}
