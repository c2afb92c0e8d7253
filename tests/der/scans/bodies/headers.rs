//! Headers with indefinite lengths, and those that fail before or after a scan.
use super::*;
use crate::checks::{same, same_at};
use crate::der::scans::readers::{next_header, next_length};
use std::process::Abort;

// A SEQUENCE of indefinite length, with the number of octets of its contents, end-of-contents
// octets included.
fn sequence_of(count: u32) -> Header {
    Header::new(Tag::Sequence, Length::new_indefinite(count))
}

// The header of a SEQUENCE of indefinite length is read, and only its octets are consumed.
fn reads<R: Reader>(rt: &impl Abort, mut reader: R, count: u32) {
    let end = u32::from(reader.input_len());
    same_at(rt, count, Header::peek(&reader), Ok(sequence_of(count)));
    same_at(rt, count, place_of(&reader), (0, end, false));
    same_at(
        rt,
        count,
        decode_header(&mut reader),
        Ok(sequence_of(count)),
    );
    same_at(rt, count, place_of(&reader), (2, end, false));
}

fn reads_on_both(rt: &impl Abort, octets: &[u8], count: u32) -> Result<(), Error> {
    reads(rt, ber_reader(octets)?, count);
    reads(rt, ber_not_borrowed(octets)?, count);
    Ok(())
}

#[test]
fn the_header_of_a_body_in_a_body_counts_its_octets(rt: HostRuntime) -> Result<(), Fail> {
    reads_on_both(&rt, &SEGMENT_OF_ZEROS, 10)?;
    let mut reader = ber_reader(&SEGMENT_OF_ZEROS)?;
    let header = Header::decode(rt.alloc(), &mut reader)?;
    same(&rt, header.tag(), Tag::Sequence);
    same(&rt, u32::from(header.length()), 10);
    same(&rt, header.length().is_indefinite(), true);
    same(&rt, header.is_constructed(), true);
    Ok(())
}

#[test]
fn bodies_of_each_kind_are_counted_with_their_eocs(rt: HostRuntime) -> Result<(), Fail> {
    let rows: [(&[u8], u32); 6] = [
        (&[0x30, 0x80, 0x00, 0x00], 2),
        (&[0x30, 0x80, 0x00, 0x00, 0x05, 0x00], 2),
        (&[0x30, 0x80, 0x05, 0x00, 0x00, 0x00], 4),
        (&[0x30, 0x80, 0x04, 0x02, 0x00, 0x00, 0x00, 0x00, 0x00], 6),
        (&[0x30, 0x80, 0x30, 0x80, 0x00, 0x00, 0x00, 0x00], 6),
        (&[0x30, 0x80, 0xBF, 0x21, 0x80, 0x00, 0x00, 0x00, 0x00], 7),
    ];
    for (octets, count) in rows {
        reads_on_both(&rt, octets, count)?;
    }
    Ok(())
}

// Contents of a definite length are skipped unread, whatever they are.
#[test]
fn contents_of_definite_length_are_passed_unread(rt: HostRuntime) -> Result<(), Fail> {
    let octets = [0x30, 0x80, 0x30, 0x03, 0x3F, 0x80, 0x00, 0x00, 0x00];
    reads_on_both(&rt, &octets, 7)?;
    Ok(())
}

#[test]
fn long_bodies_are_counted_across_steps_of_16_octets(rt: HostRuntime) -> Result<(), Fail> {
    for count in [0, 15, 16, 17, 123, 127] {
        let octets = around_contents(rt.alloc(), count)?;
        reads_on_both(&rt, octets.as_slice(), count as u32 + 4)?;
    }
    Ok(())
}

#[test]
fn a_header_counts_64_bodies_inside_each_other(rt: HostRuntime) -> Result<(), Fail> {
    let octets = around_null(rt.alloc(), 64)?;
    same(&rt, octets.len(), 258);
    reads_on_both(&rt, octets.as_slice(), 256)?;
    let fewer = around_null(rt.alloc(), 63)?;
    reads_on_both(&rt, fewer.as_slice(), 252)?;
    Ok(())
}

// At the top the contents are scanned first; inside a scan the identifier fails at once.
#[test]
fn a_primitive_identifier_is_refused_once_its_body_is_scanned(rt: HostRuntime) -> Result<(), Fail> {
    let rows: [&[u8]; 3] = [
        &[0x04, 0x80, 0x00, 0x00],
        &[0x04, 0x80, 0x04, 0x01, 0x09, 0x00, 0x00],
        &[0x80, 0x80, 0x00, 0x00, 0x05],
    ];
    for octets in rows {
        rejected_after(&rt, ber_reader(octets)?, indefinite(2), true);
        rejected_after(&rt, ber_not_borrowed(octets)?, indefinite(2), true);
    }
    let rows: [(&[u8], Error); 3] = [
        (&[0x04, 0x80], incomplete(3, 2, 2)),
        (&[0x04, 0x80, 0x00], incomplete(4, 3, 3)),
        (&[0x04, 0x80, 0x04, 0x80], indefinite(4)),
    ];
    for (octets, error) in rows {
        rejected_after(&rt, ber_reader(octets)?, error, false);
        rejected_after(&rt, ber_not_borrowed(octets)?, error, false);
    }
    Ok(())
}

// Reading the header fails, and leaves the reader after two octets.
fn rejected_after<R: Reader>(rt: &impl Abort, mut reader: R, error: Error, failed: bool) {
    let end = u32::from(reader.input_len());
    same_at(rt, error, Header::peek(&reader), Err(error));
    same_at(rt, error, decode_header(&mut reader), Err(error));
    same_at(rt, error, place_of(&reader), (2, end, failed));
}

#[test]
fn a_length_without_a_tag_counts_its_body(rt: HostRuntime) -> Result<(), Fail> {
    let rows: [(&[u8], Error); 2] = [
        (&[0x80, 0x00, 0x00], trailing(1, 2)),
        (&[0x80], incomplete(2, 1, 1)),
    ];
    for (octets, error) in rows {
        let refused = Length::from_ber(rt.alloc(), octets);
        same_at(&rt, error, refused, Err(error));
    }
    let mut reader = ber_reader(&[0x80, 0x05, 0x00, 0x00, 0x00])?;
    let length = Length::decode(rt.alloc(), &mut reader)?;
    same(&rt, length, Length::new_indefinite(4));
    same(&rt, reader.place(), (1, 5, false));
    Ok(())
}

// A header does not include the octets of its contents.
#[test]
fn a_header_is_not_the_octets_of_its_body(rt: HostRuntime) {
    let rows: [(&[u8], Error); 2] = [
        (&[0x30, 0x80, 0x00, 0x00], trailing(2, 2)),
        (&[0x30, 0x80], incomplete(3, 2, 2)),
    ];
    for (octets, error) in rows {
        let refused = Header::from_ber(rt.alloc(), octets);
        same_at(&rt, error, refused, Err(error));
    }
}

// Reading a length fails for the tags in its contents, also if the length follows no tag.
#[test]
fn a_length_is_refused_by_the_error_of_its_body(rt: HostRuntime) -> Result<(), Fail> {
    let mut reader = ber_reader(&[0x80, 0x04, 0x81, 0x7F])?;
    let refused = incorrect(Tag::OctetString, 4);
    same(&rt, next_length(&mut reader), Err(refused));
    same(&rt, reader.place(), (1, 4, false));
    Ok(())
}

#[test]
fn a_header_is_read_after_a_rejected_one(rt: HostRuntime) -> Result<(), Fail> {
    let mut reader = ber_reader(&[0x30, 0x80, 0x05, 0x00])?;
    same(&rt, next_header(&mut reader), Err(incomplete(5, 4, 4)));
    let null = Header::new(Tag::Null, Length::ZERO);
    same(&rt, next_header(&mut reader), Ok(null));
    same(&rt, reader.place(), (4, 4, false));
    Ok(())
}

// A reader that decodes fails on every error.
#[test]
fn a_reader_that_decodes_fails_by_a_refused_header(rt: HostRuntime) -> Result<(), Fail> {
    let mut reader = ber_reader(&[0x30, 0x80])?;
    let header: Result<Header, Error> = reader.decode(rt.alloc());
    same(&rt, header, Err(incomplete(3, 2, 2)));
    same(&rt, reader.place(), (2, 2, true));
    let failed = ErrorKind::Failed.at(Length::new(2));
    same(&rt, next_header(&mut reader), Err(failed));
    same(&rt, next_length(&mut reader), Err(failed));
    Ok(())
}
