//! The errors of indefinite-length contents: of a header with them, of a scan that consumes them,
//! and of a scan that peeks.

use super::scans::{next_body, pass_body};
use super::*;
use crate::checks::same_at;
use crate::der::scans::readers::next_element;
use std::process::Abort;

// Reading the contents after the first two octets gives this error, in every call and on both
// readers.
fn refused(rt: &impl Abort, octets: &[u8], error: Error) -> Result<(), Error> {
    header_refused(rt, ber_reader(octets)?, error);
    header_refused(rt, ber_not_borrowed(octets)?, error);
    element_refused(rt, ber_reader(octets)?, error);
    body_refused(rt, ruled_reader(octets)?, error)?;
    body_refused(rt, ber_not_borrowed(octets)?, error)
}

// Reading each of these contents gives its error.
fn refused_each(rt: &impl Abort, rows: &[(&[u8], Error)]) -> Result<(), Fail> {
    for (octets, error) in rows {
        refused(rt, octets, *error)?;
    }
    Ok(())
}

// A header whose contents fail leaves the reader after octet `0x80`, and not failed.
fn header_refused<R: Reader>(rt: &impl Abort, mut reader: R, error: Error) {
    let end = u32::from(reader.input_len());
    same_at(rt, error, reader.peek_header(), Err(error));
    same_at(rt, error, place_of(&reader), (0, end, false));
    same_at(rt, error, decode_header(&mut reader), Err(error));
    same_at(rt, error, place_of(&reader), (2, end, false));
}

// An element whose header fails leaves the reader unchanged.
fn element_refused(rt: &impl Abort, mut reader: SliceReader<'_>, error: Error) {
    let end = u32::from(reader.input_len());
    same_at(rt, error, next_element(&mut reader).err(), Some(error));
    same_at(rt, error, reader.place(), (0, end, false));
}

// A scan that consumes and fails leaves the reader failed, at the position of the error.
fn body_refused<R: Reader>(rt: &impl Abort, mut reader: R, error: Error) -> Result<(), Error>
{
    let end = u32::from(reader.input_len());
    reader.drain(Length::new(2))?;
    same_at(rt, error, next_body(&reader), Err(error));
    same_at(rt, error, place_of(&reader), (2, end, false));
    same_at(rt, error, pass_body(&mut reader), Err(error));
    same_at(rt, error, Some(reader.position()), error.position());
    same_at(rt, error, reader.is_failed(), true);
    Ok(())
}

#[test]
fn a_body_without_an_eoc_is_rejected(rt: HostRuntime) -> Result<(), Fail> {
    let rows: [(&[u8], Error); 5] = [
        (&[0x30, 0x80], incomplete(3, 2, 2)),
        (&[0x30, 0x80, 0x05, 0x00], incomplete(5, 4, 4)),
        (&[0x30, 0x80, 0xA0, 0x80], incomplete(5, 4, 4)),
        (&[0x30, 0x80, 0x30, 0x80, 0x00, 0x00], incomplete(7, 6, 6)),
        (
            &[0x30, 0x80, 0xBF, 0x8F, 0xFF, 0xFF, 0xFF, 0x7F, 0x80],
            incomplete(10, 9, 9),
        ),
    ];
    refused_each(&rt, &rows)
}

#[test]
fn half_an_eoc_is_rejected(rt: HostRuntime) -> Result<(), Fail> {
    let rows: [(&[u8], Error); 3] = [
        (&[0x30, 0x80, 0x00], incomplete(4, 3, 3)),
        (&[0x30, 0x80, 0x05, 0x00, 0x00], incomplete(6, 5, 5)),
        (
            &[0x30, 0x80, 0x24, 0x80, 0x00, 0x00, 0x00],
            incomplete(8, 7, 7),
        ),
    ];
    refused_each(&rt, &rows)
}

#[test]
fn half_an_eoc_before_another_octet_is_rejected(rt: HostRuntime) -> Result<(), Fail> {
    let rows: [(&[u8], Error); 4] = [
        (&[0x30, 0x80, 0x00, 0x01], indefinite(4)),
        (&[0x30, 0x80, 0x00, 0x80, 0x00, 0x00], indefinite(4)),
        (
            &[0x30, 0x80, 0x24, 0x80, 0x00, 0x05, 0x00, 0x00],
            indefinite(6),
        ),
        (
            &[0x30, 0x80, 0x05, 0x00, 0x00, 0x05, 0x00, 0x00],
            indefinite(6),
        ),
    ];
    refused_each(&rt, &rows)
}

#[test]
fn wrong_identifiers_in_a_body_are_refused(rt: HostRuntime) -> Result<(), Fail> {
    let rows: [(&[u8], Error); 5] = [
        (&[0x30, 0x80, 0x3F, 0x00], unknown(0x3F, 3)),
        (&[0x30, 0x80, 0x25, 0x80, 0x00, 0x00], unknown(0x25, 3)),
        (&[0x30, 0x80, 0x1F], invalid_number(3)),
        (&[0x30, 0x80, 0x5F, 0x1E, 0x00], invalid_number(4)),
        (
            &[0x30, 0x80, 0x24, 0x80, 0x04, 0x00, 0x2C, 0x00],
            unknown(0x2C, 7),
        ),
    ];
    refused_each(&rt, &rows)
}

// What fails early is not a truncated identifier.
#[test]
fn a_malformed_identifier_at_the_end_is_not_reported_as_truncated(rt: HostRuntime) -> Result<(), Fail> {
    refused(&rt, &[0x30, 0x80, 0x5F, 0x80], invalid_number(4))?;
    let too_large = [0x30, 0x80, 0x5F, 0x90, 0x80, 0x80, 0x80];
    refused(&rt, &too_large, invalid_number(7))?;
    Ok(())
}

#[test]
fn cut_identifiers_in_a_body_are_refused(rt: HostRuntime) -> Result<(), Fail> {
    let rows: [(&[u8], Error); 3] = [
        (&[0x30, 0x80, 0x5F, 0x9E], incomplete(5, 4, 4)),
        (&[0x30, 0x80, 0x5F], incomplete(4, 3, 3)),
        (
            &[0x30, 0x80, 0xDF, 0x8F, 0xFF, 0xFF, 0xFF],
            incomplete(8, 7, 7),
        ),
    ];
    refused_each(&rt, &rows)
}

#[test]
fn primitive_identifiers_before_octet_80_are_refused(rt: HostRuntime) -> Result<(), Fail> {
    let rows: [(&[u8], Error); 4] = [
        (&[0x30, 0x80, 0x04, 0x80], indefinite(4)),
        (&[0x30, 0x80, 0x80, 0x80, 0x00, 0x00], indefinite(4)),
        (
            &[0x30, 0x80, 0x5F, 0x21, 0x80, 0x00, 0x00, 0x00, 0x00],
            indefinite(5),
        ),
        (
            &[0x30, 0x80, 0x30, 0x80, 0x05, 0x80, 0x00, 0x00],
            indefinite(6),
        ),
    ];
    refused_each(&rt, &rows)
}

#[test]
fn more_than_64_open_bodies_are_refused(rt: HostRuntime) -> Result<(), Fail> {
    let octets = around_null(rt.alloc(), 65)?;
    refused(&rt, octets.as_slice(), too_deep(130))?;
    refused(&rt, first_octets(octets.as_slice(), 130), too_deep(130))?;
    let deeper = around_null(rt.alloc(), 70)?;
    refused(&rt, deeper.as_slice(), too_deep(130))?;
    Ok(())
}

// With 64 open levels, all other errors are as before.
#[test]
fn inside_64_open_bodies_other_refusals_are_as_before(rt: HostRuntime) -> Result<(), Fail> {
    let octets = around_null(rt.alloc(), 65)?;
    let whole = first_octets(octets.as_slice(), 128);
    refused(&rt, whole, incomplete(129, 128, 128))?;
    let cut = first_octets(octets.as_slice(), 129);
    refused(&rt, cut, incomplete(130, 129, 129))?;
    let mut primitive = Vec::from_slice(rt.alloc(), whole)?;
    primitive.extend_from_slice(&[0x04, 0x80, 0x00, 0x00])?;
    refused(&rt, primitive.as_slice(), indefinite(130))?;
    Ok(())
}

#[test]
fn wrong_lengths_in_a_body_are_refused(rt: HostRuntime) -> Result<(), Fail> {
    let rows: [(&[u8], Error); 5] = [
        (
            &[0x30, 0x80, 0x04, 0x81, 0x7F],
            incorrect(Tag::OctetString, 5),
        ),
        (&[0x30, 0x80, 0x04, 0x85], incorrect(Tag::OctetString, 4)),
        (&[0x30, 0x80, 0x24, 0xFF], incorrect(Tag::OctetString, 4)),
        (
            &[0x30, 0x80, 0x02, 0x82, 0x00, 0x80],
            incorrect(Tag::Integer, 6),
        ),
        (
            &[0x30, 0x80, 0x30, 0x84, 0x00, 0xFF, 0xFF, 0xFF],
            incorrect(Tag::Sequence, 8),
        ),
    ];
    refused_each(&rt, &rows)
}

#[test]
fn cut_lengths_in_a_body_are_refused(rt: HostRuntime) -> Result<(), Fail> {
    let rows: [(&[u8], Error); 4] = [
        (&[0x30, 0x80, 0x04], incomplete(4, 3, 3)),
        (&[0x30, 0x80, 0x04, 0x82, 0x00], incomplete(6, 5, 5)),
        (&[0x30, 0x80, 0x04, 0x81], incomplete(5, 4, 4)),
        (
            &[0x30, 0x80, 0x04, 0x84, 0x00, 0x00, 0x00],
            incomplete(8, 7, 7),
        ),
    ];
    refused_each(&rt, &rows)
}

// A truncated OCTET STRING, with its first octets: position 4 is after its header.
fn begun(alloc: Global, count: u8, there: usize) -> Result<Vec<u8>, Fail> {
    let mut octets = Vec::from_slice(alloc, &[0x30, 0x80, 0x04, count])?;
    for _ in 0..there {
        octets.push(0x2A)?;
    }
    Ok(octets)
}

// Whole steps of sixteen octets are consumed before the next step fails.
#[test]
fn cut_contents_are_refused_at_their_step_of_16_octets(rt: HostRuntime) -> Result<(), Fail> {
    let rows = [
        (2, 0, incomplete(6, 4, 4)),
        (2, 1, incomplete(6, 5, 4)),
        (16, 15, incomplete(20, 19, 4)),
        (17, 15, incomplete(20, 19, 4)),
        (20, 3, incomplete(20, 7, 4)),
        (20, 15, incomplete(20, 19, 4)),
        (20, 16, incomplete(24, 20, 20)),
        (20, 18, incomplete(24, 22, 20)),
        (40, 33, incomplete(44, 37, 36)),
        (127, 112, incomplete(131, 116, 116)),
    ];
    for (count, there, error) in rows {
        let octets = begun(rt.alloc(), count, there)?;
        refused(&rt, octets.as_slice(), error)?;
    }
    Ok(())
}

#[test]
fn cut_contents_of_long_lengths_are_refused_at_their_step(rt: HostRuntime) -> Result<(), Fail> {
    refused(&rt, &[0x30, 0x80, 0x05, 0x81, 0x80], incomplete(21, 5, 5))?;
    let longest = [0x30, 0x80, 0x04, 0x84, 0xFF, 0xFF, 0xFF, 0xFF];
    refused(&rt, &longest, incomplete(24, 8, 8))?;
    let mut octets = Vec::from_slice(rt.alloc(), &[0x30, 0x80, 0x24, 0x81, 0x81])?;
    for _ in 0..40 {
        octets.push(0x00)?;
    }
    refused(&rt, octets.as_slice(), incomplete(53, 45, 37))?;
    Ok(())
}
