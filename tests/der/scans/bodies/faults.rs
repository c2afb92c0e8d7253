//! Readers that fail at one read, for each read in turn until none fails: every other result is the
//! same as without the failure.

use super::scans::{next_body, pass_body};
use super::*;
use crate::checks::same_at;
use std::process::Abort;

// The result for a header if the read of this number fails, and the place of the reader then.
fn header_of(octets: &[u8], read: u32) -> Result<(Result<Header, Error>, (u32, u32, bool)), Error> {
    let mut reader = ber_failing(octets, read)?;
    let header = decode_header(&mut reader);
    Ok((header, place_of(&reader)))
}

// The position of each read: each octet of the header and of the indefinite-length contents is read
// once, and definite contents are skipped at once.
const READS: [(u32, u32); 11] = [
    (1, 0),
    (2, 1),
    (3, 2),
    (4, 3),
    (5, 4),
    (6, 5),
    (7, 6),
    (8, 8),
    (9, 9),
    (10, 10),
    (11, 11),
];

#[test]
fn a_header_is_refused_at_whichever_read_fails(rt: HostRuntime) -> Result<(), Fail> {
    for (read, begins) in READS {
        let refused = (Err(unsupported(begins)), (begins.min(2), 12, false));
        same_at(&rt, read, header_of(&SEGMENT_OF_ZEROS, read)?, refused);
    }
    let sequence = Header::new(Tag::Sequence, Length::new_indefinite(10));
    for read in [0, 12, 13] {
        let answer = header_of(&SEGMENT_OF_ZEROS, read)?;
        same_at(&rt, read, answer, (Ok(sequence), (2, 12, false)));
    }
    Ok(())
}

#[test]
fn a_scan_is_refused_at_whichever_read_fails(rt: HostRuntime) -> Result<(), Fail> {
    let rows = [
        (1, Err(unsupported(0)), 0),
        (2, Err(unsupported(1)), 1),
        (3, Err(unsupported(2)), 2),
        (4, Err(unsupported(3)), 3),
        (5, Err(unsupported(4)), 4),
        (6, Err(unsupported(6)), 6),
        (7, Err(unsupported(7)), 7),
        (8, Err(unsupported(8)), 8),
        (9, Err(unsupported(9)), 9),
        (10, Ok(Length::new_indefinite(10)), 10),
    ];
    for (read, answer, place) in rows {
        let mut reader = ber_failing(&SEGMENT_OF_ZEROS[2..], read)?;
        same_at(&rt, read, next_body(&reader), answer);
        same_at(&rt, read, place_of(&reader), (0, 10, false));
        same_at(&rt, read, pass_body(&mut reader), answer);
        same_at(&rt, read, place_of(&reader), (place, 10, false));
    }
    Ok(())
}

// A primitive identifier before octet `0x80` is never accepted, whichever read fails.
#[test]
fn a_wrong_body_is_never_taken_whichever_read_fails(rt: HostRuntime) -> Result<(), Fail> {
    let octets = [0x30, 0x80, 0x04, 0x80, 0x00, 0x00, 0x00, 0x00];
    for read in 1..=4u32 {
        let (refused, _) = header_of(&octets, read)?;
        same_at(&rt, read, refused, Err(unsupported(read - 1)));
    }
    for read in [0, 5, 6, 7, 8, 9] {
        let answer = header_of(&octets, read)?;
        same_at(&rt, read, answer, (Err(indefinite(4)), (2, 8, false)));
    }
    Ok(())
}

// The header is read by a peek; then a slice of the element is requested, which fails.
#[test]
fn an_element_is_never_borrowed_whichever_read_fails(rt: HostRuntime) -> Result<(), Fail> {
    for (read, begins) in READS {
        element_refused(&rt, read, begins)?;
    }
    for read in [0, 12, 13] {
        element_refused(&rt, read, 0)?;
    }
    Ok(())
}

fn element_refused(rt: &impl Abort, read: u32, position: u32) -> Result<(), Error> {
    let mut reader = ber_failing(&SEGMENT_OF_ZEROS, read)?;
    let refused = reader.tlv_bytes().err();
    same_at(rt, read, refused, Some(unsupported(position)));
    same_at(rt, read, place_of(&reader), (0, 12, false));
    Ok(())
}

fn read_header<R: Reader>(reader: &mut R) -> Result<Header, Error>
{
    decode_header(reader)
}

// The header in a sequence, and the place of the reader then.
fn sequence_by<R: Reader>(mut reader: R) -> (Result<Header, Error>, (u32, u32, bool)) {
    let header = reader.sequence(read_header);
    (header, place_of(&reader))
}

#[test]
fn a_sequence_is_refused_at_whichever_read_fails(rt: HostRuntime) -> Result<(), Fail> {
    let octets = [0x30, 0x02, 0x05, 0x00];
    for read in 1..=4u32 {
        let refused = (Err(unsupported(read - 1)), (read - 1, 4, false));
        same_at(&rt, read, sequence_by(der_failing(&octets, read)?), refused);
    }
    let null = Header::new(Tag::Null, Length::ZERO);
    for read in [0, 5, 6] {
        let answer = sequence_by(der_failing(&octets, read)?);
        same_at(&rt, read, answer, (Ok(null), (4, 4, false)));
    }
    Ok(())
}

// The contents are scanned first, so a read that fails there fails before they are entered.
#[test]
fn an_indefinite_sequence_is_refused_at_whichever_read_fails(rt: HostRuntime) -> Result<(), Fail> {
    let octets = [0x30, 0x80, 0x05, 0x00, 0x00, 0x00];
    for read in 1..=6u32 {
        let begins = read - 1;
        let refused = (Err(unsupported(begins)), (begins.min(2), 6, false));
        same_at(&rt, read, sequence_by(ber_failing(&octets, read)?), refused);
    }
    let null = Header::new(Tag::Null, Length::ZERO);
    for read in [0, 7, 8] {
        let answer = sequence_by(ber_failing(&octets, read)?);
        same_at(&rt, read, answer, (Ok(null), (6, 6, false)));
    }
    Ok(())
}
