//! The scan of indefinite-length contents, by a reader that consumes them and by one that peeks.

use super::*;
use crate::checks::{same, same_at};
use crate::der::scans::readers::{next_header, ruled_after};
use der::{Turns, decode_indefinite_length};
use std::marker::Brand;
use std::process::Abort;
use std::sync::ledger::{Blank, Ledger};

// Consumes indefinite-length contents, without counting turns.
pub(super) fn pass_body<R: Reader>(reader: &mut R) -> Result<Length, Error>
{
    pass_counted::<R, Brand>(reader, Blank::new(1))
}

fn pass_counted<R: Reader, L: Ledger>(reader: &mut R, blank: Blank) -> Result<Length, Error>
{
    let mut turns = Turns::<L>::new(blank);
    decode_indefinite_length(reader, &mut turns)
}

// Scans indefinite-length contents without consuming them and without counting turns.
pub(super) fn next_body<R: Reader>(reader: &R) -> Result<Length, Error>
{
    peeked_count::<R, Brand>(reader, Blank::new(1))
}

fn peeked_count<R: Reader, L: Ledger>(reader: &R, blank: Blank) -> Result<Length, Error>
{
    let mut turns = Turns::<L>::new(blank);
    reader.scan_indefinite(&mut turns)
}

// The next contents have this number of octets: a scan that peeks leaves the reader unchanged, and
// one that consumes them leaves it after the end-of-contents octets.
fn scans<R: Reader>(rt: &impl Abort, mut reader: R, count: u32)
{
    let start = u32::from(reader.position());
    let end = u32::from(reader.input_len());
    let length = Length::new_indefinite(count);
    same_at(rt, count, next_body(&reader), Ok(length));
    same_at(rt, count, place_of(&reader), (start, end, false));
    same_at(rt, count, pass_body(&mut reader), Ok(length));
    let passed = u32::from(reader.position().saturating_sub(Length::new(start)));
    same_at(rt, count, passed, count);
    same_at(rt, count, reader.is_failed(), false);
}

fn scans_on_both(rt: &impl Abort, octets: &[u8], count: u32) -> Result<(), Error> {
    scans(rt, ruled_reader(octets)?, count);
    scans(rt, ber_not_borrowed(octets)?, count);
    Ok(())
}

#[test]
fn bodies_at_the_front_are_counted_and_passed(rt: HostRuntime) -> Result<(), Fail> {
    scans_on_both(&rt, &[0x00, 0x00], 2)?;
    scans_on_both(&rt, &[0x00, 0x00, 0x00, 0x00], 2)?;
    scans_on_both(&rt, &[0x05, 0x00, 0x00, 0x00, 0x3F], 4)?;
    scans_on_both(&rt, &[0x05, 0x00, 0x05, 0x00, 0x05, 0x00, 0x00, 0x00], 8)?;
    scans_on_both(&rt, &[0x24, 0x01, 0x00, 0x00, 0x00], 5)?;
    scans_on_both(&rt, &SEGMENT_OF_ZEROS[2..], 10)?;
    Ok(())
}

#[test]
fn a_body_after_a_header_is_counted_and_consumed(rt: HostRuntime) -> Result<(), Fail> {
    for (start, count) in [(2, 10), (4, 6)] {
        scans(&rt, ruled_after(&SEGMENT_OF_ZEROS, start)?, count);
    }
    Ok(())
}

#[test]
fn a_scan_passes_64_open_bodies_and_refuses_65(rt: HostRuntime) -> Result<(), Fail> {
    let octets = around_null(rt.alloc(), 64)?;
    scans(&rt, ruled_after(octets.as_slice(), 2)?, 256);
    let mut whole = ruled_reader(octets.as_slice())?;
    same(&rt, pass_body(&mut whole), Err(too_deep(128)));
    same(&rt, whole.place(), (128, 258, true));
    Ok(())
}

#[test]
fn a_failed_reader_scans_nothing(rt: HostRuntime) -> Result<(), Fail> {
    let mut reader = ruled_after(&[0x05, 0x00, 0x00, 0x00], 2)?;
    let _ = reader.error(ErrorKind::DateTime);
    let failed = ErrorKind::Failed.at(Length::new(2));
    same(&rt, next_body(&reader), Err(failed));
    same(&rt, pass_body(&mut reader), Err(failed));
    same(&rt, next_header(&mut reader), Err(failed));
    same(&rt, reader.place(), (2, 4, true));
    Ok(())
}

// A scan goes up to the end of a part, and stays inside it.
#[test]
fn a_scan_stays_inside_its_part(rt: HostRuntime) -> Result<(), Fail> {
    let octets = [0x04, 0x01, 0x2A, 0x00, 0x00];
    let mut reader = ruled_reader(&octets)?;
    let outer = reader.enter_nested(Length::new(4))?;
    same(&rt, next_body(&reader), Err(incomplete(5, 4, 4)));
    same(&rt, pass_body(&mut reader), Err(incomplete(5, 4, 4)));
    same(&rt, reader.place(), (4, 4, true));
    reader.leave_nested(outer);
    same(&rt, reader.place(), (4, 5, true));
    Ok(())
}
