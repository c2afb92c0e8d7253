//! A scan that peeks, and a scan of a fork that consumes.

use super::*;
use crate::checks::same_at;
use crate::der::scans::readers::ruled_after;
use der::decode_indefinite_length;
use std::marker::Brand;
use std::process::Abort;
use std::sync::ledger::{Blank, Ledger};

/// How many octets the contents have, or the error.
pub(super) type Answer = Result<Length, Error>;

// The result of a scan that peeks, and that of a fork that consumes.
pub(super) fn scans<R: Reader>(reader: &R) -> (Answer, Answer)
{
    scans_counted::<R, Brand>(reader, Blank::new(1))
}

fn scans_counted<R: Reader, L: Ledger>(reader: &R, blank: Blank) -> (Answer, Answer)
{
    let mut turns = Turns::<L>::new(blank);
    let peeks = reader.scan_indefinite(&mut turns);
    let mut fork = reader.fork();
    (peeks, decode_indefinite_length(&mut fork, &mut turns))
}

// The results of both scans inside a part, whose octets are consumed.
fn scans_of_part<R: Reader>(reader: &mut R) -> Result<(Answer, Answer), Error>
{
    let answers = scans(reader);
    let left = reader.input_len().saturating_sub(reader.position());
    reader.drain(left)?;
    Ok(answers)
}

// The results of both scans from a position to an end, for a reader with no octets after it and for
// a part that ends there.
pub(super) fn answer_between(
    rt: &impl Abort,
    octets: &[u8],
    position: u32,
    end: u32,
) -> Result<Answer, Error> {
    let plain = ruled_after(first_octets(octets, end as usize), position)?;
    let (peeks, passed) = scans(&plain);
    same_at(rt, end, peeks, passed);
    let mut around = ruled_after(octets, position)?;
    let part = Length::new(end.saturating_sub(position));
    let (next_in_part, passed_in_part) = around.read_nested(part, scans_of_part)?;
    same_at(rt, end, next_in_part, passed_in_part);
    same_at(rt, end, next_in_part, peeks);
    Ok(peeks)
}
