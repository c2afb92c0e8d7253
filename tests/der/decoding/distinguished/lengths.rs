//! Lengths that are the whole input.
use super::*;
use crate::checks::{same, same_at};
use crate::fixtures::encodings::LENGTHS;
use crate::fixtures::errors::indefinite;

// Reads the octets as exactly one length.
fn length_of(alloc: Global, bytes: &[u8]) -> Result<Length, Error> {
    value_of(alloc, bytes)
}

#[test]
fn lengths_are_read_and_written(rt: HostRuntime) -> Result<(), Fail> {
    for (number, octets) in LENGTHS {
        let length = length_of(rt.alloc(), octets)?;
        same_at(&rt, number, length, Length::new(number));
        let der = der_of(rt.alloc(), &length)?;
        same_at(&rt, number, der.as_slice(), octets);
    }
    Ok(())
}

#[test]
fn octets_that_are_not_wholly_a_length_are_refused(rt: HostRuntime) {
    let rows: [(&[u8], Error); 5] = [
        (&[0x81, 0x7F], ErrorKind::Overlength.at(Length::new(2))),
        (&[0x80, 0x00, 0x00], indefinite(1)),
        (&[], incomplete(1, 0, 0)),
        (&[0x81], incomplete(2, 1, 1)),
        (&[0x81, 0x80, 0x05], trailing(2, 1)),
    ];
    for (octets, error) in rows {
        same_at(&rt, error, length_of(rt.alloc(), octets), Err(error));
    }
}
