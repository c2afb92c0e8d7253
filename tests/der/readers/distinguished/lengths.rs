//! Lengths that are read.
use super::*;
use crate::checks::{same, same_at};
use crate::fixtures::encodings::{LENGTHS, OVERLONG_LENGTHS};
use crate::fixtures::errors::indefinite;

fn length(alloc: Global, bytes: &[u8]) -> Result<(Length, usize), Error> {
    front::<Length>(alloc, bytes)
}

#[test]
fn lengths_of_each_form_are_read(rt: HostRuntime) {
    for (number, octets) in LENGTHS {
        let read = Ok((Length::new(number), 0));
        same_at(&rt, number, length(rt.alloc(), octets), read);
    }
}

#[test]
fn octets_after_a_length_are_left(rt: HostRuntime) {
    same(
        &rt,
        length(rt.alloc(), &[0x81, 0x80, 0x05, 0x00]),
        Ok((Length::new(128), 2)),
    );
}

#[test]
fn lengths_that_are_not_the_shortest_are_refused(rt: HostRuntime) {
    for (octets, position) in OVERLONG_LENGTHS {
        let too_long = ErrorKind::Overlength.at(Length::new(position));
        same_at(&rt, position, length(rt.alloc(), octets), Err(too_long));
    }
}

#[test]
fn the_indefinite_form_is_refused(rt: HostRuntime) {
    let refused = Err(indefinite(1));
    same(&rt, length(rt.alloc(), &[0x80, 0x00, 0x00]), refused);
}

#[test]
fn a_cut_length_wants_the_octet_that_is_missing(rt: HostRuntime) {
    let alloc = rt.alloc();
    same(&rt, length(alloc, &[]), Err(incomplete(1, 0, 0)));
    same(&rt, length(alloc, &[0x81]), Err(incomplete(2, 1, 1)));
    same(
        &rt,
        length(alloc, &[0x84, 0x01, 0x02]),
        Err(incomplete(4, 3, 3)),
    );
}

#[test]
fn a_length_is_read_without_an_allocator(rt: HostRuntime) -> Result<(), Fail> {
    let octets = [0x82, 0xAA, 0xBB, 0x01];
    let mut reader = der_reader(&octets)?;
    same(&rt, decode_length(&mut reader), Ok(Length::new(43707)));
    same(&rt, reader.place(), (3, 4, false));
    Ok(())
}
