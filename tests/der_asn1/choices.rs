//! A CHOICE of two types.
use crate::checks::{holds, same_at};
use der::{Decode, DecodeBytes, Encode, Error, ErrorKind, Length, Reader, SliceReader, Tag};
use der_asn1::{BooleanRef, Either, IntRef};
use std::alloc::Global;

// Which type the front of the octets has, with its contents, and the position after it.
fn next_choice<'a>(alloc: Global, octets: &'a [u8]) -> Result<(bool, &'a [u8], Length), Error> {
    let mut reader = SliceReader::new(octets)?;
    let choice: Either<IntRef<'a>, BooleanRef<'a>> = Either::decode(alloc, &mut reader)?;
    let (is_first, contents) = match &choice {
        Either::First(value) => (true, value.octets()),
        Either::Second(value) => (false, value.octets()),
    };
    Ok((is_first, contents, reader.position()))
}

#[test]
fn the_next_tag_determines_which_type_is_read(rt: HostRuntime) {
    let unexpected = ErrorKind::TagUnexpected {
        expected: None,
        actual: Tag::Null,
    };
    let wrong = ErrorKind::Value { tag: Tag::Boolean };
    let rows: [(&[u8], Result<(bool, &[u8], Length), Error>); 5] = [
        (&[2, 1, 7, 5, 0], Ok((true, &[7], Length::new(3)))),
        (&[1, 1, 0xFF], Ok((false, &[0xFF], Length::new(3)))),
        (&[1, 1, 5], Err(wrong.at(Length::new(3)))),
        (&[5, 0], Err(unexpected.at(Length::ZERO))),
        (&[0x1F], Err(ErrorKind::TagNumberInvalid.at(Length::new(1)))),
    ];
    for (row, (octets, expected)) in rows.into_iter().enumerate() {
        same_at(&rt, row, next_choice(rt.alloc(), octets), expected);
    }
}

// Whether the octets are a value of one of the types, and are written exactly as they were.
fn is_read_and_written<'a>(alloc: Global, octets: &'a [u8]) -> bool {
    let Ok(choice) = <Either<IntRef<'a>, BooleanRef<'a>>>::from_der(alloc, octets) else {
        return false;
    };
    choice
        .to_der(alloc)
        .is_ok_and(|written| written.as_slice() == octets)
}

#[test]
fn a_choice_is_written_as_its_value(rt: HostRuntime) {
    holds(&rt, is_read_and_written(rt.alloc(), &[2, 2, 0, 0x80]));
    holds(&rt, is_read_and_written(rt.alloc(), &[1, 1, 0]));
    holds(&rt, !is_read_and_written(rt.alloc(), &[1, 1, 0, 0]));
}
