//! Fields with a default: BOOLEAN DEFAULT FALSE.
use crate::checks::same_at;
use der::{Decode, Encode, Error, ErrorKind, Length, Reader, SliceReader, Tag};
use der_asn1::{BooleanRef, Defaulted};
use crate::fixtures::readers::{ber_reader, der_reader};
use std::alloc::Global;

// The value of the field at the front, and the position after it.
fn field<'a>(
    alloc: Global,
    reader: Result<SliceReader<'a>, Error>,
) -> Result<(bool, Length), Error> {
    let mut reader = reader?;
    let field: Defaulted<BooleanRef<'a>> = Defaulted::decode(alloc, &mut reader)?;
    Ok((field.0.is_true(), reader.position()))
}

#[test]
fn a_default_is_absent(rt: HostRuntime) {
    let boolean = Tag::Boolean;
    let written = ErrorKind::Noncanonical { tag: boolean };
    let wrong = ErrorKind::Value { tag: boolean };
    let rows: [(&[u8], Result<(bool, Length), Error>); 6] = [
        (&[], Ok((false, Length::ZERO))),
        (&[5, 0], Ok((false, Length::ZERO))),
        (&[1, 1, 0xFF, 5, 0], Ok((true, Length::new(3)))),
        (&[1, 1, 0, 5, 0], Err(written.at(Length::new(3)))),
        (&[1, 1, 5], Err(wrong.at(Length::new(3)))),
        (&[0x1F], Err(ErrorKind::TagNumberInvalid.at(Length::new(1)))),
    ];
    for (row, (octets, expected)) in rows.into_iter().enumerate() {
        same_at(&rt, row, field(rt.alloc(), der_reader(octets)), expected);
    }
}

#[test]
fn a_default_may_be_written_under_ber(rt: HostRuntime) {
    let octets = [1, 1, 0, 5, 0];
    let answer = field(rt.alloc(), ber_reader(&octets));
    same_at(&rt, 0, answer, Ok((false, Length::new(3))));
}

// The encoding of a field with this value.
fn written(alloc: Global, contents: &[u8]) -> Result<Option<Vec<u8>>, Error> {
    match BooleanRef::new(contents) {
        Some(value) => Ok(Some(Defaulted(value).to_der(alloc)?)),
        None => Ok(None),
    }
}

#[test]
fn a_default_is_not_written(rt: HostRuntime) {
    let rows: [(&[u8], Option<&[u8]>); 3] = [
        (&[0], Some(&[])),
        (&[0xFF], Some(&[1, 1, 0xFF])),
        (&[1], None),
    ];
    for (row, (contents, expected)) in rows.into_iter().enumerate() {
        match written(rt.alloc(), contents) {
            Ok(Some(octets)) => same_at(&rt, row, Some(octets.as_slice()), expected),
            Ok(None) => same_at(&rt, row, None, expected),
            Err(error) => same_at(&rt, row, Some(error), None),
        }
    }
}
